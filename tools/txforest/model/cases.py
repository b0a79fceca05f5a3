"""The cases that `gen` and `large` make of a number."""

from __future__ import annotations

from .spelling import Path
from .store import Dir, File, Filestore, Link

DESCRIPTION = (
    '<c : ("config" :: file), <t : {(p :: <n : ("count" :: file), <l : ("log" :: dir),'
    ' ("notes" :: dir)>>) | p in lines(c)}, ("current" :: link)>>\n'
)
COUNTS = (
    'txn { into next into to("p%02d") down into down fetch n : str store(text((int(n) + 1))) }\n'
)
LOGS = (
    'txn { into next into to("p%02d") down into next into down fetch l : names'
    ' store((l union one("s%dt%d"))) }\n'
)
PROJECTS = [b"p%02d" % i for i in range(16)]
NOTES = [b"n%d" % i for i in range(8)]


class Draws:
    """The draws that go by a number."""

    def __init__(self, number: int) -> None:
        self.state = number

    def draw(self, most: int) -> int:
        """The next draw, below `most`."""
        self.state = (self.state * 1_664_525 + 1_013_904_223) % 2**32
        return self.state // 65_536 % most


def generated(number: int) -> tuple[str, list[str], Filestore]:
    """The case of a number: its description, its eight scripts and its filestore."""
    draws = Draws(number)
    store: Filestore = {
        (): Dir("dir", frozenset([b"config", b"current", *PROJECTS])),
        (b"config",): File("file", b"".join(p + b"\n" for p in PROJECTS), False),
        (b"current",): Link("link", PROJECTS[draws.draw(16)]),
    }
    for p in PROJECTS:
        store[(p,)] = Dir("dir", frozenset([b"count", b"log", b"notes"]))
        store[(p, b"count")] = File("file", b"0", False)
        store[(p, b"log")] = Dir("dir", frozenset())
        store[(p, b"notes")] = Dir("dir", frozenset(NOTES))
        for n in NOTES:
            length = 1 + draws.draw(64)
            letter = bytes([ord("a") + draws.draw(26)])
            store[(p, b"notes", n)] = File("file", letter * length, False)
    scripts = []
    for k in range(8):
        lines = []
        for j in range(200):
            project, kind = draws.draw(16), draws.draw(4)
            lines.append(LOGS % (project, k, j) if kind == 3 else COUNTS % project)
        scripts.append("".join(lines))
    return DESCRIPTION, scripts, store


def counted(store: Filestore, path: Path) -> int:
    """The integer that a file holds."""
    node = store[path]
    assert isinstance(node, File)
    return int(node.content)


def logged(store: Filestore, path: Path) -> int:
    """How many names a directory has."""
    node = store[path]
    assert isinstance(node, Dir)
    return len(node.names)


def summed(store: Filestore, transactions: int) -> str:
    """What `large` prints of a last filestore, if all transactions are done."""
    counts = sum(counted(store, (p, b"count")) for p in PROJECTS)
    logs = sum(logged(store, (p, b"log")) for p in PROJECTS)
    return (
        f"transactions {transactions}\ndone {transactions}\ncounted {counts}\nlogged {logs}\n"
        f"nodes {len(store)}\n"
    )
