"""Which operations of a commit touch which of its answers.

Jobs that are committed together have one intent. If an operation meets a conflict, it is told to
the jobs that looked at its path or change it. What the others make is in place. Whoever settles
hands out the answers, so a place with answers of several jobs has a file `touched`:

    txforest touched 1
    job-ID 0 3
    log-ID 0 3
    end 2

A line has the name of an answer and the numbers of operations. An answer that has no line is
touched by all, and so is each answer if the file is missing or another.
"""

from __future__ import annotations

from . import calls
from .calls import NEW

TYPE_CHECKING = False
if TYPE_CHECKING:
    from collections.abc import Iterator, Mapping, Sequence
    from collections.abc import Set as AbstractSet

    from .intent import Operation
    from .operations import Conflict

FILE = b"touched"
MAGIC = b"txforest touched 1"
LIMIT = 64 << 20  # bytes of the file
DIGITS = 9  # of the number of an operation, at most


class Looks:
    """What a job looked at, and what it changes.

    paths  the paths, as in an intent
    names  the directories at whose names it looked; nothing if they are among the paths
    all    it looked at the whole tree
    """

    __slots__ = ("paths", "names", "all")

    def __init__(
        self,
        paths: AbstractSet[bytes] = frozenset(),
        names: AbstractSet[bytes] | None = None,
        all: bool = False,
    ) -> None:
        self.paths = paths
        self.names = paths if names is None else names
        self.all = all

    def touches(self, path: bytes, above: bytes | None) -> bool:
        """Whether a change at a path touches it; `above` is the directory whose names change."""
        return self.all or path in self.paths or above is not None and above in self.names


class Touched:
    """The numbers of the operations that touch an answer, by its name."""

    def __init__(self, numbers: Mapping[str, AbstractSet[int]]) -> None:
        self.numbers = numbers

    def told_to(self, name: str, conflicts: Sequence[Conflict]) -> list[str]:
        """The conflicts that are told to the job of an answer."""
        own = self.numbers.get(name)
        return [str(it) for it in conflicts if own is None or it.number in own]

    def parted(
        self, names: Sequence[str], conflicts: Sequence[Conflict]
    ) -> Iterator[tuple[list[str], list[str]]]:
        """The names of answers in their order, those together that stand side by side and are told
        the same conflicts; and these."""
        last: list[str] = []
        group: list[str] = []
        for name in names:
            told = self.told_to(name, conflicts)
            if group and told != last:
                yield group, last
                group = []
            last = told
            group.append(name)
        if group:
            yield group, last


def touched_by(operations: Sequence[Operation], looks: Mapping[str, Looks]) -> Touched:
    """Which operations touch which answers, whose jobs looked so. An operation that touches none
    of them touches all."""
    found: dict[str, set[int]] = {name: set() for name in looks}
    for it in operations:
        path, above = b"/".join(it.path), b"/".join(it.path[:-1])
        folder = above if changes_names(it) else None
        names = [name for name, own in looks.items() if own.touches(path, folder)]
        for name in names or looks:
            found[name].add(it.number)
    return Touched(found)


def changes_names(it: Operation) -> bool:
    """Whether a name comes or goes by an operation."""
    if it.kind == "rmdir":
        return it.more != b"room"
    return it.kind == "remove" or it.kind != "mode" and it.expect is None


def write_touched(place: int, touched: Touched) -> None:
    """Writes the file of a place, and waits until it is on the device."""
    lines = [MAGIC]
    for name, numbers in touched.numbers.items():
        lines.append(b" ".join([name.encode(), *(b"%d" % it for it in sorted(numbers))]))
    fd = calls.S.open(FILE, NEW, place)
    try:
        calls.S.write(fd, b"\n".join([*lines, b"end %d\n" % len(touched.numbers)]))
        calls.S.fsync(fd)
    finally:
        calls.S.close(fd)


def read_touched(place: int) -> Touched:
    """What the file of a place says."""
    from .queue import read_at

    text = read_at(place, FILE, LIMIT) or b""
    lines = text.split(b"\n")
    if lines[0] != MAGIC or lines[-1] or lines[-2:-1] != [b"end %d" % (len(lines) - 3)]:
        return Touched({})
    numbers: dict[str, set[int]] = {}
    for line in lines[1:-2]:
        name, *words = line.split(b" ")
        if not all(it.isdigit() and len(it) <= DIGITS for it in words):
            return Touched({})
        numbers[name.decode(errors="replace")] = set(map(int, words))
    return Touched(numbers)
