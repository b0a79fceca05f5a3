"""A stage on which the built program is run, for checks of what its surroundings may give it.

Each stage is a fresh folder with the texts, FOLDER and what else a try needs. After a try

- the status is one that the try allows;
- standard error holds one line of the program exactly where the status is not 0;
- everything on the stage but what the try writes is as before;
- the program has ended in time: by itself, or by a signal that the try allows.
"""

import contextlib
import hashlib
import os
import signal
import stat
import subprocess
import tempfile
import time
from collections.abc import Callable, Collection, Mapping, Sequence
from typing import Any

from waiting import finished

SECONDS = 120

# What each status may be called for: everything that reads, everything that may be done.
DONE, USAGE, TEXT, FOLDER, READ, TAKEN, WRITE, MEMORY, JOURNAL = 0, 2, 3, 4, 5, 6, 7, 8, 9
TEXT_LIMIT = 65_536
FILE_LIMIT = 1_048_576

FILES = {"a": b"hi", "n": b"7\n", "list": b"a\nn\n", "d/x": b"1", "d/e/y": b"2"}
LINKS = b"/cur -> d\n"

DESCRIPTIONS = [
    "file",
    '("a" :: file)',
    '<x : ("list" :: file), {(y :: opt(file)) | y in lines(x)}>',
    '<d : dir, {(n :: file) | n in (d only "*.txt")}>',
    '(("cur" ++ "/x") :: opt(<s : file, pred((size(s) < 10))>))',
    "def t(n : int, s : str) = <d : dir, {(k :: t((n + 1), k)) | k in (d only s)}> "
    't(0, "d")',
    'def f(n : int) = g((n + 1), "a") '
    "def g(n : int, s : str) = <x : (s :: file), {f(n) | k in if((n < 9), one(x), empty)}> f(0)",
]
SCRIPTS = [
    "txn { down fetch x : str print(x) }",
    'txn { down store("ho") up }\ntxn { down fetch x : str store(x) print("a\\x41") }',
    "txn { into next try e down print(e) "
    'each n in ((one("a") union one("b"))) { if ((n == "a")) { print(n) } else { abort } } }',
    'txn { validate v let t = if(v, "y", "n") set t = (t ++ "!") print(t) }',
    "# comment\ntxn{}txn { value v : pair(str, table(opt(str))) print(second(v)) }",
]
RUN = ("run", "spec", "in", "out", "script")


class Wrong(Exception):
    """A try that did not go as it should."""


def tree_sum(folder: str, without: Collection[str]) -> str:
    """A sum over everything below a folder but some paths: names, kinds, modes and bytes."""
    found = hashlib.sha256()
    for at, folders, files in os.walk(folder):
        folders[:] = sorted(f for f in folders if os.path.join(at, f) not in without)
        for name in sorted(folders + files):
            path = os.path.join(at, name)
            if path in without:
                continue
            mode = os.lstat(path).st_mode
            line = repr((os.path.relpath(path, folder), stat.S_IFMT(mode)))
            found.update(line.encode("utf-8", "surrogateescape"))
            if stat.S_ISREG(mode):
                with contextlib.suppress(PermissionError), open(path, "rb") as it:
                    found.update(it.read())
    return found.hexdigest()


class Stage:
    """A fresh folder with a description, a script and FOLDER, in which the program is run."""

    program = ""
    tries = 0
    longest = 0.0

    def __init__(
        self,
        files: Mapping[str, bytes] = FILES,
        description: str = DESCRIPTIONS[1],
        script: str = SCRIPTS[0],
        table: bytes | None = None,
    ) -> None:
        self.room = tempfile.TemporaryDirectory(prefix="hostile-")
        self.top = self.room.name
        os.chmod(self.top, 0o755)
        self.out = self.path("out")
        self.put("spec", description)
        self.put("script", script)
        self.put("views", SCRIPTS[0])
        os.mkdir(self.path("in"))
        for name, content in files.items():
            self.put(f"in/{name}", content)
        if table is not None:
            self.put("in/.forest-links", table)

    def __enter__(self) -> "Stage":
        return self

    def __exit__(self, *_: object) -> None:
        self.room.cleanup()

    def path(self, name: str) -> str:
        """The path of a file on the stage."""
        return os.path.join(self.top, name)

    def put(self, name: str, content: str | bytes) -> None:
        """Writes a file, with the folders that it stands in."""
        path = self.path(name)
        os.makedirs(os.path.dirname(path), exist_ok=True)
        with open(path, "wb") as it:
            it.write(content.encode() if isinstance(content, str) else content)

    def clear(self) -> None:
        """Removes OUT."""
        subprocess.run(["rm", "-rf", self.out], check=True)

    def run(
        self,
        allowed: Collection[int],
        words: Sequence[str] | None = None,
        *,
        keeps: bool = True,
        writes: Collection[str] = (),
        silent: bool = False,
        seconds: int = SECONDS,
        meanwhile: Callable[[subprocess.Popen[bytes]], object] | None = None,
        **given: Any,
    ) -> tuple[int, bytes]:
        """Runs the program, and gives the status with what it printed.

        It may change OUT, the paths that it `writes`, and anything where it `keeps` nothing. It
        is `silent` where standard error is closed. A signal number, negated, is a status.
        """
        Stage.tries += 1
        words = list(RUN if words is None else words)
        given.setdefault("stdout", subprocess.PIPE)
        given.setdefault("stdin", subprocess.DEVNULL)
        but = {self.out, *map(self.path, writes)}
        before = tree_sum(self.top, but)
        begin = time.monotonic()
        command = [Stage.program, *words]
        with subprocess.Popen(command, cwd=self.top, stderr=subprocess.PIPE, **given) as child:
            if meanwhile:
                meanwhile(child)
            try:
                printed, line = finished(child, seconds)
            except TimeoutError as late:
                raise Wrong(f"{words}: {late}") from None
        status = child.returncode
        Stage.longest = max(Stage.longest, time.monotonic() - begin)
        if status not in allowed:
            ended = f"ended by {signal.Signals(-status).name}" if status < 0 else f"status {status}"
            raise Wrong(f"{words}: {ended}, {line!r}, where {sorted(allowed)} may come")
        told = status > 0 and not silent
        if told == (line == b"") or line.count(b"\n") > 1:
            raise Wrong(f"{words}: status {status} with {line!r} on standard error")
        if line and not line.startswith(b"txforest: "):
            raise Wrong(f"{words}: {line!r} on standard error is not the program's")
        if keeps and tree_sum(self.top, but) != before:
            raise Wrong(f"{words}: status {status}, and something that it does not write changed")
        if status in (USAGE, TEXT, FOLDER, READ, TAKEN, JOURNAL):
            if printed or os.path.lexists(self.out) and status != TAKEN:
                raise Wrong(f"{words}: status {status}, and something was printed or written")
        return status, printed
