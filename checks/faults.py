"""Runs the built program on small inputs again and again, each time with another call that fails.

usage: faults.py PROGRAM LIBRARY [INPUT...]

LIBRARY is faults.c, built. The call is one for memory, for a thread or to the system. An INPUT is
the front of a name of inputs; without one all are taken. Each run has to end by itself, with a
status that such a fault may give. Then it prints what the run without a fault prints and leaves the
same folder, or it prints a front of that and leaves a part of it, and FOLDER is as before. Prints
for each input and kind of fault how many calls were counted and how many of them were made to go
wrong, and ends with 1 at the first run that is not so.
"""

from __future__ import annotations

import itertools
import os
import signal
import subprocess
import sys
import tempfile
from typing import NamedTuple

from repository import model
from waiting import finished

SECONDS = 120
MOST = 1_000

DONE, READ, WRITE, MEMORY = 0, 5, 7, 8
LINES = {
    DONE: b"",
    READ: b"txforest: read fault\n",
    WRITE: b"txforest: write fault\n",
    MEMORY: b"txforest: out of memory\n",
}

# The statuses that may come if one call goes wrong, or of "reads" each one from there on. A small file
# that could not be read ahead is read again.
KINDS = {
    "memory": {DONE, MEMORY},
    "thread": {DONE},
    "read": {DONE, READ, WRITE},
    "reads": {READ, WRITE},
    "write": {WRITE},
    "interrupt": {DONE},
    "short": {DONE},
}

FILES = {
    "one": '("a" :: file)',
    "reader": "txn { down fetch x : str print(x) }",
    "two": '<x : ("x" :: file), ("y" :: file)>',
    "first": 'txn { into down fetch a : str up next down store((a ++ "0")) print(a) }',
    "second": 'txn { into next down fetch b : str up prev down store((b ++ "0")) print(b) }',
    "deep": '<d : dir, (("current" ++ "/n") :: file)>',
    "adds": "txn { into next down fetch n : str store(text((int(n) + 1)))"
    ' top into fetch d : names store((d union one("new"))) print(n) }',
    "looks": "txn { into down fetch a : str up next down fetch b : str"
    ' print((a ++ b)) store("seen") }'
    * 2,
    "tree": 'def tree(n : int) = <d : dir, <f : {(k :: file) | k in (d only "n")},'
    ' {(k :: part((n + 1), k)) | k in ((d only "r") union (d only "*o*"))}>> '
    "def part(n : int, k : str) = <x : pred(((n < 9) and (0 < size(k)))), tree(n)> tree(0)",
    "walks": "txn { into into next into next into down into into next into into next into next"
    " into down into into next into into next "
    'into to("n") down fetch n : str store((n ++ "0")) top into validate v print(v) print(n) }',
    "first-long": 'txn { into down fetch a : str up next down store((a ++ "0")) print(a) }'
    + " " * 4096,
    "second-long": 'txn { into next down fetch b : str up prev down store((b ++ "0")) print(b) }'
    + " " * 4096,
    "whole": "txn { into value v : pair(names, pair(table(str), table(bool))) print(v) }" * 2,
    "in1/a": "hi",
    "in2/x": "1",
    "in2/y": "1",
    "in3/r/one/n": "41",
    "in3/r/two/n": "7\n",
    "in3/empty": "",
    "in3/.forest-links": "/current -> r/one\n/r/last -> two\n",
}

INPUTS = {
    "run, one script": ["run", "one", "in1", "out", "reader"],
    "trace, two scripts": ["trace", "two", "in2", "out", "0,0,1,1,0,1", "first", "second"],
    "run, two scripts on threads": ["run", "two", "in2", "out", "first", "second"],
    "run, two scripts read on threads": ["run", "two", "in2", "out", "first-long", "second-long"],
    "run, folders and links": ["run", "deep", "in3", "out", "adds"],
    "show, folders and links": ["show", "deep", "in3"],
    "gen": ["gen", "7", "out"],
    "large": ["large", "7", "out"],
    "audit": ["audit", "two", "in2", "report", "first", "second"],
    "watch": ["watch", "two", "in2", "out", "0,0,1,1,0,1", "first", "second"],
    "journal": ["journal", "two", "in2", "out", "log", "0,0,1,1,0,1", "first", "second"],
    "recover": ["recover", "two", "in2", "kept", "out", "first", "second"],
    "views": ["views", "two", "in2", "out", "looks", "first", "second"],
    "show, definitions": ["show", "tree", "in3"],
    "trace, definitions": ["trace", "tree", "in3", "out", "none", "walks"],
    "watch, definitions": ["watch", "tree", "in3", "out", "none", "walks"],
    "views, definitions": ["views", "tree", "in3", "out", "whole", "walks"],
}
# What the program itself makes: the report that `audit` reads, the journal that `recover` reads.
MADE = {
    "report": ["run", "two", "in2", "out", "first", "second"],
    "kept": ["journal", "two", "in2", "out", "kept", "0,0,1,1,0,1", "first", "second"],
}
ORDERS = ["0,0,0,0", "1,1,1,1"]


class Wrong(Exception):
    """A run that did not go as it should."""


Tree = dict[str, "bytes | None"]
"""What stands below a folder: None for a folder, else the bytes of a file."""

Whole = tuple[bytes, "Tree | None"]
"""What a run without a fault prints, and leaves at OUT."""


class Ran(NamedTuple):
    """A run: its status, what it printed, its line on standard error, OUT, the calls counted."""

    status: int
    printed: bytes
    line: bytes
    out: Tree | None
    counted: int


def tree(folder: str) -> Tree:
    """Everything below a folder."""
    found: Tree = {}
    for at, folders, files in os.walk(folder):
        for name in folders:
            found[os.path.relpath(os.path.join(at, name), folder)] = None
        for name in files:
            with open(os.path.join(at, name), "rb") as it:
                found[os.path.relpath(os.path.join(at, name), folder)] = it.read()
    return found


def is_part(part: Tree, whole: Tree) -> bool:
    """Whether all that stands in a tree stands in the other, of its files maybe a front."""
    return all(path in whole and is_front(bytes_, whole[path]) for path, bytes_ in part.items())


def is_front(bytes_: bytes | None, whole: bytes | None) -> bool:
    """Whether a folder is one in the other tree too, or a file the front of one there."""
    if bytes_ is None or whole is None:
        return bytes_ is whole
    return whole.startswith(bytes_)


def answers(printed: bytes) -> bytes:
    """What is printed of entries: neither events nor retries, which differ by how threads meet."""
    lines = printed.splitlines(True)
    begin = next((i for i, line in enumerate(lines) if line.startswith(b"forest report")), 0)
    return b"".join(line for line in lines[begin:] if not line.startswith(b"retr"))


class Stage:
    """A folder with all inputs."""

    def __init__(self, program: str, library: str) -> None:
        self.program, self.library = program, library
        self.room = tempfile.TemporaryDirectory(prefix="faults-")
        self.top = self.room.name
        for name, text in FILES.items():
            path = os.path.join(self.top, name)
            os.makedirs(os.path.dirname(path), exist_ok=True)
            with open(path, "w") as it:
                it.write(text)
        for name, words in MADE.items():
            _, printed, _, _, _ = self.run(words, "", 0)
            if name not in words:
                with open(os.path.join(self.top, name), "wb") as it:
                    it.write(printed)

    def run(self, words: list[str], kind: str, at: int) -> Ran:
        """A run in which the call of this kind and number fails; none for 0."""
        subprocess.run(
            ["rm", "-rf", f"{self.top}/out", f"{self.top}/log", f"{self.top}/count"], check=True
        )
        given = {
            "LD_PRELOAD": self.library,
            "FAULT_KIND": kind,
            "FAULT_AT": f"{at}",
            "FAULT_COUNT": f"{self.top}/count",
        }
        child = subprocess.Popen(
            [self.program, *words],
            cwd=self.top,
            stdin=subprocess.DEVNULL,
            stdout=subprocess.PIPE,
            stderr=subprocess.PIPE,
            env=given,
        )
        try:
            printed, line = finished(child, SECONDS)
        except TimeoutError as late:
            raise Wrong(str(late)) from None
        if child.returncode < 0:
            raise Wrong(f"ended by {signal.Signals(-child.returncode).name}")
        try:
            with open(f"{self.top}/count") as it:
                counted = int(it.read())
        except OSError:
            raise Wrong("it does not tell how many calls it counted") from None
        out = tree(f"{self.top}/out") if os.path.isdir(f"{self.top}/out") else None
        return Ran(child.returncode, printed, line, out, counted)


def check(ran: Ran, allowed: set[int], wholes: list[Whole]) -> None:
    """Compares a run with those without a fault: one for each order of the scripts."""
    status, printed, line, out, _ = ran
    if status not in allowed or line != LINES[status]:
        raise Wrong(f"status {status} with {line!r}")
    if status == DONE:
        if all((answers(printed), out) != (answers(whole), tree_) for whole, tree_ in wholes):
            raise Wrong(f"status 0, and it prints {printed!r} and leaves {out}")
        return
    if out is not None and not any(is_part(out, tree_ or {}) for _, tree_ in wholes):
        raise Wrong(f"status {status}, and OUT is no part of the folder: {out}")
    if status == READ and out is not None or status in (READ, MEMORY) and printed:
        raise Wrong(f"status {status}, and something is printed or written")
    if printed and all(
        out != tree_ or not answers(whole).startswith(answers(printed)) for whole, tree_ in wholes
    ):
        raise Wrong(f"status {status}, printed is {printed!r}, and OUT {out}")


def check_journal(stage: Stage, ran: Ran, allowed: set[int], whole: Whole) -> None:
    """Compares a run of `journal` with the one without a fault: no commit that it told is lost."""
    status, printed, line, out, _ = ran
    if status not in allowed or line != LINES[status]:
        raise Wrong(f"status {status} with {line!r}")
    text, tree_ = whole
    events = text.index(b"forest report")
    fits = {
        DONE: (printed, out) == (text, tree_),
        READ: (printed, out) == (b"", None),
    }
    if len(printed) < events:
        begun = out is None
    else:
        begun = out is None or is_part(out, tree_ or {}) if len(printed) == events else out == tree_
    if not fits.get(status, text.startswith(printed) and begun):
        raise Wrong(f"status {status}, printed is {printed!r}, and OUT {out}")
    told = sum(
        1 for it in printed.splitlines(True) if it.startswith(b"settled") and it.endswith(b"\n")
    )
    status, printed, line, _, _ = stage.run(
        ["recover", "two", "in2", "log.kept", "out", "first", "second"], "", 0
    )
    if status != DONE or not told <= int(printed.split()[1]) <= told + 1:
        raise Wrong(
            f"{told} commits were told, and recover ends with {status}, {printed!r}, {line!r}"
        )


def wholes_of(stage: Stage, words: list[str]) -> list[Whole]:
    """The runs without a fault."""
    command, *inputs = words
    if command == "views":
        return viewed(stage, *inputs)
    lines = [words]
    if command == "run" and len(inputs) > 4:
        lines = [["trace", *inputs[:3], order, *inputs[3:]] for order in ORDERS]
    return [whole(stage, line) for line in lines]


def whole(stage: Stage, words: list[str]) -> Whole:
    """What a run without a fault prints, and leaves at OUT."""
    status, printed, line, out, _ = stage.run(words, "", 0)
    if status != DONE:
        raise Wrong(f"without a fault: status {status} with {line!r}")
    return printed, out


def viewed(
    stage: Stage, spec: str, folder: str, out: str, views: str, *scripts: str
) -> list[Whole]:
    """The runs with views, for each order of the scripts and each moment of each view."""
    root = model.read_description(FILES[spec].encode())
    plan = [model.read_script(FILES[name].encode()) for name in scripts]
    looks = model.read_script(FILES[views].encode())
    store = model.load(f"{stage.top}/{folder}")
    found: list[Whole] = []
    for order in ORDERS[: len(scripts)]:
        printed, left = whole(stage, ["trace", spec, folder, out, order, *scripts])
        _, _, _, states = model.steps(root, plan, store, [int(k) for k in order.split(",")])
        for positions in itertools.combinations_with_replacement(range(len(states)), len(looks)):
            found.append((printed + model.views(root, looks, states, positions).encode(), left))
    return found


def swept(
    stage: Stage, words: list[str], kind: str, wholes: list[Whole]
) -> tuple[int, int]:
    """Lets calls go wrong, each in a run of its own; how many were counted, and how many tried.

    All of them are tried, or MOST of them at even distances.
    """
    *_, counted = stage.run(words, kind, 0)
    tried = (
        range(1, counted + 1)
        if counted <= MOST
        else sorted({1 + i * (counted - 1) // (MOST - 1) for i in range(MOST)})
    )
    for at in tried:
        allowed = KINDS[kind]
        try:
            ran = stage.run(words, kind, at)
            if words[0] == "journal":
                keep = ["mv", f"{stage.top}/log", f"{stage.top}/log.kept"]
                if not os.path.exists(f"{stage.top}/log"):
                    keep = ["rm", "-f", f"{stage.top}/log.kept"]
                subprocess.run(keep, check=True)
                check_journal(stage, ran, allowed, wholes[0])
            else:
                check(ran, allowed | ({READ} if words[0] == "recover" else set()), wholes)
        except Wrong as wrong:
            raise Wrong(f"call {at} of {counted}: {wrong}") from None
    return counted, len(tried)


def main() -> None:
    """Sweeps each input by each kind of fault."""
    program, library = (os.path.abspath(word) for word in sys.argv[1:3])
    stage = Stage(program, library)
    given = {name: tree(f"{stage.top}/{name}") for name in ("in1", "in2", "in3")}
    runs = 0
    for name, words in INPUTS.items():
        if not name.startswith(tuple(sys.argv[3:] or [""])):
            continue
        if stage.run(words, "", 0)[0] == 2:
            print(f"{name}: the program has no such command")
            continue
        wholes = wholes_of(stage, words)
        for kind in KINDS:
            try:
                counted, tried = swept(stage, words, kind, wholes)
            except Wrong as wrong:
                sys.exit(f"{name}, {kind}: {wrong}")
            if given != {folder: tree(f"{stage.top}/{folder}") for folder in given}:
                sys.exit(f"{name}, {kind}: FOLDER changed")
            runs += tried
            print(f"{name}, {kind}: {tried} of {counted} calls", flush=True)
    print(
        f"{runs} runs, each with an allowed status, and what was printed and left as it should be"
    )


if __name__ == "__main__":
    main()
