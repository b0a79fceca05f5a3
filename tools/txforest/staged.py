"""The proved program decides which prepared jobs can be committed, and in which order.

A job is what it has seen and what it makes. The program is given a folder with

    the touched part of the tree, each file and link as one file that holds its token (states.py)
    =/sum/K                 of job K: one text that stands for all that it has seen beside the rest
    =/job/K/at/NNNNNNx      of job K's entry NNNNNN: its path; the letter x says what is meant
    =/job/K/as/NNNNNNx      what was seen there, or is to stand there

The letters, reads before writes since names sort so: `f` a file or link just so, `e` a file
whatever it holds, `d` a directory, `n` a directory with just these names, `t` the same of the root,
`a` nothing; `r` remove, `m` make a directory, `s` store a file, `l` store a link. One description
and one script serve every job: paths and contents are data. A job is done if all that it has seen
is still so; else its answer is the first path that is not.
"""

from __future__ import annotations

import os

from .folders import Folder
from .links import TABLE
from .states import LINK, Kind, kind_of, new_digest
from .statuses import Failed, Status
from .terminal import below, many

TYPE_CHECKING = False
if TYPE_CHECKING:
    from collections.abc import Callable, Iterable, Mapping, Sequence
    from typing import Protocol

    from .states import Made, Path, Seen

    class Tree(Protocol):
        """What stands in the tree, as `states.Reader` tells it."""

        def state(self, path: Path) -> Made:
            """What stands at a path."""

        def names(self, path: Path) -> list[bytes]:
            """The names in a directory."""


NODES = 90_000  # of the program's 100,000, for what a group of jobs has seen and makes
DEPTH = 62  # of the program's 64 names, since an entry stands two names below its stage
JOBS = 64  # at most in a group
KINDS = ("file", "dir", "names", "root", "opt")
DIGITS = 6


# ---- the description and the script


def description(stage: str, count: int) -> str:
    """The description of so many jobs' reads and writes, below the name `stage`."""
    own = f'(("{stage}/job/" ++ k) ++ "%s")'
    seen = f"({own % '/as/'} ++ m)"
    parts = [
        only(f"<s : ({seen} :: file), (p :: file)>", "file"),
        only("(p :: dir)", "dir"),
        only(f"<s : ({seen} :: dir), (p :: dir)>", "names"),
        only(f"<s : ({seen} :: dir), dir>", "root"),
        only("(p :: opt(file))", "opt"),
    ]
    nested = parts[-1]
    for number, part in reversed(list(enumerate(parts[:-1]))):
        nested = f"<x{number} : {part},\n      {nested}>"
    return f"""# What {count} jobs have seen and make: of each a path and what goes with it.
{{ <es : ({own % "/at"} :: dir),
   {{ <p : (({own % "/at/"} ++ m) :: file),
      {{ {nested}
      | q in {balanced([f'one("{kind}")' for kind in KINDS])} }}>
   | m in es }}>
| k in {balanced([f'one("{number}")' for number in range(count)])} }}
"""


def only(part: str, kind: str) -> str:
    """A part of the description that is there for one kind of entry, and else an empty table."""
    return f'{{ {part} | u in (one(q) only "{kind}") }}'


def balanced(words: Sequence[str]) -> str:
    """The union of so many sets, of a depth that grows with the logarithm of their number."""
    if len(words) == 1:
        return words[0]
    half = len(words) // 2
    return f"({balanced(words[:half])} union {balanced(words[half:])})"


def moves(kind: str) -> tuple[str, str]:
    """The moves from the comprehension over the kinds to the one of this kind, and back."""
    number = KINDS.index(kind)
    is_last = number == len(KINDS) - 1
    there = f'to("{kind}")' + " into next" * number + ("" if is_last else " into") + " into"
    return there, " out" * (number + (2 if is_last else 3))


def step(letter: str, kind: str, inside: str) -> str:
    """What a script does with the entries of one letter."""
    there, back = moves(kind)
    return (
        f'if ((size((one(m) only "*{letter}")) == 1)) {{ {there} {inside}{back} }} else {{ }}'
    )


GONE = "{ print(p) abort }"
SAME = f"if ((now == old)) {{ }} else {GONE}"
STEPS = (
    (
        "f",
        "file",
        "into down fetch old : str up next down validate is "
        f"if (is) {{ fetch now : str {SAME} }} else {GONE} up out",
    ),
    (
        "e",
        "file",
        "into next down validate is if (is) "
        f"{{ fetch linked : bool if (linked) {GONE} else {{ }} }} else {GONE} up out",
    ),
    ("d", "dir", f"down validate is up if (is) {{ }} else {GONE}"),
    (
        "n",
        "names",
        "into down fetch old : names up next down validate is "
        f"if (is) {{ fetch now : names {SAME} }} else {GONE} up out",
    ),
    ("t", "root", f"into down fetch old : names up next fetch now : names out {SAME}"),
    ("a", "opt", f"down fetch there : bool up if (there) {GONE} else {{ }}"),
    ("r", "opt", "down remove up"),
    ("m", "dir", "down create up"),
    ("s", "file", "into down fetch new : str up next down store(new) up out"),
    ("l", "file", "into down fetch new : str up next down store(new) store(true) up out"),
)


def script(number: int) -> str:
    """The transaction of one job: if what it has seen is as it was, what it makes is stored."""
    body = "\n        ".join(step(*one) for one in STEPS)
    return f"""txn {{
    to("{number}") into down fetch es : names up next
    if ((size(es) == 0)) {{ }} else {{
    into
    each m in (es) {{
        into down fetch p : str up next
        {body}
        out try end next
    }} }}
}}
"""


# ---- jobs


class Sum:
    """Many reads as one: of what was seen one digest, and which jobs make changes of it.

    `seen` is the digest that the job has found, `now` computes it anew from the tree as it stands.
    """

    def __init__(
        self, seen: bytes, now: Callable[[], bytes], touches: Callable[[Job], bool]
    ) -> None:
        self.seen = seen
        self.now = now
        self.touches = touches


class Job:
    """A prepared job: what it has seen, what it makes, and which of these paths are cleared first.

    `before` says what stood at each path that it makes; without it the reads do. The directories
    above what it makes are read too.
    """

    def __init__(
        self,
        name: str,
        reads: Mapping[Path, Seen],
        writes: Mapping[Path, Made],
        before: Mapping[Path, Seen] | None = None,
        total: Sum | None = None,
    ) -> None:
        self.name = name
        self.reads = dict(reads)
        self.writes = dict(writes)
        self.total = total
        were = self.reads if before is None else before
        self.removes = {
            path
            for path, new in self.writes.items()
            if new is None or kind_of(were.get(path)) not in (None, kind_of(new))
        }
        for path in self.writes:
            for length in range(1, len(path)):
                if path[:length] not in self.writes:
                    self.reads.setdefault(path[:length], Kind.DIRECTORY)

    def weight(self) -> int:
        """About how many nodes it takes in the program's folder."""
        weight = sum(3 + len(path) for path in self.writes)
        for path, seen in self.reads.items():
            names = 2 * len(seen) if isinstance(seen, frozenset) else 0
            weight += 3 + len(path) + names
        return weight


class Decision:
    """What the program has decided.

    `done` are the numbers of the jobs that are committed, in their order. `refused` has for each
    other job the path that was not as it had seen it, or nothing if its sum was another. `after`
    is what then stands at each path that the done ones make.
    """

    def __init__(
        self, done: list[int], refused: dict[int, Path | None], after: dict[Path, Made]
    ) -> None:
        self.done = done
        self.refused = refused
        self.after = after


# ---- the folder of a run


def spelled(path: Path) -> Path:
    """A path with names that the program takes; two paths stay two paths."""
    if any(len(name) > 200 or not is_plain(name) for name in path):
        return tuple(name if is_plain(name) else hidden(name) for name in path)
    return path


def is_plain(name: bytes) -> bool:
    """Whether a name stands for itself: it is UTF-8, not the table's, and begins with no `~`."""
    if name.isascii() and name[:1] not in b"~.":
        return True
    if name[:1] == b"~" or name == TABLE:
        return False
    try:
        name.decode()
    except UnicodeDecodeError:
        return False
    return True


def hidden(name: bytes) -> bytes:
    """A name that stands for one which the program does not take."""
    made = new_digest()
    made.update(name)
    return b"~" + made.hexdigest().encode()


class Staged:
    """The folder that the program is given for some jobs."""

    def __init__(self, place: bytes, stage: bytes, tree: Tree) -> None:
        """`place` is where it is made; nothing stands there. `stage` is no name of the root."""
        self.folder = Folder(place)
        self.stage = stage
        self.tree = tree
        self.made: dict[Path, Made] = {(): Kind.DIRECTORY}
        self.listed: set[Path] = set()
        for inside in ((stage,), (stage, b"sum"), (stage, b"job")):
            self.folder.mkdir(inside)

    def touch(self, path: Path) -> Made:
        """Brings what stands at a path of the tree, and the directories above it."""
        if path in self.made:
            return self.made[path]
        above = self.touch(path[:-1])
        found = self.tree.state(path) if above is Kind.DIRECTORY else None
        self.made[path] = found
        if found is Kind.DIRECTORY:
            self.folder.mkdir(spelled(path))
        elif isinstance(found, bytes):
            self.folder.put(spelled(path), found, found.startswith(LINK))
        return found

    def list(self, path: Path) -> None:
        """Brings the names of a directory; those that nobody touches stand there bare."""
        if path in self.listed or self.touch(path) is not Kind.DIRECTORY:
            return
        self.listed.add(path)
        for name in self.tree.names(path):
            inside = (*path, name)
            if self.made.get(inside) is None:
                self.folder.put(spelled(inside), b"")

    def tell(self, jobs: Sequence[Job]) -> None:
        """Brings all that the jobs touch, and what each of them has seen and makes."""
        for job in jobs:
            for path in (*job.reads, *job.writes):
                self.touch(path)
        for job in jobs:
            for path, seen in job.reads.items():
                if isinstance(seen, frozenset):
                    self.list(path)
        sums = [number for number, job in enumerate(jobs) if job.total]
        for number, job in enumerate(jobs):
            self.job(number, job, [k for k in sums if touched(jobs[k].total, job)])
        self.folder.finish()

    def job(self, number: int, job: Job, sums: Iterable[int]) -> None:
        """Brings one job; `sums` are the numbers of those whose sum its changes are a change of."""
        own = (self.stage, b"job", b"%d" % number)
        for inside in (own, (*own, b"at"), (*own, b"as")):
            self.folder.mkdir(inside)
        entries = Entries(self.folder, own)
        for path, seen in job.reads.items():
            self.read(entries, path, seen)
        if job.total:
            self.folder.put(self.sum(number), job.total.now())
            entries.add("f", self.sum(number), job.total.seen)
        for path in sorted(job.removes, reverse=True):
            entries.add("r", spelled(path))
        stored = sorted(job.writes.items())
        for path, new in stored:
            if new is Kind.DIRECTORY:
                entries.add("m", spelled(path))
        for path, new in stored:
            if isinstance(new, bytes):
                entries.add("l" if new.startswith(LINK) else "s", spelled(path), new)
        for other in sums:
            entries.add("s", self.sum(other), job.name.encode())

    def sum(self, number: int) -> Path:
        """Where the sum of a job stands."""
        return self.stage, b"sum", b"%d" % number

    def read(self, entries: Entries, path: Path, seen: Seen) -> None:
        """The entry of one thing seen."""
        if seen is None:
            entries.add("a", spelled(path))
        elif isinstance(seen, Kind):
            if seen is Kind.SOME_FILE:
                entries.add("e", spelled(path), b"")
            elif path:
                entries.add("d", spelled(path))
        elif isinstance(seen, bytes):
            entries.add("f", spelled(path), seen)
        elif path:
            entries.add("n", spelled(path), seen)
        else:
            entries.add("t", (b"-",), seen | {self.stage})


class Entries:
    """The entries of one job, which are numbered as they come."""

    def __init__(self, folder: Folder, own: Path) -> None:
        self.folder = folder
        self.own = own
        self.count = 0

    def add(self, letter: str, path: Path, what: Seen = None) -> None:
        """One entry: its path, and a text or names that go with it."""
        name = f"{self.count:0{DIGITS}}{letter}".encode()
        self.count += 1
        self.folder.put((*self.own, b"at", name), b"/".join(path))
        there = (*self.own, b"as", name)
        if isinstance(what, bytes):
            self.folder.put(there, what)
        elif isinstance(what, frozenset):
            self.folder.mkdir(there)
            for inside in what:
                self.folder.put((*there, *spelled((inside,))), b"")


def touched(total: Sum | None, job: Job) -> bool:
    """Whether a job makes a change that is one of what a sum stands for."""
    return total is not None and bool(job.writes) and total.touches(job)


# ---- the decision


def decide(
    run: Callable[[list[str | bytes]], bytes], place: str, jobs: Sequence[Job], tree: Tree
) -> Decision:
    """Lets the program decide on prepared jobs, 64 at most.

    `run` calls the program with some words and gives what it prints. `place` is a folder's path
    where nothing stands; what is made there stays.
    """
    for job in jobs:
        refuse_deep(job)
    os.mkdir(place, 0o700)
    stage = free_name(tree.names(()))
    staged = Staged(os.fsencode(place) + b"/in", stage.encode(), tree)
    staged.tell(jobs)
    words = written(place, {"description": description(stage, len(jobs))})
    scripts = written(place, {f"job{number}": script(number) for number in range(len(jobs))})
    out = os.path.join(place, "out")
    report = run(["run", words[0], staged.folder.place, out, *scripts])
    done, refused = parted(report)
    makes = {path for number in done for path in jobs[number].writes}
    after = {path: made_at(os.fsencode(out), spelled(path)) for path in makes}
    known = {b"/".join(spelled(path)): path for job in jobs for path in (*job.reads, *job.writes)}
    known[b"-"] = ()
    return Decision(done, {number: known.get(at) for number, at in refused.items()}, after)


def refuse_deep(job: Job) -> None:
    """Refuses a job with a path that is too long for the program's folder."""
    for path in (*job.reads, *job.writes):
        if len(path) > DEPTH:
            raise Failed(
                Status.SYSTEM, f"{below(path)}: has more than {many(DEPTH, 'name')}; not taken"
            )


def free_name(names: Iterable[bytes]) -> str:
    """A name of the program's own that the tree's root does not have."""
    taken, stage = set(names), "="
    while stage.encode() in taken:
        stage += "="
    return stage


def written(place: str, texts: Mapping[str, str]) -> list[str | bytes]:
    """Writes texts into files of a folder; answers their paths."""
    paths: list[str | bytes] = []
    for name, text in texts.items():
        paths.append(os.path.join(place, name))
        with open(paths[-1], "w", encoding="ascii") as file:
            file.write(text)
    return paths


def parted(report: bytes) -> tuple[list[int], dict[int, bytes]]:
    """The numbers of the done jobs in their order, and of each other the path that it tells."""
    done: list[int] = []
    refused: dict[int, bytes] = {}
    last = -1
    for line in report.splitlines():
        if line.startswith(b"entry "):
            _, _, _, number, _, _, end = line.split(b" ", 6)
            last = int(number)
            if end == b"done":
                done.append(last)
                continue
            blocked = end.partition(b" Blocked ")[2]
            refused[last] = unquoted(blocked)[1:] if blocked else b""
        elif line.startswith(b"print ") and last in refused:
            refused[last] = unquoted(line[6:])
    return done, refused


def unquoted(text: bytes) -> bytes:
    """The bytes of a text as the report quotes it."""
    first, *rest = text[1:-1].split(b"\\")
    made, parts = [first], iter(rest)
    for part in parts:
        if part[:1] == b"x":
            made += [bytes([int(part[1:3], 16)]), part[3:]]
        elif part[:1] == b"n":
            made += [b"\n", part[1:]]
        elif part:  # a quote
            made.append(part)
        else:  # a backslash; what comes behind it is plain
            made += [b"\\", next(parts, b"")]
    return b"".join(made)


def made_at(out: bytes, path: Path) -> Made:
    """What the program has left at a path of its output, as a token."""
    try:
        with open(b"/".join((out, *path)), "rb") as file:
            return file.read()
    except IsADirectoryError:
        return Kind.DIRECTORY
    except (FileNotFoundError, NotADirectoryError):
        return None
