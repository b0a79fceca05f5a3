"""What scripts may do before they go live, and how a run came to its report: txforest-schedules.

What comes out depends on the order of the transactions alone, so that all orders show all outcomes.
Every outcome that is shown was run by the program too.
"""

from __future__ import annotations

import math
import os
import random
import sys
import tempfile
from collections import Counter
from collections.abc import Iterator
from typing import Any

from . import model
from .program import call
from .reasons import Path
from .replay import find_schedule
from .report import BadLine, read_report
from .sources import Handed, check_folder
from .statuses import Failed, Status
from .summary import read_input
from .terminal import Given, Words, below, many, shown
from .texts import Texts, short

ABOUT = """Shows what scripts may do before they go live: each outcome that some order of their
transactions leads to, once, with a schedule for `txforest trace` that leads there. All orders are
tried if they are few, else so many at random. With --of it finds a schedule by which the report of
a run comes again byte for byte, and prints the trace of it. FOLDER is only read."""
USAGE = "txforest-schedules [--limit N] [--seed N] [--of REPORT] SPEC FOLDER SCRIPT..."
NOT_DONE = "some outcome has a transaction that is not done, or no value; no schedule was found"
LONGEST = 130_000  # bytes of a word on a command line

Turn = tuple[int, int]  # a shell and one of its transactions
Node = Any
Filestore = dict[Path, Node]
Outcome = tuple[frozenset[tuple[Turn, Any]], frozenset[tuple[Path, Node]]]


class Job:
    """The texts, which have no mistakes, and the folder, by the model and for the program."""

    def __init__(self, texts: Texts, folder: str, handed: Handed) -> None:
        """Fails as the program does if it refuses the texts or the folder."""
        self.texts, self.folder, self.handed = texts, folder, handed
        self.called("show", [folder])
        with tempfile.TemporaryDirectory(prefix="txforest-") as room:
            self.called("run", [folder, os.path.join(room, "out")], scripts=True)
        self.spec = texts.spec.tree
        self.plan: list[list[Any]] = [text.tree for text in texts.scripts]
        self.store: Filestore = model.load(folder)

    def called(self, command: str, words: list[str], scripts: bool = False) -> bytes:
        """What a command of the program prints. If it ends with another status so does the tool."""
        spec, *files = self.handed.words
        answer = call([command, spec, *words, *(files if scripts else [])], self.handed.fds)
        if answer.status:
            raise Failed(answer.status, self.handed.told(answer.told()))
        return answer.printed

    def traced(self, schedule: str, out: str) -> bytes:
        """The trace of a schedule, and its result at `out`."""
        return self.called("trace", [self.folder, out, schedule], scripts=True)

    def name(self, shell: int) -> str:
        """The script of a shell, as it is told."""
        return shown(self.texts.scripts[shell].file)


class Run:
    """Transactions run whole, one after another, over what a folder holds: their answers, and what
    they changed."""

    def __init__(self, job: Job) -> None:
        self.job = job
        self.changed: dict[Path, Node] = {}
        self.turns: list[Turn] = []
        self.answers: list[tuple[list[Any], str]] = []
        self.schedule: list[int] = []

    def known(self, path: Path) -> Node:
        return self.changed[path] if path in self.changed else self.job.store.get(path)

    def left(self) -> list[int]:
        """The shells that have transactions left, each as often as it has."""
        done = Counter(shell for shell, _ in self.turns)
        return [
            shell
            for shell, txns in enumerate(self.job.plan)
            for _ in range(len(txns) - done[shell])
        ]

    def then(self, shell: int) -> Run:
        """The run that goes on with the next transaction of a shell."""
        after = Run(self.job)
        txn = sum(k == shell for k, _ in self.turns)
        outputs, end, changes, way = model.run_txn(
            self.job.spec, self.job.plan[shell][txn], self.known
        )
        after.changed = {**self.changed, **changes}
        after.turns = [*self.turns, (shell, txn)]
        after.answers = [*self.answers, (outputs, end)]
        after.schedule = [*self.schedule, *[shell] * (len(way) + 1)]
        return after

    def outcome(self) -> Outcome:
        """Ends and answers by transaction, and what is changed in the end."""
        store = self.job.store
        net = frozenset((p, node) for p, node in self.changed.items() if store.get(p) != node)
        ends = [(end, tuple(map(model.printed, outputs))) for outputs, end in self.answers]
        return frozenset(zip(self.turns, ends)), net

    def report(self) -> str:
        """The report of the run."""
        order = [(*turn, *answer) for turn, answer in zip(self.turns, self.answers)]
        return str(model.report(order, []))

    def words(self) -> str:
        """The schedule as `trace` takes it."""
        return ",".join(map(str, self.schedule)) or "none"


def all_runs(run: Run) -> Iterator[Run]:
    """The runs of all orders of what is left."""
    shells = sorted(set(run.left()))
    if not shells:
        yield run
    for shell in shells:
        yield from all_runs(run.then(shell))


def random_runs(run: Run, number: int, seed: int) -> Iterator[Run]:
    """So many runs at random, each order with the same chance."""
    draw = random.Random(seed)
    for _ in range(number):
        it = run
        while it.left():
            it = it.then(draw.choice(it.left()))
        yield it


def confirmed(job: Job, run: Run) -> bool | None:
    """Whether the result of a run has a value, by the program, which has to print and write what
    the model says; None if the schedule is too long for a command line."""
    schedule = run.words()
    if len(schedule) > LONGEST:
        return None
    with tempfile.TemporaryDirectory(prefix="txforest-") as room:
        out = os.path.join(room, "out")
        printed = job.traced(schedule, out).decode(errors="replace")
        report = printed[printed.rfind("forest report 1") :]
        wanted = model.folder_of(model.over(job.store, run.changed))
        if report != run.report() or model.saved(out) != wanted:
            raise Failed(
                Status.SYSTEM,
                f"the program and the model differ by the schedule {schedule}:"
                " please report this, with the folder and the scripts",
            )
        return job.called("show", [out]).startswith(b"valid yes\n")


# ---- what is told


def node_words(node: Node) -> str:
    """What stands at a path, in words."""
    if node is None:
        return "nothing"
    if node[0] == "dir":
        return "a directory of " + many(len(node[1]), "name")
    if node[0] == "link":
        return f"a link to {shown(node[1])}"
    return short(model.quote(node[1]), 60) + (" executable" if node[2] else "")


class Outcomes:
    """The outcomes of runs, the most frequent first, and a first run for each."""

    def __init__(self, runs: Iterator[Run]) -> None:
        self.count: Counter[Outcome] = Counter()
        self.first: dict[Outcome, Run] = {}
        for run in runs:
            outcome = run.outcome()
            self.count[outcome] += 1
            self.first.setdefault(outcome, run)
        self.sorted = [outcome for outcome, _ in self.count.most_common()]

    def alike(self) -> set[Turn]:
        """The transactions that have the same answer in all of several outcomes."""
        every = [dict(ends) for ends, _ in self.sorted]
        if len(every) < 2:
            return set()
        return {turn for turn in every[0] if all(ends[turn] == every[0][turn] for ends in every)}

    def same(self) -> set[Path]:
        """The paths that have the same change in all of several outcomes."""
        nets = [dict(net) for _, net in self.sorted]
        if len(nets) < 2:
            return set()
        first = nets[0]
        return {path for path in first if all(path in n and n[path] == first[path] for n in nets)}


def tell_outcome(job: Job, run: Run, outcome: Outcome, but: tuple[set[Turn], set[Path]]) -> None:
    """Tells of an outcome what it has for itself."""
    ends, net = outcome
    for turn, (end, prints) in sorted(ends):
        if turn not in but[0]:
            answers = ": " + short(", ".join(prints), 100) if prints else ""
            print(f"  {job.name(turn[0])} txn {turn[1]} {end}{answers}")
    for path, node in sorted(net, key=lambda change: change[0]):
        if path not in but[1]:
            print(f"  {below(path)} is {node_words(node)}")
    print(f"  order {short(' '.join(f'{k}.{j}' for k, j in run.turns), 100)}")
    print(f"  schedule {run.words()}")


def tell_outcomes(job: Job, limit: int, seed: int) -> int:
    """Tells each outcome once, and answers the status."""
    lengths = [len(txns) for txns in job.plan]
    total = math.factorial(sum(lengths)) // math.prod(map(math.factorial, lengths))
    start = Run(job)
    found = Outcomes(all_runs(start) if total <= limit else random_runs(start, limit, seed))
    tried = f"all {many(total, 'order')} of {many(sum(lengths), 'transaction')}"
    if total > limit:
        of = total if total < 10**9 else f"10^{len(str(total)) - 1}"
        tried = f"{many(limit, 'order')} at random, of {of}"
    print(f"{tried}: {many(len(found.sorted), 'outcome')}")
    alike, same = found.alike(), found.same()
    status = Status.DONE
    for number, outcome in enumerate(found.sorted, 1):
        run = found.first[outcome]
        valid = confirmed(job, run)
        if valid is False or any(end != "done" for _, end in run.answers):
            status = Status.NOT_DONE
        told = {None: "not run, its schedule is too long", True: "valid yes", False: "valid no"}
        print(f"\noutcome {number}: {many(found.count[outcome], 'order')}, {told[valid]}")
        tell_outcome(job, run, outcome, (alike, same))
    if alike or same:
        answers = f"{many(len(alike), 'transaction')} with the same answers"
        changes = f"{many(len(same), 'path')} with the same change"
        print(f"\nin every outcome: {answers}, {changes}")
    return status


# ---- the schedule of a report


def tell_schedule(job: Job, file: str, limit: int) -> int:
    """Finds a schedule by which a report comes again, and prints its trace."""
    data = read_input(file)
    try:
        report = read_report(data)
    except BadLine as bad:
        raise Failed(
            Status.USAGE,
            f"{shown(file)}: line {bad.number}: {bad.why}; this is no report of txforest",
        ) from None
    schedule = find_schedule(job.spec, job.plan, job.store, report, limit)
    words = ",".join(map(str, schedule)) or "none"
    if len(words) > LONGEST:
        raise Failed(
            Status.NOT_DONE,
            f"the schedule has {many(len(schedule), 'step')}: too long for a command line",
        )
    with tempfile.TemporaryDirectory(prefix="txforest-") as room:
        trace = job.traced(words, os.path.join(room, "out"))
    if trace[trace.rfind(b"forest report 1\n") :] != data:
        raise Failed(Status.NOT_DONE, "the schedule that was found leads to another report")
    sys.stdout.buffer.write(trace)
    sys.stdout.buffer.flush()
    os.write(2, f"schedule {words}\n".encode())
    return Status.DONE


# ---- the command


def whole(texts: Texts) -> Texts:
    """Texts without mistakes. Fails with TEXT and the first mistake, as the program tells it."""
    for text in texts.mistakes():
        lines = text.told()
        raise Failed(Status.TEXT, f"txforest: {text.file}: {text.mistake}", *lines)
    return texts


def chosen(given: Given) -> tuple[int, int]:
    """--limit and --seed."""
    limit = given.count("limit", 2000)
    if limit < 1:
        raise Failed(Status.USAGE, "--limit takes a number from 1 on")
    return limit, given.count("seed", 0)


def tool() -> int:
    """The command txforest-schedules."""
    words = Words(ABOUT, USAGE, [("1", NOT_DONE)])
    words.operand("SPEC", "the description")
    words.operand("FOLDER", "the folder, which is only read")
    words.operand("SCRIPT", "the scripts, each a shell", several=True)
    words.option("limit", "N", "how many orders, or places of looks, are tried at most (2000)")
    words.option("seed", "N", "of the random orders (0)")
    words.option("of", "REPORT", "find the schedule of a report; - is standard input")
    given = words.read(sys.argv[1:])
    spec, folder, *scripts = given.operands
    limit, seed = chosen(given)
    texts = whole(Texts(spec, scripts))
    check_folder(folder)
    with Handed(texts.sources) as handed:
        job = Job(texts, folder, handed)
        of = given.text("of")
        return tell_outcomes(job, limit, seed) if of is None else tell_schedule(job, of, limit)
