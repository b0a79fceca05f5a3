"""Runs scripts on a real tree and puts what comes out in place: the whole job of a cron line.

It takes the lock TREE.lock, so that jobs come one after another; works beside the tree; changes
nothing if a transaction stopped or was aborted, or if the result has no value by the description.
Only what the scripts change is touched. The report is printed.
"""

from __future__ import annotations

import gc
import os
import sys

from .attempt import Attempt
from .batch import Batch, Member, terms_of, text_of
from .commit import Committed, hold_signals, let_signals
from .lock import lock
from .place import Tree
from .queue import (
    Answer, Request, Waiting, enqueue, new_ident, queue_of, stands_in_place, take,
)  # fmt: skip
from .settle import Settled, settle
from .sources import Source, read_source
from .statuses import Failed, Status
from .survey import NOT_ASKED, Survey, survey
from .terminal import Given, Words, many, no_output, shown, tell

TYPE_CHECKING = False
if TYPE_CHECKING:
    from collections.abc import Mapping, Sequence

    from .data import Datum
    from .differences import Change
    from .only import Only
    from .queue import Queue, Taken
    from .touched import Looks

USAGE = """txforest-apply [OPTION..] TREE SPEC SCRIPT..
       txforest-apply --settle TREE
       txforest-apply --list-left-out [--only PATTERN].. TREE"""
STATUSES = (
    ("1", "a transaction stopped or was aborted; nothing was changed"),
    ("10", "the result has no value by the description; nothing was changed"),
    ("11", "another job held the lock for longer than --wait; nothing was changed"),
    ("12", "somebody who takes no lock keeps changing the tree; nothing was changed"),
    ("13", "in place, but a path that somebody else changed was not written over"),
    ("14", "committed, and the next job, or --settle, puts the rest of it in place"),
)
MORE = """
Beside TREE stand its lock, TREE.lock, and while a job works its place, .TREE.txforest-ID. A path
that somebody else changed has the new content beside it, at NAME.txforest-new.
"""


def words() -> Words:
    """The words of the tool."""
    it = Words(__doc__ or "", USAGE, STATUSES, MORE)
    it.operand("TREE", "the tree; not given with --in-place and --link")
    it.operand("SPEC", "the description", least=0)
    it.operand("SCRIPT", "the scripts, each a shell of one run", least=0, several=True)
    it.option("in-place", "TREE", "the same as TREE alone")
    it.option("exchange", None, "exchange the whole tree in one step")
    it.option("link", "NAME", "turn a symbolic link to a new tree, NAME.TIME, in one step")
    it.option("before", "N", "how many trees of before --exchange and --link keep (1)")
    it.option("only", "PATTERN", "take only what a pattern matches; it may come again", True)
    it.option("allow-stopped", None, "go on if transactions stopped or were aborted")
    it.option("wait", "SECONDS", "how long to wait for the lock (for ever)")
    it.option("set", "NAME=TEXT", "bind a name in each transaction; NAME:int=N to a number", True)
    it.option("set-file", "NAME=FILE", "bind a name to the bytes of a file", True)
    it.option("json", None, "print the report as one object of JSON")
    it.option("log", "FILE", "append a line of the job to a log")
    it.option("keep", "DIR", "keep the inputs and the report, for txforest audit")
    it.option("settle", None, "only end what a killed job left")
    it.option("list-left-out", None, "name what can't be taken, with the reasons")
    return it


class Job:
    """What is to be done: the tree, the texts, and how."""

    def __init__(self, given: Given) -> None:
        operands = list(given.operands)
        named = given.text("in-place") or given.text("link")
        self.target = operands.pop(0) if named is None else named
        self.link = given.text("link") is not None
        self.exchange = given.flag("exchange")
        self.before = given.count("before", 1)
        self.patterns = given.several("only")
        self.only = only_of(self.patterns)
        self.data = data_of(given)
        self.json = given.flag("json")
        self.log, self.keep = (absolute(given.text(name)) for name in ("log", "keep"))
        self.allow_stopped = given.flag("allow-stopped")
        self.wait = given.number("wait")
        self.settle = given.flag("settle")
        self.list = given.flag("list-left-out")
        self.operands = operands
        self.held: int | None = None  # the lock
        self.batch: Batch | None = None  # what is to be closed behind the answer
        self.check(given)

    def check(self, given: Given) -> None:
        """Refuses words that don't go together."""
        several = [name for name in ("in-place", "link") if given.flag(name)]
        if len(several) > 1 or self.link and self.exchange:
            raise Failed(Status.USAGE, "--in-place, --link and --exchange: one of them at most")
        if given.flag("before") and not (self.link or self.exchange):
            raise Failed(Status.USAGE, "--before is of --exchange and --link alone")
        if self.settle and self.operands:
            raise Failed(Status.USAGE, "--settle takes TREE alone")
        if len(self.operands) < 2 and not self.settle and (self.operands or not self.list):
            line = "SPEC and a SCRIPT are needed behind the tree"
            raise Failed(Status.USAGE, line, f"usage: {USAGE}", "--help tells more")


def only_of(patterns: list[str]) -> Only | None:
    """The patterns that narrow what is taken."""
    if not patterns:
        return None
    from .only import Only

    return Only(patterns)


def data_of(given: Given) -> list[Datum]:
    """The data that `--set` and `--set-file` give."""
    if not given.flag("set") and not given.flag("set-file"):
        return []
    from . import data

    return data.data_of(given)


def absolute(path: str | None) -> str:
    """A path that whoever does the job can use; empty if none was given."""
    return os.path.abspath(path) if path else ""


def tool() -> int:
    """The tool."""
    gc.disable()  # nothing here makes cycles
    job = Job(words().read(sys.argv[1:]))
    if job.list and not job.operands and not job.settle:
        return list_left_out(job)
    if job.settle:
        return settle_alone(job)
    try:
        return do(job)
    finally:
        if job.batch is not None:
            job.batch.close()


def do(job: Job) -> int:
    """Does a job, and tells what it came to; the lock is let go before."""
    request = request_of(job)
    ident = new_ident()
    with tree_of(job) as tree:
        status = int(Status.SYSTEM)
        try:
            answer = answer_of(job, tree, request, ident)
            status = answer.status
        except Failed as failed:
            status = int(failed.status)
            raise
        except SystemExit as ended:
            status = int(ended.code or 0)
            raise
        finally:
            if status != Status.UNFINISHED:  # else whoever settles does it
                leave(tree, request, ident, status)
            if job.held is not None:
                os.close(job.held)
    return told(job, answer)


def settle_alone(job: Job) -> int:
    """Ends what a killed job left."""
    with tree_of(job) as tree:
        lock(lock_of(job, tree), job.wait)
    with tree_of(job) as tree:
        return Status.CONFLICT if settle_first(tree).conflicts else Status.DONE


def settle_first(tree: Tree) -> Settled:
    """Ends what killed jobs left, and tells it."""
    ended = settle(tree)
    for line in (*ended.told, *ended.conflicts):
        tell(line)
    if ended.count:
        tell(f"{many(ended.count, 'job')} before this one had been broken off; it is settled")
    return ended


def lock_of(job: Job, tree: Tree) -> str:
    """The path whose lock a job takes."""
    return os.path.abspath(job.target) if job.link else tree.path


def request_of(job: Job) -> Request:
    """What a job asks for: its texts, as they are now."""
    spec, *scripts = [read_source(word) for word in job.operands]
    if job.data:
        from .data import bind

        scripts = [Source(it.word, bind(it.word, it.text, job.data)) for it in scripts]
    terms = terms_of(job.patterns)
    texts = [text_of(it) for it in scripts]
    return Request(terms, job.allow_stopped, text_of(spec), texts, job.log, job.keep)


def answer_of(job: Job, tree: Tree, request: Request, ident: str) -> Answer:
    """Does the job, or has it done: if somebody has the lock it waits in the queue, and whoever has
    the lock next does it with its own."""
    held, waiting = had(job, tree, request, ident)
    job.held = held
    try:
        with tree_of(job) as now:
            answer = waiting.answer() if waiting is not None else None
            if answer is None:
                try:
                    settle_first(now)
                except OSError as error:
                    if waiting is None or not stands_in_place(now, ident):
                        raise
                    line = "the change is committed, and the next job puts the rest of it in place"
                    raise Failed(Status.UNFINISHED, f"{error.strerror}; {line}") from None
                answer = waiting.answer() if waiting is not None else None
            if answer is None:
                answer = lead(job, now, held, request, ident)
            return answer
    except ValueError as error:
        raise Failed(Status.SYSTEM, f"{shown(tree.beside('.queue'))}: {error}") from None
    finally:
        if waiting is not None:
            waiting.remove()


def had(job: Job, tree: Tree, request: Request, ident: str) -> tuple[int, Waiting | None]:
    """The lock, and the job as it waited in the queue, if it had to. Raises Failed with LOCKED if
    the lock is not had in time, and nobody has taken the job."""
    path = lock_of(job, tree)
    try:
        return lock(path, 0), None
    except Failed as failed:
        if failed.status != Status.LOCKED or job.wait == 0:
            raise
    waiting = None if job.exchange or job.link else enqueue(tree, request, ident)
    try:
        try:
            return lock(path, job.wait), waiting
        except Failed as failed:
            if failed.status != Status.LOCKED or waiting is None or waiting.withdraw():
                raise
            return lock(path), waiting  # somebody has taken it: an answer comes
    except BaseException:
        if waiting is not None:
            waiting.withdraw()
            waiting.remove()
        raise


def lead(job: Job, tree: Tree, held: int, request: Request, ident: str) -> Answer:
    """Does the job on a tree whose lock is held, with those that wait for the same."""
    seen: list[Survey] = []
    taken: list[Taken] = []
    queues: list[Queue] = []

    def surveyed(found: Survey) -> None:
        if not seen:
            tell_left_out(job, found)
        seen.append(found)

    def come(shells: int, transactions: int) -> list[Taken]:
        queue = None if job.exchange or job.link else queue_of(tree)
        if queue is not None:
            queues.append(queue)
            taken.extend(take(queue, request, ident, shells, transactions))
        return taken

    batch = job.batch = Batch(tree, held, job.only, lambda *given: put(job, *given), come)
    batch.surveyed = surveyed
    try:
        return batch.do(Member(ident, request))
    finally:
        for it in taken:
            it.close()
        for queue in queues:
            queue.close()


def leave(tree: Tree, request: Request, ident: str, status: int) -> None:
    """Leaves a line of a job in its log, and nothing half kept."""
    if request.log or request.keep:
        from . import log

        if request.log:
            log.append(tree, ident, request, status)
        if request.keep:
            log.drop(request.keep, ident)


def told(job: Job, answer: Answer) -> int:
    """Prints what a job came to. If the change is in place, an output that fails is told, and does
    not turn the status."""
    report = answer.report
    if report and job.json:
        from .report import read_printed
        from .summary import json_line

        report = json_line(read_printed(report))
    try:
        print_report(report)
    except OSError as error:
        if answer.status not in (Status.DONE, Status.CONFLICT, Status.UNFINISHED):
            raise
        no_output()
        tell(f"the report could not be printed: {error.strerror}; the change is in place")
    for line in answer.lines:
        tell(line)
    return answer.status


def tree_of(job: Job) -> Tree:
    """The tree of a job; it is opened anew once the lock is held."""
    if job.link:
        from .exchange import linked_tree

        return linked_tree(job.target)
    return Tree(job.target)


def list_left_out(job: Job) -> int:
    """Prints what is left out of the tree."""
    with Tree(job.target) as tree:
        found = survey(tree.root, tree.skip(), job.only)
    for it in sorted(found.left, key=lambda it: it.path):
        size = "" if it.size is None else f" ({many(it.size, 'byte')})"
        print(f"{shown('/' + it.path)}{size}: {it.why}")
    for note in found.notes:
        print(note)
    return Status.DONE


def put(
    job: Job,
    attempt: Attempt,
    changes: Sequence[Change],
    answers: dict[str, bytes],
    looks: Mapping[str, Looks] | None,
) -> Committed:
    """Puts changes in place. Behind that no signal turns the status any more."""
    before = hold_signals()
    try:
        if not (job.exchange or job.link):
            return attempt.commit(changes, answers, looks=looks)
        from .exchange import put_whole

        how = b"link" if job.link else b"exchange"
        return put_whole(attempt, changes, job.before, how, answers)
    except BaseException:
        let_signals(before)
        raise


def print_report(report: bytes) -> None:
    """Prints a report."""
    sys.stdout.buffer.write(report)
    sys.stdout.flush()


def tell_left_out(job: Job, found: Survey) -> None:
    """Tells how many entries are left out, or which."""
    left = [it for it in found.left if it.why != NOT_ASKED]
    if job.list:
        for it in sorted(left, key=lambda it: it.path):
            tell(f"{shown('/' + it.path)}: {it.why}")
    elif left:
        line = f"{many(len(left), 'entry', 'entries')} left out, which no script sees or touches"
        tell(f"{line}; --list-left-out names them")
