"""Jobs that wait in a queue, and kills of whoever does them.

The unit tests take small numbers, checks/live_queue.py large ones.
"""

from __future__ import annotations

import os
import random
import shutil
from collections.abc import Callable
from contextlib import AbstractContextManager
from typing import NamedTuple

from txforest import calls
from txforest.batch import Batch, Member, terms_of, text_of
from txforest.lock import lock
from txforest.place import Tree
from txforest.queue import (
    Answer,
    Queue,
    Request,
    Taken,
    Waiting,
    enqueue,
    new_ident,
    queue_of,
    take,
)
from txforest.settle import settle
from txforest.sources import Source
from txforest.statuses import Failed

from . import pretended
from .breaking import Killed, child
from .trees import read, strays, work_folder, write

SPEC = b'{(k :: file) | k in (one("log") union one("n"))}'
JOB = (
    'txn { to("log") down fetch l : str store((l ++ "%s\\n"))'
    ' top to("n") down fetch n : str store(text((int(n) + 1))) print(int(n)) }'
)


def new_tree(top: str) -> str:
    """A tree with a log of jobs and their count."""
    os.mkdir(f"{top}/f")
    write(f"{top}/f/log", "")
    write(f"{top}/f/n", "0")
    return f"{top}/f"


def request(*bodies: str, spec: bytes = SPEC, allow_stopped: bool = False) -> Request:
    """What a job asks for whose scripts have these texts."""
    scripts = [text_of(Source(f"s{i}", body.encode())) for i, body in enumerate(bodies)]
    return Request(terms_of([]), allow_stopped, text_of(Source("spec", spec)), scripts)


def left(tree: Tree, asked: Request) -> Waiting:
    """A job that waits in the queue; its caller is this process."""
    waiting = enqueue(tree, asked, new_ident())
    assert waiting is not None
    return waiting


def lead(
    tree: Tree,
    asked: Request,
    ident: str | None = None,
    program: Callable[[], AbstractContextManager[None]] = pretended.program,
) -> Answer:
    """Does a job, with those that wait: what txforest-apply does with the lock."""
    own = ident or new_ident()

    def put(attempt, changes, answers, looks):  # type: ignore[no-untyped-def]
        return attempt.commit(changes, answers, looks=looks)

    taken: list[Taken] = []
    queues: list[Queue] = []

    def come(shells: int, transactions: int) -> list[Taken]:
        queue = queue_of(tree)
        if queue is not None:
            queues.append(queue)
            taken.extend(take(queue, asked, own, shells, transactions))
        return taken

    batch = Batch(tree, lock(tree.path), None, put, come)
    try:
        with program():
            return batch.do(Member(own, asked))
    finally:
        batch.close()
        for it in taken:
            it.close()
        for queue in queues:
            queue.close()


def finish(path: str, waiting: Waiting, asked: Request) -> Answer:
    """What the caller of a waiting job does once it has the lock."""
    with Tree(path) as tree:
        answer = waiting.answer()
        if answer is None:
            settle(tree)
            answer = waiting.answer()
        return answer or lead(tree, asked, waiting.ident)


class Count(NamedTuple):
    """What kills came to."""

    stops: int
    answered: int
    again: int


def kills(number: int, seed: int = 1) -> Count:
    """Who leads is killed at its calls, before and behind each, with two jobs that wait; who
    settles behind it is killed too, none to two times. Each job that waits is done once in the end,
    and told so; the killed one's own is done at most once, and by no other."""
    random.seed(seed)
    answered = again = 0
    with work_folder() as top:
        counting = Killed()
        with Case(f"{top}/count") as case:
            case.leading(counting)
        turns = [(at, behind) for at in range(1, counting.count + 1) for behind in (False, True)]
        if number < len(turns):
            turns = random.sample(turns, number)
        for at, behind in turns:
            with Case(f"{top}/case") as case:
                assert child(lambda: case.leading(Killed(at, behind))) == 77, (at, behind)
                was = case.check(random.choice([0, 0, 1, 2]))
                answered += was
                again += not was
    return Count(len(turns), answered, again)


class Case:
    """A tree, two jobs that wait for it, and a third one that leads."""

    def __init__(self, top: str) -> None:
        self.top = top
        os.mkdir(top)
        self.path = new_tree(top)
        self.tree = Tree(self.path)
        self.asked = [request(JOB % name) for name in ("one", "two")]
        self.waiting = [left(self.tree, asked) for asked in self.asked]

    def __enter__(self) -> Case:
        return self

    def __exit__(self, *_: object) -> None:
        self.tree.close()
        shutil.rmtree(self.top)

    def leading(self, made: Killed) -> None:
        """The third job, with these calls in use."""
        calls.S = made
        try:
            with Tree(self.path) as tree:
                settle(tree)
                answer = lead(tree, request(JOB % "own"))
                assert answer.status == 0, answer.lines
        finally:
            calls.S = calls.PLAIN

    def mopping(self, made: Killed) -> None:
        """Somebody with the lock settles and goes, with these calls in use."""
        calls.S = made
        try:
            with Tree(self.path) as tree:
                settle(tree)
        finally:
            calls.S = calls.PLAIN

    def check(self, more: int) -> bool:
        """Further kills, of those who settle; then each caller has its answer. Answers whether the
        first leader's commit stood."""
        for _ in range(more):
            end, behind = random.randint(1, 60), random.random() < 0.5
            assert child(lambda: self.mopping(Killed(end, behind))) in (0, 77)
        # The next to have the lock may be the caller of either job.
        order = [0, 1]
        random.shuffle(order)
        answers = {n: finish(self.path, self.waiting[n], self.asked[n]) for n in order}
        with Tree(self.path) as tree:
            settle(tree)
        lines = read(f"{self.path}/log").split()
        assert sorted(lines) in (["one", "two"], ["one", "own", "two"]), lines
        assert int(read(f"{self.path}/n")) == len(lines)
        for n, answer in answers.items():
            name = ("one", "two")[n]
            assert answer.status == 0, answer.lines
            at = int(answer.report.split(b"print ")[1].split(b"\n")[0])
            assert lines[at] == name, (name, at, lines)
        for it in self.waiting:
            it.remove()
        assert not strays(self.path), strays(self.path)
        assert sorted(os.listdir(self.top)) == ["f", "f.lock"], os.listdir(self.top)
        return "own" in lines


__all__ = ["Callable", "Failed", "JOB", "SPEC", "kills", "left", "new_tree", "request"]
