"""Several shells on one thread, step by step; and what `trace` and `watch` print of them."""

from __future__ import annotations

from typing import NamedTuple

from .refusals import NoValue
from .reports import Entry, Retry
from .spelling import Path, path_text, quote
from .store import Filestore, Node, View, over
from .trees import Description, Txn
from .txn import Ran, run_txn
from .values import top_value

Plan = list[list[Txn]]
"""Of each shell its transactions."""


class Needs(Exception):
    """A path of which nothing is known yet."""

    def __init__(self, path: Path) -> None:
        super().__init__(path)
        self.path = path


class Seen(NamedTuple):
    """What a shell saw at a path, and how many entries the log had then."""

    node: Node | None
    position: int


class Looks:
    """What a shell has seen in its transaction."""

    def __init__(self) -> None:
        self.seen: dict[Path, Seen] = {}

    def known(self, path: Path) -> Node | None:
        """What it saw at a path; or raises Needs."""
        if path not in self.seen:
            raise Needs(path)
        return self.seen[path].node


class Run:
    """A run of shells: its event lines, its entries and its retries.

    `states` are the filestores before and after each entry.
    """

    def __init__(self, root: Description, plan: Plan, store: Filestore) -> None:
        self.root, self.plan = root, plan
        self.events: list[str] = []
        self.order: list[Entry] = []
        self.retries: list[Retry] = []
        self.states = [store]
        self.changed: list[set[Path]] = []
        self.looks = [Looks() for _ in plan]
        self.todo = [0 for _ in plan]

    def is_done(self) -> bool:
        """Whether no shell has a transaction left."""
        return all(done == len(txns) for done, txns in zip(self.todo, self.plan))

    def step(self, shell: int) -> None:
        """A step of a shell that has a transaction left: a look, a conflict, or an entry."""
        if self.todo[shell] == len(self.plan[shell]):
            return
        looks = self.looks[shell]
        try:
            ran = run_txn(self.root, self.plan[shell][self.todo[shell]], looks.known)
        except Needs as needs:
            position = len(self.order)
            looks.seen[needs.path] = Seen(self.states[-1].get(needs.path), position)
            self.events.append(f"look {shell} {quote(path_text(needs.path))} {position}")
            return
        if not self.conflict(shell):
            self.settle(shell, ran)

    def conflict(self, shell: int) -> bool:
        """Starts the transaction again if an entry changed what it saw; whether it did."""
        seen = self.looks[shell].seen
        for path in sorted(seen):
            later = range(seen[path].position, len(self.order))
            stale = [i for i in later if path in self.changed[i]]
            if stale:
                self.events.append(f"conflict {shell} {stale[-1]} {quote(path_text(path))}")
                self.retries.append(Retry(shell, self.todo[shell], stale[-1], path))
                self.looks[shell] = Looks()
                return True
        return False

    def settle(self, shell: int, ran: Ran) -> None:
        """Makes the transaction the next entry."""
        before = self.states[-1]
        after = over(before, ran.changes)
        self.changed.append({p for p in ran.changes if before.get(p) != after.get(p)})
        self.states.append(after)
        self.events.append(f"settled {shell} {len(self.order)}")
        self.order.append(Entry(shell, self.todo[shell], ran.outputs, ran.end))
        self.todo[shell] += 1
        self.looks[shell] = Looks()


Steps = tuple[list[str], list[Entry], list[Retry], list[Filestore]]
Traced = tuple[list[str], list[Entry], list[Retry], Filestore]


def steps(root: Description, plan: Plan, store: Filestore, schedule: list[int]) -> Steps:
    """Events, entries, retries by shell, and the filestores before and after each entry.

    The shells step by the schedule, and behind it in rounds until none has a transaction left.
    """
    run = Run(root, plan, store)
    for shell in schedule:
        run.step(shell)
    while not run.is_done():
        for shell in range(len(plan)):
            run.step(shell)
    return run.events, run.order, sorted(run.retries, key=lambda retry: retry.shell), run.states


def trace(root: Description, plan: Plan, store: Filestore, schedule: list[int]) -> Traced:
    """Events, entries, retries and last filestore of a run by a schedule."""
    events, order, retries, states = steps(root, plan, store, schedule)
    return events, order, retries, states[-1]


def valid_line(root: Description, store: Filestore) -> str:
    """Whether the description has a value at the root of a filestore."""
    try:
        top_value(View(store.get), root)
    except NoValue:
        return "valid no"
    return "valid yes"


def watch(root: Description, plan: Plan, store: Filestore, schedule: list[int]) -> Traced:
    """The lines of a watched run, then its entries, retries and last filestore.

    The lines are that of the loaded filestore, each event, and behind a settled one that of the
    filestore after its entry.
    """
    events, order, retries, states = steps(root, plan, store, schedule)
    lines = [valid_line(root, states[0])]
    for event in events:
        lines.append(event)
        word, _, number = event.split(" ")[:3]
        if word == "settled":
            lines.append(valid_line(root, states[int(number) + 1]))
    return lines, order, retries, states[-1]
