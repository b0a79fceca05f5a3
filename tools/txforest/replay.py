"""The schedule of a report: steps by which `trace` comes to the report that `run` printed.

The entries settle in the printed order. Each retry is an attempt of its transaction that looks at
some paths before the entry that it names, and is tried behind that entry. Looks of one shell change
nothing for the others, so each attempt is placed by itself. What is tried is bounded.
"""

from __future__ import annotations

import random
from bisect import bisect_left
from collections.abc import Iterator, Sequence
from typing import Any, NamedTuple

from . import model
from .report import Report, Retry
from .statuses import Failed, Status
from .terminal import below

Path = tuple[bytes, ...]
Node = model.Node | None
Filestore = dict[Path, model.Node]


def path_of(text: bytes) -> Path:
    """The path of a text that is one."""
    return tuple(text[1:].split(b"/")) if text != b"/" else ()


class Log:
    """What each path holds when the log has so many entries, and which entries changed it.

    Position I is that before entry I, as the log has I entries then.
    """

    def __init__(self, spec: Any, plan: Sequence[Any], store: Filestore, report: Report) -> None:
        """Runs the entries one after another. Fails with USAGE if the report is not of these."""
        self.spec, self.plan, self.store = spec, plan, store
        self.entries = report.entries
        self.changes: dict[Path, list[int]] = {}
        self.nodes: dict[Path, list[Node]] = {}
        self.looks: list[int] = []
        self.place: dict[tuple[int, int], int] = {}
        for i, entry in enumerate(report.entries):
            if entry.shell >= len(plan) or entry.txn >= len(plan[entry.shell]):
                raise Failed(Status.USAGE, "the report is not of these scripts")
            txn = plan[entry.shell][entry.txn]
            outputs, end, changed, way = model.run_txn(spec, txn, lambda p: self.at(p, i))
            told = model.report([(entry.shell, entry.txn, outputs, end)], [])
            if told.encode() != Report([entry], []).text():
                raise Failed(
                    Status.USAGE,
                    f"the report is not of these scripts on this folder: entry {i}, shell"
                    f" {entry.shell} txn {entry.txn}, has another answer here",
                )
            for path, node in changed.items():
                if self.at(path, i) != node:
                    self.changes.setdefault(path, []).append(i)
                    self.nodes.setdefault(path, []).append(node)
            self.looks.append(len(way))
            self.place[entry.shell, entry.txn] = i

    def at(self, path: Path, position: int) -> Node:
        """What stands at a path at a position."""
        number = bisect_left(self.changes.get(path, ()), position)
        return self.nodes[path][number - 1] if number else self.store.get(path)

    def stale(self, path: Path, seen: int, now: int) -> int | None:
        """The last entry from one position to another that changed a path; None if none did."""
        entries = self.changes.get(path, ())
        number = bisect_left(entries, now)
        return entries[number - 1] if number and entries[number - 1] >= seen else None


class Attempt(NamedTuple):
    """An attempt that conflicts: the positions of its looks, and that of its last step."""

    looks: tuple[int, ...]
    end: int


class Seen:
    """The looks of an attempt: each at the next of some positions, the last one from then on."""

    def __init__(self, log: Log, positions: Iterator[int]) -> None:
        self.log, self.positions = log, positions
        self.seen: dict[Path, int] = {}
        self.now = 0

    def known(self, path: Path) -> Node:
        """What a look at a path finds."""
        if path not in self.seen:
            self.now = max(self.now, next(self.positions, self.now))
            self.seen[path] = self.now
        return self.log.at(path, self.seen[path])

    def conflict(self, now: int) -> tuple[Path, int] | None:
        """The path and the entry with which the attempt conflicts at a position, if it does."""
        for path in sorted(self.seen):
            entry = self.log.stale(path, self.seen[path], now)
            if entry is not None:
                return path, entry
        return None


def run_of(log: Log, txn: Any, positions: Iterator[int]) -> Seen:
    """The looks of a transaction that looks at these positions."""
    seen = Seen(log, positions)
    model.run_txn(log.spec, txn, seen.known)
    return seen


def forever(*pieces: tuple[int, int]) -> Iterator[int]:
    """Positions, each so many times, the last one without end."""
    for position, times in pieces:
        for _ in range(times):
            yield position
    while True:
        yield pieces[-1][0]


def plans(
    low: int, entry: int, high: int, looks: int, draw: random.Random
) -> Iterator[Iterator[int]]:
    """Where the looks of an attempt may stand, the likely ones first: from position `low` to
    `high`, the first of them not behind `entry`."""
    yield forever((entry, 1))
    for first in range(looks - 1, 0, -1):
        yield forever((entry, first), (entry + 1, 1))
    for start in range(entry - 1, low - 1, -1):
        yield forever((start, 1))
    for start in range(entry, low - 1, -1):
        for first in range(looks, 0, -1):
            for then in range(start + 1, high + 1):
                yield forever((start, first), (then, 1))
    while True:
        count = 2 * looks + 2
        chosen = sorted(draw.randrange(low, high + 1) for _ in range(count))
        yield iter([min(chosen[0], entry), *chosen[1:]])


def placed(log: Log, retry: Retry, low: int, high: int, limit: int) -> Attempt | None:
    """An attempt from position `low` on that conflicts as a retry says, at the latest at `high`."""
    txn = log.plan[retry.shell][retry.txn]
    wanted = path_of(retry.path), retry.entry
    if not low <= retry.entry < high:
        return None
    looks = len(run_of(log, txn, forever((retry.entry, 1))).seen)
    ways = plans(low, retry.entry, high, looks, random.Random(0))
    for _, positions in zip(range(limit), ways):
        seen = run_of(log, txn, positions)
        if wanted[0] not in seen.seen:
            continue
        for end in range(max(seen.now, retry.entry + 1), high + 1):
            if seen.conflict(end) == wanted:
                return Attempt(tuple(seen.seen.values()), end)
    return None


def attempts_of(log: Log, report: Report, limit: int) -> dict[int, list[Attempt]]:
    """The attempts of each shell that conflict, in their order. Fails with NOT_DONE if one is not
    found."""
    found: dict[int, list[Attempt]] = {}
    for number, retry in enumerate(report.retries):
        place = log.place.get((retry.shell, retry.txn), -1)
        low = log.place.get((retry.shell, retry.txn - 1), -1) + 1
        before = found.setdefault(retry.shell, [])
        if before and report.retries[number - 1][:2] == retry[:2]:
            low = max(low, before[-1].end)
        # The next attempt has to look before the entry that it names.
        following = report.retries[number + 1 : number + 2]
        high = place
        if following and following[0][:2] == retry[:2]:
            high = min(high, following[0].entry)
        attempt = placed(log, retry, low, high, limit)
        if attempt is None:
            raise Failed(
                Status.NOT_DONE,
                f"no schedule was found: retry {number}, of shell {retry.shell} txn {retry.txn}"
                f" because of entry {retry.entry} at {below(path_of(retry.path))}, after"
                f" {limit:,} tries; --limit tries more",
            )
        before.append(attempt)
    return found


def find_schedule(
    spec: Any, plan: Sequence[Any], store: Filestore, report: Report, limit: int
) -> list[int]:
    """A schedule whose trace has a report, by the model.

    Fails with USAGE if the report is not of these scripts on this folder, with NOT_DONE if no
    schedule is found; for each retry `limit` places of its looks are tried.
    """
    log = Log(spec, plan, store, report)
    steps: list[list[int]] = [[] for _ in range(len(report.entries) + 1)]
    for shell, attempts in attempts_of(log, report, limit).items():
        for attempt in attempts:
            for position in (*attempt.looks, attempt.end):
                steps[position].append(shell)
    schedule: list[int] = []
    for i, entry in enumerate(report.entries):
        schedule += steps[i]
        schedule += [entry.shell] * (log.looks[i] + 1)
    return schedule
