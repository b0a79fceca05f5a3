"""The engine on described trees.

`trace` of many transactions over 16 projects, each with a counter and a log: on projects that are
drawn, and with all counts on two of them, where conflicts are frequent. And one transaction that
goes through many files by `each`: reading, by `next` or by `to`, or storing. It is done 30 times in
a run.
"""

from __future__ import annotations

import os
import tempfile
from collections.abc import Iterator

import measure
import sqlite_peer
from goals import MILLISECONDS, Goals, each, growth, of_peer, seconds
from large import NUMBER, draws
from looks import THROUGH, looking
from threads import RETRIES, set_of
from trace import traced, write_scripts

SIZES = [1_000, 10_000, 100_000]
EACH_SIZES = [1_000, 4_000, 10_000, 16_000]
REPEATS = 3
# So many loops of a run take longer than load and save. A growth is of two lines, so each has more
# turns.
LOOPS, LOOP_REPEATS = 30, 7
# What a line of so many has to reach.
TRACED: dict[int, Goals] = {10_000: (of_peer(1.5),), 100_000: (of_peer(1.5), seconds(2))}
CROWDED: dict[int, Goals] = {10_000: (of_peer(1.5),), 100_000: (seconds(2),)}
RUNS: dict[int, Goals] = {100_000: (of_peer(1.5),)}
LOOP = growth(4, 5)
LOOPED = {10_000: each(500, MILLISECONDS, LOOPS)}
PROJECTS = "abcdefghijklmnop"
DESCRIPTION = '{(p :: <n : ("count" :: file), ("log" :: dir)>) | p in %s}\n'
COUNT = 'txn{to("%s")down into down fetch n:str store(text((int(n)+1)))}'
STORE = 'txn{to("%s")down into down store("1")}'
COUNTS_IN = 8
# The project of a transaction, and whether it counts.
Step = tuple[int, bool]
TO = "txn { into next fetch all : names each n in (all) { to(n) down fetch x : str up out } }\n"
CHANGED = (
    "txn { into next fetch all : names into"
    ' each n in (all) { down fetch x : str store((x ++ "!")) up try end next } }\n'
)
EACH: list[tuple[str, str, Goals]] = [
    (f"run: files read by {LOOPS} `each`, by `next`", THROUGH, ()),
    (f"run: files read by {LOOPS} `each`, by `to`", TO, (LOOP,)),
    (f"run: files changed by {LOOPS} `each`", CHANGED, (LOOP,)),
]


def drawn(count: int) -> list[Step]:
    """So many transactions on projects that are drawn, of which about one in eight counts."""
    numbers = draws(NUMBER)
    return [(next(numbers) % len(PROJECTS), next(numbers) % COUNTS_IN == 0) for _ in range(count)]


def crowded(count: int) -> list[Step]:
    """So many transactions, of which one in eight counts, all of these on two of the projects."""
    return [(i * 5 % len(PROJECTS), i % COUNTS_IN == 0) for i in range(count)]


def projects(count: int) -> Iterator[measure.Line]:
    """Traces of `count` transactions: one that counts where it is drawn, and one on two projects.

    A transaction that meets a conflict is run again. So the last line is of the runs of the second
    trace, beside SQLite with as many transactions.
    """
    ran, peer, _ = traced_beside(drawn(count))
    yield line("trace: transactions on 16 projects", count, ran, peer, TRACED.get(count, ()))
    ran, peer, again = traced_beside(crowded(count))
    kind = "trace: transactions, counts on 2 of them"
    yield line(kind, count, ran, peer, CROWDED.get(count, ()))
    runs = count + retries_of(ran)
    yield line("trace: runs of these transactions", runs, ran, again, RUNS.get(count, ()))


def traced_beside(mix: list[Step]) -> tuple[measure.Run, float, float]:
    """The fastest of some traces of these transactions, which count or else store.

    Seconds of SQLite stand beside it: with as many transactions, and with as many as were run. One
    of eight counts, so that 100,000 fit into 64 scripts.
    """
    with tempfile.TemporaryDirectory() as scratch:
        folder = os.path.join(scratch, "in")
        for name in PROJECTS:
            os.makedirs(os.path.join(folder, name, "log"))
            measure.write(os.path.join(folder, name), "count", "0")
        spec = measure.write(scratch, "spec", DESCRIPTION % set_of(PROJECTS))
        texts = [(COUNT if is_count else STORE) % PROJECTS[project] for project, is_count in mix]
        scripts = write_scripts(scratch, texts)
        steps: list[sqlite_peer.Step] = [(project, None) for project, _ in mix]
        count = len(mix)
        runs, peers, as_often = [], [], []
        for _ in range(REPEATS):
            ran = traced(scratch, spec, folder, scripts, count)
            runs.append(ran)
            peers.append(sqlite_peer.in_memory(len(PROJECTS), [steps]))
            again = steps * (retries_of(ran) // count) + steps[: retries_of(ran) % count]
            as_often.append(sqlite_peer.in_memory(len(PROJECTS), [steps, again]))
    return min(runs, key=lambda it: it.seconds), min(peers), min(as_often)


def line(kind: str, size: int, ran: measure.Run, peer: float, goals: Goals) -> measure.Line:
    """A line of a trace beside SQLite."""
    more = f"{retries_of(ran):,} retries, {len(ran.out):,} bytes printed"
    return measure.Line(
        kind, size, ran.seconds, ran.peak_kib, "SQLite, memory", peer, more, goals
    )


def retries_of(ran: measure.Run) -> int:
    """How often a transaction of a run was run again."""
    found = RETRIES.search(ran.out)
    assert found, "each report has a line of its retries"
    return int(found[1])


def lines(sizes: list[int]) -> Iterator[measure.Line]:
    """The lines of this bench, of these sizes or its own."""
    for count in sizes or SIZES:
        yield from projects(count)
    for kind, script, goals in EACH:
        for count in sizes or EACH_SIZES:
            more = (LOOPED[count],) if goals and count in LOOPED else ()
            yield looking(kind, [], script, count, (*goals, *more), LOOPS, LOOP_REPEATS)
