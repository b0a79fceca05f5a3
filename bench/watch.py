"""`txforest watch` beside `txforest trace` of the same scripts, in a folder of 50,000 files.

Most entries change no path on which the answer rests. A few do, and the walk tells these. The
first walk, of the folder as it was read, is left out of one line with loading and saving.
"""

from __future__ import annotations

import os
import sys
import tempfile
from collections.abc import Iterator

import measure
from folders import directories
from goals import Goals, of_peer
from trace import write_scripts

ENTRIES = [1_000, 10_000]
FILES = 50_000
WALKED = [5_000, 50_000]
WALKS = 10
REPEATS = 3
# Fewer reads take less than the walk that is left out swings by.
JUDGED = 10_000
# The file `a` is not there, so the answer rests on it alone.
FEW = '{(n :: file) | n in (one("a") union one("b"))}\n'
STORE = 'txn{to("b")down store("%d")}\n'
WHOLE = "<d : dir, {(x :: <f : dir, {(n :: file) | n in f}>) | x in d}>\n"
LOOK = 'txn{into next to("d0000")down into next to("f00000")down fetch x:str}\n'
STORE_INSIDE = 'txn{into next to("d0000")down into next to("f00000")down store("%d")}\n'


def beside_trace(
    description: str, transactions: list[str], files: int
) -> tuple[measure.Run, measure.Run]:
    """The fastest runs of `watch` and of `trace`."""
    with tempfile.TemporaryDirectory() as scratch:
        folder = os.path.join(scratch, "in")
        directories(folder, files)
        spec = measure.write(scratch, "spec", description)
        scripts = write_scripts(scratch, transactions)
        makers = [
            lambda out, word=word: [measure.program(), word, spec, folder, out, "none", *scripts]
            for word in ("watch", "trace")
        ]
        (watched, _), (traced, _) = measure.best(scratch, makers, REPEATS)
    check_watched(watched, len(transactions))
    return watched, traced


def check_watched(watched: measure.Run, count: int) -> None:
    """Ends the bench if not each transaction is done, with an answer behind it."""
    if watched.out.count(b"\nvalid ") != count or watched.out.count(b" done\n") != count:
        sys.exit(f"not every transaction is done and watched: {watched.out[:200]!r}")


def read_only(count: int) -> measure.Line:
    """Transactions that only read, without loading, saving and the first walk."""
    with tempfile.TemporaryDirectory() as scratch:
        folder = os.path.join(scratch, "in")
        directories(folder, FILES)
        spec = measure.write(scratch, "spec", WHOLE)
        none = [measure.write(scratch, "none", "")]
        some = write_scripts(scratch, [LOOK] * count)
        makers = [
            lambda out, word=word, scripts=scripts: [
                *(measure.program(), word, spec, folder, out, "none"),
                *scripts,
            ]
            for word in ("watch", "trace")
            for scripts in (none, some)
        ]
        runs = [ran for ran, _ in measure.best(scratch, makers, REPEATS)]
    idle, watched, idle_trace, traced = runs
    check_watched(watched, count)
    return measure.Line(
        "watch: reads, without the first walk",
        count,
        max(watched.seconds - idle.seconds, 0.001),
        watched.peak_kib,
        "trace",
        max(traced.seconds - idle_trace.seconds, 0.001),
        f"load, save and one walk, {measure.amount(idle.seconds)}, left out",
        (of_peer(1.3),) if count >= JUDGED else (),
    )


def spared(
    kind: str, description: str, transactions: list[str], goals: Goals = ()
) -> measure.Line:
    """Transactions that change nothing on which the answer rests."""
    watched, traced = beside_trace(description, transactions, FILES)
    return measure.Line(
        kind,
        len(transactions),
        watched.seconds,
        watched.peak_kib,
        "trace",
        traced.seconds,
        goals=goals,
    )


def walked(files: int) -> measure.Line:
    """The time of one walk: that of the folder as it was read, and one behind each entry."""
    watched, traced = beside_trace(WHOLE, [STORE_INSIDE % i for i in range(WALKS)], files)
    seconds = max(watched.seconds - traced.seconds, 0.001) / (WALKS + 1)
    return measure.Line(
        "watch: one walk, by files",
        files,
        seconds,
        watched.peak_kib,
        more=f"of {WALKS + 1}; trace, {measure.amount(traced.seconds)}, left out",
    )


def lines(sizes: list[int]) -> Iterator[measure.Line]:
    """The lines of this bench, of these sizes or its own."""
    for count in sizes or ENTRIES:
        yield spared(
            "watch: stores that the answer does not rest on",
            FEW,
            [STORE % i for i in range(count)],
            (of_peer(1.3),),
        )
    for count in sizes or ENTRIES:
        yield spared("watch: transactions that only read", WHOLE, [LOOK] * count)
    yield from (read_only(count) for count in sizes or ENTRIES)
    yield from (walked(files) for files in WALKED)
