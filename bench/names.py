"""Transactions that look at a directory of many names, and such that enter one.

Those that look go by the schedule `none`. Each stores at a name that is not there, which looks at
the name and at the directory. It is then refused, so that the next one looks at both again. Those
that enter go to the second part of a description, which takes the names from the directory itself:
they are the value of the first part. Some of them go on to a file there and fetch it, beside
SQLite, which looks up a name among as many.
"""

from __future__ import annotations

import os
import sys
import tempfile
from collections.abc import Iterator

import measure
import sqlite_peer
from goals import MICROSECONDS, each, growth

SIZES = [1_000, 10_000, 50_000]
TRANSACTIONS = 2_000
REPEATS = 2
TRANSACTION = 'txn{down store("")down}\n'
DESCRIPTION = '("n" :: file)\n'
ENTERED = [100, 50_000]
ENTRIES = 4_000
ENTRY = "txn{into next}\n"
LISTED = "<d : dir, {(n :: file) | n in d}>\n"
ENTRY_REPEATS = 5
FETCHED = [100, 1_000, 10_000, 50_000]
FETCH = 'txn{into next to("%s")down fetch x:str}\n'
OF_SCRIPT, SCRIPTS = 1_400, 8
FETCHES = OF_SCRIPT * SCRIPTS


def empty_files(path: str, count: int) -> None:
    """A folder of empty files."""
    os.mkdir(path)
    for i in range(count):
        measure.write(path, f"f{i:05}", "")


def entered(count: int) -> measure.Line:
    """Transactions that enter a described directory of `count` names, in seconds of processor.

    Load and save take longer than all of them.
    """
    with tempfile.TemporaryDirectory() as scratch:
        folder = os.path.join(scratch, "in")
        empty_files(folder, count)
        spec = measure.write(scratch, "spec", LISTED)
        words_of = lambda out, shell: [measure.program(), "run", spec, folder, out, shell]
        ran, seconds, more, _ = measure.beyond(
            scratch, words_of, "", ENTRY * ENTRIES, ENTRY_REPEATS, measure.By.PROCESSOR
        )
    if ran.out.count(b" done\n") != ENTRIES:
        sys.exit(f"not every transaction was done: {ran.out[:200]!r}")
    return measure.Line(
        f"run: names where {ENTRIES:,} transactions enter",
        count,
        seconds,
        ran.peak_kib,
        more=more,
        goals=(each(40, MICROSECONDS, ENTRIES), growth(500, 3)),
    )


def fetched(count: int) -> measure.Line:
    """Transactions that enter such a directory and fetch the file in its middle.

    SQLite looks up the same name in a table of as many, a transaction each.
    """
    name = f"f{count // 2:05}"
    with tempfile.TemporaryDirectory() as scratch:
        folder = os.path.join(scratch, "in")
        empty_files(folder, count)
        spec = measure.write(scratch, "spec", LISTED)
        words_of = lambda out, shell: [
            measure.program(),
            "run",
            spec,
            folder,
            out,
            *[shell] * SCRIPTS,
        ]
        peers: list[float] = []
        ran, seconds, more, _ = measure.beyond(
            scratch,
            words_of,
            "",
            FETCH % name * OF_SCRIPT,
            ENTRY_REPEATS,
            measure.By.PROCESSOR,
            lambda: peers.append(sqlite_peer.look_ups(count, name, FETCHES)),
        )
    if ran.out.count(b" done\n") != FETCHES:
        sys.exit(f"not every transaction was done: {ran.out[:200]!r}")
    return measure.Line(
        f"run: names where {FETCHES:,} transactions fetch",
        count,
        seconds,
        ran.peak_kib,
        "SQLite, memory",
        min(peers),
        more,
        (each(40, MICROSECONDS, FETCHES), growth(500, 3)),
    )


def looked(count: int) -> measure.Line:
    """Transactions that look at a directory of `count` names."""
    with tempfile.TemporaryDirectory() as scratch:
        folder = os.path.join(scratch, "in")
        empty_files(folder, count)
        spec = measure.write(scratch, "spec", DESCRIPTION)
        words_of = lambda out, shell: [measure.program(), "trace", spec, folder, out, "none", shell]
        ran, seconds, more, _ = measure.beyond(
            scratch, words_of, "", TRANSACTION * TRANSACTIONS, REPEATS
        )
    looks = ran.out.count(b'\nlook 0 "/" ')
    if looks != TRANSACTIONS:
        sys.exit(f"{TRANSACTIONS} transactions looked at the directory {looks} times")
    return measure.Line(
        f"trace: names where {TRANSACTIONS:,} transactions look",
        count,
        seconds,
        ran.peak_kib,
        more=more,
    )


def lines(sizes: list[int]) -> Iterator[measure.Line]:
    """The lines of this bench, of these sizes or its own."""
    yield from (looked(count) for count in sizes or SIZES)
    yield from (entered(count) for count in ENTERED)
    yield from (fetched(count) for count in FETCHED)
