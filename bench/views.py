"""`txforest views`: a view that looks at every file of a folder, beside eight writers.

Each writer has a counter of its own. Beside it stand the writers alone by `run`, and SQLite with a
WAL, whose reader looks at every row while eight threads count.
"""

from __future__ import annotations

import os
import re
import sys
import tempfile
from collections.abc import Iterator

import measure
import sqlite_peer
from goals import of_peer

SIZES = [1_000, 10_000]
WRITERS = 8
EACH = 1_000
REPEATS = 5
DESCRIPTION = "<d : dir, {(n :: file) | n in d}>\n"
COUNT = 'txn{into next to("c%d")down fetch n:str store(text((int(n)+1)))}\n'
VIEW = "txn { into next validate v print(v) }\n"
SEEN = re.compile(rb"\nview 0 at (\d+) done\nprint true\n")


def commands(scratch: str, files: int) -> list[measure.Maker]:
    """The writers alone, and with the view beside them."""
    folder = os.path.join(scratch, "in")
    os.mkdir(folder)
    for i in range(files):
        measure.write(folder, f"f{i:06}", f"of {i}")
    for shell in range(WRITERS):
        measure.write(folder, f"c{shell}", "0")
    spec = measure.write(scratch, "spec", DESCRIPTION)
    view = measure.write(scratch, "view", VIEW)
    scripts = [
        measure.write(scratch, f"s{shell}", COUNT % shell * EACH) for shell in range(WRITERS)
    ]
    program = measure.program()
    return [
        lambda out: [program, "run", spec, folder, out, *scripts],
        lambda out: [program, "views", spec, folder, out, view, *scripts],
    ]


def looked(files: int) -> tuple[measure.Run, measure.Run, int]:
    """The writers alone, the writers beside the view, and how many commits the view saw."""
    with tempfile.TemporaryDirectory() as scratch:
        (alone, _), (beside, _) = measure.best(scratch, commands(scratch, files), REPEATS)
        seen = SEEN.search(beside.out)
    if not seen:
        sys.exit("the view has no value, or is not told")
    if b"retry shell %d " % WRITERS in beside.out:
        sys.exit("the view was retried")
    return alone, beside, int(seen.group(1))


def lines(sizes: list[int]) -> Iterator[measure.Line]:
    """The lines of this bench, of these sizes or its own."""
    for files in sizes or SIZES:
        alone, beside, seen = looked(files)
        peer, reading = sqlite_peer.with_reader(files, WRITERS, EACH)
        more = f"SQLite's WAL: writers {measure.amount(peer)}, its reader"
        more += f" {measure.amount(reading)};"
        more += f" the view saw {seen:,} of {WRITERS * EACH:,} commits"
        yield measure.Line(
            f"views: beside {WRITERS} writers of {EACH:,}",
            files,
            beside.seconds,
            beside.peak_kib,
            "the writers alone by run",
            alone.seconds,
            more,
            (of_peer(1.2),),
        )
