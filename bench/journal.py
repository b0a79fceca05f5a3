"""A commit by `txforest journal`.

On a disk it stands beside a commit by SQLite with its rollback journal and `synchronous=full`,
measured in turns on the same file system. In memory, where a sync costs nothing, it stands beside
`trace` of the same scripts and the calls alone that keep and tell the commits (`bare.c`). The time
of a run that settles nothing, with its loading and saving, is left out on the side of `journal` on
a disk. SQLite with a WAL, which syncs less at a commit, is told beside.
"""

from __future__ import annotations

import os
import shutil
import sqlite3
import sys
import tempfile
import time
from collections.abc import Iterator

import measure
import trace
from goals import of_peer
from run import bare

SIZES = [500]
IN_MEMORY = 10_000
REPEATS = 3
RECORD = 9


def case(scratch: str, count: int) -> tuple[str, str, list[str]]:
    """A folder of one file, its description, and scripts of `count` transactions that store."""
    folder = os.path.join(scratch, "in")
    os.makedirs(folder, exist_ok=True)
    measure.write(folder, "a", "0")
    spec = measure.write(scratch, "spec", '("a" :: file)\n')
    return spec, folder, trace.write_scripts(scratch, [trace.TRANSACTION] * count)


def journaled(scratch: str, spec: str, folder: str, scripts: list[str], count: int) -> measure.Run:
    """A journal of `count` commits, each with its record."""
    out, journal = os.path.join(scratch, "out"), os.path.join(scratch, "journal")
    shutil.rmtree(out, ignore_errors=True)
    if os.path.exists(journal):
        os.remove(journal)
    ran = measure.done(
        [measure.program(), "journal", spec, folder, out, journal, "none", *scripts], scratch
    )
    if os.path.getsize(journal) != RECORD * count + 1:
        sys.exit(f"the journal has not {count} records")
    return ran


def committed(scratch: str, mode: str, count: int) -> float:
    """The seconds of `count` commits of SQLite with a journal of this mode, a row each."""
    path = os.path.join(scratch, "peer.db")
    for end in ("", "-wal", "-shm", "-journal"):
        if os.path.exists(path + end):
            os.remove(path + end)
    connection = sqlite3.connect(path, isolation_level=None)
    connection.execute(f"PRAGMA journal_mode={mode}").fetchone()
    connection.execute("PRAGMA synchronous=FULL")
    connection.execute("CREATE TABLE files (name TEXT PRIMARY KEY, text TEXT)")
    connection.execute("INSERT INTO files VALUES ('a', '0')")
    begin = time.monotonic()
    for i in range(count):
        connection.execute("BEGIN IMMEDIATE")
        connection.execute("UPDATE files SET text = ? WHERE name = 'a'", (str(i),))
        connection.execute("COMMIT")
    seconds = measure.since(begin)
    connection.close()
    return seconds


def on_disk(parent: str, count: int) -> measure.Line:
    """Commits on a disk, beside SQLite."""
    with tempfile.TemporaryDirectory(dir=parent) as scratch:
        spec, folder, scripts = case(scratch, count)
        nothing = [measure.write(scratch, "nothing", "")]
        ours, rollback, wal, idle, peak = [], [], [], [], 0
        for _ in range(REPEATS):
            ran = journaled(scratch, spec, folder, scripts, count)
            ours.append(ran.seconds)
            peak = max(peak, ran.peak_kib)
            rollback.append(committed(scratch, "DELETE", count))
            wal.append(committed(scratch, "WAL", count))
            idle.append(journaled(scratch, spec, folder, nothing, 0).seconds)
    seconds = max(min(ours) - min(idle), 0.001)
    more = f"load and save, {measure.amount(min(idle))}, left out;"
    more += f" SQLite with a WAL {measure.amount(min(wal))}"
    return measure.Line(
        "journal: commits on a disk",
        count,
        seconds,
        peak,
        "SQLite, rollback journal, full",
        min(rollback),
        more,
        (of_peer(1.0),),
        parent,
    )


def calls_alone(scratch: str, count: int) -> float:
    """The seconds of the calls of so many commits, or nothing where no compiler is."""
    if not bare():
        return 0.0
    path = os.path.join(scratch, "calls")
    seconds = [
        measure.done([*bare(), "--commits", path, str(commits)], scratch).seconds
        for commits in (0, count)
    ]
    return max(seconds[1] - seconds[0], 0.0)


def in_memory(count: int) -> measure.Line:
    """Commits in memory, beside `trace` and the calls alone."""
    with tempfile.TemporaryDirectory() as scratch:
        spec, folder, scripts = case(scratch, count)
        ours, plain, calls = [], [], []
        for _ in range(REPEATS):
            ours.append(journaled(scratch, spec, folder, scripts, count))
            shutil.rmtree(os.path.join(scratch, "out"), ignore_errors=True)
            plain.append(trace.traced(scratch, spec, folder, scripts, count).seconds)
            calls.append(calls_alone(scratch, count))
    ran = min(ours, key=lambda it: it.seconds)
    return measure.Line(
        "journal: commits in memory",
        count,
        ran.seconds,
        ran.peak_kib,
        "trace and the calls alone" if bare() else "trace",
        min(plain) + min(calls),
        f"trace {measure.amount(min(plain))}",
        (of_peer(1.25),) if bare() else (),
    )


def lines(sizes: list[int]) -> Iterator[measure.Line]:
    """The lines of this bench, of these sizes or its own."""
    for disk in measure.disks():
        for count in sizes or SIZES:
            yield on_disk(disk, count)
    yield in_memory(IN_MEMORY)
