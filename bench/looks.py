"""One transaction that looks many times, and one that starts again many times.

The first is run under `trace`, whose steps are handed out one by one, and under `run`. The second
has to start again, since another shell stores at the file that it reads after each of its looks.
"""

from __future__ import annotations

import os
import sys
import tempfile
from collections.abc import Iterator

import measure
from goals import NEAR_LINEAR, Goals

SIZES = [500, 2_000, 8_000]
ATTEMPTS = [500, 1_000, 2_000]
REPEATS = 3
LISTED = '<l : ("list" :: file), {(n :: file) | n in lines(l)}>\n'
THROUGH = (
    "txn { into next fetch all : names into"
    " each n in (all) { down fetch x : str up try end next } }\n"
)
READER = "txn{down fetch x : str print(x)}\n"
STORES = ['txn{down store("1")}\n', 'txn{down store("2")}\n']
ROUND = ["0", "1", "1", "0"]


def listed_files(path: str, count: int) -> None:
    """A file that lists the others."""
    os.mkdir(path)
    names = [f"f{i:05}" for i in range(count)]
    measure.write(path, "list", "".join(f"{name}\n" for name in names))
    for name in names:
        measure.write(path, name, "0")


def looking(
    kind: str,
    schedule: list[str],
    script: str,
    count: int,
    goals: Goals = (),
    times: int = 1,
    repeats: int = REPEATS,
) -> measure.Line:
    """A line of a transaction over `count` listed files.

    It is done so many times: load and save differ by more than a short one takes.
    """
    with tempfile.TemporaryDirectory() as scratch:
        folder = os.path.join(scratch, "in")
        listed_files(folder, count)
        spec = measure.write(scratch, "spec", LISTED)
        command = "trace" if schedule else "run"
        words_of = lambda out, shell: [
            measure.program(),
            command,
            spec,
            folder,
            out,
            *schedule,
            shell,
        ]
        ran, seconds, more, _ = measure.beyond(
            scratch, words_of, "txn { }\n", script * times, repeats
        )
    if ran.out.count(b" done\n") != times:
        sys.exit(f"a transaction was refused: {ran.out[-200:]!r}")
    return measure.Line(kind, count, seconds, ran.peak_kib, more=more, goals=goals)


def started_again(count: int) -> measure.Line:
    """A line of a transaction that comes to its end at attempt `count`."""
    with tempfile.TemporaryDirectory() as scratch:
        folder = os.path.join(scratch, "in")
        os.mkdir(folder)
        measure.write(folder, "a", "0")
        spec = measure.write(scratch, "spec", '("a" :: file)\n')
        reader = measure.write(scratch, "reader", READER)
        writer = measure.write(scratch, "writer", "".join(STORES[i % 2] for i in range(count - 1)))
        schedule = ",".join(ROUND * (count - 1))
        words_of = lambda out: [
            measure.program(),
            "trace",
            spec,
            folder,
            out,
            schedule,
            reader,
            writer,
        ]
        ((ran, _),) = measure.best(scratch, [words_of], REPEATS)
    looks = sum(line.startswith(b"look 0 ") for line in ran.out.splitlines())
    if looks != count:
        sys.exit(f"the transaction looked {looks} times, not {count}")
    return measure.Line("trace: attempts of one transaction", count, ran.seconds, ran.peak_kib)


def lines(sizes: list[int]) -> Iterator[measure.Line]:
    """The lines of this bench, of these sizes or its own."""
    for count in sizes or SIZES:
        yield looking("trace: looks of one transaction", ["none"], THROUGH, count, (NEAR_LINEAR,))
    yield looking("run: looks of one transaction", [], THROUGH, max(sizes or SIZES))
    for count in sizes or ATTEMPTS:
        yield started_again(count)
