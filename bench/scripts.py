"""`txforest run` of the same transactions in one script, in two and in four.

Each script has a thread of its own. Each transaction reads every file of a list, and stores
nothing, so that no script starts again. Beside so many scripts of one run stand as many programs at
once, in the same go, each with one of the scripts and a folder of its own. They share nothing, so
they tell what so many processors give here.
"""

from __future__ import annotations

import os
import shutil
import sys
import tempfile
from collections.abc import Iterator

import measure
from goals import Goals, of_peer
from looks import LISTED, THROUGH, listed_files

SCRIPTS = [1, 2, 4]
FILES = 1_000
TRANSACTIONS = 200
REPEATS = 9
# What so many scripts have to reach, beside as many programs at once.
OF_PROGRAMS = {2: 1.2, 4: 1.4}


def goals_of(scripts: int) -> Goals:
    """What is asked of so many scripts, where each may have a processor."""
    has_room = scripts <= len(os.sched_getaffinity(0))
    return (of_peer(OF_PROGRAMS[scripts]),) if scripts in OF_PROGRAMS and has_room else ()


def check_done(ran: measure.Run, count: int) -> None:
    """Ends the bench if not each transaction is done, or one of them started again."""
    if ran.out.count(b" done\n") != count or b"\nretries 0\n" not in ran.out:
        sys.exit(f"not every transaction is done at once: {ran.out[:200]!r}")


def lines(sizes: list[int]) -> Iterator[measure.Line]:
    """The lines of this bench; other sizes are of the transactions."""
    for count in sizes or [TRANSACTIONS]:
        yield from shared_out(count)


class Turns:
    """Runs of one, two and four scripts, and as many programs at once, which take turns."""

    def __init__(self, scratch: str, count: int) -> None:
        self.scratch = scratch
        folder = os.path.join(scratch, "in")
        listed_files(folder, FILES)
        self.words = [measure.program(), "run", measure.write(scratch, "spec", LISTED), folder]
        self.none = measure.write(scratch, "none", "")
        self.texts = {
            n: measure.write(scratch, f"s{n}", THROUGH * (count // n)) for n in SCRIPTS
        }

    def run_of(self, *scripts: str) -> measure.Run:
        """One run of these scripts."""
        out = os.path.join(self.scratch, "out")
        shutil.rmtree(out, ignore_errors=True)
        return measure.done([*self.words, out, *scripts], self.scratch)

    def programs(self, *scripts: str) -> float:
        """The seconds of as many programs at once, each with one of these scripts."""
        outs = [os.path.join(self.scratch, f"out{i}") for i in range(len(scripts))]
        for out in outs:
            shutil.rmtree(out, ignore_errors=True)
        commands = [[*self.words, out, script] for out, script in zip(outs, scripts)]
        return measure.all_done(commands, self.scratch)


def beyond(some: list[float], none: list[float]) -> float:
    """The least of some seconds without the least of others."""
    return max(min(some) - min(none), 0.001)


def shared_out(count: int) -> Iterator[measure.Line]:
    """A number of transactions in one script, and shared out among several."""
    runs: dict[int, list[measure.Run]] = {n: [] for n in SCRIPTS}
    apart: dict[int, list[float]] = {n: [] for n in SCRIPTS}
    idle: dict[int, list[float]] = {n: [] for n in SCRIPTS}
    alone = []
    with tempfile.TemporaryDirectory() as scratch:
        turns = Turns(scratch, count)
        for _ in range(REPEATS):
            alone.append(turns.run_of(turns.none).seconds)
            for n in SCRIPTS:
                runs[n].append(turns.run_of(*[turns.texts[n]] * n))
                idle[n].append(turns.programs(*[turns.none] * n))
                apart[n].append(turns.programs(*[turns.texts[n]] * n))
    seconds = {n: beyond([ran.seconds for ran in runs[n]], alone) for n in SCRIPTS}
    for n in SCRIPTS:
        ran = min(runs[n], key=lambda it: it.seconds)
        check_done(ran, count // n * n)
        more = f"{seconds[n] / seconds[1]:.2f} of one script; " if n > 1 else ""
        yield measure.Line(
            f"run: scripts that share {count} transactions",
            n,
            seconds[n],
            ran.peak_kib,
            "programs at once",
            beyond(apart[n], idle[n]),
            f"{more}load and save, {min(alone):.3f} s, left out",
            goals_of(n),
        )
