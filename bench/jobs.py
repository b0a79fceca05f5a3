"""Jobs on a real tree: `txforest-apply` and `txforest-do`, beside `flock` and git.

Each job adds 1 to a file. Under `flock` it works in place, and keeps nothing whole. With git it
fetches, works in a tree of its own, commits and pushes, until nobody was quicker. What counts is
seconds of processor, of all that a job starts. Jobs that come at once do so in 100 files.
"""

from __future__ import annotations

import os
import shutil
import sys
import tempfile
from collections.abc import Iterator

import measure
from goals import Goals, of_peer

sys.path.append(os.path.join(os.path.dirname(os.path.realpath(__file__)), "..", "checks"))

from anyjob_costs import Bench  # noqa: E402

SIZES = [100, 10_000]
AT_ONCE = [8]
FILES_AT_ONCE = 100
REPEATS = 3
TOOLS = {
    "apply": "txforest-apply",
    "traced": "txforest-do --trace",
    "only": "txforest-do --only",
}
FLOCK, GIT = "flock", "git"
# What is asked beside git: of one job on so many files, and of jobs at once.
OF_GIT: dict[int, Goals] = {100: (of_peer(1.5),), 10_000: (of_peer(0.75),)}
OF_GIT_AT_ONCE: Goals = (of_peer(0.75),)


def peers() -> list[str]:
    """The peers that are here."""
    return [name for name in (FLOCK, GIT) if shutil.which(name)]


def tools() -> list[str]:
    """The tools that the system lets work here: a trace needs a device."""
    return [kind for kind in TOOLS if kind != "traced" or os.access("/dev/fuse", os.W_OK)]


def one_job(files: int) -> dict[str, measure.Run]:
    """Of each kind the job on so many files that took least, of some in turns."""
    with tempfile.TemporaryDirectory() as scratch:
        bench = Bench(os.path.join(scratch, "jobs"), files, GIT in peers())
        runs: dict[str, list[measure.Run]] = {kind: [] for kind in (*tools(), *peers())}
        for _ in range(REPEATS):
            for kind, ran in runs.items():
                ran.append(measure.done(bench.words(kind, 0), scratch, bench.room))
    return {kind: min(ran, key=measure.By.ALL.seconds) for kind, ran in runs.items()}


def at_once(jobs: int) -> dict[str, float]:
    """Of each kind the seconds of so many jobs at once: the least, of some in turns."""
    seconds: dict[str, list[float]] = {kind: [] for kind in (*tools(), *peers())}
    for _ in range(REPEATS):
        for kind, found in seconds.items():
            with tempfile.TemporaryDirectory() as scratch:
                bench = Bench(os.path.join(scratch, "jobs"), FILES_AT_ONCE, kind == GIT)
                took, _, count = bench.at_once(kind, jobs)
            if count != jobs:
                sys.exit(f"{kind}: of {jobs} jobs at once {count} count")
            found.append(took)
    return {kind: min(found) for kind, found in seconds.items()}


def lines(sizes: list[int]) -> Iterator[measure.Line]:
    """The lines of this bench, of these sizes or its own."""
    by_files = {files: one_job(files) for files in sizes or SIZES}
    for kind in tools():
        for files, runs in by_files.items():
            for peer in peers():
                yield measure.Line(
                    f"{TOOLS[kind]}: one job, by files",
                    files,
                    measure.By.ALL.seconds(runs[kind]),
                    runs[kind].peak_kib,
                    peer,
                    measure.By.ALL.seconds(runs[peer]),
                    f"seconds of processor; {runs[kind].seconds:.3f} on the clock",
                    OF_GIT.get(files, ()) if peer == GIT else (),
                )
    by_jobs = {jobs: at_once(jobs) for jobs in AT_ONCE}
    for kind in tools():
        for jobs, seconds in by_jobs.items():
            for peer in peers():
                yield measure.Line(
                    f"{TOOLS[kind]}: jobs at once, {FILES_AT_ONCE} files",
                    jobs,
                    seconds[kind],
                    0,
                    peer,
                    seconds[peer],
                    "seconds of processor",
                    OF_GIT_AT_ONCE if peer == GIT else (),
                )
