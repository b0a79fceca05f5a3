"""`txforest run` over flat folders of small files, and over files as large as they may be.

The calls of `run` to the system and nothing else (`bare.c`) stand beside it, and the time of
`cp -r` of the same folder is told.
"""

from __future__ import annotations

import atexit
import functools
import os
import shutil
import subprocess
import sys
import tempfile
from collections.abc import Callable, Iterator

import measure
from goals import Goals, of_peer

SIZES = [1_000, 10_000, 99_999]
LARGE_FILE = 1_048_576
LARGE_FILES = 60
DESCRIPTION = '("f00000" :: file)\n'
SCRIPT = "txn { down fetch x : str }\n"
REPORT = b"forest report 1\nentries 1\nentry 0 shell 0 txn 0 done\nretries 0\nend\n"
REPEATS = 9
REPEATS_ON_DISK = 3
# Of 20,000 files and more.
LARGE = 20_000
CP, CALLS = "cp -r", "the calls alone"
OF_CALLS, OF_CALLS_ON_DISK = of_peer(1.25), of_peer(1.5)


def flat_folder(path: str, count: int) -> None:
    os.mkdir(path)
    for i in range(count):
        measure.write(path, f"f{i:05}", f"{i % 1000}")


def large_files(path: str, count: int) -> None:
    os.mkdir(path)
    for i in range(count):
        measure.write(path, f"f{i:05}", "x" * LARGE_FILE)


@functools.cache
def bare() -> list[str]:
    """The program of the calls alone, as a list of it, or nothing where no compiler is."""
    compiler = shutil.which("cc")
    if compiler is None:
        return []
    source = os.path.join(os.path.dirname(os.path.realpath(__file__)), "bare.c")
    folder = tempfile.mkdtemp(dir="/tmp")
    atexit.register(shutil.rmtree, folder)
    program = os.path.join(folder, "bare")
    subprocess.run([compiler, "-O2", "-o", program, source], check=True)
    return [program]


def loaded_and_saved(
    kind: str,
    make: Callable[[str, int], None],
    size: int,
    description: str = DESCRIPTION,
    script: str = SCRIPT,
    goals: Goals = (),
    disk: str | None = None,
) -> measure.Line:
    """A run over a folder that `make` makes, which leaves it as it is.

    Beside it stand its calls alone. Without a compiler it is `cp -r`, and nothing is asked. Nothing
    is asked of instructions either, since those of the system, which are most of what a call takes,
    are not counted.
    """
    with tempfile.TemporaryDirectory(dir=disk) as scratch:
        folder = os.path.join(scratch, "in")
        make(folder, size)
        spec = measure.write(scratch, "spec", description)
        shell = measure.write(scratch, "script", script)
        makers: list[measure.Maker] = [
            lambda out: [measure.program(), "run", spec, folder, out, shell],
            lambda out: ["cp", "-r", folder, out],
        ]
        if bare():
            makers.append(lambda out: [*bare(), folder, out])
        repeats = REPEATS_ON_DISK if disk else REPEATS
        (ours, out), (copied, _), *calls = measure.best(scratch, makers, repeats)
        if ours.out != REPORT:
            sys.exit(f"another report: {ours.out[:200]!r}")
        measure.check_same(folder, out)
    peers = {CP: copied.seconds, **{CALLS: ran.seconds for ran, _ in calls}}
    peer = CALLS if CALLS in peers else CP
    if measure.Counting.is_on or peer is CP:
        goals = ()
    told = [f"{name} {measure.amount(it)}" for name, it in peers.items() if name != peer]
    return measure.Line(
        kind,
        size,
        ours.seconds,
        ours.peak_kib,
        peer,
        peers[peer],
        ", ".join([*told, f"{measure.amount(ours.user)} in the program"]),
        goals,
        disk,
    )


def everywhere(
    kind: str,
    make: Callable[[str, int], None],
    sizes: list[int],
    description: str = DESCRIPTION,
    script: str = SCRIPT,
) -> Iterator[measure.Line]:
    """Lines of these sizes in memory, and of the last one on a disk."""
    for size in sizes:
        goals = (OF_CALLS,) if size >= LARGE else ()
        yield loaded_and_saved(kind, make, size, description, script, goals)
    most = sizes[-1]
    for disk in measure.disks():
        goals = (OF_CALLS_ON_DISK,) if most >= LARGE else ()
        yield loaded_and_saved(kind, make, most, description, script, goals, disk)


def lines(sizes: list[int]) -> Iterator[measure.Line]:
    """The lines of this bench, of these sizes or its own."""
    yield loaded_and_saved("run: files of 1 MiB", large_files, LARGE_FILES, goals=(OF_CALLS,))
    yield from everywhere("run: files in one folder", flat_folder, sizes or SIZES)
