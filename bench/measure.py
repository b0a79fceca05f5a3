"""What the benches share: where folders are made, commands that are measured, and the table.

Folders are made in memory, below /dev/shm, if that is a file system in memory. What is measured on
a disk is made below BENCH_DISK, or else below TMPDIR. Measured are seconds of wall clock, the
command's own seconds of processor (those of the system left out), peak memory in KiB, status and
both outputs. The peak is at least that of the script that measures, some 13 MiB.

On a busy machine instructions can be counted in place of seconds, by valgrind. They stand where
seconds would, in thousands of millions. What is measured inside this script has none then.
"""

from __future__ import annotations

import contextlib
import math
import os
import re
import shutil
import subprocess
import sys
import tempfile
import time
from collections.abc import Callable, Iterable, Sequence
from dataclasses import dataclass, field
from enum import Enum

from goals import Goals

KIB_OF_MIB = 1024
# What is written into `clear_refs` of a process, as proc(5) has it.
FORGET_PEAK = "5"
INSTRUCTIONS = 1e9
COUNTED = re.compile(rb"I +refs: +([0-9,]+)")
NO_NUMBER = math.nan


def file_system(folder: str) -> str:
    """The kind of the file system on which a folder lies."""
    ran = subprocess.run(["df", "--output=fstype", folder], capture_output=True, text=True)
    return ran.stdout.split()[-1] if ran.returncode == 0 else "unknown"


IN_MEMORY = {"tmpfs", "ramfs"}
MEMORY, DISK = "/dev/shm", os.environ.get("BENCH_DISK") or tempfile.gettempdir()


def use_memory() -> None:
    """Has all folders made in memory that are not asked for on a disk."""
    if file_system(MEMORY) in IN_MEMORY and os.access(MEMORY, os.W_OK):
        tempfile.tempdir = MEMORY


def disks() -> list[str]:
    """The folder on a disk, if there is one."""
    return [] if file_system(DISK) in IN_MEMORY else [DISK]


@dataclass
class Run:
    """A command that has ended: its seconds, its memory, its status and what it printed."""

    seconds: float
    user: float
    system: float
    peak_kib: int
    status: int
    out: bytes
    err: bytes


class By(Enum):
    """What counts of a run.

    It is the seconds of wall clock, the command's own seconds of processor, or all of these, with
    those of the system and of all that the command starts.
    """

    WALL = "wall"
    PROCESSOR = "processor"
    ALL = "all"

    def seconds(self, ran: Run) -> float:
        """These seconds of a run."""
        if self is By.WALL:
            return ran.seconds
        return ran.user if self is By.PROCESSOR else ran.user + ran.system


class Counting:
    """Whether instructions are counted in place of seconds."""

    is_on = False


def since(begin: float, clock: Callable[[], float] = time.monotonic) -> float:
    """The seconds since a moment by a clock; no number if instructions are counted."""
    return NO_NUMBER if Counting.is_on else clock() - begin


Maker = Callable[[str], "list[str]"]
"""The words of a command that writes to this folder."""


def forget_peak() -> None:
    """Forgets what memory this script held at most.

    The system counts it for each command that the script starts from then on.
    """
    with contextlib.suppress(OSError), open("/proc/self/clear_refs", "w") as it:
        it.write(FORGET_PEAK)


def run(words: list[str], scratch: str, folder: str | None = None) -> Run:
    """Runs the words, in this folder or where this script runs.

    The outputs go through files of the folder `scratch`, so that no pipe slows the program.
    """
    out_path, err_path, counted = (
        os.path.join(scratch, name) for name in ("stdout", "stderr", "counted")
    )
    if Counting.is_on:
        words = [*valgrind(counted), *words]
    forget_peak()
    with open(out_path, "wb") as out, open(err_path, "wb") as err:
        begin = time.monotonic()
        child = subprocess.Popen(
            words, stdin=subprocess.DEVNULL, stdout=out, stderr=err, cwd=folder
        )
        _, status, usage = os.wait4(child.pid, 0)
        seconds = time.monotonic() - begin
        child.returncode = os.waitstatus_to_exitcode(status)
    user, system, peak = usage.ru_utime, usage.ru_stime, usage.ru_maxrss
    if Counting.is_on:
        seconds = user = instructions_of(read(counted)) / INSTRUCTIONS
        system, peak = 0.0, 0
    return Run(seconds, user, system, peak, child.returncode, read(out_path), read(err_path))


def valgrind(log: str) -> list[str]:
    """The words before a command that have its instructions counted."""
    return [
        "valgrind",
        "--tool=cachegrind",
        "--cache-sim=no",
        "--cachegrind-out-file=/dev/null",
        f"--log-file={log}",
    ]


def instructions_of(log: bytes) -> int:
    """The instructions that the log of a command tells."""
    found = COUNTED.search(log)
    if not found:
        sys.exit(f"valgrind tells no instructions: {log.decode(errors='replace')[-200:]}")
    return int(found[1].replace(b",", b""))


def read(path: str) -> bytes:
    """What a file holds."""
    with open(path, "rb") as file:
        return file.read()


def done(words: list[str], scratch: str, folder: str | None = None) -> Run:
    """Runs the words, and ends the bench if their status is not 0."""
    ran = run(words, scratch, folder)
    if ran.status != 0:
        sys.exit(f"status {ran.status}: {ran.err.decode(errors='replace')}")
    return ran


def all_done(commands: Sequence[list[str]], scratch: str) -> float:
    """The seconds until all of these commands have ended, which are begun at once. What they print
    goes nowhere. Ends the bench if the status of one is not 0."""
    begin = time.monotonic()
    with open(os.path.join(scratch, "stderr"), "wb") as err:
        children = [
            subprocess.Popen(
                words, stdin=subprocess.DEVNULL, stdout=subprocess.DEVNULL, stderr=err
            )
            for words in commands
        ]
        statuses = [child.wait() for child in children]
    seconds = since(begin)
    if any(statuses):
        told = read(os.path.join(scratch, "stderr")).decode(errors="replace")
        sys.exit(f"status {max(statuses)}: {told}")
    return seconds


def nothing() -> None:
    """Does nothing."""


def best(
    scratch: str,
    makers: Sequence[Maker],
    repeats: int,
    by: By = By.WALL,
    beside: Callable[[], None] = nothing,
) -> list[tuple[Run, str]]:
    """Of each command the fastest of some runs, and the folder that its last run made.

    The commands take turns, so that a machine that is busy for a while slows all of them. A peer
    that is no command has its turn by `beside`.
    """
    outs = [os.path.join(scratch, f"out{i}") for i in range(len(makers))]
    runs: list[list[Run]] = [[] for _ in makers]
    for _ in range(repeats):
        for words_of, out, ran in zip(makers, outs, runs):
            shutil.rmtree(out, ignore_errors=True)
            ran.append(done(words_of(out), scratch))
        beside()
    return [(min(ran, key=by.seconds), out) for ran, out in zip(runs, outs)]


def beyond(
    scratch: str,
    words_of: Callable[[str, str], list[str]],
    none: str,
    some: str,
    repeats: int,
    by: By = By.WALL,
    beside: Callable[[], None] = nothing,
) -> tuple[Run, float, str, str]:
    """A run of the script `some`, what it took beyond that of `none`, and the folder that it made.

    The second is its seconds without those of `none`, the third a word on these.
    """

    def maker(name: str, text: str) -> Maker:
        shell = write(scratch, name, text)
        return lambda out: words_of(out, shell)

    makers = [maker("none", none), maker("some", some)]
    (idle, _), (ran, out) = best(scratch, makers, repeats, by, beside)
    left_out = by.seconds(idle)
    more = f"load and save, {amount(left_out)}, left out"
    return ran, max(by.seconds(ran) - left_out, 0.001), more, out


def check_same(folder: str, out: str) -> None:
    """Ends the bench if two folders differ."""
    if subprocess.run(["diff", "-r", "-q", folder, out], stdout=subprocess.DEVNULL).returncode != 0:
        sys.exit("the folder that was written differs from the one that was read")


def program() -> str:
    """The program that all.sh built."""
    return os.environ["TXFOREST"]


def write(folder: str, name: str, text: str) -> str:
    """A file of a folder, and its path."""
    path = os.path.join(folder, name)
    with open(path, "w") as file:
        file.write(text)
    return path


@dataclass
class Line:
    """A line of the table, with what it has to reach.

    Lines of one kind that follow each other are told by their growth.
    """

    kind: str
    size: int
    seconds: float
    peak_kib: int
    peer: str = ""
    peer_seconds: float | None = None
    more: str = ""
    goals: Goals = ()
    folder: str | None = None
    is_timed: bool = field(default_factory=lambda: not Counting.is_on)

    def peer_time(self) -> float:
        """The peer's seconds, of a line that has a peer."""
        assert self.peer_seconds is not None, "a goal of the peer is for a line with a peer"
        return self.peer_seconds


HEAD = [
    "",
    "size",
    "on",
    "s",
    "peak MiB",
    "per size",
    "peer s",
    "ratio",
    "goal: at most",
    "",
    "peer",
]
WIDTHS = [46, 11, 6, 8, 8, 8, 8, 6, 28, 7, 0]
TO_THE_LEFT = {0, 2, 8, 9, 10}


def number(seconds: float) -> str:
    """Seconds as the table has them; nothing if they are no number."""
    return "" if math.isnan(seconds) else f"{seconds:.3f}"


def amount(seconds: float) -> str:
    """Seconds in words, or what is counted in their place."""
    if math.isnan(seconds):
        return "no number"
    return f"{seconds:.3f} {unit()}"


def unit() -> str:
    """What is counted."""
    return "10^9" if Counting.is_on else "s"


def growth(after: Line, before: Line | None) -> str:
    """How many times more seconds, per how many times more input; 1 is linear."""
    if before is None:
        return ""
    return f"{after.seconds / before.seconds * before.size / after.size:.2f}"


def verdict(line: Line, before: Line | None) -> bool | None:
    """Whether a line reaches its goals; None if none of them says anything."""
    said = [met for met in (goal.is_met(line, before) for goal in line.goals) if met is not None]
    return all(said) if said else None


def cells(line: Line, before: Line | None, is_first: bool) -> list[str]:
    """The cells of a line; its kind stands in the first of its lines."""
    peer, more = ["", ""], line.more
    if line.peer_seconds is not None:
        more = f"{line.peer}; {line.more}" if line.more else line.peer
        ratio = line.seconds / line.peer_seconds
        peer = [number(line.peer_seconds), "" if math.isnan(ratio) else f"{ratio:.2f}"]
    kind = line.kind if is_first else ""
    met = {None: "", True: "met", False: "not met"}[verdict(line, before)]
    where = file_system(line.folder or tempfile.gettempdir())
    peak = f"{line.peak_kib // KIB_OF_MIB}" if line.peak_kib else ""
    numbers = [f"{line.seconds:.3f}", peak, growth(line, before)]
    return [
        kind,
        f"{line.size:,}",
        where,
        *numbers,
        *peer,
        ", ".join(goal.words for goal in line.goals),
        met,
        more,
    ]


def head() -> list[str]:
    """The head of the table, with what is counted."""
    return [{"s": unit(), "peer s": f"peer {unit()}"}.get(word, word) for word in HEAD]


def row(words: list[str]) -> None:
    """Prints a row of the table."""
    laid_out = [
        word.ljust(width) if i in TO_THE_LEFT else word.rjust(width)
        for i, (word, width) in enumerate(zip(words, WIDTHS))
    ]
    print("  ".join(laid_out).rstrip(), flush=True)


Verdicts = list[bool | None]
"""Whether lines reach their goals, in their order."""


def print_lines(lines: Iterable[Line]) -> Verdicts:
    """Prints each line as soon as it is measured, and tells which reach their goals."""
    last: Line | None = None
    verdicts: Verdicts = []
    for line in lines:
        is_first = last is None or (last.kind, last.folder) != (line.kind, line.folder)
        before = None if last is None or is_first or last.size == line.size else last
        row(cells(line, before, is_first))
        verdicts.append(verdict(line, before))
        last = line
    return verdicts


def tally(benches: Iterable[Verdicts]) -> str:
    """How many lines of these benches reach their goals."""
    verdicts = [verdict for bench in benches for verdict in bench]
    met, missed, open_ = (verdicts.count(verdict) for verdict in (True, False, None))
    return f"{met} met, {missed} not met, {open_} without a goal"
