"""Weighs the crates: the seconds that the proof and the build of each take a processor.

usage: weigh.py FOLDER [TIMES]

FOLDER is that of a gate, which has been started there and proves from nothing. As soon as none of
its proofs has run for a minute, a line is printed for each crate, as `weights` has them. On a
machine that does other work a proof takes more seconds of processor: these are taken TIMES.
"""

from __future__ import annotations

import os
import re
import sys
import time
from collections.abc import Iterator

CRATE = re.compile(r"\bbuild --crate-name (\w+)")
TICKS = os.sysconf("SC_CLK_TCK")
PAUSE = 0.5
QUIET = 60.0
# Where seconds of processor stand behind the name of a process, and when it was started.
SECONDS, STARTED = slice(11, 15), 19

Weights = dict[str, dict[str, float]]
"""For each crate the seconds of each of its processes."""


def processes(folder: str) -> Iterator[tuple[str, str, float]]:
    """The proofs that run below a folder: the crate, the process, and its seconds up to now."""
    for number in filter(str.isdigit, os.listdir("/proc")):
        at = f"/proc/{number}"
        try:
            if not os.readlink(f"{at}/cwd").startswith(folder + os.sep):
                continue
            with open(f"{at}/cmdline", encoding="utf-8", errors="replace") as it:
                found = CRATE.search(it.read().replace("\0", " "))
            with open(f"{at}/stat", encoding="utf-8", errors="replace") as it:
                told = it.read().rpartition(")")[2].split()
        except OSError:
            continue
        if found:
            seconds = sum(int(word) for word in told[SECONDS]) / TICKS
            yield found[1], f"{number} {told[STARTED]}", seconds


def weigh(folder: str, weights: Weights) -> bool:
    """Takes in the seconds of the proofs that run; whether there is one."""
    found = [*processes(folder)]
    for crate, process, seconds in found:
        weights.setdefault(crate, {})[process] = seconds
    return bool(found)


def main() -> None:
    """Weighs until all is quiet."""
    folder = os.path.realpath(sys.argv[1])
    times = float(sys.argv[2]) if len(sys.argv) > 2 else 1.0
    weights: Weights = {}
    last = time.monotonic()
    while time.monotonic() < last + QUIET:
        if weigh(folder, weights):
            last = time.monotonic()
        time.sleep(PAUSE)
    for crate, by_process in weights.items():
        print(crate, max(round(times * sum(by_process.values())), 1))


if __name__ == "__main__":
    main()
