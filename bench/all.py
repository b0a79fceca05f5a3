"""Measures and prints one table.

A line says what was done, of which size, its time, its peer's time, its goal and whether it is met.

usage: all.py [--instructions] [BENCH[=SIZE,..]..]

The benches are all if none is named. Other sizes than a bench's own are given behind its name.
A bench with a line that misses its goal is run once more.
With --instructions the program's instructions are counted by valgrind, in place of seconds. That
takes some fifty times as long, and says the same on a busy machine.
"""

from __future__ import annotations

import importlib
import shutil
import sys
import tempfile
from collections.abc import Iterator
from dataclasses import dataclass

import measure

BENCHES = (
    "run folders show definitions trace watch names looks walks engine threads scripts views large"
    " audit journal jobs"
).split()
INSTRUCTIONS = "--instructions"
# What starts many processes, or says how threads share the processors.
TIMED = {"jobs", "scripts"}


@dataclass
class Bench:
    """A bench with the sizes that are asked for, or none for its own."""

    name: str
    sizes: list[int]

    def lines(self) -> Iterator[measure.Line]:
        """Its lines."""
        yield from importlib.import_module(self.name).lines(self.sizes)


def bench_of(word: str) -> Bench:
    """The bench that a word names."""
    name, _, sizes = word.partition("=")
    if name not in BENCHES:
        sys.exit(f"{name} is none of the benches {', '.join(BENCHES)}")
    if measure.Counting.is_on and name in TIMED:
        sys.exit(f"{name} is told in seconds alone")
    return Bench(name, [int(size) for size in sizes.split(",") if size])


def measured(benches: list[Bench]) -> list[measure.Verdicts]:
    """Prints the lines of benches, and tells for each bench which of them reach their goals."""
    return [measure.print_lines(bench.lines()) for bench in benches]


def either(first: measure.Verdicts, second: measure.Verdicts) -> measure.Verdicts:
    """Which lines reach their goals in one of two goes."""
    return [met if met is None else met or again is True for met, again in zip(first, second)]


def print_table(benches: list[Bench]) -> None:
    """Prints the lines of benches, and those once more of each bench with a goal that is missed."""
    measure.row(measure.head())
    verdicts = measured(benches)
    print(measure.tally(verdicts))
    missed = [i for i, of_bench in enumerate(verdicts) if False in of_bench]
    if missed:
        print(f"\nonce more: {', '.join(benches[i].name for i in missed)}")
        for i, again in zip(missed, measured([benches[i] for i in missed])):
            verdicts[i] = either(verdicts[i], again)
        print(f"in one of the two goes: {measure.tally(verdicts)}")


def main() -> None:
    """Prints where is measured, and the table."""
    words = sys.argv[1:]
    if INSTRUCTIONS in words:
        words.remove(INSTRUCTIONS)
        if shutil.which("valgrind") is None:
            sys.exit(f"{INSTRUCTIONS} needs valgrind")
        measure.Counting.is_on = True
    if not words:
        words = [name for name in BENCHES if not (measure.Counting.is_on and name in TIMED)]
    benches = [bench_of(word) for word in words]
    measure.use_memory()
    for where in (tempfile.gettempdir(), *measure.disks()):
        print(f"{measure.file_system(where)}: {where}")
    print_table(benches)


if __name__ == "__main__":
    main()
