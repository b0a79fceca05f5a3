"""`txforest run` with several scripts on threads, against SQLite doing the same counts.

The program loads, runs, prints and saves in its time; SQLite's is of the transactions alone.
"""

from __future__ import annotations

import os
import re
import sys
import tempfile
from collections.abc import Callable, Iterator, Sequence
from dataclasses import dataclass

import measure
import sqlite_peer
from goals import Goals, of_peer

TEXT_LIMIT = 65_536
COUNT = 'txn{to("%s")down fetch n:str store(text((int(n)+1)))}\n'
STORE = 'txn{to("%s")down fetch n:str store(n)}\n'
FOCUSED = "txn{down fetch n:str store(text((int(n)+1)))}\n"
REPORT = re.compile(rb"forest report 1\nentries (\d+)\n")
RETRIES = re.compile(rb"(?m)^retries (\d+)$")


@dataclass
class Load:
    """Shells, each with a number of transactions, and the file that each transaction counts in.

    The description is a focus on the one file, or else a comprehension over all.
    """

    name: str
    shells: int
    each: int
    files: int
    file_of: Callable[[int, int], int]
    focus: bool = False
    of_memory: float | None = None


REPEATS = 3
LOADS = [
    Load("8 shells, 16 files", 8, 200, 16, lambda shell, i: (shell * 7 + i * 5) % 16),
    Load("64 shells, a file each", 64, 1_562, 64, lambda shell, _: shell, of_memory=0.5),
    Load("1 shell, 64 files in turn", 1, 1_600, 64, lambda _, i: i % 64, of_memory=1.0),
    Load("64 shells, a file each", 64, 25, 64, lambda shell, _: shell),
    Load("64 shells, one file", 64, 100, 1, lambda *_: 0),
    Load("1 shell, one file by a focus", 1, 1_300, 1, lambda *_: 0, focus=True),
]


def name_of(i: int) -> str:
    """Two bytes, so that a script of 1,562 transactions stays within its 65,536 bytes."""
    return chr(ord("0") + i % 10) + chr(ord("a") + i // 10)


def set_of(names: Sequence[str]) -> str:
    """A set as an expression that nests as little as it can."""
    parts = [f'one("{name}")' for name in names]
    while len(parts) > 1:
        parts = [f"({a} union {b})" for a, b in zip(parts[::2], parts[1::2])] + parts[
            len(parts) & ~1 :
        ]
    return parts[0]


def description_of(load: Load, names: list[str]) -> str:
    """The description of a load."""
    return (
        f'("{names[0]}" :: file)\n' if load.focus else f"{{(n :: file) | n in {set_of(names)}}}\n"
    )


def script_of(load: Load, names: list[str], shell: int) -> str:
    """The script of a shell."""
    if load.focus:
        return FOCUSED * load.each
    transaction = COUNT if load.each * len(COUNT) < TEXT_LIMIT else STORE
    return "".join(transaction % names[load.file_of(shell, i)] for i in range(load.each))


def beside_sqlite(
    load: Load, shells: list[list[sqlite_peer.Step]]
) -> tuple[measure.Run, int, float, float]:
    """The fastest run with its retries, and the fastest of SQLite with a journal and in memory.

    They take turns.
    """
    turns = [
        (
            ran(load),
            sqlite_peer.with_journal(load.files, shells),
            sqlite_peer.in_memory(load.files, shells),
        )
        for _ in range(REPEATS)
    ]
    run, retries = min((turn[0] for turn in turns), key=lambda it: it[0].seconds)
    return run, retries, min(turn[1] for turn in turns), min(turn[2] for turn in turns)


def ran(load: Load) -> tuple[measure.Run, int]:
    """The run, and how often a transaction started again."""
    with tempfile.TemporaryDirectory() as scratch:
        names = [name_of(i) for i in range(load.files)]
        folder = os.path.join(scratch, "in")
        os.mkdir(folder)
        for name in names:
            measure.write(folder, name, "0")
        spec = measure.write(scratch, "spec", description_of(load, names))
        scripts = [
            measure.write(scratch, f"s{shell}", script_of(load, names, shell))
            for shell in range(load.shells)
        ]
        run = measure.done(
            [measure.program(), "run", spec, folder, os.path.join(scratch, "out"), *scripts],
            scratch,
        )
    entries, retries = REPORT.match(run.out), RETRIES.search(run.out)
    if not entries or int(entries[1]) != load.shells * load.each or not retries:
        sys.exit(f"another report: {run.out[:200]!r}")
    return run, int(retries[1])


def two_lines(
    kind: str,
    run: measure.Run,
    more: str,
    count: int,
    journaled: float,
    in_memory: float,
    goals: Goals = (),
) -> Iterator[measure.Line]:
    """Two lines of a run, beside SQLite with a journal and in memory."""
    yield measure.Line(kind, count, run.seconds, run.peak_kib, "SQLite, journal", journaled, more)
    yield measure.Line(
        kind, count, run.seconds, run.peak_kib, "SQLite, memory", in_memory, more, goals
    )


def lines(_: list[int]) -> Iterator[measure.Line]:
    """The lines of this bench, of these sizes or its own."""
    for load in LOADS:
        shells: list[list[sqlite_peer.Step]] = [
            [(load.file_of(shell, i), None) for i in range(load.each)]
            for shell in range(load.shells)
        ]
        run, retries, journaled, in_memory = beside_sqlite(load, shells)
        count = load.shells * load.each
        more = f"{count / run.seconds:,.0f} a second, {retries} retries"
        yield from two_lines(
            f"run: {load.name}",
            run,
            more,
            count,
            journaled,
            in_memory,
            (of_peer(load.of_memory),) if load.of_memory else (),
        )
