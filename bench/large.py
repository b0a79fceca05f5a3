"""`txforest large`: 1,600 counts and appends by 8 shells over a tree of 16 projects.

The case is generated from a number. Beside it stands SQLite, which does the same steps.
"""

from __future__ import annotations

import sys
import tempfile
from collections.abc import Iterator

import measure
import sqlite_peer
from threads import two_lines

NUMBER = 7
PROJECTS, NOTES, SHELLS, TRANSACTIONS = 16, 8, 8, 200
LOGS = 3
REPEATS = 3


def draws(number: int) -> Iterator[int]:
    """What the generator draws from."""
    while True:
        number = (number * 1_664_525 + 1_013_904_223) % 2**32
        yield number // 65_536


def shells_of(number: int) -> list[list[sqlite_peer.Step]]:
    """The steps of each shell, as docs/FORMATS.md has the generator."""
    drawn = draws(number)
    for _ in range(1 + 2 * PROJECTS * NOTES):
        next(drawn)

    def step(shell: int, i: int) -> sqlite_peer.Step:
        project, kind = next(drawn) % PROJECTS, next(drawn) % 4
        return project, f"s{shell}t{i}" if kind == LOGS else None

    return [[step(shell, i) for i in range(TRANSACTIONS)] for shell in range(SHELLS)]


def wanted(shells: list[list[sqlite_peer.Step]]) -> bytes:
    """What `large` has to print."""
    steps = [text for steps in shells for _, text in steps]
    logged = sum(text is not None for text in steps)
    counts = {
        "transactions": len(steps),
        "done": len(steps),
        "counted": len(steps) - logged,
        "logged": logged,
    }
    return "".join(
        f"{word} {n}\n" for word, n in (counts | {"nodes": 3 + 12 * PROJECTS + logged}).items()
    ).encode()


def beside(shells: list[list[sqlite_peer.Step]]) -> tuple[float, float]:
    """The seconds of SQLite with a journal, and in memory."""
    return sqlite_peer.with_journal(PROJECTS, shells), sqlite_peer.in_memory(PROJECTS, shells)


def lines(sizes: list[int]) -> Iterator[measure.Line]:
    """The lines of this bench, of these sizes or its own."""
    for number in sizes or [NUMBER]:
        shells = shells_of(number)
        peers: list[tuple[float, float]] = []
        with tempfile.TemporaryDirectory() as scratch:
            ((run, _),) = measure.best(
                scratch,
                [lambda out: [measure.program(), "large", f"{number}", out]],
                REPEATS,
                beside=lambda: peers.append(beside(shells)),
            )
        if run.out != wanted(shells):
            sys.exit(f"large {number} prints {run.out!r}")
        more = f"{SHELLS * TRANSACTIONS / run.seconds:,.0f} a second"
        journaled, in_memory = (min(found) for found in zip(*peers))
        yield from two_lines(
            f"large {number}: counts and appends, 8 shells",
            run,
            more,
            SHELLS * TRANSACTIONS,
            journaled,
            in_memory,
        )
