"""Walks and edits in the midst of many names.

Moves from element to element of a comprehension over 50,000 names. Names that one transaction adds
one by one to a directory of 50,000. Files that are created there, by a transaction each, before all
names and behind them.
"""

from __future__ import annotations

import os
import sys
import tempfile
from collections.abc import Iterator

import measure
import sqlite_peer
from goals import MICROSECONDS, MILLISECONDS, NEAR_LINEAR, Goals, each
from names import empty_files

SIZES = [500, 1_000, 2_000]
ADDED = [500, 2_000]
ADDED_REPEATS = 3
CREATED = 2_300
CREATED_AMONG = [5_000, 50_000]
BEFORE, BEHIND = "a", "z"
CREATED_REPEATS = 21
CREATE = 'txn{to("%s")down create}\n'
NAMES = 50_000
MOVE_REPEATS = 5
LISTED = '<l : ("list" :: file), {(n :: file) | n in lines(l)}>\n'


def walked(
    scratch: str, spec: str, commands: str, repeats: int
) -> tuple[measure.Run, float, str, str]:
    """A run of a transaction of commands over the folder `in`, as `measure.beyond` tells it."""
    spec = measure.write(scratch, "spec", spec)
    words_of = lambda out, shell: [
        measure.program(),
        "run",
        spec,
        os.path.join(scratch, "in"),
        out,
        shell,
    ]
    ran, seconds, more, out = measure.beyond(
        scratch, words_of, "txn { }\n", f"txn {{ {commands} }}\n", repeats
    )
    if b"\nentry 0 shell 0 txn 0 done\n" not in ran.out:
        sys.exit(f"the transaction was refused: {ran.out[:200]!r}")
    return ran, seconds, more, out


def moves(count: int) -> measure.Line:
    """A transaction of `count` moves."""
    with tempfile.TemporaryDirectory() as scratch:
        folder = os.path.join(scratch, "in")
        os.mkdir(folder)
        measure.write(folder, "list", "".join(f"f{i:05}\n" for i in range(NAMES)))
        ran, seconds, more, _ = walked(
            scratch, LISTED, "into next into " + "next " * count, MOVE_REPEATS
        )
    return measure.Line(
        f"run: `next` among {NAMES:,} names", count, seconds, ran.peak_kib, more=more
    )


def additions(count: int) -> measure.Line:
    """A transaction that adds `count` names."""
    with tempfile.TemporaryDirectory() as scratch:
        empty_files(os.path.join(scratch, "in"), NAMES)
        added = "".join(f"a{i:04}\\n" for i in range(count))
        commands = (
            f'fetch d : names each n in (lines("{added}")) {{ set d = (d union one(n)) store(d) }}'
        )
        ran, seconds, more, out = walked(scratch, "dir\n", commands, ADDED_REPEATS)
        if len(os.listdir(out)) != NAMES + count:
            sys.exit("not every name was added")
    goal = each(3, MILLISECONDS, count)
    return measure.Line(
        f"run: names added to {NAMES:,} one by one",
        count,
        seconds,
        ran.peak_kib,
        more=more,
        goals=(goal,),
    )


def created(names: int, letter: str, goals: Goals) -> measure.Line:
    """Files, each made by a transaction of its own in a directory that has `names` names.

    These all begin with `f`, and the new ones with `letter`. It is told in seconds of processor,
    since the run also saves each file that was made, which the lines of `run` tell.
    """
    with tempfile.TemporaryDirectory() as scratch:
        folder = os.path.join(scratch, "in")
        empty_files(folder, names)
        added = [f"{letter}{i:04}" for i in range(CREATED)]
        listed = "".join(f"{name}\\n" for name in added)
        spec = measure.write(scratch, "spec", f'{{(n :: file) | n in lines("{listed}")}}\n')
        words_of = lambda out, shell: [measure.program(), "run", spec, folder, out, shell]
        script = "".join(CREATE % name for name in added)
        peers: list[float] = []
        ran, seconds, more, out = measure.beyond(
            scratch,
            words_of,
            "",
            script,
            CREATED_REPEATS,
            measure.By.PROCESSOR,
            lambda: peers.append(sqlite_peer.insertions(names, CREATED)),
        )
        if ran.out.count(b" done\n") != CREATED or len(os.listdir(out)) != names + CREATED:
            sys.exit(f"not every file was made: {ran.out[:200]!r}")
    where = {BEFORE: "before", BEHIND: "behind"}[letter]
    return measure.Line(
        f"run: {CREATED:,} files created {where} all names",
        names,
        seconds,
        ran.peak_kib,
        "SQLite, memory",
        min(peers),
        more,
        goals,
    )


def lines(sizes: list[int]) -> Iterator[measure.Line]:
    """The lines of this bench, of these sizes or its own."""
    yield from (moves(count) for count in sizes or SIZES)
    yield from (additions(count) for count in sizes or ADDED)
    for letter, most in ((BEFORE, 30), (BEHIND, 110)):
        goals: Goals = (each(most, MICROSECONDS, CREATED), NEAR_LINEAR)
        yield from (created(names, letter, goals) for names in CREATED_AMONG)
