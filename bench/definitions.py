"""`txforest show` of a tree that is eight folders deep, by one recursive definition.

Beside it stands a description that has the eight levels written out.
"""

from __future__ import annotations

import os
import sys
import tempfile
from collections.abc import Iterator

import measure

SIZES = [5_000, 50_000]
DEPTH = 8
REPEATS = 3

LEVEL = (
    '<d{i} : dir, <f{i} : {{(a{i} :: file) | a{i} in (d{i} only "f*")}},'
    ' {{(k{i} :: {below}) | k{i} in (d{i} only "d*")}}>>'
)
RECURSIVE = "def tree() = " + LEVEL.format(i="", below="tree()") + " tree()\n"


def written_out() -> str:
    """The description without a definition."""
    spec = "dir"
    for i in reversed(range(DEPTH + 1)):
        spec = LEVEL.format(i=i, below=spec)
    return spec + "\n"


def folders(top: str, depth: int) -> list[str]:
    """A folder with two in it, and so on: the deepest ones."""
    os.mkdir(top)
    if depth == 0:
        return [top]
    return [
        deepest for name in ("d0", "d1") for deepest in folders(os.path.join(top, name), depth - 1)
    ]


def showing(spec: str, top: str) -> measure.Maker:
    """The words that show a tree by a description."""
    return lambda _: [measure.program(), "show", spec, top]


def shown(count: int) -> list[measure.Run]:
    """The tree by the definition, and written out."""
    with tempfile.TemporaryDirectory() as scratch:
        top = os.path.join(scratch, "in")
        deepest = folders(top, DEPTH)
        for i in range(count):
            measure.write(deepest[i % len(deepest)], f"f{i:06}", f"of {i}")
        specs = [
            measure.write(scratch, name, text)
            for name, text in (("defined", RECURSIVE), ("written", written_out()))
        ]
        runs = measure.best(scratch, [showing(spec, top) for spec in specs], REPEATS)
    for ran, _ in runs:
        if not ran.out.startswith(b"valid yes\n"):
            sys.exit(f"the tree of {count} files has no value")
    return [ran for ran, _ in runs]


def lines(sizes: list[int]) -> Iterator[measure.Line]:
    """The lines of this bench, of these sizes or its own."""
    for count in sizes or SIZES:
        defined, written = shown(count)
        yield measure.Line(
            "show: a tree 8 deep by a definition",
            count,
            defined.seconds,
            defined.peak_kib,
            "the 8 levels written out",
            written.seconds,
        )
