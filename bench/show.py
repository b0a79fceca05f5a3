"""`txforest show` of a comprehension over the files of a flat folder.

Beside them stand a tenth as many files that its glob leaves out.
"""

from __future__ import annotations

import os
import sys
import tempfile
from collections.abc import Iterator

import measure

SIZES = [500, 5_000, 50_000]
BESIDE = 10
REPEATS = 3
DESCRIPTION = '<d : dir, {(n :: file) | n in (d only "f*")}>\n'


def names_of(count: int) -> tuple[list[str], list[str]]:
    """The files that the glob matches, and those beside them."""
    return [f"f{i:06}" for i in range(count)], [f"g{i:06}" for i in range(count // BESIDE)]


def shown_of(matched: list[str], beside: list[str]) -> bytes:
    """What is shown, in plain Python."""
    names = ", ".join(f'"{name}"' for name in matched + beside)
    rows = ", ".join(f'"{name}" = "of {name}"' for name in matched)
    return f"valid yes\nvalue <{{{names}}}, [{rows}]>\n".encode()


def shown(count: int) -> measure.Run:
    """The fastest run of `show`, which has to print what stands there."""
    matched, beside = names_of(count)
    with tempfile.TemporaryDirectory() as scratch:
        folder = os.path.join(scratch, "in")
        os.mkdir(folder)
        for name in matched + beside:
            measure.write(folder, name, f"of {name}")
        spec = measure.write(scratch, "spec", DESCRIPTION)
        words = [measure.program(), "show", spec, folder]
        ((ran, _),) = measure.best(scratch, [lambda _: words], REPEATS)
    if ran.out != shown_of(matched, beside):
        sys.exit(f"what is shown of {count} files is not what stands there")
    return ran


def lines(sizes: list[int]) -> Iterator[measure.Line]:
    """The lines of this bench, of these sizes or its own."""
    for count in sizes or SIZES:
        ran = shown(count)
        yield measure.Line(
            "show: files of a comprehension",
            count,
            ran.seconds,
            ran.peak_kib,
            more=f"{len(ran.out):,} bytes printed",
        )
