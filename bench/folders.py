"""`txforest run` over folders of directories, of deep trees and of links.

Beside it stand its calls alone, and the time of `cp -r` of the same folder is told.
"""

from __future__ import annotations

import os
from collections.abc import Iterator

import measure
from run import everywhere, loaded_and_saved

SIZES = [10_000, 98_999]
IN_EACH = 100
LINKS = 50_000
DEEP_FILES = 20_000
LEVELS = 59
DESCRIPTION = "dir\n"
SCRIPT = "txn { }\n"


def directories(path: str, count: int) -> None:
    """A folder of directories of 100 files."""
    os.mkdir(path)
    for i in range(count):
        if i % IN_EACH == 0:
            below = os.path.join(path, f"d{i // IN_EACH:04}")
            os.mkdir(below)
        measure.write(below, f"f{i:05}", f"{i % 1000}")


def deep(path: str, count: int) -> None:
    """Files below a chain of directories."""
    below = os.path.join(path, *(f"d{i:02}" for i in range(LEVELS)))
    os.makedirs(below)
    for i in range(count):
        measure.write(below, f"f{i:05}", f"{i % 1000}")


def links(path: str, count: int) -> None:
    """A folder with a table of links alone."""
    os.mkdir(path)
    measure.write(path, ".forest-links", "".join(f"/l{i:05} -> gone/{i}\n" for i in range(count)))


def lines(sizes: list[int]) -> Iterator[measure.Line]:
    """The lines of this bench, of these sizes or its own."""
    yield from everywhere(
        f"run: files in directories of {IN_EACH}", directories, sizes or SIZES, DESCRIPTION, SCRIPT
    )
    yield from everywhere(
        f"run: files below {LEVELS} directories", deep, [DEEP_FILES], DESCRIPTION, SCRIPT
    )
    line = loaded_and_saved("run: links in one folder", links, LINKS, DESCRIPTION, SCRIPT)
    yield measure.Line(line.kind, line.size, line.seconds, line.peak_kib, more="one file for cp -r")
