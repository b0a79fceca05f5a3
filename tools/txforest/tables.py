"""The table of a folder, `.forest-links`: its links, its executable flags, and its bad lines.

A path is a tuple of names, as bytes. Kinds are those of the folder's entries: "f" of a file, "d" of
a directory.
"""

from __future__ import annotations

import re
from collections.abc import Iterator, Mapping
from typing import NamedTuple

from . import model
from .terminal import below, many, shown

Path = tuple[bytes, ...]
LINE = re.compile(rb"[^\n]*\n|[^\n]+")
NAMES_LIMIT = 64


class BadLine(NamedTuple):
    """A line of a table that is refused: its number from 1, its bytes, and why. The number is 0 if
    the table as a whole is refused."""

    number: int
    line: bytes
    why: str


class Table(NamedTuple):
    """What a table says: the texts of links by their paths, and the executable files."""

    links: dict[Path, bytes]
    flags: set[Path]


def read_table(text: bytes) -> Table:
    """What a table says that has no bad lines."""
    links: dict[Path, bytes] = {}
    flags: set[Path] = set()
    for line in LINE.findall(text):
        path, mark, target = model.table_line(line)
        if target is not None:
            links[path] = target
        elif mark == "*":
            flags.add(path)
    return Table(links, flags)


def table_faults(text: bytes, kinds: Mapping[Path, str]) -> Iterator[BadLine]:
    """Each line of a table that is bad, by the entries of its folder."""
    if len(text) > model.TABLE_LIMIT:
        most = many(model.TABLE_LIMIT, "byte")
        yield BadLine(0, b"", f"a table has at most {most}, and it has more")
        return
    lines = LINE.findall(text)
    version2 = lines[:1] == [model.VERSION2]
    before: Path | None = None
    flags = bad = 0
    for number, line in enumerate(lines, 1):
        if number == 1 and version2:
            continue
        path, mark, _ = model.table_line(line)
        why = standing_fault(kinds, path, mark, before, version2) if mark else line_fault(line)
        if why:
            bad += 1
            yield BadLine(number, line, why)
        else:
            before = path
            flags += mark == "*"
    if version2 and not flags and not bad:
        why = "it is of version 2 and has no line `PATH *`; without flags it is of version 1"
        yield BadLine(1, lines[0], why)


def line_fault(line: bytes) -> str:
    """Why a line is of no form of the table."""
    if not line.endswith(b"\n"):
        return "the line has no line feed at its end"
    parts = line[:-1].split(b" ")
    is_link = len(parts) == 3 and parts[1] == b"->"
    if not is_link and not (len(parts) == 2 and parts[1] == b"*"):
        form = "it is no `PATH -> TARGET` and no `PATH *`, with single spaces"
        return f"{form}; a space in a name is %20"
    for spelling in parts[::2] if is_link else parts[:1]:
        if model.unspelled(spelling) is None:
            rule = "every byte but 0x21 to 0x7E, and %, as % and two upper-case digits"
            return f"{shown(spelling)} is not as the program spells it: {rule}"
    path = model.unspelled(parts[0]) or b""
    if path == b"/":
        return "its path is the root"
    if path[:1] != b"/" or not all(map(model.is_name, path[1:].split(b"/"))):
        return f"{shown(path)} is no path: names with / before each"
    if path.count(b"/") > NAMES_LIMIT:
        return f"its path has {path.count(b'/')} names; it has at most {NAMES_LIMIT}"
    rule = "`/`, or at most 64 names, `.` and `..`, with single slashes between them"
    return f"{shown(model.unspelled(parts[2]) or b'')} is no text of a link: {rule}"


def standing_fault(
    kinds: Mapping[Path, str], path: Path, mark: str, before: Path | None, version2: bool
) -> str | None:
    """Why a line of a right form can't stand where it does."""
    if before is not None and path == before:
        return "the line before has the same path"
    if before is not None and path < before:
        order = "paths are in ascending order, name by name"
        return f"its path comes before {below(before)}, the path of the line before: {order}"
    if mark == "*":
        if not version2:
            return "a flag needs the first line `version 2`"
        there = "a directory" if path in kinds else "nothing"
        return None if kinds.get(path) == "f" else f"{there} stands there, and no file"
    if path in kinds:
        return "a file or a directory stands there already"
    if len(path) > 1 and kinds.get(path[:-1]) != "d":
        return f"{below(path[:-1])} is no directory"
    return None
