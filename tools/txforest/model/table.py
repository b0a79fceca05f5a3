"""The table of a folder: the lines in which links and executable files stand."""

from __future__ import annotations

import re
from typing import Literal, Mapping, NamedTuple

from .limits import LEVELS, LOADED, NODES
from .refusals import Refused
from .spelling import Path, path_text, spelled, unspelled
from .store import Dir, File, Filestore, Link, is_name, link_parts

VERSION2 = b"version 2\n"
"""The first line of a table with executable files."""

LINE = re.compile(rb"[^\n]*\n|[^\n]+")


class Line(NamedTuple):
    """A line of a table: its path, its mark, and the link's text; no path if it is of no form."""

    path: Path
    mark: Literal["*", "->"] | None
    target: bytes | None


NO_LINE = Line((), None, None)


def table_line(line: bytes) -> Line:
    """A line of a table, with its line feed."""
    parts = line[:-1].split(b" ") if line.endswith(b"\n") else []
    target = None
    if len(parts) == 3 and parts[1] == b"->":
        target = unspelled(parts[2])
        link = link_parts(target) if target is not None else None
        if link is None or len(link[1]) > LEVELS:
            return NO_LINE
    elif len(parts) != 2 or parts[1] != b"*":
        return NO_LINE
    spelling = unspelled(parts[0])
    if spelling is None or spelling[:1] != b"/":
        return NO_LINE
    path = tuple(spelling[1:].split(b"/"))
    if not all(map(is_name, path)) or len(path) > LEVELS:
        return NO_LINE
    return Line(path, "*" if target is None else "->", target)


def read_table(store: Filestore, text: bytes, loaded: int) -> None:
    """Puts the links and the flags of a table into the filestore of its folder; or raises Refused.

    `loaded` are the bytes of the folder's files.
    """
    lines = LINE.findall(text)
    version2 = lines[:1] == [VERSION2]
    before: Path | None = None
    flags = 0
    for i, line in enumerate(lines, 1):
        if version2 and i == 1:
            continue
        path, mark, target = table_line(line)
        if not path or before is not None and path <= before:
            raise Refused(f"BadTable {i}")
        before = path
        if mark == "*":
            file = store.get(path)
            if not version2 or not isinstance(file, File):
                raise Refused(f"BadTable {i}")
            store[path] = File("file", file.content, True)
            flags += 1
            continue
        parent = store.get(path[:-1])
        if not isinstance(parent, Dir) or path in store or target is None:
            raise Refused(f"BadTable {i}")
        store[path[:-1]] = Dir("dir", parent.names | {path[-1]})
        store[path] = Link("link", target)
        loaded += len(target)
        if len(store) > NODES or loaded > LOADED:
            raise Refused('TooLarge "/.forest-links"')
    if version2 and not flags:
        raise Refused("BadTable 1")


def table_of(store: Mapping[Path, File | Dir | Link]) -> bytes:
    """The text of a filestore's table, empty if it has neither links nor executable files."""
    links = [(p, b" -> " + spelled(n[1])) for p, n in store.items() if n[0] == "link"]
    flags = [(p, b" *") for p, n in store.items() if n[0] == "file" and n[2]]
    lines = b"".join(spelled(path_text(p)) + mark + b"\n" for p, mark in sorted(links + flags))
    return VERSION2 + lines if flags else lines
