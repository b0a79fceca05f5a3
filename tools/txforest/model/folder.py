"""Real folders: read as filestores, and compared with what a filestore is saved as."""

from __future__ import annotations

import os
from typing import Literal

from .limits import FILE_LIMIT, LEVELS, LOADED, NODES, TABLE_LIMIT
from .refusals import Refused
from .spelling import Path, path_text, quote
from .store import TABLE, Dir, File, Filestore, is_name
from .table import read_table, table_of

Saved = dict[Path, tuple[Literal["file"], bytes] | tuple[Literal["dir"], frozenset[bytes]]]
"""What stands in a folder: of a path its kind, and a file's bytes or a directory's names."""


def too_large(path: Path) -> Refused:
    return Refused(f"TooLarge {quote(path_text(path))}")


class Loader:
    """A walk over a folder: the filestore up to now, and the bytes of its files."""

    def __init__(self) -> None:
        self.store: Filestore = {(): Dir("dir", frozenset())}
        self.loaded = 0

    def walk(self, at: bytes, path: Path) -> None:
        """Takes in what stands in the directory `at`, whose path is this one; or raises Refused."""
        names: set[bytes] = set()
        for name in sorted(os.listdir(at)):
            if name != TABLE or path:
                self.take(os.path.join(at, name), (*path, name))
                names.add(name)
        self.store[path] = Dir("dir", frozenset(names))

    def take(self, at: bytes, path: Path) -> None:
        """Takes in an entry with all below it."""
        if not is_name(path[-1]):
            raise Refused(f"BadName {quote(path_text(path))}")
        if len(path) > LEVELS or len(self.store) >= NODES:
            raise too_large(path)
        if os.path.islink(at) or not (os.path.isfile(at) or os.path.isdir(at)):
            raise Refused(f"Strange {quote(path_text(path))}")
        if os.path.isdir(at):
            self.store[path] = Dir("dir", frozenset())
            self.walk(at, path)
            return
        size = os.path.getsize(at)
        if size > FILE_LIMIT or self.loaded + size > LOADED:
            raise too_large(path)
        self.loaded += size
        self.store[path] = File("file", content_of(at), False)


def content_of(at: bytes) -> bytes:
    with open(at, "rb") as it:
        return it.read()


def load(folder: str | bytes) -> Filestore:
    """The filestore of a real folder; or raises Refused, of the first refusal."""
    loader = Loader()
    loader.walk(os.fsencode(folder), ())
    table = os.path.join(os.fsencode(folder), TABLE)
    if os.path.lexists(table):
        if os.path.islink(table) or not os.path.isfile(table):
            raise Refused('Strange "/.forest-links"')
        text = content_of(table)
        if len(text) > TABLE_LIMIT:
            raise too_large((TABLE,))
        read_table(loader.store, text, loader.loaded)
    return loader.store


def saved(folder: str | bytes) -> Saved:
    """A real folder with its table, to compare with."""
    found: Saved = {}
    top = os.fsencode(folder)
    for at, folders, files in os.walk(top):
        path = tuple(p for p in os.path.relpath(at, top).split(b"/") if p != b".")
        found[path] = ("dir", frozenset(n for n in folders + files if path or n != TABLE))
        for name in files:
            found[(*path, name)] = ("file", content_of(os.path.join(at, name)))
    return found


def folder_of(store: Filestore) -> Saved:
    """What a filestore is saved as: its links and executable files are lines of the table."""
    found: Saved = {p: ("file", n.content) for p, n in store.items() if n.kind == "file"}
    for p, n in store.items():
        if n.kind == "dir":
            found[p] = ("dir", frozenset(m for m in n.names if store[(*p, m)].kind != "link"))
    table = table_of(store)
    return {**found, (TABLE,): ("file", table)} if table else found
