"""Filestores: names, paths, nodes, where a path lands, and what a transaction sees.

A filestore is a mapping from paths to nodes, in which each directory names what stands below it.
"""

from __future__ import annotations

from typing import Callable, Literal, NamedTuple, Protocol

from .limits import LEVELS, LINKS
from .refusals import Stop
from .spelling import Path, path_text, quote

TABLE = b".forest-links"
"""The name of a folder's table, which names no node."""


class File(NamedTuple):
    """A file's bytes, and whether it is executable."""

    kind: Literal["file"]
    content: bytes
    executable: bool


class Dir(NamedTuple):
    """The names in a directory."""

    kind: Literal["dir"]
    names: frozenset[bytes]


class Link(NamedTuple):
    """A link's text."""

    kind: Literal["link"]
    text: bytes


Node = File | Dir | Link
Filestore = dict[Path, Node]
Changes = dict[Path, "Node | None"]
"""What stands at paths after a change; None where nothing does."""

EMPTY = File("file", b"", False)


def blocked(path: Path) -> Stop:
    """The refusal that names the path in the way."""
    return Stop(6, "Blocked", " " + quote(path_text(path)))


def is_name(name: bytes) -> bool:
    """Whether an entry of a directory may have this name."""
    if not 1 <= len(name) <= 255 or b"/" in name or b"\0" in name or name in (b".", b"..", TABLE):
        return False
    try:
        name.decode()
    except UnicodeDecodeError:
        return False
    return True


def link_parts(text: bytes) -> tuple[bool, list[bytes]] | None:
    """Whether a link's text is absolute, and its components; None if it is no such text.

    How many components there are is not checked here.
    """
    if not 1 <= len(text) <= 4096:
        return None
    if text == b"/":
        return True, []
    absolute = text[:1] == b"/"
    parts = text[absolute:].split(b"/")
    if not all(p in (b".", b"..") or is_name(p) for p in parts):
        return None
    return absolute, parts


# ---- where a path lands


class At(NamedTuple):
    """A node stands there."""

    kind: Literal["at"]
    path: Path


class Absent(NamedTuple):
    """Nothing stands there: the directory that lacks the first of these names."""

    kind: Literal["absent"]
    directory: Path
    names: Path


class Blocked(NamedTuple):
    """The path in the way."""

    kind: Literal["blocked"]
    path: Path


class Links(NamedTuple):
    """The path leads through more than 40 links."""

    kind: Literal["links"]


Landing = At | Absent | Blocked | Links
Get = Callable[[Path], "Node | None"]
"""The node at a path, with no link followed."""


def resolve(get: Get, path: Path, follow: bool) -> Landing:
    """Where a path lands; a link that stands last is followed only if `follow` says so."""
    here: Path = ()
    rest, followed = list(path), 0
    while rest:
        part, rest = rest[0], rest[1:]
        if part == b".":
            continue
        if part == b"..":
            here = here[:-1]
            continue
        there = (*here, part)
        node = get(there) if len(there) <= LEVELS else None
        if node is None:
            if any(p in (b".", b"..") for p in rest):
                return Blocked("blocked", here)
            return Absent("absent", here, (part, *rest))
        if node[0] == "dir":
            here = there
        elif node[0] == "file":
            return Blocked("blocked", there) if rest else At("at", there)
        else:
            if not rest and not follow:
                return At("at", there)
            if followed == LINKS:
                return Links("links")
            followed += 1
            link = link_parts(node[1])
            assert link is not None, "a filestore's links have link texts"
            here, rest = () if link[0] else here, [*link[1], *rest]
    return At("at", here)


# ---- views


class TooMuch(Exception):
    """More parts are to be valued than the view allows."""


class Sight(Protocol):
    """What can be asked of a filestore while a part of a description is valued."""

    def get(self, path: Path) -> Node | None:
        """The node at a path."""

    def pay(self) -> None:
        """Counts a part whose value is asked for."""


class View:
    """What a transaction sees: what is known, with its own changes on top.

    `way` are the paths that it was asked for, in order. If `most` is set, it is the greatest number
    of parts that are valued.
    """

    most: int | None = None

    def __init__(self, known: Get) -> None:
        self.known = known
        self.own: Changes = {}
        self.way: dict[Path, bool] = {}
        self.valued = 0

    def pay(self) -> None:
        """Counts a part whose value is asked for; with calls they can be too many to wait for."""
        self.valued += 1
        if self.most is not None and self.valued > self.most:
            raise TooMuch

    def get(self, path: Path) -> Node | None:
        """What stands at a path."""
        base = self.known(path)
        self.way[path] = True
        return self.own[path] if path in self.own else base


class Quiet:
    """A view of a view that adds nothing to its way: what it is asked for was asked for before."""

    def __init__(self, view: View) -> None:
        self.view = view

    def pay(self) -> None:
        """Counts a part for the view."""
        self.view.pay()

    def get(self, path: Path) -> Node | None:
        """What the view has at a path."""
        return self.view.own[path] if path in self.view.own else self.view.known(path)


def exists(view: Sight, path: Path) -> bool:
    """Whether an entry is there; a link that stands last is one itself."""
    return resolve(view.get, path, False).kind == "at"


KINDS: dict[str, tuple[str, bool]] = {
    "file": ("file", True),
    "dir": ("dir", True),
    "link": ("link", False),
}
"""The forms of single nodes: the node's kind, and whether a link that stands last is followed."""


def found_at(view: Sight, path: Path, kind: str) -> Node | None:
    """The node at a path by a form; None if none stands there, or one of another kind."""
    wanted, follow = KINDS[kind]
    landing = resolve(view.get, path, follow)
    node = view.get(landing.path) if landing.kind == "at" else None
    return node if node and node[0] == wanted else None


def over(store: Filestore, changes: Changes) -> Filestore:
    """A filestore with changes."""
    changed: Changes = {**store, **changes}
    return {path: node for path, node in changed.items() if node is not None}
