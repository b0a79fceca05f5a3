"""Edits: the changes that `store`, `create` and `remove` make at a place."""

from __future__ import annotations

from .expr import Env, Value, guarded
from .limits import LEVELS
from .refusals import ABSENT, BAD_NAME, EXISTS, NO_DEFAULT, TOO_DEEP, WRONG_FORM, Stop
from .spelling import Path
from .store import (
    EMPTY,
    KINDS,
    Changes,
    Dir,
    File,
    Link,
    Node,
    View,
    blocked,
    is_name,
    link_parts,
    resolve,
)
from .trees import Act, Description, Spec
from .values import Address, place

TAKEN: dict[str, tuple[type, ...]] = {"file": (bytes, bool), "link": (bytes,), "dir": (frozenset,)}
"""Of each form of a node the values that can be stored there."""


def edit(view: View, root: Description, address: Address, act: Act, variables: Env) -> Changes:
    """The changes of an edit; or raises Stop."""
    if act.kind == "store":
        stored = guarded(variables, act.value)
        path, _, part, _ = place(view, root, address)
        return storing(view, path, part, stored)
    path, _, part, _ = place(view, root, address)
    return creating(view, path, part) if act.kind == "create" else removing(view, path)


def below(view: View, path: Path) -> list[Path]:
    """A path and all that is below it, in ascending order."""
    node = view.get(path)
    found = [path]
    if node and node.kind == "dir" and len(path) < LEVELS:
        for name in sorted(node.names):
            found += below(view, (*path, name))
    return found


def made(view: View, directory: Path, names: Path, node: Node) -> Changes:
    """The changes that make a node at a path that is absent: below this directory, by these names.

    The directories on the way are made too, and an empty file for each name of a new directory.
    """
    touched = [directory, *[(*directory, *names[: i + 1]) for i in range(len(names))]]
    old = view.get(directory)
    assert old is not None and old.kind == "dir", "what is absent is absent in a directory"
    changes: Changes = {directory: Dir("dir", old.names | {names[0]})}
    for i in range(len(names) - 1):
        changes[touched[i + 1]] = Dir("dir", frozenset([names[i + 1]]))
    changes[touched[-1]] = node
    if node.kind == "dir":
        for name in node.names:
            changes[(*touched[-1], name)] = EMPTY
    for path in sorted(changes):
        view.get(path)
    return changes


def node_of(kind: str, stored: Value, old: Node | None) -> Node:
    """The node that holds what is stored, in place of an old one of its kind or of none.

    Raises Stop if the value is of another shape, or is no link's text or no set of names.
    """
    if type(stored) not in TAKEN.get(kind, ()):
        raise Stop(*WRONG_FORM)
    if isinstance(stored, bool):
        return File("file", old.content if isinstance(old, File) else b"", stored)
    if isinstance(stored, frozenset):
        if not all(map(is_name, stored)):
            raise Stop(*BAD_NAME)
        return Dir("dir", stored)
    assert isinstance(stored, bytes)
    if kind == "file":
        return File("file", stored, old.executable if isinstance(old, File) else False)
    parts = link_parts(stored)
    if parts is None:
        raise Stop(*BAD_NAME)
    if len(parts[1]) > LEVELS:
        raise Stop(*TOO_DEEP)
    return Link("link", stored)


def storing(view: View, path: Path, part: Spec, stored: Value) -> Changes:
    """The changes of a store at a path."""
    node = node_of(part.kind, stored, None)
    landing = resolve(view.get, path, KINDS[part.kind][1])
    if landing.kind == "at":
        at = landing.path
        old = view.get(at)
        if old is None or old.kind != node.kind:
            raise blocked(at)
        if isinstance(node, Dir) and isinstance(old, Dir):
            return listing(view, at, old, node)
        return {at: node_of(part.kind, stored, old)}
    if landing.kind == "blocked":
        raise blocked(landing.path)
    if landing.kind == "links":
        raise blocked(path)
    depth = len(landing.directory) + len(landing.names)
    if depth > LEVELS or node.kind == "dir" and node.names and depth == LEVELS:
        raise Stop(*TOO_DEEP)
    return made(view, landing.directory, landing.names, node)


def listing(view: View, at: Path, old: Dir, new: Dir) -> Changes:
    """The changes of a store at a directory that stands.

    New names become empty files; what dropped names stood for goes, with all below it.
    """
    if new.names and len(at) == LEVELS:
        raise Stop(*TOO_DEEP)
    changes: Changes = {at: new}
    for name in sorted(old.names | new.names):
        if name not in new.names:
            changes |= {path: None for path in below(view, (*at, name))}
        elif name not in old.names:
            view.get((*at, name))
            changes[(*at, name)] = EMPTY
    return changes


def creating(view: View, path: Path, part: Spec) -> Changes:
    """The changes of `create` at a path."""
    while part.kind == "opt" or part.kind == "pair":
        part = part.part if part.kind == "opt" else part.first
    if part.kind != "file" and part.kind != "dir":
        raise Stop(*NO_DEFAULT)
    landing = resolve(view.get, path, False)
    if landing.kind == "at":
        raise Stop(*EXISTS)
    if landing.kind == "absent":
        if len(landing.directory) + len(landing.names) > LEVELS:
            raise Stop(*TOO_DEEP)
        node: Node = EMPTY if part.kind == "file" else Dir("dir", frozenset())
        return made(view, landing.directory, landing.names, node)
    raise blocked(landing.path if landing.kind == "blocked" else path)


def removing(view: View, path: Path) -> Changes:
    """The changes of `remove` at a path."""
    landing = resolve(view.get, path, False)
    if landing.kind == "at":
        at = landing.path
        if not at:
            raise blocked(at)
        parent = view.get(at[:-1])
        assert parent is not None and parent.kind == "dir", "what stands, stands in a directory"
        gone: Changes = {p: None for p in below(view, at)}
        return {at[:-1]: Dir("dir", parent.names - {at[-1]}), **gone}
    if landing.kind == "absent":
        raise Stop(*ABSENT)
    raise blocked(landing.path if landing.kind == "blocked" else path)
