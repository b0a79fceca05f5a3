"""Walks from definitions to all that they rest on."""

from __future__ import annotations

from collections import deque
from typing import Iterable, NamedTuple

from believe.names import MISSING, Failed, World


class Size(NamedTuple):
    """How much there is to read: definitions, their lines in specs, and their lines in sources."""

    definitions: int
    specs: int
    sources: int

    @property
    def lines(self) -> int:
        """The lines in specs and sources."""
        return self.specs + self.sources


def closure(world: World, roots: Iterable[str], cuts: Iterable[str] = ()) -> set[str]:
    """The roots and the keys that they rest on; at a cut the walk goes no further.

    A cut that is reached is in the closure. A name that no file has raises Failed.
    """
    ends = set(cuts)
    found = set(roots)
    waiting = deque(sorted(found))
    while waiting:
        key = waiting.popleft()
        if key in ends:
            continue
        item = world.item(key)
        missing = sorted(cited for cited in item.cited if cited.startswith(MISSING))
        if missing:
            raise Failed(f"{item.path}:{item.line} cites {missing[0][2:]}, which no file has")
        new = item.cited - found
        found |= new
        waiting.extend(sorted(new))
    return found


def size(world: World, keys: Iterable[str]) -> Size:
    """How much there is to read of definitions; functions count nothing."""
    items = [world.item(key) for key in keys]
    items = [item for item in items if item.kind != "fn"]
    return Size(
        len(items),
        sum(item.lines for item in items if item.is_spec),
        sum(item.lines for item in items if not item.is_spec),
    )


def laws(world: World) -> set[str]:
    """The functions that do nothing: the clauses of each are a law of the definitions."""
    found = set()
    for key, item in world.items.items():
        if item.kind == "fn" and not item.crate.startswith("test_"):
            lines = (world.repo / item.path).read_text(encoding="utf-8").split("\n")
            if item.end < len(lines) and lines[item.end].strip() == "{}" and "(" in item.text:
                found.add(key)
    return found
