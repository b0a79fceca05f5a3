"""The patterns of `--only`: they narrow what is taken of a tree, so that trees of any size
serve."""

from __future__ import annotations

from .statuses import Failed, Status
from .terminal import shown

TYPE_CHECKING = False
if TYPE_CHECKING:
    import re
    from typing import Union

    Name = Union[None, str, re.Pattern[str]]  # `**`, a name itself, a name with marks
    States = frozenset[tuple[int, int]]


class Only:
    """A path is taken if a pattern matches it or a directory above it.

    A pattern is names with `/` between them. In a name `*`, `?` and `[..]` match as in a shell, and
    the name `**` stands for any number of names. Raises Failed with USAGE for a pattern of no form.
    """

    def __init__(self, patterns: list[str]) -> None:
        self.patterns: list[tuple[Name, ...]] = []
        for pattern in patterns:
            names = pattern.removesuffix("/").split("/")
            if any(name in ("", ".", "..") for name in names):
                why = "a pattern is names with / between them, below the tree, without . and .."
                raise Failed(Status.USAGE, f"--only {shown(pattern)}: {why}")
            self.patterns.append(tuple(map(name_of, names)))

    def start(self) -> States:
        """How far each pattern has come at the root."""
        return self.closed({(k, 0) for k in range(len(self.patterns))})

    def closed(self, states: set[tuple[int, int]]) -> States:
        """The states with those behind each `**`, which may stand for no name."""
        found = set(states)
        for k, at in states:
            while at < len(self.patterns[k]) and self.patterns[k][at] is None:
                at += 1
                found.add((k, at))
        return frozenset(found)

    def step(self, states: States, name: str) -> tuple[States, bool]:
        """How far the patterns are behind a further name, and whether one has come to its end. If
        there are no states and none has, nothing below is asked for."""
        found, ended = set(), False
        for k, at in states:
            names = self.patterns[k]
            if at == len(names):
                continue
            wanted = names[at]
            if wanted is None:
                found.add((k, at))
                ended = ended or at + 1 == len(names)
            elif name == wanted if isinstance(wanted, str) else wanted.match(name):
                found.add((k, at + 1))
        closed = self.closed(found)
        ended = ended or any(at == len(self.patterns[k]) for k, at in closed)
        return closed, ended

    def named(self, states: States) -> list[str] | None:
        """The names that lead on from here, if they are known without a look at the directory."""
        wanted: set[str] = set()
        for k, at in states:
            name = self.patterns[k][at] if at < len(self.patterns[k]) else ""
            if not isinstance(name, str):
                return None
            wanted.add(name)
        return sorted(wanted - {""})

    def asks(self, path: str) -> bool:
        """Whether a path is taken, or might be a directory above one that is."""
        states, ended = self.along(path)
        return ended or bool(states)

    def takes(self, path: str) -> bool:
        """Whether a path is taken."""
        return self.along(path)[1]

    def along(self, path: str) -> tuple[States, bool]:
        """How far the patterns are behind the names of a path, up to the first that ends one."""
        states, ended = self.start(), False
        for name in path.split("/"):
            states, ended = self.step(states, name)
            if ended:
                break
        return states, ended


def name_of(name: str) -> Name:
    """A name of a pattern: nothing for `**`, and compiled if it has marks."""
    if name == "**":
        return None
    if not any(mark in name for mark in "*?["):
        return name
    from fnmatch import translate
    from re import compile as compiled

    return compiled(translate(name))
