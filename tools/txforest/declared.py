"""A private copy of just the paths that are declared: a command can read nothing else in it, and
may change nothing else."""

from __future__ import annotations

import os

from .copies import Copy, Changes, Looked, Plain, copy_attributes, copy_file, give
from .only import Only
from .states import DIRECTORY_FLAGS, LINK, NOTHING, Kind, Reader, same_content, token_of
from .statuses import Failed, Status
from .terminal import below

TYPE_CHECKING = False
if TYPE_CHECKING:
    from .only import States
    from .states import Path, Seen


def declared(patterns: list[str]) -> type[Copy]:
    """The kind of copy that has the paths of these patterns, a directory with all below it.

    Raises Failed with USAGE for a pattern of no form.
    """
    wanted = Only(patterns)

    class OfPatterns(Declared):
        """The copy of these patterns."""

        only = wanted

    return OfPatterns


class Declared(Plain):
    """The base of the copies of declared paths."""

    name = "a copy of the declared paths, which count as read"
    word = "only"
    only: Only

    def first_look(self) -> bytes | None:
        return None

    def fill(self) -> None:
        self.reads: dict[Path, Seen] = {}
        reader = Reader(self.root)
        try:
            self.expand(reader, (), self.only.start())
            self.copy(reader)
            self.compare_all(reader)
        except OSError as error:
            if error.errno not in NOTHING:
                raise
            self.spoiled = ()  # a directory went meanwhile
        finally:
            reader.close()

    def expand(self, reader: Reader, path: Path, states: States | None) -> None:
        """Reads what the patterns lead to at a path and below, and what was needed to get there.

        `states` are how far they have come; without them all is taken.
        """
        state = reader.state(path)
        if state is not Kind.DIRECTORY:
            is_on_the_way = states is not None and isinstance(state, bytes) and state[:1] in b"fhi"
            self.reads[path] = Kind.SOME_FILE if is_on_the_way else state
            return
        names = None if states is None else self.only.named(states)
        if names is None:
            found = reader.names(path)
            self.reads[path] = frozenset(found)
            names = [os.fsdecode(name) for name in found]
        else:
            self.reads[path] = Kind.DIRECTORY
        for name in names:
            inside = (*path, os.fsencode(name))
            if states is None:
                self.expand(reader, inside, None)
                continue
            inner, is_taken = self.only.step(states, name)
            if is_taken or inner:
                self.expand(reader, inside, None if is_taken else inner)

    def copy(self, reader: Reader) -> None:
        """Copies what was read; a file on the way alone is none of it."""
        top = os.fsencode(self.tree)
        folders = {
            path
            for path, seen in self.reads.items()
            if seen is Kind.DIRECTORY or isinstance(seen, frozenset)
        }
        for path in sorted(self.reads):
            if not path:
                continue
            if path in folders:
                os.mkdir(b"/".join((top, *path)), 0o700)
                continue
            state = self.reads[path]
            if not isinstance(state, bytes):
                continue
            target = os.open(b"/".join((top, *path[:-1])), DIRECTORY_FLAGS)
            try:
                if state.startswith(LINK):
                    os.symlink(state[len(LINK) :], path[-1], dir_fd=target)
                elif not state.startswith(b"x "):
                    copy_file(path[-1], reader.directory(path[:-1]), target)
            except FileNotFoundError:  # it went meanwhile
                continue
            finally:
                os.close(target)
        for path in sorted(folders, reverse=True):
            fd = os.open(b"/".join((top, *path)), DIRECTORY_FLAGS)
            try:
                source = reader.directory(path)
                copy_attributes(source, fd)
                give(fd, os.fstat(source))
            except FileNotFoundError:  # it went meanwhile, which shows at the commit
                continue
            finally:
                os.close(fd)

    def compare_all(self, reader: Reader) -> None:
        """Looks whether each file of the copy is what was read: somebody may have changed it in
        between, and may change it back before the commit."""
        top = os.fsencode(self.tree)
        for path, state in self.reads.items():
            if not isinstance(state, bytes) or state[:1] not in b"fhi":
                continue
            if state[:1] == b"i":
                is_same = reader.state(path) == state
            else:
                made = token_of(b"/".join((top, *path)), -1)
                is_same = isinstance(made, bytes) and same_content(made, state)
            if not is_same:
                self.spoiled = path

    def compare_kinds(self) -> None:
        """Nothing else is to be compared: the copy is made of what was read."""

    def looked(self) -> Looked:
        return Looked(dict(self.reads), spoiled=self.spoiled)

    def changes(self, looked: Looked) -> Changes:
        made = super().changes(looked)
        for path in (*made.writes, *made.modes, *made.owners, *made.attributes):
            if not self.only.takes(os.fsdecode(b"/".join(path))):
                raise Failed(
                    Status.SYSTEM,
                    f"{below(path)}: is changed, but no --only names it; nothing was changed",
                )
        return made
