"""Folders as the program loads them, made entry by entry: files, directories, and a table of links.

A path is a tuple of names, each of which the program takes.
"""

from __future__ import annotations

import os

from .links import TABLE
from .view import table_text

TYPE_CHECKING = False
if TYPE_CHECKING:
    from .states import Path

class Folder:
    """A folder that is being made at a path where nothing stands."""

    def __init__(self, place: bytes) -> None:
        self.place = place
        self.links: dict[Path, bytes] = {}
        self.flags: set[Path] = set()
        self.table: bytes | None = None  # a table as it stands, in place of links and flags
        self.kinds: dict[Path, bool] = {(): True}  # of what stands there: whether it is a directory
        os.mkdir(place, 0o700)

    def at(self, path: Path) -> bytes:
        """Where an entry stands in the system."""
        return b"/".join((self.place, *path))

    def put(self, path: Path, content: bytes, flag: bool = False) -> None:
        """Makes a file, or gives one another content; what else stands there goes."""
        self.drop(path, but_file=True)
        fd = os.open(self.at(path), os.O_WRONLY | os.O_CREAT | os.O_TRUNC | os.O_CLOEXEC, 0o600)
        try:
            while content:
                content = content[os.write(fd, content) :]
        finally:
            os.close(fd)
        self.kinds[path] = False
        if flag:
            self.flags.add(path)

    def mkdir(self, path: Path) -> None:
        """Makes a directory, unless one stands there; what else stands there goes."""
        if self.kinds.get(path) is True:
            return
        self.drop(path)
        os.mkdir(self.at(path), 0o700)
        self.kinds[path] = True

    def link(self, path: Path, text: bytes) -> None:
        """Makes a link; what else stands there goes."""
        self.drop(path)
        self.links[path] = text

    def drop(self, path: Path, but_file: bool = False) -> None:
        """Removes what stands at a path, with all below it."""
        self.links.pop(path, None)
        self.flags.discard(path)
        is_directory = self.kinds.get(path)
        if is_directory:
            deep = len(path)
            below = [p for p in self.kinds if p[:deep] == path]
            for inside in sorted(below, reverse=True):
                (os.rmdir if self.kinds.pop(inside) else os.unlink)(self.at(inside))
            self.links = {p: text for p, text in self.links.items() if p[:deep] != path}
            self.flags = {p for p in self.flags if p[:deep] != path}
        elif is_directory is False and not but_file:
            os.unlink(self.at(path))
            del self.kinds[path]

    def finish(self) -> None:
        """Writes the table: the one that is given, else as the links and flags now are."""
        text = self.table
        if text is None:
            links = {joined(path): text for path, text in self.links.items()}
            text = table_text(links, set(map(joined, self.flags)))
        if text:
            with open(self.at((TABLE,)), "wb") as file:
                file.write(text)
        elif os.path.lexists(self.at((TABLE,))):
            os.unlink(self.at((TABLE,)))


def joined(path: Path) -> str:
    """A path as the table's words have it, without the slash before."""
    return os.fsdecode(b"/".join(path))
