"""What of a folder the program refuses: every entry and every line of its table, not only the
first."""

from __future__ import annotations

import os
import stat
from collections.abc import Iterator
from typing import NamedTuple

from . import model
from .tables import BadLine, Path, table_faults
from .terminal import below, many, shown

KINDS = {
    stat.S_IFREG: "f",
    stat.S_IFDIR: "d",
    stat.S_IFLNK: "l",
    stat.S_IFIFO: "a FIFO",
    stat.S_IFSOCK: "a socket",
    stat.S_IFBLK: "a block device",
    stat.S_IFCHR: "a character device",
}
NAMES_LIMIT = 64


class Refused(NamedTuple):
    """An entry that is refused: its path, its size in bytes if it has one, and why."""

    path: Path
    size: int | None
    why: str

    def told(self) -> str:
        """The entry and the reason, in a line."""
        size = f" ({many(self.size, 'byte')})" if self.size is not None else ""
        return f"{below(self.path)}{size}: {self.why}"


def kind_of(found: os.stat_result) -> str:
    """The kind of an entry: "f", "d", "l", or what else it is, in words."""
    return KINDS.get(stat.S_IFMT(found.st_mode), "of a kind of its own")


class Folder:
    """What stands in a folder that the program is to load.

    `kinds` are those of the entries that it takes, `refused` the entries that it refuses, in the
    order of paths, and `bad` the bad lines of its table. The folder is gone through once.
    """

    def __init__(self, folder: str) -> None:
        """Looks at all that stands there. Raises OSError if the folder itself can't be read."""
        self.top = os.fsencode(folder)
        self.kinds: dict[Path, str] = {}
        self.refused: list[Refused] = []
        self.bytes = 0
        self.walk((), self.names(()))
        self.bad = list(self.table())

    def at(self, path: Path) -> bytes:
        """Where an entry stands in the system."""
        return os.path.join(self.top, *path)

    def names(self, path: Path) -> list[bytes]:
        return sorted(os.listdir(self.at(path)))

    def walk(self, path: Path, names: list[bytes]) -> None:
        """Goes through the entries of a directory, each before what stands in it."""
        for name in names:
            inside = (*path, name)
            if inside == (model.TABLE,):
                continue
            try:
                found = os.lstat(self.at(inside))
            except OSError as error:
                self.refused.append(Refused(inside, None, unread(error)))
                continue
            kind = kind_of(found)
            why = self.why(inside, kind, found)
            if why is None:
                why = self.entered(inside) if kind == "d" else None
                if why is None:
                    continue
                self.kinds.pop(inside, None)
                self.refused.append(Refused(inside, None, why))
            else:
                size = self.size_below(inside) if kind == "d" else found.st_size
                self.refused.append(Refused(inside, size, why))

    def entered(self, path: Path) -> str | None:
        """Goes into a directory; why it can't be, if it can't."""
        self.kinds[path] = "d"
        try:
            names = self.names(path)
        except OSError as error:
            return unread(error)
        self.walk(path, names)
        return None

    def why(self, path: Path, kind: str, found: os.stat_result) -> str | None:
        """Why an entry is refused; None if it is taken, and then it is counted."""
        size = found.st_size if kind == "f" else 0
        if not model.is_name(path[-1]):
            kept = path[-1] == model.TABLE
            return "a name that txforest keeps for its table" if kept else "its name is no UTF-8"
        if len(path) > NAMES_LIMIT:
            return f"more than {NAMES_LIMIT} names deep"
        if kind == "l":
            target = shown(os.readlink(self.at(path)))
            where = "links stand in the table, which txforest-import makes"
            return f"a symbolic link to {target}; {where}"
        if kind not in "fd":
            return kind
        if size > model.FILE_LIMIT:
            return f"a file has at most {many(model.FILE_LIMIT, 'byte')}"
        if len(self.kinds) + 1 >= model.NODES:
            most = many(model.NODES, "entry", "entries")
            return f"a folder has at most {most}, itself counted"
        if self.bytes + size > model.LOADED:
            return f"files and links have at most {many(model.LOADED, 'byte')} together"
        if kind == "f":
            try:
                flags = os.O_RDONLY | os.O_NOFOLLOW | os.O_NONBLOCK | os.O_CLOEXEC
                os.close(os.open(self.at(path), flags))
            except OSError as error:
                return unread(error)
            self.kinds[path] = "f"
        self.bytes += size
        return None

    def size_below(self, path: Path) -> int:
        """The bytes of the files below a directory that is refused, as far as it can be read."""
        size = 0
        for at, _, files in os.walk(self.at(path)):
            for name in files:
                try:
                    found = os.lstat(os.path.join(at, name))
                except OSError:  # it went meanwhile, and counts nothing
                    continue
                size += found.st_size if stat.S_ISREG(found.st_mode) else 0
        return size

    def table(self) -> Iterator[BadLine]:
        """The bad lines of the folder's table."""
        try:
            found = os.lstat(self.at((model.TABLE,)))
        except FileNotFoundError:
            return
        if not stat.S_ISREG(found.st_mode):
            yield BadLine(0, b"", "it is no file")
            return
        with open(self.at((model.TABLE,)), "rb") as it:
            text = it.read(model.TABLE_LIMIT + 1)
        yield from table_faults(text, self.kinds)

    def told(self, folder: str) -> list[str]:
        """What is refused, in lines; `folder` is how it is named."""
        lines = [f"{shown(folder)}: {refused.told()}" for refused in sorted(self.refused)]
        table = shown(os.path.join(folder, os.fsdecode(model.TABLE)))
        for number, line, why in self.bad:
            if number:
                lines.append(f"{table}:{number}: BadTable {number}: {why}")
                lines.append(f"    {shown(line.rstrip(bytes([10])))}")
            else:
                lines.append(f"{table}: {why}")
        return lines


def unread(error: OSError) -> str:
    """Why something can't be read."""
    return f"can't be read: {error.strerror}"
