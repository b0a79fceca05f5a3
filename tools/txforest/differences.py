"""What a result changes: OUT against the view, in one pass; kinds and sizes first, bytes only if
these are equal."""

from __future__ import annotations

import os
import stat

from . import calls
from .calls import DIR, FILE
from .survey import TABLE, Survey
from .view import View, order, read_table

TYPE_CHECKING = False
if TYPE_CHECKING:
    from collections.abc import Iterable, Iterator, Mapping


class InTheWay(Exception):
    """A script made or removed something at a path where an entry stands that is left out."""


class Change:
    """One change: `kind` is store, link, mkdir, remove, rmdir or mode; `path` as in surveys.

    store   `data` are the bytes; or `source` is the path of a file that has them, of any size;
            `flag` says whether the file is to be executable, nothing leaves that as it is
    link    `data` is the text as it is to stand in the tree
    rmdir   `room` is true if a file or a link takes the directory's place
    mode    `flag` says whether the file is to be executable

    Of store, mkdir and mode: `mode` are the permission bits that the entry is to have, in place of
    a flag; `owner` is the user and the group that it is to have. Nothing leaves what is there, and
    gives a new entry what its directory says. A change of kind mode may be one of a directory.
    Of store: `attributes` are the extended attributes that the file is to have, in place of those
    that it hands on.
    """

    __slots__ = (
        "kind", "path", "data", "flag", "room", "source", "mode", "owner", "attributes"
    )  # fmt: skip

    def __init__(
        self,
        kind: str,
        path: str,
        data: bytes = b"",
        flag: bool | None = None,
        room: bool = False,
        source: str | None = None,
        mode: int | None = None,
        owner: tuple[int, int] | None = None,
        attributes: Mapping[str, bytes] | None = None,
    ) -> None:
        self.kind = kind
        self.path = path
        self.data = data
        self.flag = flag
        self.room = room
        self.source = source
        self.mode = mode
        self.owner = owner
        self.attributes = attributes


class Differences:
    """The changes by their turn: what makes room, what is new, what is another, what goes."""

    def __init__(self, view: View, found: Survey, flags: set[str] | None) -> None:
        self.view = view
        self.taken = found.taken
        self.left = {it.path for it in found.left}
        self.flags = flags
        self.room: list[Change] = []
        self.new: list[Change] = []
        self.other: list[Change] = []
        self.gone: list[Change] = []
        self.seen: set[str] = set()

    def compare(self, front: str, view: int | None, out: int) -> None:
        """Compares a directory of OUT with that of the view, if it has one there."""
        taken, seen, flags = self.taken, self.seen, self.flags
        open_, read, close = os.open, os.read, os.close
        below: list[tuple[str, str, bool]] = []
        with os.scandir(out) as entries:
            for entry in entries:
                name = entry.name
                path = front + name
                if path == TABLE and flags is not None:
                    continue
                x = taken.get(path)
                if x is None:
                    self.look_out(path)
                seen.add(path)
                if entry.is_dir():  # OUT has no symbolic links
                    was = x is not None and stat.S_ISDIR(x.st_mode)
                    if not was:
                        self.new.append(Change("mkdir", path))
                    below.append((name, path, was))
                    continue
                flag = None if flags is None else path in flags
                if view is None or x is None or x.st_mode & 0o170000 != stat.S_IFREG:
                    self.appears(path, x, content(out, name), flag)
                    continue
                # One read of the length that the view's file has, and of one byte more, says
                # whether OUT's is as long.
                size = x.st_size
                fd = open_(name, FILE, dir_fd=out)
                found = read(fd, size + 1)
                close(fd)
                if len(found) == size:
                    fd = open_(name, FILE, dir_fd=view)
                    same = read(fd, size + 1) == found
                    close(fd)
                    if same:
                        if flag is not None and flag != bool(x.st_mode & 0o111):
                            self.other.append(Change("mode", path, b"", flag))
                        continue
                elif len(found) > size:
                    found = content(out, name)
                self.other.append(Change("store", path, found, flag))
        for name, path, was in below:
            self.enter(name, path, view if was else None, out)

    def enter(self, name: str, path: str, view: int | None, out: int) -> None:
        """Compares what is in a directory."""
        inner = None if view is None else os.open(name, DIR, dir_fd=view)
        try:
            made = os.open(name, DIR, dir_fd=out)
            try:
                self.compare(path + "/", inner, made)
            finally:
                os.close(made)
        finally:
            if inner is not None:
                os.close(inner)

    def compare_at(self, paths: Iterable[str], view: int, out: int) -> None:
        """Compares OUT with the view at these paths alone. Paths above and below others that differ
        are among them."""
        for front, names in by_folder(paths).items():
            made = folder_at(out, front)
            if made is None:
                continue  # what the view has there is gone
            was = folder_at(view, front)
            try:
                for name in names:
                    self.compare_one(front + "/" + name if front else name, name, was, made)
            finally:
                os.close(made)
                if was is not None:
                    os.close(was)

    def compare_one(self, path: str, name: str, view: int | None, out: int) -> None:
        """Compares an entry of a directory of OUT with that of the view."""
        y = calls.PLAIN.look(os.fsencode(name), out)
        if y is None or path == TABLE and self.flags is not None:
            return
        x = self.taken.get(path)
        if x is None:
            self.look_out(path)
        self.seen.add(path)
        if stat.S_ISDIR(y.st_mode):
            if x is None or not stat.S_ISDIR(x.st_mode):
                self.new.append(Change("mkdir", path))
            return
        flag = None if self.flags is None else path in self.flags
        data = content(out, name)
        if view is None or x is None or not stat.S_ISREG(x.st_mode):
            self.appears(path, x, data, flag)
        elif x.st_size != len(data) or content(view, name) != data:
            self.other.append(Change("store", path, data, flag))
        elif flag is not None and flag != bool(x.st_mode & 0o111):
            self.other.append(Change("mode", path, b"", flag))

    def appears(self, path: str, x: os.stat_result | None, data: bytes, flag: bool | None) -> None:
        """A file where none was."""
        self.make_room(path, x)
        self.new.append(Change("store", path, data, bool(flag)))

    def make_room(self, path: str, x: os.stat_result | None) -> None:
        """A directory has to go before a file or a link takes its place."""
        if x is not None and stat.S_ISDIR(x.st_mode):
            self.room.append(Change("rmdir", path, room=True))

    def compare_links(self, links: dict[str, bytes], found: Survey) -> None:
        """Compares the links of OUT's table with those of the view's."""
        from .links import real_text

        for path, text in links.items():
            self.seen.add(path)
            x = self.taken.get(path)
            if x is None:
                self.look_out(path)
            was = x is not None and stat.S_ISLNK(x.st_mode)
            if was and found.links[path] == text:
                continue
            real = real_text(tuple(order(path)), text)
            if not was:
                self.make_room(path, x)
            (self.other if was else self.new).append(Change("link", path, real))

    def find_gone(self, holds: set[str], paths: Iterable[str]) -> None:
        """What the view has of some paths, and OUT has not."""
        for path in paths:
            if not path or path in self.seen or path not in self.taken:
                continue
            is_dir = stat.S_ISDIR(self.taken[path].st_mode)
            if path == TABLE:
                # A folder with a table stays one: an empty table means neither links nor flags.
                if self.taken[path].st_size:
                    self.other.append(Change("store", path))
                continue
            if is_dir and path in holds:
                raise InTheWay(path)
            self.gone.append(Change("rmdir" if is_dir else "remove", path))

    def look_out(self, path: str) -> None:
        """Raises InTheWay if something that is left out stands at a path that is new."""
        if path in self.left:
            raise InTheWay(path)

    def in_order(self, holds: set[str]) -> list[Change]:
        """All changes, in the order of the commit."""
        room, gone = self.room, self.gone
        roomy = {it.path for it in room}
        if roomy:
            early = [it for it in gone if any(above in roomy for above in parents(it.path))]
            late = {it.path for it in early}
            gone = [it for it in gone if it.path not in late]
            room = sorted(room + early, key=by_path, reverse=True)
        for it in room:
            if it.kind == "rmdir" and it.path in holds:
                raise InTheWay(it.path)
        return [
            *room,
            *sorted(self.new, key=by_path),
            *sorted(self.other, key=by_path),
            *sorted(gone, key=by_path, reverse=True),
        ]


def differences(view: View, out: int, found: Survey) -> list[Change]:
    """The changes that make of the tree what stands in OUT (a descriptor), in the commit's order.

    First what makes room, then what is new, then what is another, then what goes. Raises InTheWay.
    """
    links, flags = table_of(out, found)
    it = Differences(view, found, flags)
    it.compare("", view.fd, out)
    if links:
        it.compare_links(links, found)
    it.find_gone(found.holds, found.taken)
    return it.in_order(found.holds)


def differences_at(view: View, out: int, found: Survey, paths: set[str]) -> list[Change]:
    """The same, if what differs is among some paths; a table differs wherever it wants."""
    links, flags = table_of(out, found)
    it = Differences(view, found, flags)
    paths = paths | {TABLE}
    it.compare_at(paths, view.fd, out)
    if links:
        it.compare_links(links, found)
    it.find_gone(found.holds, paths)
    return it.in_order(found.holds)


def table_of(out: int, found: Survey) -> tuple[dict[str, bytes], set[str] | None]:
    """The links and flags of OUT; none, if the tree's own table is a file like others."""
    return ({}, None) if found.table else read_table(out)


def by_folder(paths: Iterable[str]) -> dict[str, list[str]]:
    """The last names of paths, by the directories in which they stand."""
    found: dict[str, list[str]] = {}
    for path in paths:
        front, _, name = path.rpartition("/")
        if name:
            found.setdefault(front, []).append(name)
    return found


def folder_at(top: int, path: str) -> int | None:
    """A directory below another one, or nothing."""
    try:
        return calls.PLAIN.down(top, os.fsencode(path).split(b"/") if path else [])
    except (FileNotFoundError, NotADirectoryError):
        return None


def by_path(change: Change) -> list[bytes]:
    """By which changes are ordered."""
    return order(change.path)


def parents(path: str) -> Iterator[str]:
    """The paths above another, but the root."""
    while path := path.rpartition("/")[0]:
        yield path


def content(folder: int, name: str) -> bytes:
    """All bytes of a file of OUT."""
    with open(os.open(name, FILE, dir_fd=folder), "rb") as it:
        return it.read()
