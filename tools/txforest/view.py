"""What the program reads: TREE itself, or a copy of what is taken of it, with a table of its links
and execute bits."""

from __future__ import annotations

import os
import stat

from . import calls
from .calls import DIR, FILE, NEW
from .place import Tree
from .spelling import spelled, unspelled
from .statuses import Failed, Status
from .survey import TABLE, Changed, Survey

VERSION2 = b"version 2\n"
CLONE = 0x40049409  # FICLONE: a file shares the other's blocks until one of them is written
LARGE = 1 << 14  # bytes from which on sharing blocks is tried


class View:
    """What the program reads.

    path    for the program's words; it leads by a descriptor, which the program has to inherit
    fd      that descriptor
    made    whether it is a copy
    links   the links' texts as its table has them, flags the executable files; both are nothing if
            the tree's table, if it has one, is a file like others
    """

    __slots__ = ("path", "fd", "made", "links", "flags")

    def __init__(
        self, fd: int, made: bool, links: dict[str, bytes] | None, flags: set[str] | None
    ) -> None:
        self.path = f"/proc/self/fd/{fd}"
        self.fd = fd
        self.made = made
        self.links = links
        self.flags = flags

    def close(self) -> None:
        """Closes its descriptor, if it is a copy."""
        if self.made:
            os.close(self.fd)


def view_of(tree: Tree, found: Survey, room: int) -> View:
    """The view of a survey; if it has to be made, at the name `view` of the directory `room`.

    Files are taken by descriptors, each the very one that the survey saw. Raises Changed if one is
    another by now.
    """
    if found.plain:
        return View(tree.root, False, None, None)
    os.mkdir("view", 0o700, dir_fd=room)
    fd = os.open("view", DIR, dir_fd=room)
    try:
        flags = copied(tree.root, found, fd)
        if found.table:
            return View(fd, True, None, None)
        write_new(fd, TABLE.encode(), table_text(found.links, flags))
        return View(fd, True, found.links, flags)
    except BaseException:
        os.close(fd)
        raise


def copied(root: int, found: Survey, view: int) -> set[str]:
    """Copies the directories and files of a survey; answers the executable ones."""
    flags: set[str] = set()
    above, source, target = "", root, view
    clones = os.fstat(root).st_dev == os.fstat(view).st_dev
    try:
        for path, it in found.taken.items():
            front, _, name = path.rpartition("/")
            if not name:
                continue
            if front != above:
                source, target = next_folder(root, view, front, source, target)
                above = front
            if stat.S_ISDIR(it.st_mode):
                os.mkdir(name, 0o700, dir_fd=target)
            elif stat.S_ISREG(it.st_mode):
                clones = copy_file(source, target, name, it, path, clones)
                if it.st_mode & 0o111:
                    flags.add(path)
    finally:
        if source != root:
            os.close(source)
            os.close(target)
    return flags


def next_folder(root: int, view: int, path: str, source: int, target: int) -> tuple[int, int]:
    """The descriptors of a directory of the tree and of its copy; the former ones are closed."""
    names = os.fsencode(path).split(b"/") if path else []
    try:
        inside = calls.PLAIN.down(root, names)
    except OSError:
        raise Changed(path) from None
    made = calls.PLAIN.down(view, names)
    if source != root:
        os.close(source)
        os.close(target)
    return inside, made


def copy_file(
    source: int, target: int, name: str, it: os.stat_result, path: str, clones: bool
) -> bool:
    """Copies a file as it was seen. Answers whether sharing blocks is worth a try from now on."""
    try:
        fd = os.open(name, FILE, dir_fd=source)
    except OSError:
        raise Changed(path) from None
    try:
        now = os.fstat(fd)
        if (now.st_ino, now.st_ctime_ns, now.st_size) != (it.st_ino, it.st_ctime_ns, it.st_size):
            raise Changed(path)
        new = os.open(name, NEW, 0o600, dir_fd=target)
        try:
            if clones and it.st_size >= LARGE:
                clones = cloned(fd, new)
                if clones:
                    return True
            data = os.read(fd, it.st_size + 1)
            if len(data) != it.st_size:
                raise Changed(path)
            calls.PLAIN.write(new, data)
        finally:
            os.close(new)
    finally:
        os.close(fd)
    return clones


def cloned(fd: int, new: int) -> bool:
    """Lets a new file share the blocks of another; False if the file system can't."""
    import fcntl

    try:
        fcntl.ioctl(new, CLONE, fd)
        return True
    except OSError:
        return False


def write_new(folder: int, name: bytes, data: bytes) -> None:
    """Writes a new file, if it is to hold something."""
    if not data:
        return
    fd = os.open(name, NEW, 0o600, dir_fd=folder)
    try:
        calls.PLAIN.write(fd, data)
    finally:
        os.close(fd)


# ---- the table of a folder


def order(path: str) -> list[bytes]:
    """By which paths are ordered: name by name, by their bytes."""
    return os.fsencode(path).split(b"/")


def table_text(links: dict[str, bytes], flags: set[str]) -> bytes:
    """The table of links with their texts and of files with a flag; empty if there are none."""
    lines = {path: b" -> " + spelled(text) for path, text in links.items()}
    lines.update(dict.fromkeys(flags, b" *"))
    text = b"".join(
        spelled(b"/" + os.fsencode(path)) + lines[path] + b"\n" for path in sorted(lines, key=order)
    )
    return VERSION2 + text if flags else text


def read_table(folder: int) -> tuple[dict[str, bytes], set[str]]:
    """The links and flags in the table that the program wrote into a folder.

    Raises Failed with SYSTEM if it is of no form, as no run of the program writes one.
    """
    links: dict[str, bytes] = {}
    flags: set[str] = set()
    try:
        fd = os.open(TABLE, FILE, dir_fd=folder)
    except FileNotFoundError:
        return links, flags
    with open(fd, "rb") as it:
        lines = it.read().split(b"\n")
    try:
        if lines.pop():
            raise ValueError
        for line in lines[lines[:1] == [VERSION2[:-1]] :]:
            parts = line.split(b" ")
            path = os.fsdecode(unspelled(parts[0]))
            if path[:1] != "/":
                raise ValueError
            if parts[1:] == [b"*"]:
                flags.add(path[1:])
            elif len(parts) == 3 and parts[1] == b"->":
                links[path[1:]] = unspelled(parts[2])
            else:
                raise ValueError
    except ValueError:
        raise Failed(Status.SYSTEM, f"{TABLE} of the result: no table") from None
    return links, flags
