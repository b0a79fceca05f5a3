"""A tree by its descriptor, and the places in which jobs prepare what they put into it."""

from __future__ import annotations

import fcntl
import os
import stat

from . import calls
from .calls import DIR
from .statuses import Failed, Status
from .terminal import shown

DIGITS = frozenset(b"0123456789abcdef")
IDENT = 12
INSIDE = b".txforest-"  # with what the name of a place begins that stands in the tree itself


class Tree:
    """A tree by its descriptor, and where its places stand: beside it, or in it if it is a mount.

    path    the tree's absolute path, with no link but perhaps in the directories above it
    name    its last name
    above   a descriptor of the directory in which it stands
    root    a descriptor of the tree
    home    the one of the two in which places stand: they are on the tree's own file system
    inside  whether that is the tree itself
    ino     the tree's inode
    front   with what the names of its places begin

    Raises Failed with USAGE if no directory stands there, or a symbolic link does.
    """

    def __init__(self, path: str) -> None:
        absolute = os.path.abspath(path)
        above, name = os.path.split(absolute)
        if not name:
            raise Failed(Status.USAGE, f"{shown(path)}: nothing can stand beside it")
        above = os.path.realpath(above)
        self.path = os.path.join(above, name)
        self.name = os.fsencode(name)
        self.above = os.open(above, DIR)
        try:
            self.root = os.open(self.name, DIR, dir_fd=self.above)
        except OSError as error:
            os.close(self.above)
            is_link = os.path.islink(self.path)
            why = f"a symbolic link to {shown(os.path.realpath(path))}" if is_link else None
            raise Failed(
                Status.USAGE, f"{shown(path)}: no directory, but {why}" if why else
                f"{shown(path)}: no directory that can be read stands there: {error.strerror}"
            ) from None
        found = os.fstat(self.root)
        self.ino = found.st_ino
        self.inside = (
            calls.mount_of(self.above) != calls.mount_of(self.root)
            or found.st_dev != os.fstat(self.above).st_dev
        )
        self.home = self.root if self.inside else self.above
        self.front = INSIDE if self.inside else beside_front(self.name)

    def close(self) -> None:
        """Closes its descriptors."""
        os.close(self.root)
        os.close(self.above)

    def __enter__(self) -> Tree:
        return self

    def __exit__(self, *_: object) -> None:
        self.close()

    def beside(self, ending: str) -> str:
        """The path of what stands beside the tree by its name and an ending: `.lock`, `.queue`."""
        return self.path + ending

    def places(self) -> list[bytes]:
        """The names in `home` that places have, those of others and planted ones too."""
        return place_names(self.home, self.front)

    def skip(self) -> set[str]:
        """What a survey of the tree passes over: its own places."""
        return {os.fsdecode(name) for name in self.places()} if self.inside else set()


def beside_front(name: bytes) -> bytes:
    """With what the names of places beside a tree begin; a long name is cut."""
    return b"." + name[:200] + b".txforest-"


def place_names(home: int, front: bytes) -> list[bytes]:
    """The names of a directory that a front and the digits of a place's number make up."""
    return [name for name in map(os.fsencode, os.listdir(home)) if is_place(name, front)]


def is_place(name: bytes, front: bytes = INSIDE) -> bool:
    """Whether a name is made of a front and the digits of a place's number. At the root of a tree
    one that begins as those inside do is passed over by jobs of any program."""
    digits = name[len(front) :]
    return name.startswith(front) and len(digits) == IDENT and DIGITS.issuperset(digits)


class Place:
    """A directory of one's own, mode 0700, locked while it is in use.

    home   a descriptor of the directory in which it stands
    name   its name there: a front and its number
    ident  its number, twelve hexadecimal digits
    fd     its descriptor
    """

    def __init__(self, home: int, name: bytes, fd: int) -> None:
        self.home = home
        self.name = name
        self.ident = name[-IDENT:]
        self.fd = fd

    def close(self) -> None:
        """Closes its descriptor, and lets its lock go."""
        calls.S.close(self.fd)

    def clear(self, told: list[str]) -> None:
        """Removes it with all in it, its intent first. What can't be removed is told and stays."""
        try:
            names = map(os.fsencode, os.listdir(self.fd))
            for name in sorted(names, key=lambda name: name != b"intent"):
                clear(self.fd, name)
            calls.S.rmdir(self.name, self.home)
        except OSError as error:
            told.append(f"{shown(self.name)}: stays, and is in nobody's way: {error.strerror}")
            try:
                calls.S.fsync(self.fd)
            except OSError:
                pass


def new_place(home: int, front: bytes) -> Place:
    """A fresh place. It has no access list of the directory in which it stands. Raises OSError with
    the path of that directory if none can be made there."""
    name = front + os.urandom(IDENT // 2).hex().encode()
    try:
        calls.S.mkdir(name, 0o700, home)
    except OSError as error:
        why = f"{error.strerror}; the job's own place is made there"
        raise OSError(error.errno, why, os.readlink(f"/proc/self/fd/{home}")) from error
    fd = calls.S.open(name, DIR, home)
    try:
        hold(fd)
        if "system.posix_acl_default" in listed(fd):
            os.removexattr(fd, "system.posix_acl_default")
    except BaseException:
        os.close(fd)
        raise
    return Place(home, name, fd)


def hold(fd: int) -> bool:
    """Locks a directory of a job that runs; False if another one has it."""
    try:
        fcntl.flock(fd, fcntl.LOCK_EX | fcntl.LOCK_NB)
        return True
    except BlockingIOError:
        return False
    except OSError:
        return True  # no locks of directories here: then nobody has one


def listed(fd: int) -> list[str]:
    """The names of the extended attributes of an open file; none where there are no such."""
    try:
        return os.listxattr(fd)
    except OSError:
        return []


def clear(home: int, name: bytes) -> None:
    """Removes what stands at a name, with all below it; a mount is not entered, and raises
    OSError."""
    found = calls.S.look(name, home)
    if found is None:
        return
    if not stat.S_ISDIR(found.st_mode):
        calls.S.unlink(name, home)
        return
    clear_folder(home, name)


def clear_folder(home: int, name: bytes) -> None:
    """Removes a directory with all below it."""
    fd = calls.S.down(home, [name])
    unlink = calls.S.unlink
    try:
        if not os.fstat(fd).st_mode & 0o700 == 0o700:
            calls.S.chmod(fd, 0o700)
        with os.scandir(fd) as entries:
            inside = [(entry.name, entry.is_dir(follow_symlinks=False)) for entry in entries]
        for inner, is_folder in inside:
            if is_folder:
                clear_folder(fd, os.fsencode(inner))
            else:
                unlink(os.fsencode(inner), fd)
    finally:
        calls.S.close(fd)
    calls.S.rmdir(name, home)
