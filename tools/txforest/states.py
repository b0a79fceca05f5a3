"""What stands at a path of a real tree, in the form in which jobs compare it.

A path is a tuple of names, as bytes; `()` is the tree's root. What stands at one is

    None                nothing
    Kind.DIRECTORY      a directory, whatever its names are
    bytes               a token: a file or a link. Equal tokens are equal entries

A token is one of

    f MODE OWNER GROUP BYTES              a file of at most 1 KiB
    h MODE OWNER GROUP SIZE DIGEST        a file of at most 1 MiB
    i MODE OWNER GROUP SIZE INODE MTIME CTIME    a larger one: the same while nobody has changed it
    l TEXT                                a symbolic link
    x MODE DEVICE INODE                   what is neither file, directory nor link
"""

from __future__ import annotations

import errno
import os
import stat
import time

from .place import is_place

TYPE_CHECKING = False
if TYPE_CHECKING:
    from collections.abc import Iterable
    from typing import ClassVar, Protocol, Union

    class Digest(Protocol):
        """What hashlib gives."""

        def update(self, data: bytes, /) -> None:
            """Puts bytes into it."""

        def hexdigest(self) -> str:
            """What has come out, in hexadecimal digits."""

    Path = tuple[bytes, ...]
    Made = Union[None, bytes, "Kind"]
    Seen = Union[None, bytes, "Kind", frozenset[bytes]]

INLINE = 1 << 10
WHOLE = 1 << 20
GRAIN = 20_000_000  # ns: two changes of a file that are closer may have one time
LINK = b"l "
DIRECTORY_FLAGS = os.O_RDONLY | os.O_DIRECTORY | os.O_NOFOLLOW | os.O_CLOEXEC
FILE_FLAGS = os.O_RDONLY | os.O_NOFOLLOW | os.O_NONBLOCK | os.O_CLOEXEC | os.O_NOCTTY
NOTHING = (errno.ENOENT, errno.ENOTDIR, errno.ELOOP)


class Kind:
    """What is known of an entry without its content. There are these two, which `is` tells apart.

    DIRECTORY   a directory
    SOME_FILE   of reads alone: a file, whatever it holds

    The module enum costs each start of a tool.
    """

    __slots__ = ("word",)
    DIRECTORY: ClassVar[Kind]
    SOME_FILE: ClassVar[Kind]

    def __init__(self, word: str) -> None:
        self.word = word

    def __repr__(self) -> str:
        return f"<{self.word}>"


Kind.DIRECTORY, Kind.SOME_FILE = Kind("directory"), Kind("some file")


def new_digest() -> Digest:
    """A digest of 256 bits that bytes are put into: blake2b."""
    try:
        from _blake2 import blake2b  # type: ignore[import]  # hashlib loads a library besides
    except ImportError:
        from hashlib import blake2b
    made: Digest = blake2b(digest_size=32)
    return made


def kind_of(state: Seen) -> str | None:
    """`file`, `link`, `dir` or `other`; nothing if nothing stands there."""
    if isinstance(state, bytes):
        return {b"l": "link", b"x": "other"}.get(state[:1], "file")
    if state is None:
        return None
    return "file" if state is Kind.SOME_FILE else "dir"


def head(found: os.stat_result) -> bytes:
    """What a token of a file says before its content."""
    return b"%04o %d %d " % (stat.S_IMODE(found.st_mode), found.st_uid, found.st_gid)


def identity(found: os.stat_result) -> tuple[int, ...]:
    """What stays the same while nobody changes a file: kind, mode, owner, inode, size, times."""
    return (
        found.st_mode,
        found.st_uid,
        found.st_gid,
        found.st_dev,
        found.st_ino,
        found.st_size,
        found.st_mtime_ns,
        found.st_ctime_ns,
    )


def settled(found: os.stat_result) -> bool:
    """Whether a further change of a file would show in its times."""
    return abs(time.time_ns() - found.st_ctime_ns) > GRAIN


def token_of_bytes(found: os.stat_result, content: bytes) -> bytes:
    """The token of a file of at most 1 MiB with this content."""
    if len(content) <= INLINE:
        return b"f " + head(found) + content
    made = new_digest()
    made.update(content)
    return b"h " + head(found) + b"%d %s" % (len(content), made.hexdigest().encode())


def token_of_large(found: os.stat_result) -> bytes:
    """The token of a file above 1 MiB, whose content is not read."""
    times = found.st_size, found.st_ino, found.st_mtime_ns, found.st_ctime_ns
    return b"i " + head(found) + b"%d %d %d %d" % times


def same_content(one: bytes, other: bytes) -> bool:
    """Whether two tokens are of files with the same content, whatever their modes and owners."""
    first, second = one.split(b" ", 4), other.split(b" ", 4)
    return first[:1] + first[4:] == second[:1] + second[4:]


def content_of(name: bytes | str, dir_fd: int) -> tuple[os.stat_result, bytes | None]:
    """The stat of a file and its content, both of one moment; no content of one above 1 MiB.

    Raises OSError; ESTALE if somebody keeps changing it.
    """
    for _ in range(100):
        fd = os.open(name, FILE_FLAGS, dir_fd=dir_fd)
        try:
            found = os.fstat(fd)
            if not stat.S_ISREG(found.st_mode):
                raise OSError(errno.ESTALE, os.strerror(errno.ESTALE), name)
            if found.st_size > WHOLE:
                if settled(found):
                    return found, None
                time.sleep(0.02)
                continue
            content = os.read(fd, WHOLE + 1)
            if len(content) == found.st_size and identity(os.fstat(fd)) == identity(found):
                return found, content
        finally:
            os.close(fd)
    raise OSError(errno.ESTALE, os.strerror(errno.ESTALE), name)


def token_of(name: bytes | str, dir_fd: int) -> Made:
    """What stands at a name in a directory, or at a path if it begins with a slash."""
    try:
        found = os.stat(name, dir_fd=dir_fd, follow_symlinks=False)
        kind = stat.S_IFMT(found.st_mode)
        if kind == stat.S_IFDIR:
            return Kind.DIRECTORY
        if kind == stat.S_IFLNK:
            return LINK + os.readlink(os.fsencode(name), dir_fd=dir_fd)
        if kind != stat.S_IFREG:
            return b"x %o %d %d" % (found.st_mode, found.st_rdev, found.st_ino)
        found, content = content_of(name, dir_fd)
    except PermissionError:  # it may be looked at all the same, and then counts by its times
        content = None
    except OSError as error:
        if error.errno in NOTHING:
            return None
        raise
    return token_of_large(found) if content is None else token_of_bytes(found, content)


def kind_of_entry(entry: os.DirEntry[str]) -> int:
    """The kind of an entry of a directory, as a stat has it; of what is odd that of a file."""
    if entry.is_dir(follow_symlinks=False):
        return stat.S_IFDIR
    return stat.S_IFLNK if entry.is_symlink() else stat.S_IFREG


def text_of_kinds(kinds: Iterable[tuple[bytes, int]]) -> bytes:
    """One text for the names in a directory with their kinds."""
    made = new_digest()
    for name, kind in sorted(kinds):
        made.update(b"%d %d " % (kind, len(name)) + name)
    return made.hexdigest().encode()


class Reader:
    """A tree that is read below the descriptor of its root: no link is followed on the way."""

    def __init__(self, root: int) -> None:
        """The descriptor stays the caller's, and open."""
        self.root = root
        self._above: Path | None = None
        self._fd = -1

    def close(self) -> None:
        """Lets go of the directory that is kept open between two looks."""
        if self._above:
            os.close(self._fd)
        self._above = None

    def directory(self, path: Path) -> int:
        """A descriptor of a directory; it is this reader's, and good until the next call.

        Raises OSError if a directory is missing on the way, or a link stands there.
        """
        if path == self._above:
            return self._fd
        self.close()
        fd = self.root
        for name in path:
            try:
                inside = os.open(name, DIRECTORY_FLAGS, dir_fd=fd)
            finally:
                if fd != self.root:
                    os.close(fd)
            fd = inside
        self._above, self._fd = path, fd
        return fd

    def look(self, path: Path) -> os.stat_result | None:
        """The stat of what stands at a path, or nothing."""
        try:
            if not path:
                return os.fstat(self.root)
            fd = self.directory(path[:-1])
            return os.stat(path[-1], dir_fd=fd, follow_symlinks=False)
        except OSError as error:
            if error.errno in NOTHING:
                return None
            raise

    def state(self, path: Path) -> Made:
        """What stands at a path."""
        if not path:
            return Kind.DIRECTORY
        try:
            fd = self.directory(path[:-1])
        except OSError as error:
            if error.errno in NOTHING:
                return None
            raise
        return token_of(path[-1], fd)

    def content(self, path: Path) -> tuple[os.stat_result, bytes | None]:
        """The stat and the content of a file, as `content_of`."""
        return content_of(path[-1], self.directory(path[:-1]))

    def names(self, path: Path) -> list[bytes]:
        """The names in a directory, in no order; at the root without those of places."""
        names = map(os.fsencode, os.listdir(self.directory(path)))
        return list(names) if path else [name for name in names if not is_place(name)]

    def kinds(self, path: Path) -> bytes:
        """The text of the names in a directory with their kinds; empty if there is none."""
        try:
            with os.scandir(self.directory(path)) as found:
                kinds = ((os.fsencode(it.name), kind_of_entry(it)) for it in found)
                return text_of_kinds(it for it in kinds if path or not is_place(it[0]))
        except OSError as error:
            if error.errno in NOTHING:
                return b""
            raise

    def below(self, path: Path) -> list[Path]:
        """All paths below a directory, each directory before what stands in it."""
        found: list[Path] = []
        inner: list[Path] = []
        with os.scandir(self.directory(path)) as entries:
            for entry in entries:
                inside = (*path, os.fsencode(entry.name))
                if not path and is_place(inside[0]):
                    continue
                if entry.is_dir(follow_symlinks=False):
                    inner.append(inside)
                else:
                    found.append(inside)
        for inside in inner:
            found.append(inside)
            found += self.below(inside)
        return found
