"""What happens before a commit: the new files are made with all that they are to have, and what
could not be done later is refused by name. Nothing in the tree is changed."""

from __future__ import annotations

import errno
import fcntl
import os
import stat
import time

from . import calls
from .calls import FILE, NEW, WRITE
from .differences import Change
from .intent import Operation
from .place import Tree, listed
from .survey import Changed, Survey
from .terminal import shown

TYPE_CHECKING = False
if TYPE_CHECKING:
    from collections.abc import Sequence

FRESH = 300 * 10**9  # nanoseconds: what was changed earlier is on the device
OPEN_AT_ONCE = 64  # directories kept open while changes are staged
GET_FLAGS = 0x80086601
FIXED = 0x30  # the flags of files that refuse changes: immutable, append only
HELD_BACK = ("system.nfs4", "trusted.overlay.")  # attributes that are the system's own
DEFAULT, ACCESS = "system.posix_acl_default", "system.posix_acl_access"
GONE = (errno.ENOENT, errno.ELOOP, errno.ENOTDIR, errno.EXDEV)


class Refused(Exception):
    """Nothing was changed; why."""


def staged(
    tree: Tree, place: int, changes: Sequence[Change], found: Survey, told: list[str]
) -> list[Operation]:
    """Stages what changes need in a place, and answers the operations.

    Raises Refused by name for what could not be done, Changed for what is another than was found.
    """
    stage = Stage(tree, place, found, told)
    try:
        return [stage.operation(number, change) for number, change in enumerate(changes)]
    finally:
        stage.close()


class Stage:
    """The staging of one commit."""

    def __init__(self, tree: Tree, place: int, found: Survey, told: list[str]) -> None:
        self.tree = tree
        self.place = place
        self.found = found
        self.told = told
        self.made: set[bytes] = set()  # the directories that operations before make
        self.open: dict[bytes, tuple[int, os.stat_result]] = {}

    def close(self) -> None:
        """Closes the directories that were opened."""
        for fd, _ in self.open.values():
            calls.S.close(fd)

    def home_of(self, names: list[bytes]) -> tuple[int, os.stat_result]:
        """The directory of a path, or the nearest one that is there already, and its state."""
        above = names[:-1]
        while b"/".join(above) in self.made:
            above.pop()
        key = b"/".join(above)
        if key in self.open:
            return self.open[key]
        if len(self.open) > OPEN_AT_ONCE:
            calls.S.close(self.open.pop(next(iter(self.open)))[0])
        try:
            fd = calls.S.down(self.tree.root, above)
        except OSError as error:
            if error.errno in GONE:
                raise Changed(os.fsdecode(key)) from None
            raise
        self.open[key] = fd, os.fstat(fd)
        if refuses(fd) or not os.access(".", os.W_OK | os.X_OK, dir_fd=fd, effective_ids=True):
            raise Refused(f"{shown(b'/' + key)}: names can't be changed in it")
        return self.open[key]

    def operation(self, number: int, change: Change) -> Operation:
        """The operation of a change, with what it needs staged."""
        names = os.fsencode(change.path).split(b"/")
        home, at_home = self.home_of(names)
        old = self.found.taken.get(change.path)
        if old is not None and stat.S_ISDIR(old.st_mode) and change.kind in ("store", "link"):
            old = None  # an operation before this one makes room
        it = Operation(number, change.kind, names)
        if change.kind == "mkdir":
            self.made.add(b"/".join(names))
            it.expect = calls.S.mark(old) if old is not None else None
            it.more = new_directory(home, at_home, change)
            return it
        if change.kind == "rmdir":
            it.more = b"room" if change.room else b""
            return it
        old_fd = None
        try:
            if old is not None:
                it.expect = calls.S.mark(old)
                self.look_at(change, names[-1], home, at_home, old, it.expect)
                if stat.S_ISREG(old.st_mode):
                    old_fd = self.old_file(change, names[-1], home, old, it.expect)
            if change.kind == "store":
                it.staged = b"n%d" % number
                like = old if old_fd is not None else None
                new_file(
                    self.place, it.staged, home, at_home, change, like, old_fd, self.told
                )
            elif change.kind == "link":
                it.more = change.data
            elif change.kind == "mode" and old is not None:
                mode = with_flag(stat.S_IMODE(old.st_mode), change.flag)
                it.more = b"%o" % (mode if change.mode is None else change.mode)
                if change.owner is not None:
                    it.more += b" %d:%d" % change.owner
            return it
        finally:
            if old_fd is not None:
                calls.S.close(old_fd)

    def look_at(
        self,
        change: Change,
        name: bytes,
        home: int,
        at_home: os.stat_result,
        old: os.stat_result,
        expect: bytes,
    ) -> None:
        """Looks whether a target is what was found, and may be replaced."""
        now = calls.S.look(name, home)
        if now is None or calls.S.mark(now) != expect:
            raise Changed(change.path)
        me = os.geteuid()
        if at_home.st_mode & 0o1000 and me not in (0, at_home.st_uid, old.st_uid):
            why = "another owner's, in a directory in which only owners may remove"
            raise Refused(f"{shown('/' + change.path)}: {why}")
        if old.st_nlink > 1 and change.kind == "store" and stat.S_ISREG(old.st_mode):
            others = "the others keep the old content"
            self.told.append(
                f"{shown('/' + change.path)}: one of {old.st_nlink} hard links; {others}"
            )

    def old_file(
        self, change: Change, name: bytes, home: int, old: os.stat_result, expect: bytes
    ) -> int:
        """The open file that is replaced, removed or given another mode."""
        try:
            fd = calls.S.open(name, FILE, home)
        except OSError as error:
            if error.errno in (errno.ENOENT, errno.ELOOP):
                raise Changed(change.path) from None
            raise
        try:
            if calls.S.mark(os.fstat(fd)) != expect or busy(fd):
                raise Changed(change.path)
            if refuses(fd):
                raise Refused(
                    f"{shown('/' + change.path)}: is immutable, or can only be appended to"
                )
            # What is expected to stand there has to be on the device too: else a power cut would
            # bring back an older one, and the operation would take it for somebody else's.
            if time.time_ns() - max(old.st_ctime_ns, old.st_mtime_ns) < FRESH:
                calls.S.fsync(fd)
        except BaseException:
            calls.S.close(fd)
            raise
        return fd


def new_directory(home: int, at_home: os.stat_result, change: Change) -> bytes:
    """The mode and the owner of a new directory: what the change says, else those of the directory
    in which it comes to stand; `-` for the mode if that one has an access list for new entries."""
    owner = b"%d:%d" % (change.owner or (at_home.st_uid, at_home.st_gid))
    if change.mode is not None:
        return b"%o " % change.mode + owner
    if DEFAULT in listed(home):
        return b"- " + owner
    return b"%o " % (stat.S_IMODE(at_home.st_mode) & 0o2777) + owner


def new_file(
    place: int,
    name: bytes,
    home: int,
    at_home: os.stat_result,
    change: Change,
    old: os.stat_result | None,
    old_fd: int | None,
    told: list[str],
) -> None:
    """Makes a new file with all that it is to have, and gives it a name in the place.

    `home` is the directory in which it is to stand, or the nearest one: there the system itself
    gives a new file the access list, the group and the label that it has there. `old` is what it
    replaces.
    """
    default = DEFAULT in listed(home)
    fd = None if old is not None else unnamed(place, name, home, default)
    inherits = fd is not None
    if fd is None:
        fd = calls.S.open(name, NEW, place, 0o600)
    try:
        fill(fd, change)
        like = at_home if old is None else old
        owner = change.owner or (like.st_uid, like.st_gid)
        made = os.fstat(fd)
        if owner != (made.st_uid, made.st_gid):
            try:
                calls.S.chown(fd, *owner)
            except PermissionError:
                told.append(f"{shown('/' + change.path)}: its owner or group can't be given")
        mode = stat.S_IMODE(like.st_mode)
        if old is not None and old_fd is not None:
            if change.attributes is None:
                give_attributes(fd, handed_on(old_fd), change.path, told)
            calls.S.chmod(fd, with_flag(mode & 0o1777, change.flag))
        elif default:
            if not inherits:
                calls.S.setxattr(fd, ACCESS, os.getxattr(home, DEFAULT))
                calls.S.chmod(fd, stat.S_IMODE(os.fstat(fd).st_mode) & 0o666)
            if change.flag:
                calls.S.chmod(fd, with_flag(stat.S_IMODE(os.fstat(fd).st_mode), True))
        else:
            calls.S.chmod(fd, with_flag(mode & 0o666, change.flag))
        if change.attributes is not None:
            give_attributes(fd, list(change.attributes.items()), change.path, told)
        if change.mode is not None:
            calls.S.chmod(fd, change.mode)
        calls.S.fsync(fd)
    finally:
        calls.S.close(fd)


def give_attributes(
    fd: int, attributes: list[tuple[str, bytes]], path: str, told: list[str]
) -> None:
    """Gives a file extended attributes; those that can't be given are told."""
    for key, value in attributes:
        try:
            calls.S.setxattr(fd, key, value)
        except OSError:
            told.append(f"{shown('/' + path)}: the attribute {key} can't be given")


def fill(fd: int, change: Change) -> None:
    """Writes the content of a change: its bytes, or those of the file that has them."""
    if change.source is None:
        calls.S.write(fd, change.data)
        return
    with open(os.open(change.source, os.O_RDONLY | os.O_CLOEXEC | os.O_NOFOLLOW), "rb") as it:
        while part := it.read(1 << 20):
            calls.S.write(fd, part)


def unnamed(place: int, name: bytes, home: int, default: bool) -> int | None:
    """A file that is made in the directory in which it is to stand, so that it has what a new
    file has there, and named in the place; nothing if the file system has no files without a
    name.

    It is opened anew by its name: else watchers of the directory would be told of each write.
    """
    try:
        fd = calls.S.open(b".", os.O_TMPFILE | os.O_WRONLY, home, 0o666 if default else 0o600)
    except OSError as error:
        if error.errno in (errno.EOPNOTSUPP, errno.EISDIR, errno.ENOENT):
            return None
        raise
    try:
        calls.S.link_open(fd, name, place)
    finally:
        calls.S.close(fd)
    return calls.S.open(name, WRITE, place)


def handed_on(fd: int) -> list[tuple[str, bytes]]:
    """The extended attributes that a file hands on to one with another content: no capability."""
    return [
        (name, os.getxattr(fd, name))
        for name in listed(fd)
        if name != "security.capability" and not name.startswith(HELD_BACK)
    ]


def busy(fd: int) -> bool:
    """Whether somebody has a file open to write: then there is no lease to read it. False where
    this user may have no lease, or the file system has none."""
    try:
        fcntl.fcntl(fd, fcntl.F_SETSIG, 23)  # SIGURG, which ends nobody, if the lease is broken
        fcntl.fcntl(fd, fcntl.F_SETLEASE, fcntl.F_RDLCK)
        fcntl.fcntl(fd, fcntl.F_SETLEASE, fcntl.F_UNLCK)
        return False
    except OSError as error:
        return error.errno == errno.EAGAIN


def refuses(fd: int) -> bool:
    """Whether a file or directory has a flag that refuses changes."""
    got = bytearray(8)
    try:
        fcntl.ioctl(fd, GET_FLAGS, got)
    except OSError:
        return False
    return bool(int.from_bytes(got[:4], "little") & FIXED)


def with_flag(mode: int, flag: bool | None) -> int:
    """A mode with the execute bits of those who may read, or without any; as it is if it has the
    flag already, or if nothing says whether it should."""
    if flag is None or bool(mode & 0o111) == flag:
        return mode
    return mode | (mode & 0o444) >> 2 if flag else mode & ~0o111
