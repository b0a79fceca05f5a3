"""Private copies of a tree for a command: what it has read in one, and what it has made there.

    Traced    a file system of this tool's own below an overlay (traced.py): what was looked at
              counts as read. It costs the same whatever the tree's size
    Plain     every file is copied, and all of the tree counts as read
    Only      the declared paths are copied, and count as read (only.py)

A copy is made in a room, a directory of the job's own. `enter` is called in the process that
becomes the command; `looked` and `changes` are asked once it has ended.
"""

from __future__ import annotations

import errno
import os
import stat

from .calls import PLAIN
from .place import is_place
from .states import DIRECTORY_FLAGS, FILE_FLAGS, Kind, Reader, new_digest, token_of
from .statuses import Failed, Status
from .terminal import below

TYPE_CHECKING = False
if TYPE_CHECKING:
    from collections.abc import Iterator
    from typing import NoReturn

    from .states import Made, Path, Seen

    Rights = tuple[int, int, int]
    Attributes = dict[str, bytes]

FICLONE = 0x40049409
SYSTEMS_OWN = ("user.overlay.", "trusted.overlay.", "security.", "system.nfs4")  # attributes
CAPABILITY = "security.capability"
DEFAULT, ACCESS = "system.posix_acl_default", "system.posix_acl_access"
COPIED = (stat.S_IFREG, stat.S_IFDIR, stat.S_IFLNK)
NO_CLONE = (errno.EOPNOTSUPP, errno.EINVAL, errno.EXDEV, errno.ENOTTY, errno.EPERM)


class CannotEnter(Exception):
    """This system makes no such copy."""


class Looked:
    """What a command has read: of each path what it saw there.

    `kinds` has of each directory whose names it has read which kinds they had. `total` is a digest
    of the whole tree if all of it counts as read. `spoiled` is a path that changed while the
    command ran, so that it may have seen two moments; it has to run again. `rights` are the modes
    and owners of directories as it has seen them, and `attributes` those of files and directories
    that are extended ones; they are not compared.
    """

    def __init__(
        self,
        reads: dict[Path, Seen] | None = None,
        total: bytes | None = None,
        spoiled: Path | None = None,
        rights: dict[Path, Rights] | None = None,
        attributes: dict[Path, Attributes] | None = None,
    ) -> None:
        self.reads = reads or {}
        self.total = total
        self.spoiled = spoiled
        self.rights = rights or {}
        self.attributes = attributes or {}
        self.kinds: dict[Path, bytes] = {}


class Changes:
    """What a command has made.

    writes      of each path that it changed what is to stand there
    files       of each file among these where its content stands
    before      of each of these paths what stood there
    modes       the modes of directories that were there before and have another one now
    owners      the owners of such directories, user and group, if root has given another one
    attributes  the extended attributes of files that are others now; nothing for one that is gone
    """

    def __init__(self) -> None:
        self.writes: dict[Path, Made] = {}
        self.files: dict[Path, str] = {}
        self.before: dict[Path, Seen] = {}
        self.modes: dict[Path, int] = {}
        self.owners: dict[Path, tuple[int, int]] = {}
        self.attributes: dict[Path, dict[str, bytes | None]] = {}

    def __bool__(self) -> bool:
        return bool(self.writes or self.modes or self.owners or self.attributes)

    def put(self, path: Path, before: Made, new: Made, where: bytes = b"") -> None:
        """One change; `where` is the file of its content."""
        self.writes[path], self.before[path] = new, before
        if where:
            self.files[path] = os.fsdecode(where)

    def take_rights(self, path: Path, before: Rights | None, now: os.stat_result) -> None:
        """Takes another mode or owner of a directory than the command has seen there."""
        if before is None:
            return
        mode, user, group = rights_of(now)
        if mode != before[0]:
            self.modes[path] = mode
        if os.geteuid() == 0 and (user, group) != before[1:]:
            self.owners[path] = user, group

    def take_attributes(self, path: Path, before: Attributes, now: Attributes) -> None:
        """Takes the extended attributes of a file that are others than before."""
        made: dict[str, bytes | None] = {
            name: value for name, value in now.items() if before.get(name) != value
        }
        made.update((name, None) for name in before.keys() - now.keys())
        if made:
            self.attributes[path] = made

    def check(self) -> None:
        """Refuses what no tree of the tools can have."""
        for path, new in self.writes.items():
            if isinstance(new, bytes) and new.startswith(b"x "):
                raise Failed(
                    Status.SYSTEM,
                    f"{below(path)}: neither file, directory nor link; nothing was changed",
                )


class Copy:
    """A private copy: the base of the kinds above."""

    name = "copy"  # how it is told
    word = "copy"  # and in a log
    spoiled: Path | None = None  # what changed while it was made, so that no command is to see it

    def __init__(self, room: str, root: int) -> None:
        """`room` is a directory of the job's own, `root` a descriptor of the tree."""
        self.room = room
        self.root = root
        self.tree = os.path.join(room, "tree")
        self.mode = stat.S_IMODE(os.fstat(root).st_mode) | 0o700
        os.mkdir(self.tree)
        os.chmod(self.tree, self.mode)

    def refuse_root(self, where: str) -> None:
        """Refuses another mode of the tree itself, which no commit carries."""
        if stat.S_IMODE(os.stat(where).st_mode) | 0o700 != self.mode:
            raise Failed(
                Status.SYSTEM, "/: its mode was changed, which is not carried; nothing was changed"
            )

    def enter(self) -> None:
        """Goes into the copy. Raises OSError or CannotEnter if the system makes none."""
        self.go()

    def go(self) -> None:
        """Goes there, as `cd` does."""
        os.environ["OLDPWD"] = os.getcwd()
        os.chdir(self.tree)
        os.environ["PWD"] = self.tree

    def entered(self) -> None:
        """Called in the process that waits, once the command's process has begun."""

    def helper(self) -> int | None:
        """The number of a process that serves the copy and ends by itself behind the command."""
        return None

    def looked(self) -> Looked:
        """What was read."""
        raise NotImplementedError

    def changes(self, looked: Looked) -> Changes:
        """What was made. Raises Failed if it can't be taken."""
        raise NotImplementedError


# ---- copies of every file


class Plain(Copy):
    """A copy of every file, on shared blocks if the file system has them."""

    name = "a plain copy: all of the tree counts as read"
    word = "plain"

    def __init__(self, room: str, root: int) -> None:
        super().__init__(room, root)
        self.kinds: dict[Path, int] = {}  # what stood in the tree before it was copied
        self.total = self.first_look()
        self.fill()
        self.marks: dict[Path, tuple[int, int, int, int]] = {}
        self.attributes: dict[Path, Attributes] = {}  # as far as there are any
        for path, found in entries(self.tree):
            self.marks[path] = mark(found)
            if attributes := attributes_of(self.inside(path)):
                self.attributes[path] = attributes
        self.compare_kinds()
        wait_for_clock()

    def inside(self, path: Path) -> bytes:
        """Where an entry of the copy stands."""
        return b"/".join((os.fsencode(self.tree), *path))

    def first_look(self) -> bytes | None:
        """The digest of the tree before it is copied."""
        return digest_of(self.root, is_first=True, kinds=self.kinds)

    def fill(self) -> None:
        """Copies the tree."""
        copy_tree(self.root, os.open(self.tree, DIRECTORY_FLAGS), True)

    def compare_kinds(self) -> None:
        """Looks whether the copy has what the tree had: something may come, or go, for as long as
        it is copied. The digest tells any other change."""
        made = {path: stat.S_IFMT(mode) for path, (_, _, _, mode) in self.marks.items()}
        wanted = {path: kind for path, kind in self.kinds.items() if kind in COPIED}
        odd = {path for path in made.keys() | wanted if made.get(path) != wanted.get(path)}
        if odd:
            self.spoiled = min(odd)

    def looked(self) -> Looked:
        return Looked(total=self.total, spoiled=self.spoiled)

    def changes(self, looked: Looked) -> Changes:
        made, now = Changes(), set()
        self.refuse_root(self.tree)
        reader = Reader(self.root)
        try:
            for path, found in entries(self.tree):
                now.add(path)
                if self.marks.get(path) != mark(found):
                    self.compare(made, path, found, reader)
                if stat.S_ISDIR(found.st_mode):
                    self.refuse_folder(path)
            for path in self.marks.keys() - now:
                made.put(path, reader.state(path), None)
        finally:
            reader.close()
        return made

    def refuse_folder(self, path: Path) -> None:
        """Refuses a directory whose attributes are none that it had, or has from the one above."""
        found = attributes_of(self.inside(path))
        before = self.attributes.get(path, {})
        if path not in self.marks:
            before = inherited(self.inside(path[:-1]), found)
        if found != before:
            refuse_attributes(path)

    def compare(self, made: Changes, path: Path, found: os.stat_result, reader: Reader) -> None:
        """Takes what stands at one path of the copy, if it is another than in the tree."""
        where = self.inside(path)
        before, new = reader.state(path), token_of(where, -1)
        if new is Kind.DIRECTORY and before is Kind.DIRECTORY:
            seen = self.marks.get(path)
            rights = (stat.S_IMODE(seen[3]), seen[1], seen[2]) if seen is not None else None
            made.take_rights(path, rights, found)
            return
        if stat.S_ISREG(found.st_mode):
            made.take_attributes(path, self.attributes.get(path, {}), attributes_of(where))
        if new != before or path in made.attributes:
            made.put(path, before, new, where)


def rights_of(found: os.stat_result) -> Rights:
    """The mode, the user and the group of an entry."""
    return stat.S_IMODE(found.st_mode), found.st_uid, found.st_gid


def refuse_attributes(path: Path) -> NoReturn:
    """Refuses a directory with other attributes than it had, which no commit carries."""
    line = "its access list or attributes were changed, which is not carried for a directory"
    raise Failed(Status.SYSTEM, f"{below(path)}: {line}; nothing was changed")


def mark(found: os.stat_result) -> tuple[int, int, int, int]:
    """What is another for an entry of a copy that was changed."""
    if stat.S_ISDIR(found.st_mode):  # its ctime is that of its entries too
        return found.st_ino, found.st_uid, found.st_gid, found.st_mode
    return found.st_ino, found.st_ctime_ns, found.st_size, found.st_mode


def wait_for_clock() -> None:
    """Waits until a change of a file shows in its time."""
    import time

    time.sleep(0.021)


def entries(top: str | bytes, path: Path = ()) -> Iterator[tuple[Path, os.stat_result]]:
    """All entries below a folder of one's own, each directory before what stands in it."""
    with os.scandir(b"/".join((os.fsencode(top), *path))) as found:
        here = list(found)
    for entry in here:
        inside = (*path, entry.name)
        yield inside, entry.stat(follow_symlinks=False)
        if entry.is_dir(follow_symlinks=False):
            yield from entries(top, inside)


def copy_tree(source: int, target: int, is_root: bool = False) -> None:
    """Copies what stands in one directory into another; closes the second. No link is followed. Of
    a tree's root the places are left out."""
    try:
        for name in os.listdir(source):
            if not is_root or not is_place(os.fsencode(name)):
                copy_entry(name, source, target)
        copy_attributes(source, target)
        give(target, os.fstat(source))
    finally:
        os.close(target)


def copy_entry(name: str, source: int, target: int) -> None:
    """Copies one entry of a directory, a directory with all below it.

    Of one that goes meanwhile, or becomes another, there is no copy; that shows at the end.
    """
    try:
        found = os.stat(name, dir_fd=source, follow_symlinks=False)
        try:
            copy_found(name, found, source, target)
        except OSError:
            now = os.stat(name, dir_fd=source, follow_symlinks=False)
            if stat.S_IFMT(now.st_mode) == stat.S_IFMT(found.st_mode):
                raise
    except FileNotFoundError:
        return


def copy_found(name: str, found: os.stat_result, source: int, target: int) -> None:
    """Copies an entry of the kind that was found."""
    if stat.S_ISDIR(found.st_mode):
        os.mkdir(name, 0o700, dir_fd=target)
        inside = os.open(name, DIRECTORY_FLAGS, dir_fd=source)
        try:
            copy_tree(inside, os.open(name, DIRECTORY_FLAGS, dir_fd=target))
        finally:
            os.close(inside)
    elif stat.S_ISLNK(found.st_mode):
        os.symlink(os.readlink(name, dir_fd=source), name, dir_fd=target)
    elif stat.S_ISREG(found.st_mode):
        copy_file(name, source, target)


def copy_file(name: str | bytes, source: int, target: int) -> None:
    """Copies a file: its bytes, mode, owner, time and extended attributes."""
    reading = os.open(name, FILE_FLAGS, dir_fd=source)
    try:
        flags = os.O_WRONLY | os.O_CREAT | os.O_EXCL | os.O_CLOEXEC
        writing = os.open(name, flags, 0o600, dir_fd=target)
        try:
            copy_bytes(reading, writing)
            copy_attributes(reading, writing)
            give(writing, os.fstat(reading))
        finally:
            os.close(writing)
    finally:
        os.close(reading)


def copy_bytes(reading: int, writing: int) -> None:
    """Copies the content of a file; on shared blocks if the file system has them."""
    import fcntl

    try:
        fcntl.ioctl(writing, FICLONE, reading)
        return
    except OSError as error:
        if error.errno not in NO_CLONE:
            raise
    while os.sendfile(writing, reading, None, 1 << 30):
        pass


def copy_attributes(reading: int, writing: int) -> None:
    """Copies extended attributes, as far as the file system of the copy has them."""
    for name, value in attributes_of(reading).items():
        try:
            os.setxattr(writing, name, value)
        except OSError:
            continue


def give(fd: int, found: os.stat_result) -> None:
    """Gives an open entry the owner, mode and times of another; an owner only if one may."""
    there = os.fstat(fd)
    if (there.st_uid, there.st_gid) != (found.st_uid, found.st_gid):
        try:
            os.fchown(fd, found.st_uid, found.st_gid)
        except PermissionError:
            pass
    os.fchmod(fd, stat.S_IMODE(found.st_mode))
    os.utime(fd, ns=(found.st_atime_ns, found.st_mtime_ns))


# ---- extended attributes


def is_kept(name: str) -> bool:
    """Whether a tree keeps an extended attribute: it is not the system's own."""
    return not name.startswith(SYSTEMS_OWN) or name == CAPABILITY and os.geteuid() == 0


def attributes_of(where: bytes | str | int) -> Attributes:
    """The extended attributes of a file or directory that a tree keeps, access lists among them."""
    return {name: value for name, value in all_attributes(where).items() if is_kept(name)}


def all_attributes(where: bytes | str | int) -> Attributes:
    """All extended attributes of a file or directory that this user may read."""
    found: Attributes = {}
    follow = isinstance(where, int)
    try:
        names = os.listxattr(where, follow_symlinks=follow)
    except OSError:
        return found
    for name in names:
        try:
            found[name] = os.getxattr(where, name, follow_symlinks=follow)
        except OSError:
            continue
    return found


def inherited(above: bytes, found: Attributes) -> Attributes:
    """The attributes that a new directory has if nobody gave it any: with a default access list of
    the directory above its own lists are what that makes of them."""
    default = attributes_of(above).get(DEFAULT)
    if default is None:
        return {}
    return {DEFAULT: default, **({ACCESS: found[ACCESS]} if ACCESS in found else {})}


def kept_attributes(reader: Reader, path: Path) -> Attributes:
    """The extended attributes of a file of a tree."""
    try:
        fd = os.open(path[-1], FILE_FLAGS, dir_fd=reader.directory(path[:-1]))
    except OSError:
        return {}
    try:
        return attributes_of(fd)
    finally:
        os.close(fd)


# ---- all of a tree as one text


def digest_of(
    root: int, is_first: bool = False, kinds: dict[Path, int] | None = None
) -> bytes:
    """One text for all that stands in a tree: paths, kinds, modes, owners, inodes, sizes, times.

    With `is_first` it waits until any later change would show in a time. No content is read; of
    directories the times don't count. `kinds` is told the kind of each entry.
    """
    import time

    told: dict[Path, int] = {} if kinds is None else kinds
    for _ in range(20):
        made, young = new_digest(), 0
        told.clear()
        reader = Reader(root)
        work: list[Path] = [()]
        while work:
            path = work.pop()
            try:
                fd = reader.directory(path)
                with os.scandir(fd) as found:
                    here = sorted(found, key=lambda entry: entry.name)
                for entry in here:
                    inside = (*path, os.fsencode(entry.name))
                    if not path and is_place(inside[0]):
                        continue
                    it = os.stat(entry.name, dir_fd=fd, follow_symlinks=False)
                    told[inside] = stat.S_IFMT(it.st_mode)
                    line = b"%o %d %d %d" % (it.st_mode, it.st_ino, it.st_uid, it.st_gid)
                    if stat.S_ISDIR(it.st_mode):
                        work.append(inside)
                    else:
                        line += b" %d %d %d" % (it.st_size, it.st_mtime_ns, it.st_ctime_ns)
                        young = max(young, it.st_ctime_ns)
                    made.update(b"/".join(inside) + b"\0" + line + b"\0")
            except (FileNotFoundError, NotADirectoryError):
                young = time.time_ns()
            except PermissionError:
                made.update(b"/".join(path) + b"\0closed\0")
        reader.close()
        if not is_first or time.time_ns() - young > 20_000_000:
            break
        time.sleep(0.02)
    return b"tree " + made.hexdigest().encode()


# ---- what is left of a copy


def remove_tree(path: str | bytes) -> None:
    """Removes a folder of one's own with all below it, also what may not be written.

    Raises OSError for what the system does not let go. A mount that somebody made there is such a
    thing: what stands in it is not this tool's.
    """
    above, name = os.path.split(os.fsencode(path))
    try:
        fd = os.open(above or b".", DIRECTORY_FLAGS & ~os.O_NOFOLLOW)
    except FileNotFoundError:
        return
    try:
        remove_folder(fd, name)
    except FileNotFoundError:
        return
    finally:
        os.close(fd)


def remove_folder(above: int, name: bytes) -> None:
    """Removes a directory of another one, with all below it."""
    try:
        fd = PLAIN.down(above, [name])
    except PermissionError:
        os.chmod(name, 0o700, dir_fd=above)
        fd = PLAIN.down(above, [name])
    try:
        if os.fstat(fd).st_mode & 0o700 != 0o700:
            os.fchmod(fd, 0o700)
        with os.scandir(fd) as found:
            here = [(os.fsencode(it.name), it.is_dir(follow_symlinks=False)) for it in found]
        for inside, is_folder in here:
            if is_folder:
                remove_folder(fd, inside)
            else:
                os.unlink(inside, dir_fd=fd)
    finally:
        os.close(fd)
    os.rmdir(name, dir_fd=above)
