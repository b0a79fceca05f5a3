"""A private copy that tells what was looked at.

It is an overlay whose lower layer is a file system of this tool's own. That one is spoken over
/dev/fuse without a library: a dozen requests are all that reading needs, and a library costs the
start of each job. Each look that the kernel makes for anybody comes by, whatever made it: static
programs, mapped files, paths at which nothing stands.

What a path has given once it gives again, so that the tree may change below: a change of what was
looked at shows at the commit, and the command runs again. It fails closed: if the server ends, the
command meets errors, and without the server's account nothing is committed.
"""

from __future__ import annotations

import errno
import os
import stat
import struct

from .copies import (
    Changes,
    Copy,
    Looked,
    all_attributes,
    attributes_of,
    digest_of,
    inherited,
    is_kept,
    kept_attributes,
    refuse_attributes,
    rights_of,
)
from .lines import path_of, path_words, read_lines, seen_line, seen_of, written_lines
from .mounts import NODEV, NOSUID, READ_ONLY, mount, own_mounts
from .place import is_place
from .states import (
    FILE_FLAGS,
    LINK,
    Kind,
    Reader,
    identity,
    kind_of_entry,
    text_of_kinds,
    token_of,
    token_of_bytes,
    token_of_large,
)
from .statuses import Failed, Status

TYPE_CHECKING = False
if TYPE_CHECKING:
    from _socket import socket

    from .copies import Attributes
    from .states import Made, Path, Seen

LOOKUP, FORGET, GETATTR, READLINK, OPEN, READ, STATFS, RELEASE = 1, 2, 3, 5, 14, 15, 17, 18
GETXATTR, LISTXATTR, FLUSH, INIT, OPENDIR, READDIR, RELEASEDIR = 22, 23, 25, 26, 27, 28, 29
ACCESS, INTERRUPT, DESTROY, BATCH_FORGET = 34, 36, 38, 42
CLOSED = (errno.EACCES, errno.EPERM)  # what is not for this user, as it is at any moment
SILENT = (FORGET, BATCH_FORGET, INTERRUPT)
EVER = 1 << 30
KEEP_CACHE, CACHE_DIR = 2, 8
ASYNC_READ, PARALLEL_DIRECTORIES, CACHE_LINKS = 1, 1 << 18, 1 << 23
BUFFER = 1 << 18
DESCRIPTOR = struct.Struct("=i")  # the number of an open file


class Known:
    """What a path has given: its stat, and its state as far as it is known."""

    __slots__ = ("found", "state", "number", "text")

    def __init__(self, found: os.stat_result | None, number: int) -> None:
        self.found = found
        self.state: Seen = None
        self.number = number
        self.text = b""


class Server:
    """Serves the tree below a descriptor for reading, and keeps what was looked at."""

    def __init__(self, device: int, root: int) -> None:
        self.device = device
        self.reader = Reader(root)
        self.paths: dict[int, Path] = {1: ()}
        self.known: dict[Path, Known] = {(): Known(os.fstat(root), 1)}
        self.names: dict[Path, list[tuple[int, bytes, int]]] = {}
        self.extended: dict[Path, Attributes] = {}  # the extended attributes
        self.files: dict[int, bytes | int] = {}  # open files: the content, or a descriptor
        self.opened = 0
        self.calls = 0
        self.spoiled: Path | None = None
        self.user, self.group = os.geteuid(), os.getegid()
        self.answers = {
            LOOKUP: self.lookup,
            GETATTR: self.getattr,
            READLINK: self.readlink,
            OPEN: self.open,
            READ: self.read,
            RELEASE: self.release,
            OPENDIR: self.opendir,
            READDIR: self.readdir,
            RELEASEDIR: self.done,
            ACCESS: self.done,
            FLUSH: self.done,
            STATFS: self.statfs,
            GETXATTR: self.getxattr,
            LISTXATTR: self.listxattr,
            INIT: self.init,
            DESTROY: self.done,
        }

    # ---- the conversation

    def serve(self) -> None:
        """Answers the kernel until the file system is unmounted."""
        while True:
            try:
                request = os.read(self.device, BUFFER)
            except OSError as error:
                if error.errno == errno.ENODEV:
                    return
                if error.errno in (errno.ENOENT, errno.EINTR, errno.EAGAIN):
                    continue
                raise
            self.calls += 1
            _, code, unique, node = struct.unpack_from("=IIQQ", request)
            if code in SILENT:
                continue
            number, answer = self.answered(code, node, request[40:])
            if not self.reply(struct.pack("=IiQ", 16 + len(answer), -number, unique), answer):
                return
            if code == DESTROY:
                return

    def answered(self, code: int, node: int, body: bytes) -> tuple[int, bytes]:
        """The error, or 0, and the answer of a request."""
        ask = self.answers.get(code)
        if ask is None:
            return errno.ENOSYS, b""
        try:
            return 0, ask(self.paths.get(node, ()), body)
        except OSError as error:
            return error.errno or errno.EIO, b""

    def reply(self, head: bytes, answer: bytes) -> bool:
        """Sends an answer; whether the file system still stands."""
        try:
            os.writev(self.device, [head, answer])
        except OSError as error:
            if error.errno == errno.ENODEV:
                return False
            if error.errno != errno.ENOENT:  # a request that was broken off
                raise
        return True

    # ---- the requests

    def init(self, path: Path, body: bytes) -> bytes:
        """The first one: what both sides can."""
        offered = struct.unpack_from("=IIII", body)[3]
        flags = (ASYNC_READ | PARALLEL_DIRECTORIES | CACHE_LINKS) & offered
        return struct.pack("=IIIIHHIIHHI28x", 7, 31, 1 << 20, flags, 64, 48, 1 << 17, 1, 32, 0, 0)

    def done(self, path: Path, body: bytes) -> bytes:
        """A request that needs no answer but that it was heard."""
        return b""

    def lookup(self, path: Path, body: bytes) -> bytes:
        """What stands at a name in a directory, or that nothing does."""
        inside = (*path, body[:-1])
        known = self.known.get(inside)
        if known is None:
            known = self.first_look(inside)
        if known.found is None:
            return struct.pack("=QQQQII", 0, 0, EVER, 0, 0, 0) + bytes(88)
        head = struct.pack("=QQQQII", known.number, 0, EVER, EVER, 0, 0)
        return head + self.attributes(known.number, known.found)

    def first_look(self, path: Path) -> Known:
        """Looks at a path of the tree, once and for all."""
        found = self.reader.look(path)
        known = self.known[path] = Known(found, len(self.known) + 1)
        if found is None:
            return known
        self.paths[known.number] = path
        if stat.S_ISDIR(found.st_mode):
            known.state = Kind.DIRECTORY
        elif stat.S_ISLNK(found.st_mode):
            fd = self.reader.directory(path[:-1])
            known.text = os.readlink(path[-1], dir_fd=fd)
            known.state = LINK + known.text
        return known

    def attributes(self, number: int, found: os.stat_result) -> bytes:
        """A stat as the kernel wants it.

        Without root an owner or a group other than one's own has no number in the name space; then
        one's own stands for it, so that whoever may write to a file can do so in the copy.
        """
        user, group = found.st_uid, found.st_gid
        if self.user:
            user, group = self.user, self.group
        second = 10**9
        return struct.pack(
            "=QQQQQQIIIIIIIIII",
            number,
            found.st_size,
            found.st_blocks,
            found.st_atime_ns // second,
            found.st_mtime_ns // second,
            found.st_ctime_ns // second,
            found.st_atime_ns % second,
            found.st_mtime_ns % second,
            found.st_ctime_ns % second,
            found.st_mode,
            found.st_nlink,
            user,
            group,
            found.st_rdev & 0xFFFFFFFF,
            found.st_blksize,
            0,
        )

    def getattr(self, path: Path, body: bytes) -> bytes:
        """The stat of what was looked up before."""
        known = self.known[path]
        if known.found is None:
            raise OSError(errno.ESTALE, "")
        return struct.pack("=QII", EVER, 0, 0) + self.attributes(known.number, known.found)

    def readlink(self, path: Path, body: bytes) -> bytes:
        """The text of a link, as it was looked up."""
        return self.known[path].text

    def open(self, path: Path, body: bytes) -> bytes:
        """Opens a file for reading, if it is still the one that was looked up."""
        known = self.known[path]
        try:
            found, content = self.reader.content(path)
            if known.found is None or identity(found) != identity(known.found):
                raise OSError(errno.ESTALE, "")
            held: bytes | int = self.large(path) if content is None else content
        except OSError as error:
            if known.state is not None or error.errno not in CLOSED:
                self.spoil(path)
            raise
        if content is None:
            known.state = token_of_large(found)
        elif known.state is None:
            known.state = token_of_bytes(found, content)
        self.opened += 1
        self.files[self.opened] = held
        return struct.pack("=QII", self.opened, KEEP_CACHE, 0)

    def large(self, path: Path) -> int:
        """A descriptor of a file that is too large to be held."""
        return os.open(path[-1], os.O_RDONLY, dir_fd=self.reader.directory(path[:-1]))

    def read(self, path: Path, body: bytes) -> bytes:
        """A part of an open file."""
        number, offset, size = struct.unpack_from("=QQI", body)
        held = self.files[number]
        if isinstance(held, int):
            return os.pread(held, size, offset)
        return held[offset : offset + size]

    def release(self, path: Path, body: bytes) -> bytes:
        """Lets go of an open file."""
        held = self.files.pop(struct.unpack_from("=Q", body)[0], b"")
        if isinstance(held, int):
            os.close(held)
        return b""

    def opendir(self, path: Path, body: bytes) -> bytes:
        """Opens a directory; it is read with the first request for its names."""
        return struct.pack("=QII", 0, KEEP_CACHE | CACHE_DIR, 0)

    def readdir(self, path: Path, body: bytes) -> bytes:
        """Names of a directory from a place on, as many as are asked for."""
        _, offset, size = struct.unpack_from("=QQI", body)
        if path not in self.names:
            try:
                with os.scandir(self.reader.directory(path)) as found:
                    self.names[path] = [
                        (it.inode(), os.fsencode(it.name), kind_of_entry(it))
                        for it in found
                        if path or not is_place(os.fsencode(it.name))
                    ]
            except OSError as error:
                if error.errno not in CLOSED:
                    self.spoil(path)
                raise
        made, length = [], 0
        names = self.names[path]
        for place in range(offset, len(names)):
            inode, name, what = names[place]
            one = struct.pack("=QQII", inode, place + 1, len(name), what >> 12) + name
            one += bytes(-len(one) % 8)
            if length + len(one) > size:
                break
            made.append(one)
            length += len(one)
        return b"".join(made)

    def statfs(self, path: Path, body: bytes) -> bytes:
        """The room on the tree's device."""
        it = os.fstatvfs(self.reader.root)
        rooms = it.f_blocks, it.f_bfree, it.f_bavail, it.f_files, it.f_ffree
        return struct.pack("=QQQQQIIII24x", *rooms, it.f_bsize, 255, it.f_frsize, 0)

    def getxattr(self, path: Path, body: bytes) -> bytes:
        """An extended attribute, or its size."""
        size = struct.unpack_from("=I", body)[0]
        name = body[8:-1]
        if b"overlay." in name or not path and name.startswith(b"system.posix_acl"):
            raise OSError(errno.ENODATA, "")
        value = self.all_extended(path).get(os.fsdecode(name))
        if value is None:
            raise OSError(errno.ENODATA, "")
        return sized(value, size)

    def listxattr(self, path: Path, body: bytes) -> bytes:
        """The names of all extended attributes, or their size."""
        names = [os.fsencode(name) for name in self.all_extended(path)]
        shown = [name + b"\0" for name in names if b"overlay." not in name]
        return sized(b"".join(shown), struct.unpack_from("=I", body)[0])

    def all_extended(self, path: Path) -> Attributes:
        """The extended attributes that stood at a path when one was first asked for."""
        if path not in self.extended:
            fd = self.held(path)
            try:
                self.extended[path] = {} if fd is None else all_attributes(fd)
            finally:
                if fd is not None:
                    os.close(fd)
        return self.extended[path]

    def held(self, path: Path) -> int | None:
        """A descriptor of a file or directory, for its extended attributes; nothing of a link, of
        which no attributes are kept."""
        if not path:
            return os.dup(self.reader.root)
        known = self.known[path].found
        if known is None or not (stat.S_ISREG(known.st_mode) or stat.S_ISDIR(known.st_mode)):
            return None
        try:
            return os.open(path[-1], FILE_FLAGS, dir_fd=self.reader.directory(path[:-1]))
        except OSError as error:
            if error.errno not in CLOSED:
                self.spoil(path)
            raise

    # ---- the account

    def spoil(self, path: Path) -> None:
        """A path is another than it was when it was looked up: the command has to run again."""
        if self.spoiled is None:
            self.spoiled = path

    def looked(self) -> Looked:
        """All that was looked at, with what it was."""
        reads: dict[Path, Seen] = {}
        for path, known in self.known.items():
            if path:
                reads[path] = self.state(path, known)
        for path, names in self.names.items():
            reads[path] = frozenset(name for _, name, _ in names)
        folders = {
            path: rights_of(known.found)
            for path, known in self.known.items()
            if known.found is not None and stat.S_ISDIR(known.found.st_mode)
        }
        attributes = {
            path: {name: value for name, value in found.items() if is_kept(name)}
            for path, found in self.extended.items()
        }
        looked = Looked(reads, spoiled=self.spoiled, rights=folders, attributes=attributes)
        for path, names in self.names.items():
            looked.kinds[path] = text_of_kinds((name, kind) for _, name, kind in names)
        return looked

    def state(self, path: Path, known: Known) -> Seen:
        """What a path was when it was looked up. A file that nobody opened is read now."""
        if known.found is None or known.state is not None:
            return known.state
        state = self.reader.state(path)
        now = self.reader.look(path)
        if now is None or identity(now) != identity(known.found):
            self.spoil(path)
        return state


def sized(value: bytes, size: int) -> bytes:
    """An answer on attributes: the value, or its size if the kernel has no room yet."""
    if size == 0:
        return struct.pack("=II", len(value), 0)
    if len(value) > size:
        raise OSError(errno.ERANGE, "")
    return value


# ---- the copy


class Traced(Copy):
    """An overlay over a server: what was looked at counts as read."""

    name = "traced: what is looked at counts as read"
    word = "traced"

    def __init__(self, room: str, root: int) -> None:
        from _socket import socketpair  # the module socket costs the start

        super().__init__(room, root)
        self.upper = os.path.join(room, "upper")
        self.work = os.path.join(room, "work")
        self.under = os.path.join(room, "under")
        self.account = os.path.join(room, "looked")
        os.mkdir(self.upper)
        os.chmod(self.upper, self.mode)
        os.mkdir(self.work, 0o700)
        os.mkdir(self.under, 0o700)
        here, self.there = socketpair()
        self.server = os.fork()
        if not self.server:
            status = 1
            try:
                self.there.close()
                status = self.serve(here)
            finally:
                os._exit(status)
        here.close()

    def helper(self) -> int | None:
        return self.server

    def serve(self, here: socket) -> int:
        """In a process of its own: takes the device, serves, and leaves the account."""
        from _socket import CMSG_SPACE

        from .signals import ENDING, signal

        for number in ENDING:
            signal.signal(number, signal.SIG_IGN)
        _, more, _, _ = here.recvmsg(1, CMSG_SPACE(DESCRIPTOR.size))
        here.close()
        if not more:
            return 0
        it = Server(DESCRIPTOR.unpack_from(more[0][2])[0], self.root)
        it.serve()
        looked = it.looked()
        lines = [seen_line(path, seen) for path, seen in looked.reads.items()]
        lines += [[b"kinds", *path_words(path), text] for path, text in looked.kinds.items()]
        if looked.spoiled is not None:
            lines.append([b"spoiled", *looked.spoiled])
        for path, rights in looked.rights.items():
            lines.append([b"rights", *path_words(path), *(b"%d" % number for number in rights)])
        for path, attributes in looked.attributes.items():
            words = [word for it in attributes.items() for word in (os.fsencode(it[0]), it[1])]
            lines.append([b"attributes", *path_words(path), *words])
        written_lines(self.account, b"looked", lines)
        return 0

    def entered(self) -> None:
        self.there.close()

    def enter(self) -> None:
        from _socket import SCM_RIGHTS, SOL_SOCKET

        own_mounts()
        device = os.open(os.environ.get("TXFOREST_FUSE", "/dev/fuse"), os.O_RDWR | os.O_CLOEXEC)
        user, group = os.geteuid(), os.getegid()
        words = f"fd={device},rootmode=40000,user_id={user},group_id={group}"
        flags = READ_ONLY | NOSUID | NODEV
        mount(b"txforest", os.fsencode(self.under), b"fuse.txforest", flags, words.encode())
        self.there.sendmsg([b"d"], [(SOL_SOCKET, SCM_RIGHTS, DESCRIPTOR.pack(device))])
        self.there.close()
        os.close(device)
        self.mount_overlay()
        self.go()

    def mount_overlay(self) -> None:
        """The overlay. Its layers are named by descriptors of this process's own mounts."""
        under = os.open(self.under, os.O_PATH | os.O_CLOEXEC)
        upper, work = (os.open(p, os.O_RDONLY | os.O_CLOEXEC) for p in (self.upper, self.work))
        at = "/proc/self/fd/"
        layers = f"lowerdir={at}{under},upperdir={at}{upper},workdir={at}{work},userxattr"
        mount(b"overlay", os.fsencode(self.tree), b"overlay", 0, layers.encode())
        for fd in (under, upper, work):
            os.close(fd)

    def looked(self) -> Looked:
        try:
            lines = read_lines(self.account, b"looked")
        except FileNotFoundError:
            raise Failed(
                Status.SYSTEM, "what the command has read is not known; nothing was changed"
            ) from None
        found = Looked()
        for line in lines:
            if line[0] == b"spoiled":
                found.spoiled = tuple(line[1:])
            elif line[0] == b"rights":
                path, numbers = path_of(line[1:])
                mode, user, group = map(int, numbers)
                found.rights[path] = mode, user, group
            elif line[0] == b"kinds":
                path, words = path_of(line[1:])
                found.kinds[path] = words[0]
            elif line[0] == b"attributes":
                path, words = path_of(line[1:])
                found.attributes[path] = dict(zip(map(os.fsdecode, words[::2]), words[1::2]))
            else:
                path, seen = seen_of(line)
                found.reads[path] = seen
        return found

    def changes(self, looked: Looked) -> Changes:
        walk = Walk(self, looked)
        self.refuse_root(self.upper)
        if attributes_of(self.upper):
            refuse_attributes(())
        try:
            walk.into((), False, False)
        finally:
            walk.reader.close()
        for path, new in walk.made.writes.items():
            if walk.made.before[path] is Kind.DIRECTORY and new is not Kind.DIRECTORY:
                walk.names_of(path)
        return walk.made


class Whole(Traced):
    """The same copy, but all of the tree counts as read."""

    name = "all of the tree counts as read"
    word = "whole"

    def __init__(self, room: str, root: int) -> None:
        self.total = digest_of(root, is_first=True)
        super().__init__(room, root)

    def looked(self) -> Looked:
        looked = super().looked()
        looked.total = self.total
        return looked


class Walk:
    """The walk over what a command has changed, as the overlay keeps it."""

    def __init__(self, copy: Traced, looked: Looked) -> None:
        self.copy = copy
        self.looked = looked
        self.reader = Reader(copy.root)
        self.made = Changes()
        self.is_root = os.geteuid() == 0

    def before(self, path: Path) -> Made:
        """What stood at a path, as the command has seen it; else as it stands in the tree."""
        seen = self.looked.reads.get(path, Kind.SOME_FILE)
        if isinstance(seen, frozenset):
            return Kind.DIRECTORY
        if seen is Kind.SOME_FILE:
            found = self.reader.state(path)
            self.looked.reads[path] = found
            return found
        return seen

    def names_of(self, path: Path) -> frozenset[bytes]:
        """The names in a directory of the tree; whoever asks has read them."""
        seen = self.looked.reads.get(path)
        if not isinstance(seen, frozenset):
            seen = self.looked.reads[path] = frozenset(self.reader.names(path))
        return seen

    def into(self, path: Path, is_fresh: bool, is_hiding: bool) -> None:
        """Takes what stands in a directory of the upper layer.

        Below a fresh one nothing stood before; one that is hiding stands in place of another
        directory, of which it shows nothing.
        """
        with os.scandir(b"/".join((os.fsencode(self.copy.upper), *path))) as found:
            here = list(found)
        for entry in here:
            inside = (*path, entry.name)
            before = None if is_fresh else self.before(inside)
            it = entry.stat(follow_symlinks=False)
            if stat.S_ISCHR(it.st_mode) and it.st_rdev == 0:
                self.gone(inside, before)
            elif stat.S_ISDIR(it.st_mode):
                self.directory(inside, before, it, entry.path, is_hiding)
            else:
                self.file(inside, before, it, entry.path)

    def gone(self, path: Path, before: Made) -> None:
        """What stood at a path is gone, with all below it."""
        if before is None:
            return
        self.made.put(path, before, None)
        if before is Kind.DIRECTORY:
            for name in self.names_of(path):
                self.gone((*path, name), self.before((*path, name)))

    def directory(
        self, path: Path, before: Made, it: os.stat_result, where: bytes, is_hiding: bool
    ) -> None:
        """A directory of the upper layer: new, another one, or one in which something changed."""
        if before is not Kind.DIRECTORY:
            self.made.put(path, before, Kind.DIRECTORY, where)
            found = attributes_of(where)
            if found != inherited(os.path.dirname(where), found):
                refuse_attributes(path)
            self.into(path, True, False)
            return
        self.made.take_rights(path, self.looked.rights.get(path), it)
        if attributes_of(where) != self.attributes(path):
            refuse_attributes(path)
        is_other = is_hiding or is_opaque(where)
        if is_other:
            held = set(os.listdir(where))
            for name in self.names_of(path):
                if name not in held:
                    self.gone((*path, name), self.before((*path, name)))
        self.into(path, False, is_other)

    def attributes(self, path: Path) -> dict[str, bytes]:
        """The attributes of an entry as the command could see them, or as they are if it did not
        look."""
        found = self.looked.attributes.get(path)
        if found is None:
            found = kept_attributes(self.reader, path) if path else {}
        if not self.is_root:  # in a user's name space the kernel shows no access lists
            found = {name: value for name, value in found.items() if name.startswith("user.")}
        return found

    def file(self, path: Path, before: Made, it: os.stat_result, where: bytes) -> None:
        """A file or link of the upper layer: new, or one that was opened to write."""
        new = self.token(before, token_of(where, -1))
        if before is Kind.DIRECTORY:
            self.gone(path, before)
        if stat.S_ISREG(it.st_mode):
            were = self.attributes(path) if isinstance(before, bytes) else {}
            self.made.take_attributes(path, were, attributes_of(where))
        if new != before or path in self.made.attributes:
            self.made.put(path, before, new, where)

    def token(self, before: Made, new: Made) -> Made:
        """A token with the owner of before, unless root has given another one."""
        if self.is_root or not isinstance(before, bytes) or not isinstance(new, bytes):
            return new
        if before[:1] not in b"fhi" or new[:1] not in b"fhi":
            return new
        old, parts = before.split(b" ", 4), new.split(b" ", 4)
        return b" ".join([*parts[:2], *old[2:4], *parts[4:]])


def is_opaque(where: bytes) -> bool:
    """Whether a directory of the upper layer hides what stands below it."""
    try:
        return os.getxattr(where, "user.overlay.opaque") == b"y"
    except OSError:
        return False


