"""The operations of a commit, done by descriptors below the tree's root. Each is idempotent, and
none destroys anything before it has looked at what it took away.

A store links its new file `n` to `m` in the place, exchanges `m` with the target, and looks at
what came out: if that is not what was expected, it is exchanged back, and `n` gets the further
name `NAME.txforest-new`. `n` keeps its name until all is synced: so 'the target is the inode of
`n`' says done, and '`n` is gone' says that all was done, and no note of progress is needed.
"""

from __future__ import annotations

import errno
import os
import stat

from . import calls
from .calls import EXCHANGE, FILE, NOREPLACE
from .intent import Operation
from .place import Tree
from .stage import busy
from .terminal import shown

TYPE_CHECKING = False
if TYPE_CHECKING:
    from collections.abc import Callable, Iterator, Sequence

# What the system refuses for good: a conflict is told, and no later job is stopped by it.
PERMANENT = {
    errno.EPERM, errno.EACCES, errno.EBUSY, errno.EXDEV, errno.ENOTDIR, errno.EISDIR, errno.ELOOP,
    errno.ENOENT, errno.EEXIST, errno.ENOTEMPTY, errno.ENAMETOOLONG, errno.ETXTBSY,
}  # fmt: skip
NO_SUCH_STEP = {errno.ENOSYS, errno.EINVAL}  # this file system has no exchange
NEW, OLD = b".txforest-new", b".txforest-old"
NAME_LIMIT = 255
TRIES = 3  # how often a target is tried that somebody changes all the time


class Conflict(str):
    """A conflict as it is told; `number` is that of the operation that met it."""

    number: int

    def __new__(cls, line: str, number: int) -> Conflict:
        """The line of an operation."""
        it = super().__new__(cls, line)
        it.number = number
        return it


def perform(
    tree: Tree, place: int, operations: Sequence[Operation], umask: int = 0o022
) -> list[Conflict]:
    """Does operations that may have been done before, in part too, and syncs the directories.

    Answers the conflicts. Raises OSError if the system refuses one for now.
    """
    doing = Doing(tree, place, umask)
    at: list[bytes] | None = None
    fd: int | None = None
    try:
        for it in operations:
            above = it.path[:-1]
            if above != at:
                if fd is not None:
                    calls.S.close(fd)
                at = fd = None
                try:
                    fd = calls.S.down(tree.root, above)
                    at = above
                except OSError as error:
                    doing.lost(it, error)
                    continue
            if fd is not None:
                doing.one(it, fd)
    finally:
        if fd is not None:
            calls.S.close(fd)
    doing.keep_strangers(operations)
    doing.sync()
    return doing.conflicts


def permanent(error: OSError) -> str:
    """Why an operation is refused for good. Raises the error if it is not."""
    if error.errno not in PERMANENT:
        raise error
    return error.strerror


def told(path: Sequence[bytes]) -> str:
    """A path as it is told."""
    return shown(b"/" + b"/".join(path))


class Doing:
    """The doing of one commit's operations."""

    def __init__(self, tree: Tree, place: int, umask: int) -> None:
        self.tree = tree
        self.place = place
        self.umask = umask
        self.conflicts: list[Conflict] = []
        self.touched: set[tuple[bytes, ...]] = set()

    def one(self, it: Operation, fd: int) -> None:
        """Does an operation in the directory of its target."""
        try:
            line = KINDS[it.kind](self, fd, it)
        except OSError as error:
            why = permanent(error)
            if it.kind in ("store", "link"):
                line = self.somewhere(it, why, lambda: self.beside(fd, it, why))
            else:
                line = f"{told(it.path)}: {it.kind} was refused: {why}"
        if line:
            self.tell(it, line)
        self.touched.add(tuple(it.path[:-1]))

    def lost(self, it: Operation, error: OSError) -> None:
        """The directory of a target is gone, or is another thing."""
        why, line = permanent(error), None
        if it.kind in ("store", "link"):
            line = self.somewhere(it, why, lambda: self.aside(it, why))
        elif it.kind in ("mkdir", "mode") or error.errno not in (errno.ENOENT, errno.ENOTDIR):
            line = f"{told(it.path)}: {it.kind} was refused: {why}"
        if line:
            self.tell(it, line)

    def tell(self, it: Operation, line: str) -> None:
        """An operation met a conflict."""
        self.conflicts.append(Conflict(line, it.number))

    def keep_strangers(self, operations: Sequence[Operation]) -> None:
        """What came out of the tree, and is not what was expected to, goes beside the tree if it
        could not go back; so nothing is lost when the place is cleared."""
        names = set(map(os.fsencode, os.listdir(self.place)))
        if any(it.staged is not None and it.staged not in names for it in operations):
            return  # a staged file is cleared, so all was done before
        for it in operations:
            for spare in (b"m%d" % it.number, b"l%d" % it.number, b"r%d" % it.number):
                out = calls.S.look(spare, self.place) if spare in names else None
                if out is None or calls.S.mark(out) == it.expect or self.is_new(it, out):
                    continue
                free = self.moved(spare, self.tree.home, self.tree.name, OLD)
                calls.S.fsync(self.tree.home)
                self.tell(it, f"{told(it.path)}: what stood there is at {shown(free)}")

    def sync(self) -> None:
        """Waits until the names of all touched directories are on the device."""
        for names in sorted(self.touched):
            try:
                fd = calls.S.down(self.tree.root, list(names))
            except OSError as error:
                permanent(error)
                continue
            try:
                calls.S.fsync(fd)
            finally:
                calls.S.close(fd)

    # ---- store and link

    def store(self, fd: int, it: Operation) -> str | None:
        """A new file at its target."""
        staged = it.staged or b"-"
        new = calls.S.look(staged, self.place)
        if new is None:
            return None  # it was cleared, so all was done
        ino = new.st_ino

        def ours(dir_fd: int, name: bytes) -> bool:
            found = calls.S.look(name, dir_fd)
            return found is not None and found.st_ino == ino

        def make() -> None:
            calls.S.link(staged, self.place, spare, self.place)

        spare = b"m%d" % it.number
        return self.put(fd, it, spare, ours, make)

    def link(self, fd: int, it: Operation) -> str | None:
        """A new link at its target."""

        def ours(dir_fd: int, name: bytes) -> bool:
            found = calls.S.look(name, dir_fd)
            return (
                found is not None
                and stat.S_ISLNK(found.st_mode)
                and calls.S.text(name, dir_fd) == it.more
                and (it.expect is None or calls.S.mark(found) != it.expect)
            )

        spare = b"l%d" % it.number
        return self.put(fd, it, spare, ours, lambda: calls.S.symlink(it.more, spare, self.place))

    def put(
        self,
        fd: int,
        it: Operation,
        spare: bytes,
        ours: Callable[[int, bytes], bool],
        make: Callable[[], None],
    ) -> str | None:
        """Puts what `make` names `spare` in the place at the target; what stood there comes out at
        `spare`, and is looked at before it goes."""
        name = it.path[-1]
        for _ in range(TRIES):
            there, out = calls.S.look(name, fd), calls.S.look(spare, self.place)
            if there is not None and ours(fd, name):
                if out is None or ours(self.place, spare):
                    return None
                if calls.S.mark(out) == it.expect:
                    return self.kept_open(fd, spare, it)
                # Somebody's own came out: back with it.
                calls.S.rename2(name, fd, spare, self.place, EXCHANGE)
                continue
            if (None if there is None else calls.S.mark(there)) != it.expect:
                return self.beside(fd, it, "somebody else has changed it")
            if out is not None:
                if not ours(self.place, spare) and calls.S.mark(out) != it.expect:
                    self.keep(fd, spare, it)
                else:
                    calls.S.unlink(spare, self.place)
            make()
            self.exchange(fd, name, spare, it.expect is None)
        return self.beside(fd, it, "somebody else changes it all the time")

    def exchange(self, fd: int, name: bytes, spare: bytes, is_new: bool) -> None:
        """One step: what the place has and what stands at the target change places."""
        try:
            if is_new:
                calls.S.rename2(spare, self.place, name, fd, NOREPLACE)
            else:
                # In this order of the two names a watcher is told MOVED_FROM, MOVED_TO; in the
                # other one that the file has gone.
                calls.S.rename2(name, fd, spare, self.place, EXCHANGE)
        except (FileExistsError, FileNotFoundError):
            pass  # another look at the target tells
        except OSError as error:
            if error.errno not in NO_SUCH_STEP:
                raise
            if is_new:
                try:
                    calls.S.link(spare, self.place, name, fd)
                except FileExistsError:
                    pass
            else:
                calls.S.rename(spare, self.place, name, fd)  # a window of microseconds stays

    def kept_open(self, fd: int, spare: bytes, it: Operation) -> str | None:
        """Who has the replaced file open to write goes on writing into it: it stays beside then."""
        try:
            old = calls.S.open(spare, FILE, self.place)
        except OSError as error:
            permanent(error)
            return None
        try:
            if not stat.S_ISREG(os.fstat(old).st_mode) or not busy(old):
                return None
        finally:
            calls.S.close(old)
        free = self.numbered(spare, fd, it.path[-1], OLD)
        why = "somebody has the replaced file open to write"
        return f"{told(it.path)}: {why}; it stands at {shown(free)}"

    def keep(self, fd: int, spare: bytes, it: Operation) -> None:
        """Somebody's own came out, and something else stands at the target by now: it stays
        beside."""
        free = self.moved(spare, fd, it.path[-1], OLD)
        self.tell(it, f"{told(it.path)}: an older one stands at {shown(free)}")

    def beside(self, fd: int, it: Operation, why: str) -> str | None:
        """The target is somebody else's now: what is new goes beside it."""
        spare = (b"l%d" if it.kind == "link" else b"m%d") % it.number
        out = calls.S.look(spare, self.place)
        if out is not None and calls.S.mark(out) != it.expect and not self.is_new(it, out):
            self.keep(fd, spare, it)
        if it.kind == "link":
            return f"{told(it.path)}: {why}; the link to {shown(it.more)} was not made"
        if it.staged is None or calls.S.look(it.staged, self.place) is None:
            return None
        free = self.numbered(it.staged, fd, it.path[-1], NEW)
        return f"{told(it.path)}: {why}; the new content stands at {shown(free)}"

    def is_new(self, it: Operation, out: os.stat_result) -> bool:
        """Whether what came out of an exchange is what was to be put in."""
        if it.kind == "link":
            spare = b"l%d" % it.number
            return stat.S_ISLNK(out.st_mode) and calls.S.text(spare, self.place) == it.more
        new = None if it.staged is None else calls.S.look(it.staged, self.place)
        return new is not None and new.st_ino == out.st_ino

    def somewhere(self, it: Operation, why: str, work: Callable[[], str | None]) -> str | None:
        """The line of a conflict. If nothing can be put into the tree there, the new file goes
        beside the tree, so that what is refused for good stops no later job."""
        try:
            return work()
        except OSError as error:
            permanent(error)
        if it.kind == "link" or it.staged is None or calls.S.look(it.staged, self.place) is None:
            return f"{told(it.path)}: {why}"
        free = self.numbered(it.staged, self.tree.home, self.tree.name, NEW)
        calls.S.fsync(self.tree.home)
        return f"{told(it.path)}: {why}; the new content stands beside the tree, at {shown(free)}"

    def aside(self, it: Operation, why: str) -> str:
        """The directory of a target is gone: the new file goes to the nearest one that is there,
        below a directory of its own name."""
        if it.kind == "link" or it.staged is None or calls.S.look(it.staged, self.place) is None:
            return f"{told(it.path)}: {why}"
        names, at = list(it.path), list[bytes]()
        fd = calls.S.down(self.tree.root, [])
        try:
            while len(names) > 1:
                try:
                    inside = calls.S.down(fd, [names[0]])
                except OSError as error:
                    permanent(error)
                    if names[0].endswith(NEW):
                        raise
                    names[0] = names[0][: NAME_LIMIT - len(NEW)] + NEW
                    self.touched.add(tuple(at))
                    try:
                        calls.S.mkdir(names[0], 0o700, fd)
                    except FileExistsError:
                        pass
                    inside = calls.S.down(fd, [names[0]])
                    names = [names[0], names[-1]]
                calls.S.close(fd)
                fd = inside
                at.append(names.pop(0))
            self.touched.add(tuple(at))
            free = self.numbered(it.staged, fd, names[-1], NEW)
        finally:
            calls.S.close(fd)
        return f"{told(it.path)}: {why}; the new content stands at {told([*at, free])}"

    def numbered(self, source: bytes, fd: int, name: bytes, ending: bytes) -> bytes:
        """Gives a file of the place a free name beside another; the one that it has already."""
        found = calls.S.look(source, self.place)
        if found is None:
            raise FileNotFoundError(errno.ENOENT, os.strerror(errno.ENOENT), source)
        for free in free_names(name, ending):
            there = calls.S.look(free, fd)
            if there is not None and there.st_ino == found.st_ino:
                return free
            if there is None:
                try:
                    calls.S.link(source, self.place, free, fd)
                    return free
                except FileExistsError:
                    pass
        raise FileExistsError(errno.EEXIST, os.strerror(errno.EEXIST), name)

    def moved(self, source: bytes, fd: int, name: bytes, ending: bytes) -> bytes:
        """Moves what stands in the place to a free name beside another; it may be of any kind."""
        for free in free_names(name, ending):
            try:
                calls.S.rename2(source, self.place, free, fd, NOREPLACE)
                return free
            except FileExistsError:
                pass
            except OSError as error:
                if error.errno not in NO_SUCH_STEP:
                    raise
                if calls.S.look(free, fd) is None:
                    calls.S.rename(source, self.place, free, fd)
                    return free
        raise FileExistsError(errno.EEXIST, os.strerror(errno.EEXIST), name)

    # ---- what goes, directories, modes

    def remove(self, fd: int, it: Operation) -> str | None:
        """Takes a file or a link away, by way of the place."""
        name, spare = it.path[-1], b"r%d" % it.number
        line = f"{told(it.path)}: somebody else has changed it; it was not removed"
        for _ in range(TRIES):
            there, out = calls.S.look(name, fd), calls.S.look(spare, self.place)
            if out is not None and calls.S.mark(out) != it.expect:
                # Somebody's own came out: back with it, or beside what stands there by now.
                try:
                    calls.S.rename2(spare, self.place, name, fd, NOREPLACE)
                    return line
                except FileExistsError:
                    self.keep(fd, spare, it)
                    return line
            if there is None:
                return None
            if calls.S.mark(there) != it.expect:
                return line
            if out is not None:
                calls.S.unlink(spare, self.place)  # two names of one file: a rename leaves both
            calls.S.rename(name, fd, spare, self.place)
        return line

    def rmdir(self, fd: int, it: Operation) -> str | None:
        """Takes an empty directory away."""
        self.touched.discard(tuple(it.path))
        try:
            calls.S.rmdir(it.path[-1], fd)
        except FileNotFoundError:
            pass
        except NotADirectoryError:
            if it.more != b"room":  # else what takes its place stands there already
                raise
        return None

    def mkdir(self, fd: int, it: Operation) -> str | None:
        """A new directory with its mode and owner; in the place of a file or a link, if one is
        expected."""
        name = it.path[-1]
        mode, owner = it.more.split(b" ")
        uid, gid = owner_of(owner)
        if it.expect is not None:
            found = calls.S.look(name, fd)
            if found is None or not stat.S_ISDIR(found.st_mode):
                line = self.remove(fd, it)
                if line:
                    return line
        before = os.umask(0 if mode == b"-" else self.umask)
        try:
            calls.S.mkdir(name, 0o777 if mode == b"-" else 0o700, fd)
        except FileExistsError:
            found = calls.S.look(name, fd)
            if found is None or not stat.S_ISDIR(found.st_mode):
                return f"{told(it.path)}: somebody else has made something there"
            if found.st_uid != os.geteuid() or stat.S_IMODE(found.st_mode) & 0o777 != 0o700:
                self.touched.add(tuple(it.path))
                return None
        finally:
            os.umask(before)
        self.touched.add(tuple(it.path))
        made = calls.S.down(fd, [name])
        try:
            found = os.fstat(made)
            if (found.st_uid, found.st_gid) != (uid, gid):
                try:
                    calls.S.chown(made, uid, gid)
                except PermissionError:
                    pass
            if mode != b"-":
                calls.S.chmod(made, int(mode, 8))
        finally:
            calls.S.close(made)
        return None

    def mode(self, fd: int, it: Operation) -> str | None:
        """Gives a file or directory another mode, and another owner if one is told."""
        name = it.path[-1]
        mode, *owners = it.more.split(b" ")
        wanted = int(mode, 8)
        owner = owner_of(owners[0]) if owners else None
        there = calls.S.look(name, fd)
        if there is not None and is_given(there, wanted, owner):
            return None
        changed = f"{told(it.path)}: somebody else has changed it; its mode stays"
        if it.expect is None or there is None:
            return changed
        mark = calls.S.mark(there)
        if mark != it.expect and (owner is None or not is_owned(there, it.expect, owner)):
            return changed
        if owner is not None and (there.st_uid, there.st_gid) != owner:
            try:
                calls.S.chown_at(name, fd, *owner, mark)
            except PermissionError:
                self.tell(it, f"{told(it.path)}: its owner or group can't be given")
            there = calls.S.look(name, fd)
            mark = b"-" if there is None else calls.S.mark(there)
        if not calls.S.chmod_at(name, fd, wanted, mark):
            return changed
        made = calls.S.open(name, FILE, fd)
        try:
            calls.S.fsync(made)
        finally:
            calls.S.close(made)
        return None


KINDS: dict[str, Callable[[Doing, int, Operation], str | None]] = {
    "store": Doing.store,
    "link": Doing.link,
    "mkdir": Doing.mkdir,
    "remove": Doing.remove,
    "rmdir": Doing.rmdir,
    "mode": Doing.mode,
}


def owner_of(text: bytes) -> tuple[int, int]:
    """The user and the group that an operation names."""
    uid, gid = text.split(b":")
    return int(uid), int(gid)


def is_given(found: os.stat_result, mode: int, owner: tuple[int, int] | None) -> bool:
    """Whether an entry has a mode, and an owner and group."""
    return stat.S_IMODE(found.st_mode) == mode and owner in (None, (found.st_uid, found.st_gid))


def is_owned(found: os.stat_result, expect: bytes, owner: tuple[int, int]) -> bool:
    """Whether an entry is the one of a mark, but has its new owner already. Set-id bits go then."""
    parts, now = expect.split(b":"), calls.S.mark(found).split(b":")
    same = int(parts[0], 8) & ~0o6000 == int(now[0], 8) & ~0o6000
    return same and parts[1:4] == now[1:4] and owner == (found.st_uid, found.st_gid)


def free_names(name: bytes, ending: bytes) -> Iterator[bytes]:
    """The names to try for what goes beside another name."""
    for i in range(100):
        yield name[: NAME_LIMIT - len(ending) - 3] + ending + (b"%d" % i if i else b"")
