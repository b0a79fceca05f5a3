"""A real tree as a folder that the program loads: the command txforest-import."""

from __future__ import annotations

import errno
import os
import stat
import sys
from typing import NamedTuple

from . import calls
from .attributes import Record, record_of, walked
from .calls import DIR, NEW, sync_all
from .lock import lock
from .only import Only
from .place import Place, Tree, beside_front, hold, new_place, place_names
from .settle import settle
from .statuses import Failed, Status
from .survey import NOT_ASKED, TABLE, TABLE_LIMIT, Changed, Survey, changed, survey
from .survey import Left as LeftOut
from .terminal import Given, Words, many, shown, tell
from .view import copied, table_text, write_new

ABOUT = """Takes a real tree as a folder that txforest loads: symbolic links become the table,
execute bits its flags. Modes, owners and times are kept in the file FOLDER.attributes, for
txforest-export, with what was left out. TREE is only read. Each entry that can't be taken is told
with its path and its size, and nothing is taken then, unless --leave-out is given."""
USAGE = (
    "txforest-import [--leave-out] [--only PATTERN].. [--no-flags] [--as PATH] [--wait SECONDS]"
    " TREE FOLDER"
)
STATUSES = (
    ("1", "entries can't be taken, and nothing was made"),
    ("11", "a job held the tree's lock for longer than --wait; nothing was made"),
    ("12", "somebody keeps changing the tree; nothing was made"),
)
TRIES = 3


class Job(NamedTuple):
    """What is to be done."""

    tree: str
    folder: str
    word: str  # as the folder was named
    leave_out: bool
    no_flags: bool
    root: str | None
    only: list[str]
    wait: float | None

    def as_root(self, tree: Tree) -> str:
        """The path for which the tree stands."""
        return os.path.abspath(self.root) if self.root else tree.path


def job_of(given: Given) -> Job:
    """The job that the words of the tool give. Fails with USAGE, or NOT_EMPTY."""
    tree, folder = given.operands
    if not os.path.isdir(tree):
        raise Failed(Status.USAGE, f"{shown(tree)}: no folder stands there")
    if not is_free(folder):
        line = f"{shown(folder)}: something stands there, and is no empty folder"
        raise Failed(Status.NOT_EMPTY, line)
    above = os.path.realpath(os.path.dirname(os.path.abspath(folder)))
    if (above + "/").startswith(os.path.realpath(tree).rstrip("/") + "/"):
        raise Failed(Status.USAGE, f"{shown(folder)}: lies in the tree itself")
    return Job(
        os.path.realpath(tree),
        os.path.abspath(folder),
        folder,
        given.flag("leave-out"),
        given.flag("no-flags"),
        given.text("as"),
        given.several("only"),
        given.number("wait"),
    )


def is_free(path: str) -> bool:
    """Whether a folder can be put at a path: nothing, or an empty folder, stands there."""
    if not os.path.lexists(path):
        return True
    return not os.path.islink(path) and os.path.isdir(path) and not os.listdir(path)


# ---- what is taken


def surveyed(job: Job, tree: Tree) -> Survey:
    """The survey of the tree. Fails with NOT_DONE if something is left out that may not be."""
    only = Only(job.only) if job.only else None
    found = survey(tree.root, tree.skip(), only, os.fsencode(job.as_root(tree)))
    if found.table:
        size = found.taken.pop(TABLE).st_size
        found.left.append(LeftOut(TABLE, size, "a name that txforest keeps for its table"))
    left = [it for it in found.left if it.why != NOT_ASKED]
    for it in sorted(left, key=lambda it: it.path):
        size_told = "" if it.size is None else f" ({many(it.size, 'byte')})"
        tell(f"{shown('/' + it.path)}{size_told}: {it.why}")
    if left and not job.leave_out:
        number = many(len(left), "entry", "entries")
        line = f"{number} can't be taken, so none is; --leave-out takes the others"
        raise Failed(Status.NOT_DONE, line)
    for note in found.notes:
        tell(f"{note}; it is kept, and leads nowhere in the folder")
    return found


# ---- what is made


class Made(NamedTuple):
    """What was made, in a place: how many files are executable."""

    flags: set[str]
    record: Record


def made_in(job: Job, tree: Tree, found: Survey, place: int) -> Made:
    """Makes the folder `made` and the text `attributes` in a place. Raises Changed."""
    os.mkdir("made", 0o700, dir_fd=place)
    made = os.open("made", DIR, dir_fd=place)
    try:
        flags = copied(tree.root, found, made)
        record = Record(not job.no_flags, job.as_root(tree), job.only)
        record_of(tree.root, found, made, record)
        table = table_text(found.links, set() if job.no_flags else flags)
        if len(table) > TABLE_LIMIT:
            size, most = many(len(table), "byte"), many(TABLE_LIMIT, "byte")
            line = f"the table of links and flags has {size}; it may have {most}"
            raise Failed(Status.NOT_DONE, line)
        open_as(made, found)
        write_new(made, os.fsencode(TABLE), table)
        fd = os.open("attributes", NEW, 0o600, dir_fd=place)
        try:
            calls.PLAIN.write(fd, record.text())
            give(fd, found.taken[""], 0o666)
        finally:
            os.close(fd)
        where = changed(tree.root, found, tree.skip(), Only(job.only) if job.only else None)
        if where is not None and where != TABLE:
            raise Changed(where)
        return Made(flags, record)
    finally:
        os.close(made)


def open_as(made: int, found: Survey) -> None:
    """Makes the copies as open as the tree, and no more: they have no rights of their own."""
    directories: list[tuple[str, os.stat_result]] = []
    for path, _, above, it in walked(made, made, found):
        name = path.rpartition("/")[2]
        if stat.S_ISDIR(it.st_mode):
            directories.append((path, it))
        elif stat.S_ISREG(it.st_mode):
            fd = os.open(name, os.O_RDONLY | os.O_NOFOLLOW | os.O_CLOEXEC, dir_fd=above)
            give_and_close(fd, it)
    # What is in a directory comes before it: behind that it may be closed to its owner.
    for path, it in reversed(directories):
        names = os.fsencode(path).split(b"/") if path else []
        fd = calls.PLAIN.down(made, names) if names else os.dup(made)
        give_and_close(fd, it)


def give_and_close(fd: int, it: os.stat_result) -> None:
    """Gives a copy the owner and the rights of what it is a copy of, and its time."""
    try:
        give(fd, it, 0o777)
        os.utime(fd, ns=(it.st_atime_ns, it.st_mtime_ns))
    finally:
        os.close(fd)


def give(fd: int, it: os.stat_result, mask: int) -> None:
    """Gives an open file the owner of an entry, if that may be, and so much of its mode."""
    now = os.fstat(fd)
    mode = stat.S_IMODE(it.st_mode) & mask
    if (now.st_uid, now.st_gid) != (it.st_uid, it.st_gid):
        try:
            os.fchown(fd, it.st_uid, it.st_gid)
        except PermissionError:
            # What was open to a group is not opened to another one.
            mode &= 0o707 if now.st_gid != it.st_gid else 0o777
    os.fchmod(fd, mode)


def put(place: Place, folder: str) -> None:
    """Puts what was made at its path, with its attributes beside. Fails with NOT_EMPTY if something
    has come there."""
    name = os.fsencode(os.path.basename(folder))
    sync_all(place.fd)
    os.rename("attributes", name + b".attributes", src_dir_fd=place.fd, dst_dir_fd=place.home)
    try:
        os.rename("made", name, src_dir_fd=place.fd, dst_dir_fd=place.home)
    except OSError as error:
        os.unlink(name + b".attributes", dir_fd=place.home)
        if error.errno not in (errno.EEXIST, errno.ENOTEMPTY, errno.ENOTDIR):
            raise
        raise Failed(Status.NOT_EMPTY, f"{shown(folder)}: {error.strerror}") from None
    os.fsync(place.home)


class Room:
    """A place beside a path that is to be made; what killed tools left there goes first."""

    def __init__(self, path: str) -> None:
        above, name = os.path.split(os.path.abspath(path))
        if not name:
            raise Failed(Status.USAGE, f"{shown(path)}: nothing can stand beside it")
        self.home = os.open(above, DIR)
        front = beside_front(os.fsencode(name))
        self.told: list[str] = []
        for other in place_names(self.home, front):
            self.clear_left(other)
        self.place = new_place(self.home, front)

    def clear_left(self, name: bytes) -> None:
        """Clears a place of one's own that a killed tool left."""
        try:
            fd = os.open(name, DIR, dir_fd=self.home)
        except OSError:
            return
        found = os.fstat(fd)
        left = Place(self.home, name, fd)
        try:
            private = found.st_uid == os.geteuid() and not found.st_mode & 0o077
            if private and not os.path.lexists(f"/proc/self/fd/{fd}/intent") and hold(fd):
                left.clear(self.told)
        finally:
            left.close()

    def __enter__(self) -> Place:
        return self.place

    def __exit__(self, *_: object) -> None:
        self.place.clear(self.told)
        self.place.close()
        os.close(self.home)
        for line in self.told:
            tell(line)


# ---- the command


def imported(job: Job) -> tuple[Survey, Made]:
    """Imports a tree; it begins again if somebody changes the tree meanwhile."""
    where = ""
    for _ in range(TRIES):
        try:
            with Tree(job.tree) as tree, Room(job.folder) as place:
                settle_first(job, tree)
                found = surveyed(job, tree)
                made = made_in(job, tree, found, place.fd)
                put(place, job.folder)
                return found, made
        except Changed as at:
            where = shown(f"/{at}")
    line = f"somebody keeps changing the tree, last {where}; nothing was made after {TRIES} tries"
    raise Failed(Status.CHANGING, line)


def settle_first(job: Job, tree: Tree) -> None:
    """Takes the tree's lock, if jobs have one, and ends what a killed one left."""
    if os.path.lexists(tree.beside(".lock")):
        lock(tree.path, job.wait)
        for line in settle(tree).told:
            tell(line)


def words() -> Words:
    """The words of the tool."""
    it = Words(ABOUT, USAGE, STATUSES)
    it.operand("TREE", "the real tree")
    it.operand("FOLDER", "the folder to make; nothing, or an empty folder, stands there")
    it.option("leave-out", None, "take the tree without the entries that can't be taken")
    it.option("only", "PATTERN", "take only what a pattern matches; it may come again", True)
    it.option("no-flags", None, "leave execute bits to the attributes: the table is of version 1")
    it.option("as", "PATH", "the tree is a copy of PATH: absolute links to there lead into it")
    it.option("wait", "SECONDS", "how long to wait for the tree's lock (for ever)")
    return it


def tool() -> int:
    """The command txforest-import."""
    job = job_of(words().read(sys.argv[1:]))
    found, made = imported(job)
    entries = [it for path, it in found.taken.items() if path]
    files = [it for it in entries if stat.S_ISREG(it.st_mode)]
    several = sum(it.st_nlink > 1 for it in files)
    if several:
        number = many(several, "file")
        tell(f"{number} with further hard links: each is a file of its own in the folder")
    directories = sum(stat.S_ISDIR(it.st_mode) for it in entries)
    counts = [
        many(len(files), "file"),
        many(directories, "directory", "directories"),
        many(len(found.links), "link"),
        f"{0 if job.no_flags else len(made.flags):,} executable",
        many(found.size, "byte"),
    ]
    print(f"{shown(job.word)}: {', '.join(counts)}")
    return Status.DONE
