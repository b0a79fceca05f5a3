"""What stands in a tree: one pass over descriptors, no content read, one file system, linear.

It says what the engine can take, and what is left out with the reason. What is left out is
invisible to descriptions and is never touched.
"""

from __future__ import annotations

import os
import stat
import time

from . import calls
from .statuses import Failed, Status
from .terminal import many, shown

TYPE_CHECKING = False
if TYPE_CHECKING:
    from .only import Only, States

FILE_LIMIT, NODES, LOADED, DEPTH = 1 << 20, 100_000, 64 << 20, 64
TABLE, TABLE_LIMIT = ".forest-links", 32 << 20
GRAIN = 20_000_000  # nanoseconds: changes further apart than this have different times
DIRECTORY, REGULAR, LINK = stat.S_IFDIR, stat.S_IFREG, stat.S_IFLNK
KINDS = {
    stat.S_IFIFO: "a FIFO",
    stat.S_IFSOCK: "a socket",
    stat.S_IFBLK: "a block device",
    stat.S_IFCHR: "a character device",
}
NOT_ASKED = "not asked for"
NO_UTF8 = "its name is no UTF-8"
MOUNT = "a mount"


class Changed(Exception):
    """Somebody changes the tree right now: where. Nothing was changed here."""


class Left:
    """An entry that is left out: its path, its size in bytes (if it is known) and the reason."""

    __slots__ = ("path", "size", "why")

    def __init__(self, path: str, size: int | None, why: str) -> None:
        self.path = path
        self.size = size
        self.why = why


class Survey:
    """What was found. Paths are relative, names with `/` between them; the root is the empty text.

    taken   what is taken, by path: regular files, directories and symbolic links; a directory comes
            before what is in it, and the entries of one directory come one after another
    texts   the text of each link that is taken, as it stands in the tree
    links   the text of each link that is taken, as it stands in the table of a folder
    left    what is left out, with reasons
    notes   what is worth telling of what is taken
    holds   the directories with something left out somewhere below: they are never removed
    young   the times of change that may come again, as they are as late as the survey itself
    plain   whether the program can read the tree itself: nothing left out, no link, no execute bit
    table   whether the tree is a folder of the program, with a table of its own at its root
    size    the bytes of all files that are taken
    """

    __slots__ = (
        "taken", "texts", "links", "left", "notes", "holds", "young", "plain", "table", "size"
    )  # fmt: skip

    def __init__(self) -> None:
        self.taken: dict[str, os.stat_result] = {}
        self.texts: dict[str, bytes] = {}
        self.links: dict[str, bytes] = {}
        self.left: list[Left] = []
        self.notes: list[str] = []
        self.holds: set[str] = set()
        self.young: list[int] = []
        self.plain = True
        self.table = False
        self.size = 0


def survey(
    root: int, skip: set[str] = set(), only: Only | None = None, as_root: bytes | None = None
) -> Survey:
    """The survey of the tree at a descriptor; `skip` are names at its root that are passed over.

    `as_root` is the path for which the tree stands, its own one if it is not given: absolute links
    to there lead into it. Raises Failed with FOLDER if what is taken goes above a limit of the
    program (100,000 entries, 64 MiB in all).
    """
    late = time.time_ns() - GRAIN
    me, device = os.geteuid(), os.fstat(root).st_dev
    real = os.readlink(f"/proc/self/fd/{root}")
    mounts = mounts_below(os.fsencode(real))
    found = Survey()
    taken, texts, left, young = found.taken, found.texts, found.left, found.young
    taken[""] = os.fstat(root)
    found.table = is_table(root)
    size, plain, table = 0, True, found.table
    work: list[tuple[str, int | None, int, States | None]] = [
        ("", root, 0, None if only is None else only.start())
    ]
    while work:
        front, fd, deep, states = work.pop()
        if fd is None:
            fd = entered(root, front[:-1], found)
            if fd is None:
                continue
        with os.scandir(fd) as entries:
            for entry in entries:
                name = entry.name
                path = front + name
                inner = states
                if not front and name in skip:
                    continue
                if states is not None and only is not None and (path != TABLE or not table):
                    inner, asked = only.step(states, name)
                    if not asked and (not inner or not entry.is_dir(follow_symlinks=False)):
                        left.append(Left(path, None, NOT_ASKED))
                        continue
                    if asked:
                        inner = None
                try:
                    it = entry.stat(follow_symlinks=False)
                except FileNotFoundError:
                    raise Changed(path) from None
                except OSError as error:
                    left.append(Left(path, None, f"can't be read: {error.strerror}"))
                    continue
                mode, why = it.st_mode, ""
                kind = mode & 0o170000
                if not name.isascii() and not is_utf8(name):
                    why = NO_UTF8
                elif name == TABLE and (front or not table):
                    why = "a name that txforest keeps for its table"
                elif deep >= DEPTH:
                    why = "more than 64 names deep"
                elif path in mounts or kind == DIRECTORY and it.st_dev != device:
                    why = MOUNT  # the files of an overlay have devices of their own
                elif kind == REGULAR:
                    if it.st_size > FILE_LIMIT and path != TABLE:
                        why = "a file above 1 MiB"
                    elif me and mode & 0o444 != 0o444 and not readable(name, fd):
                        why = "can't be read"
                    else:
                        size += it.st_size
                        if mode & 0o111:
                            plain = plain and table
                elif kind == LINK:
                    if table:
                        why = "a symbolic link beside a table"
                    else:
                        texts[path] = text_of(path, fd)
                        plain = False
                elif kind == DIRECTORY:
                    work.append((path + "/", None, deep + 1, inner))
                else:
                    why = KINDS.get(kind, "of a kind of its own")
                if why:
                    left.append(Left(path, it.st_size if kind == REGULAR else None, why))
                    continue
                taken[path] = it
                if it.st_ctime_ns > late:
                    young.append(it.st_ctime_ns)
        if fd != root:
            os.close(fd)
    found.size, found.plain = size, plain
    if texts:
        sort_links(found, os.fsencode(real) if as_root is None else as_root)
    if left:
        found.plain = False
        hold_above(found)
    if len(taken) > NODES or found.size > LOADED:
        raise Failed(
            Status.FOLDER,
            f"{many(len(taken), 'entry', 'entries')} with {many(found.size, 'byte')}: the program"
            f" takes at most {NODES:,} and {LOADED:,}; --only narrows what is taken",
        )
    return found


def entered(root: int, path: str, found: Survey) -> int | None:
    """A directory that the survey saw, or nothing: then it is left out by now."""
    try:
        fd = calls.PLAIN.down(root, os.fsencode(path).split(b"/"))
    except FileNotFoundError:
        raise Changed(path) from None
    except OSError as error:
        found.left.append(Left(path, None, f"can't be read: {error.strerror}"))
        del found.taken[path]
        return None
    if os.fstat(fd).st_ino != found.taken[path].st_ino:
        os.close(fd)
        raise Changed(path)
    return fd


def text_of(path: str, fd: int) -> bytes:
    """The text of a link in a directory, by its path in the tree."""
    try:
        return os.readlink(os.fsencode(path.rpartition("/")[2]), dir_fd=fd)
    except OSError:
        raise Changed(path) from None


def sort_links(found: Survey, root: bytes) -> None:
    """Sorts out the links that the table of a folder can't have; gives the others their texts."""
    from . import links

    parts = {path: tuple(os.fsencode(path).split(b"/")) for path in found.texts}
    targets = {parts[path]: text for path, text in found.texts.items()}
    texts = {path: links.link_text(text, root) for path, text in targets.items()}
    taken = found.taken

    def kind(at: links.Path) -> str | None:
        it = taken.get(os.fsdecode(b"/".join(at)))
        if it is None:
            return None
        return "d" if stat.S_ISDIR(it.st_mode) else "l" if stat.S_ISLNK(it.st_mode) else "f"

    for path, at in parts.items():
        leads, why = f"a link to {shown(targets[at])}", ""
        if not links.is_link_text(texts[at]):
            why = f"{leads}, which is no text of a link: names of UTF-8, at most 64 of them"
        elif links.leads_out(targets, root, at):
            landing = links.lands(kind, texts, at)
            if landing is not None:
                there = shown(b"/" + b"/".join(landing))
                why = f"{leads} leads out of the tree, and in the folder it would lead to {there}"
            else:
                found.notes.append(f"{shown('/' + path)}: {leads} leads out of the tree")
        if why:
            found.left.append(Left(path, None, why))
            del found.taken[path], found.texts[path], texts[at]
        else:
            found.links[path] = texts[at]
            found.size += len(texts[at])


def hold_above(found: Survey) -> None:
    """Notes the directories with something left out below them."""
    for it in found.left:
        path = it.path
        while path:
            path = path.rpartition("/")[0]
            if path in found.holds:
                break
            found.holds.add(path)


def settled_survey(
    root: int,
    home: int,
    skip: set[str] = set(),
    only: Only | None = None,
    as_root: bytes | None = None,
) -> Survey:
    """A survey of which no entry changed as late as it was made, so that a second look sees every
    further change. `home` is the directory of the tree's places: its time is that of the last job.

    Raises Changed if that does not come to be within three surveys.
    """
    wait_until_old(os.fstat(home).st_mtime_ns)
    for _ in range(3):
        found = survey(root, skip, only, as_root)
        now = time.time_ns()
        young = [it for it in found.young if it <= now]
        if not young:
            return found
        wait_until_old(max(young))
    raise Changed(next(path for path, it in found.taken.items() if it.st_ctime_ns == max(young)))


def wait_until_old(moment: int) -> None:
    """Sleeps until a moment is older than the grain of the clock."""
    rest = moment + GRAIN + GRAIN // 4 - time.time_ns()
    if 0 < rest <= 2 * GRAIN:
        time.sleep(rest / 1e9)


def changed(
    root: int, found: Survey, skip: set[str] = set(), only: Only | None = None
) -> str | None:
    """The path of the first entry that is another than a survey found, or nothing.

    Kind, mode, inode, size, owner and times count; an entry that came or went is another too.
    """
    taken, seen = found.taken, 1
    left = {it.path for it in found.left}
    work: list[tuple[str, int | None]] = [("", root)]
    while work:
        front, fd = work.pop()
        if fd is None:
            try:
                fd = calls.PLAIN.down(root, os.fsencode(front[:-1]).split(b"/"))
            except OSError:
                return front[:-1]
        try:
            with os.scandir(fd) as entries:
                for entry in entries:
                    path = front + entry.name
                    x = taken.get(path)
                    if x is None:
                        if path in left or not front and path in skip:
                            continue
                        if only is not None and not only.asks(path):
                            continue
                        return path
                    try:
                        y = entry.stat(follow_symlinks=False)
                    except OSError:
                        return path
                    # Each change of content, mode, owner or times is one of the time of change.
                    if x.st_ctime_ns != y.st_ctime_ns or x.st_ino != y.st_ino:
                        return path
                    seen += 1
                    if x.st_mode & 0o170000 == DIRECTORY:
                        work.append((path + "/", None))
        finally:
            if fd != root:
                os.close(fd)
    return None if seen == len(taken) else "an entry that is gone"


def is_table(root: int) -> bool:
    """Whether a table stands at the root of a tree."""
    try:
        it = os.stat(TABLE, dir_fd=root, follow_symlinks=False)
    except OSError:
        return False
    return stat.S_ISREG(it.st_mode) and it.st_size <= TABLE_LIMIT


def readable(name: str, fd: int) -> bool:
    """Whether this user may read a file of a directory."""
    return os.access(name, os.R_OK, dir_fd=fd, effective_ids=True)


def is_utf8(name: str) -> bool:
    """Whether a name is UTF-8."""
    try:
        name.encode()
        return True
    except UnicodeEncodeError:
        return False


def mounts_below(path: bytes) -> set[str]:
    """The relative paths below another at which a mount begins, also one of the same device."""
    found, front = set(), path.rstrip(b"/") + b"/"
    with open("/proc/self/mountinfo", "rb") as it:
        for line in it:
            at = line.split(b" ")[4]
            if b"\\" in at:
                for spelling, byte in (
                    (b"\\040", b" "),
                    (b"\\011", b"\t"),
                    (b"\\012", b"\n"),
                    (b"\\134", b"\\"),
                ):
                    at = at.replace(spelling, byte)
            if at.startswith(front):
                found.add(os.fsdecode(at[len(front) :]))
    return found
