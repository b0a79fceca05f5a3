"""What is left of a job: a line of a log, and its inputs with its report.

A line has words with single spaces, spelled as in a table of a folder:

    TIME ORDER STATUS ID TREE SPEC SCRIPT..

ORDER is the job's place in the order of the jobs that were done, counted from 1, and `-` of one
that was not done. Two jobs that were done stand in the log in the order in which they were
committed.

What is kept of a job is a directory ID with the files `spec`, `0`, `1` .. (the scripts of the run,
in the order of its shells), `report`, and the folder `folder` as it was before: so `txforest audit`
can be said of it later. It is on the device before the commit, and comes under its name behind it.
"""

from __future__ import annotations

import errno
import fcntl
import os
import stat
import time

from .calls import DIR, NEW, sync_all
from .place import clear
from .spelling import spelled, unspelled
from .terminal import shown, tell

TYPE_CHECKING = False
if TYPE_CHECKING:
    from collections.abc import Sequence

    from .attempt import Attempt
    from .place import Tree
    from .queue import Request
    from .sources import Source

TAIL = 1 << 16  # bytes of a log that are looked through first
CONFLICT = b"13"  # Status.CONFLICT
FLAGS = os.O_RDWR | os.O_CREAT | os.O_APPEND | os.O_CLOEXEC | os.O_NONBLOCK | os.O_NOCTTY
TOLD: set[tuple[bytes, bytes]] = set()  # the logs and jobs whose missing line was told


def now() -> bytes:
    """This moment, by the clock of the world."""
    ns = time.time_ns()
    seconds = time.strftime("%Y-%m-%dT%H:%M:%S", time.gmtime(ns // 10**9))
    return b"%s.%06dZ" % (seconds.encode(), ns % 10**9 // 1000)


def fields(tree: Tree, request: Request) -> bytes:
    """What a line says of a job itself: its tree, its description, its scripts."""
    words = [tree.path, request.spec.word, *(it.word for it in request.scripts)]
    return b" ".join(spelled(os.fsencode(word)) for word in words)


def carried_line(tree: Tree, request: Request) -> bytes:
    """A line of a job that is done, as a place carries it until its commit stands: the log's name,
    then the time and what the line says of the job."""
    return b"%s\n%s %s" % (spelled(os.fsencode(request.log)), now(), fields(tree, request))


def append(tree: Tree, ident: str, request: Request, status: int) -> None:
    """Appends the line of a job, unless its commit did so. What can't be written is told."""
    line = [now(), b"%d" % status, fields(tree, request)]
    put_line(os.fsencode(request.log), ident.encode(), *line)


def hand_out(kind: str, ident: str, data: bytes, has_conflicts: bool) -> None:
    """What a place carries behind its commit: a line gets into its log, what is kept gets its name.
    Done twice it changes nothing. What can't be done is told, and stands in nobody's way."""
    try:
        name, _, line = data.partition(b"\n")
        if kind == "keep":
            give_name(os.fsdecode(unspelled(name)), ident)
            return
        when, more = line.split(b" ", 1)
        status = CONFLICT if has_conflicts else b"0"
        put_line(unspelled(name), ident.encode(), when, status, more)
    except ValueError:
        tell(f"{kind}-{ident}: a place has no such line")


# ---- logs


def put_line(file: bytes, ident: bytes, when: bytes, status: bytes, more: bytes) -> None:
    """Appends a line with the next number, unless the job has one already."""
    try:
        fd = os.open(file, FLAGS, 0o666)
    except OSError as error:
        tell_missing(file, ident, error)
        return
    try:
        if not stat.S_ISREG(os.fstat(fd).st_mode):
            raise OSError(errno.EINVAL, "no regular file")
        fcntl.flock(fd, fcntl.LOCK_EX)
        last, torn = last_number(fd, ident)
        if last is None:
            return
        order = b"%d" % (last + 1) if status in (b"0", CONFLICT) else b"-"
        line = b" ".join([when, order, status, ident, more]) + b"\n"
        write_all(fd, b"\n" + line if torn else line)
        os.fsync(fd)
    except OSError as error:
        tell_missing(file, ident, error)
    finally:
        os.close(fd)


def tell_missing(file: bytes, ident: bytes, error: OSError) -> None:
    """Tells that a log gets no line of a job, once for each job."""
    if (file, ident) not in TOLD:
        TOLD.add((file, ident))
        tell(f"{shown(file)}: gets no line of the job {ident.decode()}: {error.strerror}")


def write_all(fd: int, data: bytes) -> None:
    """Writes all of some bytes."""
    while data:
        data = data[os.write(fd, data) :]


def last_number(fd: int, ident: bytes) -> tuple[int | None, bool]:
    """The last number in a log, 0 if there is none, and nothing if a job has a line there already;
    and whether the log's last line has no end, as a power cut leaves it."""
    size = os.fstat(fd).st_size
    torn = size > 0 and os.pread(fd, 1, size - 1) != b"\n"
    start = size
    while True:
        start = max(0, start - TAIL)
        lines = os.pread(fd, size - start, start).split(b"\n")
        words = [line.split(b" ", 4) for line in lines[start > 0 :]]
        if any(len(it) > 4 and it[3] == ident for it in words):
            return None, torn
        numbers = [int(it[1]) for it in words if len(it) > 4 and it[1].isdigit()]
        if numbers:
            return numbers[-1], torn
        if start == 0:
            return 0, torn


# ---- what is kept


def kept(
    attempt: Attempt, ident: str, folder: str, scripts: Sequence[Source], report: bytes
) -> bytes:
    """Keeps the inputs of an attempt's run and its report, not yet under their name, and waits
    until they are on the device; answers what the place carries for it. Raises OSError."""
    from .view import copied, table_text, write_new

    os.makedirs(folder, exist_ok=True)
    at = os.open(folder, DIR)
    name = b".new-" + ident.encode()
    try:
        clear(at, name)
        os.mkdir(name, 0o700, dir_fd=at)
        fd = os.open(name, DIR, dir_fd=at)
    finally:
        os.close(at)
    try:
        spec = attempt.spec
        if spec is None:
            raise ValueError("nothing was run")
        texts = [(b"spec", spec.text), (b"report", report)]
        texts += [(b"%d" % i, script.text) for i, script in enumerate(scripts)]
        for file, text in texts:
            new = os.open(file, NEW, 0o600, dir_fd=fd)
            try:
                write_all(new, text)
            finally:
                os.close(new)
        os.mkdir("folder", 0o700, dir_fd=fd)
        inner = os.open("folder", DIR, dir_fd=fd)
        try:
            found = attempt.found
            flags = copied(attempt.tree.root, found, inner)
            if not found.table:
                write_new(inner, b".forest-links", table_text(found.links, flags))
        finally:
            os.close(inner)
        sync_all(fd)
    finally:
        os.close(fd)
    return spelled(os.fsencode(folder)) + b"\n"


def drop(folder: str, ident: str) -> None:
    """Removes what was kept of a job that is not done after all."""
    try:
        at = os.open(folder, DIR)
        try:
            clear(at, b".new-" + ident.encode())
        finally:
            os.close(at)
    except OSError:
        pass  # it stays, under a name that says what it is


def give_name(folder: str, ident: str) -> None:
    """Gives what was kept its name, if it has it not yet."""
    try:
        at = os.open(folder, DIR)
        try:
            os.rename(b".new-" + ident.encode(), ident, src_dir_fd=at, dst_dir_fd=at)
            os.fsync(at)
        finally:
            os.close(at)
    except FileNotFoundError:
        pass  # it has its name, or somebody took it away
    except OSError as error:
        tell(f"{shown(folder)}: what is kept of {ident} has not its name: {error.strerror}")
