"""The lock of a tree: the file TREE.lock, flock(2).

Any other program may take it too: `flock TREE.lock cp x tree/in/` is kept apart from all jobs.
"""

from __future__ import annotations

import fcntl
import os
import stat

from .statuses import Failed, Status
from .terminal import shown

WAIT = 0.02  # seconds between two tries for a lock that is waited for with a limit


def lock(path: str, seconds: float | None = None) -> int:
    """Takes the lock PATH.lock and answers its descriptor; closing its last copy lets it go.

    Waits for at most so many seconds, for ever without a number. If the caller of this process
    holds the lock and handed it down (`flock TREE.lock txforest-apply ..`), it counts as held.
    Raises Failed: LOCKED if the lock is not had in time, USAGE if what stands at PATH.lock is no
    regular file of this user, of root or of the tree's owner. No link is followed.
    """
    name = path + ".lock"
    owner = os.stat(path, follow_symlinks=False).st_uid
    while True:
        fd = opened(name, owner)
        found = os.fstat(fd)
        inherited = handed_down(fd, found)
        if inherited is not None:
            os.close(fd)
            return inherited
        try:
            wait_for(fd, name, seconds)
            now = os.stat(name, follow_symlinks=False)
            if (now.st_dev, now.st_ino) == (found.st_dev, found.st_ino):
                return fd
        except FileNotFoundError:
            pass
        except BaseException:
            os.close(fd)
            raise
        os.close(fd)


def opened(name: str, owner: int) -> int:
    """The file of a lock, made if nothing stands there. One that root makes is the tree owner's."""
    flags = os.O_RDONLY | os.O_NOFOLLOW | os.O_NONBLOCK | os.O_CLOEXEC | os.O_NOCTTY
    while True:
        try:
            fd = os.open(name, flags)
        except FileNotFoundError:
            try:
                fd = os.open(name, flags | os.O_CREAT | os.O_EXCL, 0o666)
            except FileExistsError:
                continue
            if os.geteuid() == 0 and owner != 0:
                os.fchown(fd, owner, -1)
        except OSError as error:
            raise Failed(Status.USAGE, f"{shown(name)}: no lock: {error.strerror}") from None
        found = os.fstat(fd)
        if stat.S_ISREG(found.st_mode) and found.st_uid in (0, os.geteuid(), owner):
            return fd
        os.close(fd)
        raise Failed(
            Status.USAGE,
            f"{shown(name)}: no regular file of yours, of root or of the tree's owner,"
            " so it is not taken as the lock",
        )


def handed_down(fd: int, found: os.stat_result) -> int | None:
    """A descriptor of the same file that this process was started with, and that holds the lock."""
    for other in map(int, os.listdir("/proc/self/fd")):
        try:
            held = os.fstat(other)
            if other == fd or (held.st_dev, held.st_ino) != (found.st_dev, found.st_ino):
                continue
            kinds = locks_of(other)
        except OSError:
            continue
        if b"WRITE" in kinds:
            return other
        if b"READ" in kinds:
            raise Failed(Status.LOCKED, "the caller holds the lock, but shared with others")
    return None


def locks_of(fd: int) -> set[bytes]:
    """The kinds of the flock(2) locks that an open file holds: READ, WRITE."""
    with open(f"/proc/self/fdinfo/{fd}", "rb") as it:
        lines = [line.split() for line in it if line.startswith(b"lock:")]
    return {parts[4] for parts in lines if len(parts) > 4 and parts[2] == b"FLOCK"}


def wait_for(fd: int, name: str, seconds: float | None) -> None:
    """Takes the lock of an open file, or raises Failed with LOCKED."""
    if seconds is None:
        fcntl.flock(fd, fcntl.LOCK_EX)
        return
    import time

    end = time.monotonic() + seconds
    while True:
        try:
            fcntl.flock(fd, fcntl.LOCK_EX | fcntl.LOCK_NB)
            return
        except BlockingIOError:
            if time.monotonic() >= end:
                line = f"{shown(name)}: another job holds the lock, after {seconds:g} s of waiting"
                raise Failed(Status.LOCKED, line) from None
            time.sleep(WAIT)
