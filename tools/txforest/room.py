"""The room of a job: a private directory for its view and its OUT, in memory if there is enough
of it, else beside the tree. Nothing in it has to outlive the job.

Where this user may mount, the room is a file system of its own that stands at no path: only this
job can reach it, it is gone with its last descriptor, also after a kill, and its files need not be
removed one by one.
"""

from __future__ import annotations

import os
import stat

from .calls import DIR
from .mounts import unnamed_memory
from .place import Place, Tree, beside_front, new_place
from .survey import Survey

MEMORY = "/dev/shm"
PAGE, NODE = 4096, 1024  # bytes: what a file takes besides, at most, and what an entry takes
SPARE = 64 << 20


class Memory(Place):
    """A room that is a file system of its own, at no path."""

    def clear(self, told: list[str]) -> None:
        """All goes with its last descriptor."""


def room_front(tree: Tree) -> bytes:
    """With what the names of a tree's rooms in memory begin."""
    found = os.fstat(tree.root)
    return b"txforest-%x-%x-" % (found.st_dev, found.st_ino)


def room_of(tree: Tree, found: Survey, in_memory: bool = True) -> Place:
    """A fresh room. With `in_memory` it is in memory if that is large enough; else beside the
    tree."""
    needed = (found.size + (PAGE + NODE) * len(found.taken)) * (1 if found.plain else 2)
    if in_memory and is_free(4 * needed + SPARE):
        fd = unnamed_memory(2 * needed + SPARE)
        if fd is not None:
            return Memory(os.dup(fd), room_front(tree), fd)
        if memory_serves(needed, len(found.taken)):
            memory = os.open(MEMORY, DIR)
            try:
                return new_place(memory, room_front(tree))
            except OSError:
                os.close(memory)
    return new_place(os.dup(tree.above), beside_front(tree.name))


def is_in_memory(room: Place) -> bool:
    """Whether a room is in memory."""
    return room.name.startswith(b"txforest-")


def is_free(needed: int) -> bool:
    """Whether the machine has so much memory to give."""
    try:
        with open("/proc/meminfo", "rb") as lines:
            free = next(int(line.split()[1]) for line in lines if line.startswith(b"MemAvailable:"))
    except (OSError, StopIteration):
        return False
    return free * 1024 > needed


def memory_serves(needed: int, entries: int) -> bool:
    """Whether the file system in memory has room enough, and to spare."""
    try:
        found = os.statvfs(MEMORY)
        it = os.stat(MEMORY)
    except OSError:
        return False
    if not stat.S_ISDIR(it.st_mode) or not it.st_mode & stat.S_ISVTX or it.st_uid != 0:
        return False
    if found.f_files and found.f_favail < 2 * entries + 1000:
        return False
    return found.f_bavail * found.f_frsize > 2 * needed + SPARE
