"""Mounts of a process's own: the few calls of the kernel that Python 3.10 has no words for."""

from __future__ import annotations

import os

from .calls import DIR, failed, libc

NEWUSER, NEWNS = 0x10000000, 0x20000
REC, PRIVATE = 1 << 14, 1 << 18
NOSUID, NODEV, READ_ONLY = 2, 4, 1
FSOPEN, FSCONFIG, FSMOUNT = 430, 431, 432  # numbers of system calls, the same on all machines
SET_STRING, CREATE, CLOSED = 1, 6, 1
NO_PROGRAMS = 8  # of the attributes of a mount, whose other bits are those of mount(2)
CHILD_SUBREAPER, PARENT_DEATH_SIGNAL = 36, 1


def own_mounts() -> None:
    """Mounts of this process's own from here on.

    As root as they are; else in a name space in which only this user and group are known.
    """
    user, group = os.geteuid(), os.getegid()
    if libc().unshare(NEWNS if user == 0 else NEWUSER | NEWNS) < 0:
        raise failed(b"unshare")
    if user != 0:
        texts = {
            "setgroups": "deny",
            "uid_map": f"{user} {user} 1",
            "gid_map": f"{group} {group} 1",
        }
        for name, text in texts.items():
            with open(f"/proc/self/{name}", "w", encoding="ascii") as file:
                file.write(text)
    mount(b"none", b"/", None, REC | PRIVATE, None)


def mount(source: bytes, where: bytes, kind: bytes | None, flags: int, words: bytes | None) -> None:
    """mount(2). Raises OSError."""
    if libc().mount(source, where, kind, flags, words) < 0:
        raise failed(where)


def unnamed_memory(size: int) -> int | None:
    """A descriptor of a fresh file system in memory that stands at no path, with room for so many
    bytes; nothing if this user may mount nothing, or the system has no such calls."""
    call = libc().syscall
    made: int = call(FSOPEN, b"tmpfs", CLOSED)
    if made < 0:
        return None
    try:
        for name, value in ((b"size", b"%d" % size), (b"mode", b"0700")):
            if call(FSCONFIG, made, SET_STRING, name, value, 0) < 0:
                return None
        if call(FSCONFIG, made, CREATE, None, None, 0) < 0:
            return None
        mounted: int = call(FSMOUNT, made, CLOSED, NOSUID | NODEV | NO_PROGRAMS)
    finally:
        os.close(made)
    if mounted < 0:
        return None
    try:
        return os.open(f"/proc/self/fd/{mounted}", DIR & ~os.O_NOFOLLOW)
    except OSError:
        return None
    finally:
        os.close(mounted)


def adopt_orphans() -> None:
    """Whatever a child of this process has started becomes its child once that one has ended."""
    if libc().prctl(CHILD_SUBREAPER, 1, 0, 0, 0) < 0:
        raise failed(b"prctl")


def end_with_parent() -> None:
    """This process is killed if the one that started it ends."""
    from .signals import signal

    if libc().prctl(PARENT_DEATH_SIGNAL, int(signal.SIGKILL), 0, 0, 0) < 0:
        raise failed(b"prctl")
