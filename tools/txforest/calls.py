"""The system calls of a commit, each through one object, so that tests count them, stop at each,
refuse each and record them. `S` is the one in use. Names are bytes, directories are
descriptors."""

from __future__ import annotations

import errno
import os
import sys

TYPE_CHECKING = False
if TYPE_CHECKING:
    from collections.abc import Callable, Sequence
    from typing import Any

    Function = Callable[..., int]

NOREPLACE, EXCHANGE = 1, 2
OPENAT2 = 437
NO_XDEV, NO_MAGICLINKS, NO_SYMLINKS, BENEATH = 1, 2, 4, 8
DIR = os.O_RDONLY | os.O_DIRECTORY | os.O_NOFOLLOW | os.O_CLOEXEC
FILE = os.O_RDONLY | os.O_NOFOLLOW | os.O_NONBLOCK | os.O_CLOEXEC
WRITE = os.O_WRONLY | os.O_NOFOLLOW | os.O_CLOEXEC
NEW = WRITE | os.O_CREAT | os.O_EXCL


class Library:
    """The C library. Its functions take numbers, bytes or nothing, and answer a number; each is
    loaded at its first use."""

    def __getattr__(self, name: str) -> Function:
        made = function_of(name)
        setattr(self, name, made)
        return made


LIBC = Library()


def libc() -> Library:
    """The C library."""
    return LIBC


def function_of(name: str) -> Function:
    """A function of the C library.

    It is made by the core of the module ctypes. All of that module is loaded only if its core is
    another than is known here: to load it costs a tool more than all its calls.
    """
    try:
        core = core_of_ctypes()
        number = type("Number", (core._SimpleCData,), {"_type_": "i"})
        flags = core.FUNCFLAG_CDECL | core.FUNCFLAG_USE_ERRNO
        words = {"_flags_": flags, "_restype_": number}
        made: Function = type("Function", (core.CFuncPtr,), words)(
            core.dlsym(core.dlopen(None, 0), name)
        )
    except (ImportError, AttributeError, TypeError):
        import ctypes

        made = getattr(ctypes.CDLL(None, use_errno=True), name)
    return made


def core_of_ctypes() -> Any:
    """The module that does the work of ctypes."""
    return __import__("_ctypes")


def failed(name: bytes) -> OSError:
    """The error of the last call of the C library, with a name."""
    number = core_of_ctypes().get_errno()
    return OSError(number, os.strerror(number), name)


def sync_all(fd: int) -> None:
    """Waits until all that was written to a descriptor's file system is on its device."""
    if libc().syncfs(fd) < 0:
        raise failed(b".")


class Calls:
    """Each call as the system has it."""

    def open(self, name: bytes, flags: int, dir_fd: int, mode: int = 0o600) -> int:
        """A descriptor of what stands at a name; it is closed when a program is started."""
        return os.open(name, flags | os.O_CLOEXEC, mode, dir_fd=dir_fd)

    def close(self, fd: int) -> None:
        """Closes a descriptor."""
        os.close(fd)

    def down(self, root: int, names: Sequence[bytes]) -> int:
        """The directory at a path below another: no link is followed, no mount is entered.

        One call if the system has openat2, else a walk name by name.
        """
        if names:
            fd = self.openat2(root, b"/".join(names))
            if fd is not None:
                return fd
        fd = os.open(b".", DIR, dir_fd=root)
        mount = mount_of(fd)
        for name in names:
            try:
                inside = os.open(name, DIR, dir_fd=fd)
            finally:
                os.close(fd)
            fd = inside
            if mount_of(fd) != mount:
                os.close(fd)
                raise OSError(errno.EXDEV, os.strerror(errno.EXDEV), name)
        return fd

    def openat2(self, root: int, path: bytes) -> int | None:
        """A directory by openat2, or nothing if the system has no such call."""
        resolve = BENEATH | NO_SYMLINKS | NO_MAGICLINKS | NO_XDEV
        how = b"".join(it.to_bytes(8, sys.byteorder) for it in (DIR, 0, resolve))
        fd = libc().syscall(OPENAT2, root, path, how, len(how))
        if fd >= 0:
            return fd
        error = failed(path)
        if error.errno in (errno.ENOSYS, errno.EINVAL, errno.E2BIG):
            return None
        raise error

    def look(self, name: bytes, dir_fd: int) -> os.stat_result | None:
        """What stands at a name, or nothing."""
        try:
            return os.stat(name, dir_fd=dir_fd, follow_symlinks=False)
        except FileNotFoundError:
            return None

    def text(self, name: bytes, dir_fd: int) -> bytes:
        """The text of a symbolic link."""
        return os.readlink(name, dir_fd=dir_fd)

    def mark(self, found: os.stat_result) -> bytes:
        """What has to stay for an entry to count as the same.

        No device, whose number may be another after a start of the machine; no ctime, which a
        rename and a link change; of a directory no size and time, which its entries change.
        """
        is_dir = found.st_mode & 0o170000 == 0o040000
        return b"%o:%d:%d:%d:%d:%d" % (
            found.st_mode,
            found.st_ino,
            0 if is_dir else found.st_size,
            0 if is_dir else found.st_mtime_ns,
            found.st_uid,
            found.st_gid,
        )

    def mkdir(self, name: bytes, mode: int, dir_fd: int) -> None:
        """Makes a directory."""
        os.mkdir(name, mode, dir_fd=dir_fd)

    def unlink(self, name: bytes, dir_fd: int) -> None:
        """Removes a name of a file or a link."""
        os.unlink(name, dir_fd=dir_fd)

    def rmdir(self, name: bytes, dir_fd: int) -> None:
        """Removes an empty directory."""
        os.rmdir(name, dir_fd=dir_fd)

    def symlink(self, text: bytes, name: bytes, dir_fd: int) -> None:
        """Makes a symbolic link."""
        os.symlink(text, name, dir_fd=dir_fd)

    def link(self, a: bytes, a_fd: int, b: bytes, b_fd: int) -> None:
        """Gives a file a second name."""
        os.link(a, b, src_dir_fd=a_fd, dst_dir_fd=b_fd, follow_symlinks=False)

    def link_open(self, fd: int, name: bytes, dir_fd: int) -> None:
        """Gives an open file without a name its first one."""
        os.link(b"/proc/self/fd/%d" % fd, name, dst_dir_fd=dir_fd, follow_symlinks=True)

    def rename(self, a: bytes, a_fd: int, b: bytes, b_fd: int) -> None:
        """Moves a name, over what stands at the other one."""
        os.rename(a, b, src_dir_fd=a_fd, dst_dir_fd=b_fd)

    def rename2(self, a: bytes, a_fd: int, b: bytes, b_fd: int, flag: int) -> None:
        """Exchanges two names, or moves one only if the other is free."""
        if libc().renameat2(a_fd, a, b_fd, b, flag) < 0:
            raise failed(b)

    def write(self, fd: int, data: bytes) -> None:
        """Writes all of some bytes."""
        view = memoryview(data)
        while view:
            view = view[os.write(fd, view) :]

    def fsync(self, fd: int) -> None:
        """Waits until a file, or the names in a directory, are on the device."""
        os.fsync(fd)

    def chown(self, fd: int, uid: int, gid: int) -> None:
        """Gives an open file another owner and group."""
        os.fchown(fd, uid, gid)

    def chmod(self, fd: int, mode: int) -> None:
        """Gives an open file another mode."""
        os.fchmod(fd, mode)

    def chmod_at(self, name: bytes, dir_fd: int, mode: int, mark: bytes) -> bool:
        """Gives an entry another mode if it is still that of a mark; it needs not be readable."""
        fd = os.open(name, os.O_PATH | os.O_NOFOLLOW | os.O_CLOEXEC, dir_fd=dir_fd)
        try:
            if self.mark(os.fstat(fd)) != mark:
                return False
            os.chmod(b"/proc/self/fd/%d" % fd, mode)
            return True
        finally:
            os.close(fd)

    def chown_at(self, name: bytes, dir_fd: int, uid: int, gid: int, mark: bytes) -> bool:
        """Gives an entry another owner and group if it is still that of a mark."""
        fd = os.open(name, os.O_PATH | os.O_NOFOLLOW | os.O_CLOEXEC, dir_fd=dir_fd)
        try:
            if self.mark(os.fstat(fd)) != mark:
                return False
            os.chown(b"/proc/self/fd/%d" % fd, uid, gid)
            return True
        finally:
            os.close(fd)

    def setxattr(self, fd: int, name: str, value: bytes) -> None:
        """Gives an open file an extended attribute."""
        os.setxattr(fd, name, value)


def mount_of(fd: int) -> bytes:
    """The number of the mount that a descriptor leads to; a bind mount has one of its own."""
    with open(f"/proc/self/fdinfo/{fd}", "rb") as it:
        for line in it:
            if line.startswith(b"mnt_id:"):
                return line[7:].strip()
    return b"%d" % os.fstat(fd).st_dev


PLAIN = Calls()
S = PLAIN
