r"""Transactions on a tree of plain files, for programs in Python.

    >>> import txforest
    >>> @txforest.transactional("rota", "spec")
    ... def leave(t, who, other):
    ...     if t.read_text(other) == "on\n":
    ...         t.write(who, "off\n")
    ...         return f"{who} is off"
    ...     return f"{who} stays"
    >>> leave("ann", "ben")
    'ann is off'
    >>> leave("ben", "ann")
    'ben stays'

Each call of `leave` runs whole: what it reads is recorded, what it writes is kept aside, and at its
end the proved program lets both in if all that was read is still so. Else the function is called
again on what stands there now. `attempts` is the same as a loop, and `transaction` is one attempt,
which raises Conflict. An exception of the body keeps nothing.

    >>> for t in txforest.attempts("rota", "spec"):
    ...     with t:
    ...         t.append("log", "ann left\n")
    >>> with txforest.transaction("rota", "spec") as t:
    ...     here = t / "."
    ...     [path.name for path in here.iterdir()]
    ...     (here / "log").read_text()
    ['ann', 'ben', 'log']
    'ann left\n'

What the description wants stays so:

    >>> with txforest.transaction("rota", "spec") as t:
    ...     t.remove("ann")
    Traceback (most recent call last):
    txforest.interface.NoValue: what this leaves has no value by the description

And nobody's change is lost:

    >>> with txforest.transaction("rota", "spec") as t:
    ...     count = len(t.read("log"))
    ...     with txforest.transaction("rota", "spec") as other:
    ...         other.append("log", "ben asked\n")
    ...     t.write("size", str(count))
    Traceback (most recent call last):
    txforest.interface.Conflict: log was changed by another transaction

The tree goes on meanwhile: two reads may be of two moments. Such an attempt never commits, and an
exception that it raises is taken for a conflict.

Paths are below the tree, with `/` between the names, as str, bytes, os.PathLike, or as made by
`t / "conf" / "port"`. No symbolic link is followed, and there is no `..`.
"""

from __future__ import annotations

import errno
import functools
import io
import os
import stat
from pathlib import PurePosixPath

from .copies import Changes, Looked
from .jobs import CONFLICT, DONE, Clerk, again
from .place import Tree
from .waiting import Room
from .states import (
    LINK,
    WHOLE,
    Kind,
    Reader,
    identity,
    kind_of,
    token_of_bytes,
    token_of_large,
)
from .statuses import Failed

TYPE_CHECKING = False
if TYPE_CHECKING:
    from collections.abc import Callable, Iterator
    from types import TracebackType
    from typing import IO, Any, ParamSpec, TypeVar, Union

    from .states import Path, Seen

    P = ParamSpec("P")
    R = TypeVar("R")
    AnyPath = Union[str, bytes, "os.PathLike[str]", "os.PathLike[bytes]"]

TRIES = 10


class Conflict(Exception):
    """Another one has changed what this transaction had read; `path` is the first such path."""

    def __init__(self, path: str) -> None:
        super().__init__(f"{path} was changed by another transaction")
        self.path = path


class NoValue(Exception):
    """What this transaction would leave has no value by the description. Nothing was changed."""


class File:
    """A file that a transaction has written: its bytes, its mode, and its owner if it had one."""

    __slots__ = ("content", "mode", "owner")

    def __init__(self, content: bytes, mode: int, owner: tuple[int, int] | None) -> None:
        self.content = content
        self.mode = mode
        self.owner = owner


class Transaction:
    """A tree as one transaction sees it: what stands there, and what it has written itself.

    It is used once, as `with .. as t`. At the end of the block it commits; it raises Conflict or
    NoValue then, or Failed if the program or the system refuses something, and nothing is kept.
    """

    def __init__(
        self, tree: AnyPath, spec: AnyPath, *, wait: float | None = None, held: int | None = None
    ) -> None:
        """`wait` is how many seconds to wait for the lock, `held` its descriptor if one has it."""
        self.tree = os.fsdecode(tree)
        self.spec = os.path.abspath(os.fsdecode(spec))
        self.done = False
        self.conflict: Conflict | None = None
        self._wait = wait
        self._held = held
        self._quiet = False
        self._reads: dict[Path, Seen] = {}
        self._content: dict[Path, bytes] = {}
        self._own: dict[Path, File | bytes | Kind | None] = {}

    def __enter__(self) -> Transaction:
        self._tree = Tree(self.tree)
        self._reader = Reader(self._tree.root)
        return self

    def __exit__(
        self,
        kind: type[BaseException] | None,
        error: BaseException | None,
        trace: TracebackType | None,
    ) -> bool:
        try:
            if error is not None and error is self.conflict:
                return self._quiet
            if error is None or isinstance(error, Exception):
                self._end(error)
            return False
        except Conflict as conflict:
            self.conflict = conflict
            if not self._quiet:
                raise
            return True
        finally:
            self._reader.close()
            self._tree.close()

    def _end(self, error: Exception | None) -> None:
        """Commits, unless the block raised an exception. Raises Conflict if what it has read is no
        longer so, also if it caught a conflict of its own."""
        if self.conflict is not None:
            raise self.conflict from error
        if error is not None:
            self._look_again(error)
        else:
            self._commit()
            self.done = True

    def __truediv__(self, name: AnyPath) -> TreePath:
        return TreePath(self, PurePosixPath(os.fsdecode(name)))

    # ---- what one looks at

    def read(self, path: AnyPath) -> bytes:
        """The bytes of a file."""
        names = _names(path)
        own = self._own.get(names)
        if isinstance(own, File):
            return own.content
        self._regular(names)
        if names not in self._content:
            self._content[names] = self._large(names)
        return self._content[names]

    def read_text(self, path: AnyPath, encoding: str = "utf-8") -> str:
        """The text of a file. Line ends stay as they are."""
        return self.read(path).decode(encoding)

    def exists(self, path: AnyPath) -> bool:
        """Whether something stands there, also a link that leads nowhere."""
        return self._kind(path) is not None

    def is_file(self, path: AnyPath) -> bool:
        """Whether a file stands there."""
        return self._kind(path) == "file"

    def is_dir(self, path: AnyPath) -> bool:
        """Whether a directory stands there."""
        return self._kind(path) == "dir"

    def is_symlink(self, path: AnyPath) -> bool:
        """Whether a symbolic link stands there."""
        return self._kind(path) == "link"

    def is_executable(self, path: AnyPath) -> bool:
        """Whether somebody may execute a file."""
        return bool(self._mode(_names(path)) & 0o111)

    def readlink(self, path: AnyPath) -> str:
        """The text of a symbolic link."""
        names = _names(path)
        state = self._state(names)
        if not isinstance(state, bytes) or not state.startswith(LINK):
            raise _error(errno.ENOENT if state is None else errno.EINVAL, names)
        return os.fsdecode(state[len(LINK) :])

    def list(self, path: AnyPath = ".") -> list[str]:
        """The names in a directory, in order."""
        names = _names(path)
        state = self._state(names)
        if state is not Kind.DIRECTORY:
            raise _error(errno.ENOENT if state is None else errno.ENOTDIR, names)
        found: set[bytes] = set()
        if self._own.get(names) is not Kind.DIRECTORY:
            seen = self._reads.get(names)
            if not isinstance(seen, frozenset):
                seen = self._reads[names] = self._look(lambda: self._listing(names), names)
            found |= seen
        for own, new in self._own.items():
            if own and own[:-1] == names:
                (found.discard if new is None else found.add)(own[-1])
        return [os.fsdecode(name) for name in sorted(found)]

    # ---- what one makes

    def write(
        self,
        path: AnyPath,
        data: str | bytes,
        *,
        executable: bool | None = None,
        parents: bool = True,
    ) -> None:
        """Makes a file, or gives one other bytes; its mode stays unless `executable` says more."""
        names = self._made_at(path, parents)
        found = self._kind(names)
        if found == "dir":
            raise _error(errno.EISDIR, names)
        if found in ("link", "other"):
            raise _error(errno.ELOOP if found == "link" else errno.EINVAL, names)
        mode, owner = 0o666 & ~_umask(), None
        if found == "file":
            mode, owner = self._mode(names), self._owner(names)
        if executable is not None:
            mode = mode | (mode & 0o444) >> 2 if executable else mode & ~0o111
        content = data.encode() if isinstance(data, str) else bytes(data)
        self._own[names] = File(content, mode, owner)

    def append(self, path: AnyPath, data: str | bytes) -> None:
        """Writes behind what a file has; makes it if it is missing."""
        before = self.read(path) if self.exists(path) else b""
        self.write(path, before + (data.encode() if isinstance(data, str) else bytes(data)))

    def set_executable(self, path: AnyPath, on: bool = True) -> None:
        """Makes a file executable for whoever may read it, or for nobody."""
        self.write(path, self.read(path), executable=on)

    def mkdir(self, path: AnyPath, *, parents: bool = True, exist_ok: bool = True) -> None:
        """Makes a directory."""
        names = self._made_at(path, parents)
        found = self._kind(names)
        if found is None:
            self._own[names] = Kind.DIRECTORY
        elif found != "dir" or not exist_ok:
            raise _error(errno.EEXIST, names)

    def symlink(self, path: AnyPath, target: AnyPath) -> None:
        """Makes a symbolic link with the text `target`."""
        names = self._made_at(path, True)
        if self._kind(names) is not None:
            raise _error(errno.EEXIST, names)
        self._own[names] = LINK + os.fsencode(target)

    def remove(self, path: AnyPath) -> None:
        """Removes what stands there, a directory with all below it."""
        names = _names(path)
        if not names:
            raise ValueError("the tree itself can't be removed")
        state = self._state(names)
        if state is None:
            raise _error(errno.ENOENT, names)
        if state is Kind.DIRECTORY:
            for name in self.list(b"/".join(names)):
                self.remove(b"/".join((*names, os.fsencode(name))))
        self._own[names] = None

    def rename(self, path: AnyPath, new: AnyPath) -> None:
        """Moves a file or link over what stands at `new`, or a directory to where nothing is."""
        names, to = _names(path), self._made_at(new, True)
        state = self._state(names)
        if state is None:
            raise _error(errno.ENOENT, names)
        if names == to:
            return
        if state is Kind.DIRECTORY:
            if to[: len(names)] == names:
                raise _error(errno.EINVAL, to)
            if self._kind(to) is not None:
                raise _error(errno.EEXIST, to)
            self._own[to] = Kind.DIRECTORY
            for name in map(os.fsencode, self.list(b"/".join(names))):
                self.rename(b"/".join((*names, name)), b"/".join((*to, name)))
            self._own[names] = None
            return
        if self._kind(to) == "dir":
            raise _error(errno.EISDIR, to)
        if isinstance(state, bytes) and state.startswith(LINK):
            self._own[to] = state
        else:
            self._own[to] = File(self.read(path), self._mode(names), self._owner(names))
        self._own[names] = None

    # ---- what stands there

    def _kind(self, path: AnyPath | Path) -> str | None:
        """`file`, `dir`, `link`, `other`, or nothing."""
        names = path if isinstance(path, tuple) else _names(path)
        return kind_of(self._state(names, True))

    def _state(self, path: Path, loosely: bool = False) -> Seen:
        """What stands at a path, which is recorded; `loosely`, of a file only that one is there."""
        if path in self._own:
            own = self._own[path]
            return Kind.SOME_FILE if isinstance(own, File) else own
        if path and not self._leads_on(path[:-1]):
            return None
        if path in self._reads:
            seen = self._reads[path]
            if seen is not Kind.SOME_FILE or loosely:
                return Kind.DIRECTORY if isinstance(seen, frozenset) else seen
        found = self._look(lambda: self._looked_at(path, loosely), path)
        if path in self._reads and kind_of(found) != "file":
            raise self._torn(path)
        self._reads[path] = found
        return found

    def _leads_on(self, path: Path) -> bool:
        """Whether a directory stands at a path, which may have what is asked for."""
        above = self._state(path, True)
        if kind_of(above) == "link":
            raise _error(errno.ELOOP, path)
        return above is Kind.DIRECTORY and path not in self._own

    def _looked_at(self, path: Path, loosely: bool) -> Seen:
        """What stands at a path of the tree now. The content of a file is kept."""
        if not path:
            return Kind.DIRECTORY
        found = self._reader.look(path)
        if found is None or not stat.S_ISREG(found.st_mode):
            return self._reader.state(path)
        if loosely:
            return Kind.SOME_FILE
        found, content = self._reader.content(path)
        if content is None:
            return token_of_large(found)
        self._content[path] = content
        return token_of_bytes(found, content)

    def _look(self, look: Callable[[], R], path: Path) -> R:
        """A look at the tree; somebody who changes the path all the time is a conflict."""
        try:
            return look()
        except OSError as error:
            if error.errno in (errno.ESTALE, errno.ENOENT, errno.ENOTDIR, errno.ELOOP):
                raise self._torn(path) from None
            raise

    def _listing(self, path: Path) -> frozenset[bytes]:
        """The names in a directory of the tree."""
        return frozenset(self._reader.names(path))

    def _large(self, path: Path) -> bytes:
        """The bytes of a file above 1 MiB, if it is still the one that was looked at."""
        directory = self._reader.directory(path[:-1])
        with open(os.open(path[-1], os.O_RDONLY | os.O_NOFOLLOW, dir_fd=directory), "rb") as file:
            before = os.fstat(file.fileno())
            content = file.read()
            is_same = identity(before) == identity(os.fstat(file.fileno()))
        if not is_same or token_of_large(before) != self._reads[path]:
            raise self._torn(path)
        return content

    def _torn(self, path: Path) -> Conflict:
        """The conflict of a look that met a change; nothing of this transaction is kept."""
        self.conflict = Conflict(_told(path))
        return self.conflict

    def _regular(self, path: Path) -> Seen:
        """The state of a path at which a file stands."""
        state = self._state(path)
        found = kind_of(state)
        if found != "file":
            numbers = {None: errno.ENOENT, "dir": errno.EISDIR, "link": errno.ELOOP}
            raise _error(numbers.get(found, errno.EINVAL), path)
        return state

    def _mode(self, path: Path) -> int:
        """The mode of a file."""
        own = self._own.get(path)
        if isinstance(own, File):
            return own.mode
        state = self._regular(path)
        return int(state.split(b" ", 2)[1], 8) if isinstance(state, bytes) else 0

    def _owner(self, path: Path) -> tuple[int, int] | None:
        """The owner of a file that was there before."""
        own = self._own.get(path)
        if isinstance(own, File):
            return own.owner
        state = self._regular(path)
        if not isinstance(state, bytes):
            return None
        user, group = state.split(b" ", 4)[2:4]
        return int(user), int(group)

    def _made_at(self, path: AnyPath, parents: bool) -> Path:
        """The names of a path at which something is made; what is above it is there then."""
        names = _names(path)
        if not names:
            raise ValueError("the tree itself")
        for length in range(1, len(names)):
            above = names[:length]
            found = self._kind(above)
            if found is None and parents:
                self._own[above] = Kind.DIRECTORY
            elif found != "dir":
                raise _error(errno.ENOENT if found is None else errno.ENOTDIR, above)
        return names

    # ---- the end

    def _look_again(self, error: Exception) -> None:
        """Raises Conflict if an exception may come from a look at two moments."""
        for path, seen in self._reads.items():
            if again(self._reader, path, seen) != seen:
                raise self._torn(path) from error

    def _commit(self) -> None:
        """Commits. Raises Conflict, NoValue or Failed; then nothing is kept."""
        if not self._own and not self._reads:
            return
        clerk = Clerk(self._tree, self.spec, self._wait)
        with Room(self._tree) as room:
            changes = self._changes(room)
            answer = clerk.submit(room, Looked(self._reads), changes, self._held)
        if answer.what == CONFLICT:
            raise Conflict(answer.where().lstrip("/"))
        if answer.what != DONE:
            raise NoValue("what this leaves has no value by the description")
        if answer.conflicts:
            import warnings

            warnings.warn("\n".join(answer.conflicts), stacklevel=3)

    def _changes(self, room: Room) -> Changes:
        """What is to be made, with the new files in a room."""
        made = Changes()
        for number, (path, own) in enumerate(self._own.items()):
            before = self._reader.state(path) if path not in self._reads else self._reads[path]
            if isinstance(before, frozenset):
                before = Kind.DIRECTORY
            elif before is Kind.SOME_FILE:
                before = self._reads[path] = self._reader.state(path)
            where = room.inside(f"new{number}")
            new = self._new_file(where, own, path) if isinstance(own, File) else own
            if new != before:
                made.writes[path], made.before[path] = new, before
                if isinstance(own, File):
                    made.files[path] = where
        return made

    def _new_file(self, where: str, own: File, path: Path) -> bytes:
        """Makes a file in a room; answers the token that it is to have in the tree."""
        with open(where, "xb") as file:
            file.write(own.content)
            os.fchmod(file.fileno(), own.mode)
            found = os.fstat(file.fileno())
        if len(own.content) > WHOLE:
            token = token_of_large(os.stat(where))
        else:
            token = token_of_bytes(found, own.content)
        owner = own.owner
        if owner is None:
            above = self._reader.look(path[:-1])
            if above is None or not above.st_mode & stat.S_ISGID:
                return token
            owner = found.st_uid, above.st_gid
        parts = token.split(b" ", 4)
        return b" ".join([*parts[:2], b"%d" % owner[0], b"%d" % owner[1], *parts[4:]])


class TreePath:
    """A path in a transaction, with the words of pathlib. It is good while its block lasts."""

    __slots__ = ("_t", "_path")

    def __init__(self, t: Transaction, path: PurePosixPath) -> None:
        self._t = t
        self._path = path

    def __truediv__(self, name: AnyPath) -> TreePath:
        return TreePath(self._t, self._path / os.fsdecode(name))

    def __fspath__(self) -> str:
        return str(self._path)

    def __str__(self) -> str:
        return str(self._path)

    def __repr__(self) -> str:
        return f"TreePath({str(self._path)!r})"

    def __eq__(self, other: object) -> bool:
        return isinstance(other, TreePath) and (self._t, self._path) == (other._t, other._path)

    def __hash__(self) -> int:
        return hash(self._path)

    def __lt__(self, other: TreePath) -> bool:
        return self._path < other._path

    @property
    def name(self) -> str:
        """The last name."""
        return self._path.name

    @property
    def stem(self) -> str:
        """The last name without its suffix."""
        return self._path.stem

    @property
    def suffix(self) -> str:
        """The suffix of the last name, with its dot."""
        return self._path.suffix

    @property
    def parts(self) -> tuple[str, ...]:
        """The names."""
        return self._path.parts

    @property
    def parent(self) -> TreePath:
        """The path of the directory."""
        return TreePath(self._t, self._path.parent)

    def exists(self) -> bool:
        """As Transaction.exists."""
        return self._t.exists(self)

    def is_file(self) -> bool:
        """As Transaction.is_file."""
        return self._t.is_file(self)

    def is_dir(self) -> bool:
        """As Transaction.is_dir."""
        return self._t.is_dir(self)

    def is_symlink(self) -> bool:
        """As Transaction.is_symlink."""
        return self._t.is_symlink(self)

    def readlink(self) -> PurePosixPath:
        """The text of a symbolic link, as a path."""
        return PurePosixPath(self._t.readlink(self))

    def read_bytes(self) -> bytes:
        """As Transaction.read."""
        return self._t.read(self)

    def read_text(self, encoding: str = "utf-8") -> str:
        """As Transaction.read_text."""
        return self._t.read_text(self, encoding)

    def write_bytes(self, data: bytes) -> int:
        """As Transaction.write, in a directory that is there; answers the number of bytes."""
        self._t.write(self, data, parents=False)
        return len(data)

    def write_text(self, data: str, encoding: str = "utf-8") -> int:
        """As Transaction.write, in a directory that is there; answers the number of characters."""
        self._t.write(self, data.encode(encoding), parents=False)
        return len(data)

    def open(self, mode: str = "r", encoding: str = "utf-8") -> IO[Any]:
        """A file in memory, which is written at its close. `mode` is r, w, a or x, and b."""
        return _opened(self._t, self, mode, encoding)

    def touch(self, exist_ok: bool = True) -> None:
        """Makes an empty file if nothing stands there."""
        if not self.exists():
            self._t.write(self, b"", parents=False)
        elif not exist_ok:
            raise _error(errno.EEXIST, _names(self))

    def mkdir(self, parents: bool = False, exist_ok: bool = False) -> None:
        """As Transaction.mkdir."""
        self._t.mkdir(self, parents=parents, exist_ok=exist_ok)

    def symlink_to(self, target: AnyPath) -> None:
        """As Transaction.symlink."""
        self._t.symlink(self, target)

    def unlink(self, missing_ok: bool = False) -> None:
        """Removes a file or a link."""
        if self.is_dir():
            raise _error(errno.EISDIR, _names(self))
        if self.exists() or not missing_ok:
            self._t.remove(self)

    def rmdir(self) -> None:
        """Removes an empty directory."""
        if self._t.list(self):
            raise _error(errno.ENOTEMPTY, _names(self))
        self._t.remove(self)

    def rename(self, target: AnyPath) -> TreePath:
        """As Transaction.rename; answers the new path."""
        self._t.rename(self, target)
        return TreePath(self._t, PurePosixPath(os.fsdecode(target)))

    replace = rename

    def iterdir(self) -> Iterator[TreePath]:
        """The paths in a directory, in order of their names."""
        return iter([self / name for name in self._t.list(self)])

    def glob(self, pattern: str) -> Iterator[TreePath]:
        """The paths below this one that match a pattern; the name `**` is any number of names."""
        return iter(list(_globbed(self, pattern.split("/"))))

    def rglob(self, pattern: str) -> Iterator[TreePath]:
        """The paths anywhere below this one that match a pattern."""
        return self.glob(f"**/{pattern}")


def _globbed(here: TreePath, names: list[str]) -> Iterator[TreePath]:
    """The paths that the names of a pattern lead to."""
    import fnmatch

    if not names:
        if here.exists():
            yield here
        return
    first, *rest = names
    if first == "**":
        yield from _globbed(here, rest)
        for inside in here.iterdir():
            if inside.is_dir():
                yield from _globbed(inside, names)
    elif not any(mark in first for mark in "*?["):
        yield from _globbed(here / first, rest)
    elif here.is_dir():
        for inside in here.iterdir():
            if fnmatch.fnmatchcase(inside.name, first) and (not rest or inside.is_dir()):
                yield from _globbed(inside, rest)


class _Bytes(io.BytesIO):
    """A file in memory whose bytes are written into the transaction at its close."""

    def __init__(self, t: Transaction, path: TreePath, before: bytes) -> None:
        super().__init__(before)
        self.seek(0, io.SEEK_END)
        self._into = t, path

    def close(self) -> None:
        if not self.closed:
            t, path = self._into
            t.write(path, self.getvalue(), parents=False)
        super().close()


def _opened(t: Transaction, path: TreePath, mode: str, encoding: str) -> IO[Any]:
    """A file of a transaction, as `open` gives one."""
    letters = set(mode)
    if len(letters & set("rwax")) != 1 or letters - set("rwaxbt") or {"b", "t"} <= letters:
        raise ValueError(f"{mode!r}: no mode of a file in a transaction")
    raw: io.BytesIO
    if "r" in letters:
        raw = io.BytesIO(t.read(path))
    else:
        if "x" in letters and t.exists(path):
            raise _error(errno.EEXIST, _names(path))
        before = t.read(path) if "a" in letters and t.exists(path) else b""
        raw = _Bytes(t, path, before)
    if "b" in letters:
        return raw
    return io.TextIOWrapper(raw, encoding=encoding)


def _names(path: AnyPath) -> Path:
    """The names of a path."""
    given = os.fsencode(path)
    parts = tuple(part for part in given.split(b"/") if part not in (b"", b"."))
    if given.startswith(b"/") or b".." in parts:
        raise ValueError(f"{path!r}: no path below the tree")
    return parts


def _told(path: Path) -> str:
    """A path as one reads it."""
    return os.fsdecode(b"/".join(path)) or "."


def _error(number: int, path: Path) -> OSError:
    """The error that the system would raise."""
    return OSError(number, os.strerror(number), _told(path))


def _umask() -> int:
    """The mask of modes of new files."""
    with open("/proc/self/status", encoding="utf-8", errors="replace") as file:
        for line in file:
            if line.startswith("Umask:"):
                return int(line.split()[1], 8)
    return 0o022


def transaction(tree: AnyPath, spec: AnyPath, *, wait: float | None = None) -> Transaction:
    """One attempt: `with transaction(tree, spec) as t`. Conflict if another came in between."""
    return Transaction(tree, spec, wait=wait)


def attempts(
    tree: AnyPath, spec: AnyPath, *, tries: int = TRIES, wait: float | None = None
) -> Iterator[Transaction]:
    """Attempts until one is done: `for t in attempts(tree, spec)`, and in the loop `with t`.

    The last one has the tree's lock from its beginning, so that nobody comes in between.
    """
    for number in range(1, tries + 1):
        if number < tries:
            t = Transaction(tree, spec, wait=wait)
            t._quiet = True
            yield t
            if t.conflict is None:
                return
            continue
        with Tree(os.fsdecode(tree)) as it:
            with Clerk(it, os.path.abspath(os.fsdecode(spec)), wait).holding() as held:
                yield Transaction(tree, spec, wait=wait, held=held)


def transactional(
    tree: AnyPath, spec: AnyPath, *, tries: int = TRIES, wait: float | None = None
) -> Callable[[Callable[..., R]], Callable[..., R]]:
    """Makes of a function of a transaction one that runs as such, as often as it takes."""

    def made(function: Callable[..., R]) -> Callable[..., R]:
        @functools.wraps(function)
        def run(*words: Any, **named: Any) -> R:
            for t in attempts(tree, spec, tries=tries, wait=wait):
                with t:
                    answer = function(t, *words, **named)
                if t.done:
                    return answer
            raise AssertionError("the last attempt is done or raises")

        return run

    return made


__all__ = [
    "Conflict",
    "Failed",
    "NoValue",
    "Transaction",
    "TreePath",
    "attempts",
    "transaction",
    "transactional",
]
