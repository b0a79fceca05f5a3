"""The intent: the text of what is to be done to a tree. Its name in a place, synced, is the commit.

    txforest intent 1 ID tree INODE umask 22
    store a/f0 n0 100644:1234:17:1795966000123456789:0:0 -
    link links/one - 120777:..  ../b
    mkdir new - - 755%200:0
    remove gone/one - 100644:.. -
    rmdir gone - - -
    mode run - 100644:.. 755
    end 6

Each line has the operation, its path, the name of what was staged for it, what is expected to stand
at the path (`mode:inode:size:time:uid:gid`, or nothing), and what else the operation needs.
"""

from __future__ import annotations

from .spelling import spelled, unspelled

TYPE_CHECKING = False
if TYPE_CHECKING:
    from collections.abc import Sequence

KINDS = frozenset(("store", "link", "mkdir", "remove", "rmdir", "mode"))
DIGITS = frozenset(b"0123456789")
OCTAL = frozenset(b"01234567")
MAGIC = b"txforest intent 1"
LIMIT = 64 << 20  # bytes of an intent


class Operation:
    """One line of an intent.

    number  its line, counted from 0: what the operation puts into the place has names with it
    path    the names down to its target
    staged  the name of the new file in the place, or nothing
    expect  the mark of what is expected at the target, or nothing: then nothing may stand there
    more    the text of a link; the mode and owner of a directory; `room`; a mode; or nothing
    """

    __slots__ = ("number", "kind", "path", "staged", "expect", "more")

    def __init__(
        self,
        number: int,
        kind: str,
        path: list[bytes],
        staged: bytes | None = None,
        expect: bytes | None = None,
        more: bytes = b"",
    ) -> None:
        self.number = number
        self.kind = kind
        self.path = path
        self.staged = staged
        self.expect = expect
        self.more = more


class Intent:
    """An intent that was read: the inode of its tree, the umask, the operations."""

    __slots__ = ("ino", "umask", "operations")

    def __init__(self, ino: int, umask: int, operations: list[Operation]) -> None:
        self.ino = ino
        self.umask = umask
        self.operations = operations


def intent_text(ident: bytes, ino: int, umask: int, operations: Sequence[Operation]) -> bytes:
    """The text of an intent; `ident` is the number of its place."""
    lines = [b"%s %s tree %d umask %o" % (MAGIC, ident, ino, umask)]
    for it in operations:
        path = b"/".join(map(spelled, it.path))
        more = spelled(it.more) or b"-"
        lines.append(
            b" ".join([it.kind.encode(), path, it.staged or b"-", it.expect or b"-", more])
        )
    return b"\n".join([*lines, b"end %d\n" % len(operations)])


def read_intent(text: bytes, ident: bytes) -> Intent:
    """What an intent says. Raises ValueError if it is none, or that of another place."""
    lines = text.split(b"\n")
    head = lines[0].split(b" ")
    if (
        len(head) != 8
        or b" ".join(head[:3]) != MAGIC
        or head[3] != ident
        or (head[4], head[6]) != (b"tree", b"umask")
        or len(lines) < 3
        or lines[-1]
        or lines[-2] != b"end %d" % (len(lines) - 3)
    ):
        raise ValueError("no intent")
    operations = [read_line(number, line) for number, line in enumerate(lines[1:-2])]
    return Intent(number_of(head[5]), int(head[7], 8) & 0o777, operations)


def read_line(number: int, line: bytes) -> Operation:
    """One operation. Raises ValueError if the line is none."""
    kind, path, staged, expect, more = line.split(b" ")
    if kind.decode("ascii", "replace") not in KINDS:
        raise ValueError(line)
    if staged != b"-" and (staged[:1] != b"n" or number_of(staged[1:]) != number):
        raise ValueError(line)
    if expect != b"-" and not is_mark(expect):
        raise ValueError(line)
    if (kind == b"store") != (staged != b"-"):
        raise ValueError(line)
    return Operation(
        number,
        kind.decode(),
        path_of(path),
        None if staged == b"-" else staged,
        None if expect == b"-" else expect,
        more_of(kind, b"" if more == b"-" else unspelled(more)),
    )


def more_of(kind: bytes, more: bytes) -> bytes:
    """What an operation needs besides. Raises ValueError if it is not of the operation's form."""
    mode, *owners = more.split(b" ")
    if kind == b"mkdir":
        good = (mode == b"-" or is_mode(mode)) and len(owners) == 1 and is_owner(owners[0])
    elif kind == b"mode":
        good = is_mode(mode) and len(owners) <= 1 and all(map(is_owner, owners))
    elif kind == b"link":
        good = bool(more) and b"\0" not in more
    else:
        good = more in (b"", b"room")
    if not good:
        raise ValueError(more)
    return more


def is_mode(text: bytes) -> bool:
    """Whether a text is a mode: up to four octal digits."""
    return 1 <= len(text) <= 4 and OCTAL.issuperset(text)


def is_owner(text: bytes) -> bool:
    """Whether a text is a user and a group."""
    parts = text.split(b":")
    return len(parts) == 2 and all(is_number(part) and int(part) < 2**32 - 1 for part in parts)


def path_of(text: bytes) -> list[bytes]:
    """The names of a path below a tree. Raises ValueError if one of them leads elsewhere."""
    names = [unspelled(part) for part in text.split(b"/")]
    for name in names:
        if name in (b"", b".", b"..") or b"/" in name or b"\0" in name or len(name) > 255:
            raise ValueError(text)
    return names


def is_number(text: bytes) -> bool:
    """Whether a text is decimal digits alone."""
    return bool(text) and len(text) <= 20 and DIGITS.issuperset(text)


def is_mark(text: bytes) -> bool:
    """Whether a text is a mark: six numbers, of which the time may be one before 1970."""
    parts = text.split(b":")
    return len(parts) == 6 and all(map(is_number, [*parts[:3], parts[3].lstrip(b"-"), *parts[4:]]))


def number_of(text: bytes) -> int:
    """A number of decimal digits alone. Raises ValueError if it is none."""
    if not is_number(text):
        raise ValueError(text)
    return int(text)
