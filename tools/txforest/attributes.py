"""What is kept of a tree that was imported: the file FOLDER.attributes.

    txforest attributes 2
    flags yes
    root /srv/config
    only PATTERN
    left PATH SIZE WHY
    /path f 0644 0 0 1795966000123456789 DIGEST NAME VALUE ..
    /link l 0777 0 0 1795966000123456789 DIGEST TEXT

A line has words with single spaces, spelled as in a table of a folder; `%` is an empty one. `flags`
says whether execute bits are flags of the folder; `root` is the path for which the tree stood, and
`only` the patterns that narrowed what was taken; `left` is an entry that was left out. Then each
entry has its kind, mode, owner, group, time, a digest of its content (of a directory its names, of
a link its text in the folder), and its extended attributes; a link has its own text.

A text of version 1 has neither `root` nor `only` nor `left`.
"""

from __future__ import annotations

import os
import stat
from collections.abc import Iterable, Iterator
from hashlib import blake2b
from typing import NamedTuple

from . import calls
from .calls import FILE
from .place import listed
from .spelling import spelled, unspelled
from .statuses import Failed, Status
from .survey import NOT_ASKED, Changed, Survey
from .terminal import shown

MAGIC = b"txforest attributes %d"
LIMIT = 1 << 30
KINDS = {stat.S_IFREG: "f", stat.S_IFDIR: "d", stat.S_IFLNK: "l"}


class Kept(NamedTuple):
    """What is kept of an entry beside its content. `text` is a link's own text in the tree."""

    kind: str
    mode: int
    owner: int
    group: int
    time: int
    digest: bytes
    more: dict[bytes, bytes] = {}
    text: bytes = b""

    def words(self) -> Iterator[bytes]:
        """The words of its line behind the path."""
        yield b"%s %04o %d %d" % (self.kind.encode(), self.mode, self.owner, self.group)
        yield b"%d %s" % (self.time, self.digest)
        if self.kind == "l":
            yield spelled(self.text)
        for name, value in sorted(self.more.items()):
            yield spelled(name) + b" " + (spelled(value) or b"%")


class Left(NamedTuple):
    """An entry that was left out: its path, its size if it is known, and why."""

    path: str
    size: int | None
    why: str


class Record:
    """All that is kept of a tree. Paths are relative, as in surveys; the root is the empty text."""

    def __init__(self, flags: bool, root: str = "", only: Iterable[str] = ()) -> None:
        self.flags = flags
        self.root = root
        self.only = list(only)
        self.left: list[Left] = []
        self.entries: dict[str, Kept] = {}

    def text(self) -> bytes:
        """The text of FOLDER.attributes."""
        lines = [MAGIC % 2, b"flags " + (b"yes" if self.flags else b"no")]
        lines.append(b"root " + word_of(self.root))
        lines += [b"only " + word_of(pattern) for pattern in self.only]
        for it in sorted(self.left):
            size = b"-" if it.size is None else b"%d" % it.size
            lines.append(b"left %s %s %s" % (word_of(it.path), size, word_of(it.why)))
        for path in sorted(self.entries, key=names_of):
            line = [spelled(b"/" + os.fsencode(path)), *self.entries[path].words()]
            lines.append(b" ".join(line))
        return b"\n".join([*lines, b""])


def word_of(text: str) -> bytes:
    """A text as a word of a line."""
    return spelled(os.fsencode(text)) or b"%"


def text_of(word: bytes) -> str:
    """The text of a word of a line. Raises ValueError if it is none."""
    return "" if word == b"%" else os.fsdecode(unspelled(word))


def names_of(path: str) -> list[bytes]:
    """The names of a path: by these paths are in order."""
    return os.fsencode(path).split(b"/") if path else []


# ---- reading


def read_record(text: bytes) -> Record:
    """The record that a text is. Raises ValueError with the number of its first bad line."""
    lines = text.split(b"\n")
    version = next((number for number in (1, 2) if lines[0] == MAGIC % number), 0)
    if not version or len(lines) < 3 or lines[-1] or lines[1] not in (b"flags yes", b"flags no"):
        raise ValueError(1)
    record = Record(lines[1] == b"flags yes")
    for number, line in enumerate(lines[2:-1], 3):
        try:
            words = line.split(b" ")
            if words[0][:1] == b"/":
                path, kept = read_entry(words)
                record.entries[path] = kept
            elif version == 2 and words[0] == b"root" and len(words) == 2:
                record.root = text_of(words[1])
            elif version == 2 and words[0] == b"only" and len(words) == 2:
                record.only.append(text_of(words[1]))
            elif version == 2 and words[0] == b"left" and len(words) == 4:
                size = None if words[2] == b"-" else int(words[2])
                record.left.append(Left(text_of(words[1]), size, text_of(words[3])))
            else:
                raise ValueError(line)
        except (ValueError, IndexError):
            raise ValueError(number) from None
    if "" not in record.entries:
        raise ValueError(len(lines))
    return record


def read_entry(words: list[bytes]) -> tuple[str, Kept]:
    """The path and the entry of a line. Raises ValueError or IndexError if it is none."""
    path = os.fsdecode(unspelled(words[0]))[1:]
    kind, mode, numbers, digest, rest = words[1].decode(), words[2], words[3:6], words[6], words[7:]
    owner, group, time = map(int, numbers)
    if kind not in ("f", "d", "l") or (path and "" in path.split("/")):
        raise ValueError(words)
    text = unspelled(rest.pop(0)) if kind == "l" else b""
    more = {
        unspelled(name): b"" if value == b"%" else unspelled(value)
        for name, value in zip(rest[::2], rest[1::2], strict=True)
    }
    return path, Kept(kind, int(mode, 8) & 0o7777, owner, group, time, digest, more, text)


def record_in(file: str, is_named: bool) -> Record:
    """The record in a file. Fails with USAGE if it is none. One that nobody named has to be of this
    user or of root: else somebody else may have put it there."""
    try:
        fd = os.open(file, FILE)
    except OSError as error:
        raise Failed(Status.USAGE, f"{shown(file)}: {error.strerror}") from None
    with open(fd, "rb") as it:
        found = os.fstat(fd)
        if not stat.S_ISREG(found.st_mode):
            raise Failed(Status.USAGE, f"{shown(file)}: no regular file")
        if not is_named and found.st_uid not in (0, os.geteuid()):
            why = f"of the user {found.st_uid}, so that it counts only if --attributes names it"
            raise Failed(Status.USAGE, f"{shown(file)}: {why}")
        if found.st_size > LIMIT:
            raise Failed(Status.USAGE, f"{shown(file)}: is too large")
        try:
            return read_record(it.read())
        except ValueError as bad:
            why = "no attributes, which txforest-import writes"
            raise Failed(Status.USAGE, f"{shown(file)}: line {bad}: {why}") from None


# ---- making


def digest_of(*parts: bytes) -> bytes:
    """A digest of texts."""
    made = blake2b(digest_size=16)
    for part in parts:
        made.update(b"%d " % len(part) + part)
    return made.hexdigest().encode()


def record_of(root: int, found: Survey, contents: int, record: Record) -> None:
    """Fills a record from a survey of the tree at a descriptor. `contents` is the folder with the
    copies of its files, of which the digests are. Raises Changed if an entry is another by now."""
    names: dict[str, list[bytes]] = {}
    for path, above, made, it in walked(root, contents, found):
        kind = KINDS[stat.S_IFMT(it.st_mode)]
        name = path.rpartition("/")[2]
        if path:
            names.setdefault(path.rpartition("/")[0], []).append(os.fsencode(name))
        more: dict[bytes, bytes] = {}
        digest, text = b"", b""
        if kind == "l":
            digest, text = digest_of(found.links[path]), found.texts[path]
        else:
            more = further(above, name or ".", it, path)
        if kind == "f":
            digest = digest_of(content(made, name))
        record.entries[path] = Kept(
            kind, stat.S_IMODE(it.st_mode), it.st_uid, it.st_gid, it.st_mtime_ns, digest, more, text
        )
    for path, kept in record.entries.items():
        if kept.kind == "d":
            inside = digest_of(*sorted(names.get(path, [])))
            record.entries[path] = kept._replace(digest=inside)
    record.left = [Left(it.path, it.size, it.why) for it in found.left if it.why != NOT_ASKED]


def walked(root: int, other: int, found: Survey) -> Iterator[tuple[str, int, int, os.stat_result]]:
    """The entries of a survey, the root first, each with the descriptors of its directory in the
    tree and in another one of the same form. Raises Changed if a directory is gone."""
    above, source, target = "", root, other
    yield "", root, other, found.taken[""]
    try:
        for path, it in found.taken.items():
            if not path:
                continue
            front = path.rpartition("/")[0]
            if front != above:
                inside = directory(root, front)
                made = directory(other, front)
                if source != root:
                    os.close(source)
                    os.close(target)
                above, source, target = front, inside, made
            yield path, source, target, it
    finally:
        if source != root:
            os.close(source)
            os.close(target)


def directory(root: int, path: str) -> int:
    """A directory below another one; no link is followed. The root itself is copied."""
    if not path:
        return os.dup(root)
    try:
        return calls.PLAIN.down(root, names_of(path))
    except OSError:
        raise Changed(path) from None


def content(folder: int, name: str) -> bytes:
    """All bytes of a file of a folder of one's own."""
    with open(os.open(name, FILE, dir_fd=folder), "rb") as it:
        return it.read()


def further(above: int, name: str, it: os.stat_result, path: str) -> dict[bytes, bytes]:
    """The extended attributes of a file or directory, access lists among them, as it was seen."""
    try:
        fd = os.open(name, FILE, dir_fd=above)
    except PermissionError:
        return {}
    except OSError:
        raise Changed(path) from None
    try:
        if os.fstat(fd).st_ino != it.st_ino:
            raise Changed(path)
        return {os.fsencode(key): os.getxattr(fd, key) for key in listed(fd)}
    finally:
        os.close(fd)
