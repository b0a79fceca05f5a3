"""Reports, read back from their bytes."""

from __future__ import annotations

import re
from typing import Callable, NamedTuple, TypeVar

from .expr import PairValue, SomeValue, Value
from .limits import INT, LEVELS
from .refusals import PLAIN_REFUSALS
from .reports import Retry
from .spelling import Path, path_text, unquoted
from .store import is_name

WORDS: list[tuple[bytes, Value]] = [(b"true", True), (b"false", False), (b"none", None)]
NUMBER = re.compile(rb"-[1-9][0-9]*|0|[1-9][0-9]*")
ENDS = [f"{number} {name}".encode() for number, name in PLAIN_REFUSALS]
ENDS += [b"10 Expr TooLong", b"10 Expr Overflow", b"10 Expr NotNumber"]
STOPPED = re.compile(rb"stopped (0|[1-9][0-9]*) ([0-9]+ .*)", re.S)

COUNT = rb"(0|[1-9][0-9]*)"
ENTRIES = re.compile(rb"entries " + COUNT)
ENTRY = re.compile(rb"entry %b shell %b txn %b (.*)" % (COUNT, COUNT, COUNT), re.S)
RETRIES = re.compile(rb"retries " + COUNT)
RETRY = re.compile(rb"retry shell %b txn %b entry %b path (.*)" % (COUNT, COUNT, COUNT), re.S)

Piece = TypeVar("Piece")


class BadLine(Exception):
    """The number of the first line at which bytes stop being the front of a report."""


class Told(NamedTuple):
    """An entry of a report: its shell, its number there, its answers as printed, and its end."""

    shell: int
    txn: int
    outputs: list[str]
    end: str


def pieces(
    rest: bytes, close: bytes, piece: Callable[[bytes], tuple[Piece, bytes] | None]
) -> tuple[list[Piece], bytes] | None:
    """Pieces with a comma between them up to a closing mark, and what stands behind it."""
    found: list[Piece] = []
    while not rest.startswith(close):
        if found and not rest.startswith(b", "):
            return None
        got = piece(rest[2:] if found else rest)
        if got is None:
            return None
        found.append(got[0])
        rest = got[1]
    return found, rest[len(close) :]


def is_ascending(keys: list[bytes]) -> bool:
    """Whether each is less than the next."""
    return all(a < b for a, b in zip(keys, keys[1:]))


def told_value(text: bytes, levels: int = LEVELS) -> tuple[Value, bytes] | None:
    """A printed value at the front of a text, and what stands behind it; None if there is none."""
    if levels == 0:
        return None
    for word, value in WORDS:
        if text.startswith(word):
            return value, text[len(word) :]
    if text.startswith(b'"'):
        return unquoted(text)
    if text.startswith(b"{"):
        names = pieces(text[1:], b"}", unquoted)
        return (frozenset(names[0]), names[1]) if names and is_ascending(names[0]) else None
    if text.startswith(b"["):
        rows = pieces(text[1:], b"]", lambda rest: told_row(rest, levels - 1))
        return (dict(rows[0]), rows[1]) if rows and is_ascending([k for k, _ in rows[0]]) else None
    if text.startswith(b"some("):
        return told_some(text[5:], levels - 1)
    if text.startswith(b"<"):
        return told_pair(text[1:], levels - 1)
    digits = NUMBER.match(text)
    return (int(digits[0]), text[digits.end() :]) if digits and int(digits[0]) in INT else None


def told_row(text: bytes, levels: int) -> tuple[tuple[bytes, Value], bytes] | None:
    """A text of a table and its value."""
    key = unquoted(text)
    if key is None or not key[1].startswith(b" = "):
        return None
    got = told_value(key[1][3:], levels)
    return None if got is None else ((key[0], got[0]), got[1])


def told_some(text: bytes, levels: int) -> tuple[Value, bytes] | None:
    """An option behind its `some(`."""
    inner = told_value(text, levels)
    if inner is None or not inner[1].startswith(b")"):
        return None
    return SomeValue("some", inner[0]), inner[1][1:]


def told_pair(text: bytes, levels: int) -> tuple[Value, bytes] | None:
    """A pair behind its `<`."""
    first = told_value(text, levels)
    if first is None or not first[1].startswith(b", "):
        return None
    second = told_value(first[1][2:], levels)
    if second is None or not second[1].startswith(b">"):
        return None
    return PairValue("pair", first[0], second[0]), second[1][1:]


def told_path(text: bytes) -> Path | None:
    """The path that a quoted text spells; None if it spells none, or if there is more behind it."""
    got = unquoted(text)
    if got is None or got[1] or not got[0].startswith(b"/"):
        return None
    path: Path = tuple(got[0][1:].split(b"/")) if got[0] != b"/" else ()
    is_path = len(path) <= LEVELS and all(map(is_name, path)) and path_text(path) == got[0]
    return path if is_path else None


def is_told_end(text: bytes) -> bool:
    """Whether a transaction can end so."""
    if text in (b"done", b"aborted"):
        return True
    found = STOPPED.fullmatch(text)
    if not found or int(found[1]) >= 2**32:
        return False
    if found[2].startswith(b"6 Blocked "):
        return told_path(found[2][10:]) is not None
    return found[2] in ENDS


def fields(pattern: re.Pattern[bytes], line: bytes, *limits: int) -> re.Match[bytes] | None:
    """The fields of a line of this form whose numbers are below these limits."""
    found = pattern.fullmatch(line)
    if not found or any(int(found[i + 1]) >= limit for i, limit in enumerate(limits)):
        return None
    return found


class Reader:
    """A report as far as it is read: the counts of its head lines, its entries and its retries."""

    def __init__(self) -> None:
        self.counts: list[int] = []
        self.entries: list[Told] = []
        self.retries: list[Retry] = []
        self.is_ended = False

    def take(self, line: bytes, i: int) -> bool:
        """Reads line `i`, counted from 0, without its line feed; whether it may stand there."""
        if i == 0:
            return line == b"forest report 1"
        if i == 1:
            return self.counted(fields(ENTRIES, line, 2**64))
        if len(self.counts) == 1:
            return self.take_entry(line)
        return len(self.counts) == 2 and not self.is_ended and self.take_retry(line)

    def counted(self, found: re.Match[bytes] | None) -> bool:
        """Keeps the count of a head line."""
        if found:
            self.counts.append(int(found[1]))
        return found is not None

    def take_entry(self, line: bytes) -> bool:
        """Reads an entry, one of its answers, or the head line of the retries."""
        found = fields(ENTRY, line, 2**64, 2**32, 2**32)
        if found:
            self.entries.append(Told(int(found[2]), int(found[3]), [], found[4].decode("latin-1")))
            is_next = int(found[1]) == len(self.entries) - 1 < self.counts[0]
            return is_next and is_told_end(found[4])
        if line.startswith(b"print ") and self.entries:
            got = told_value(line[6:])
            self.entries[-1].outputs.append(line[6:].decode("latin-1"))
            return got is not None and not got[1]
        return self.counted(fields(RETRIES, line, 2**64)) and len(self.entries) == self.counts[0]

    def take_retry(self, line: bytes) -> bool:
        """Reads a retry, or the last line."""
        found = fields(RETRY, line, 2**32, 2**32, 2**64)
        if not found:
            self.is_ended = line == b"end" and len(self.retries) == self.counts[1]
            return self.is_ended
        path = told_path(found[4])
        if path is None:
            return False
        self.retries.append(Retry(int(found[1]), int(found[2]), int(found[3]), path))
        return len(self.retries) <= self.counts[1]


def read_report(data: bytes) -> tuple[list[Told], list[Retry]]:
    """The entries and the retries of a report; or raises BadLine."""
    lines, reader = data.split(b"\n"), Reader()
    for i, line in enumerate(lines[:-1]):
        if not reader.take(line, i):
            raise BadLine(i + 1)
    if lines[-1] or not reader.is_ended:
        raise BadLine(len(lines))
    return reader.entries, reader.retries
