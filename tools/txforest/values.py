"""Values as the program prints them: read exactly, and printed again byte for byte.

A text is bytes, an integer int, a truth value bool, a set a frozenset of bytes, a table a dict
from bytes, an option None or Some, a pair Pair. The reader goes once over the text, so its time
grows with the length alone.
"""

from __future__ import annotations

import re
from typing import Any, NamedTuple, Union

TEXT_LIMIT = 1_048_576
LEVELS = 64

PLAIN = rb"[ !#-\[\]-~]*"
ESCAPE = rb'\\(?:["\\n]|x(?:0[0-9b-f]|1[0-9a-f]|7f|[89a-f][0-9a-f]))'
QUOTED = rb'"' + PLAIN + rb"(?:" + ESCAPE + PLAIN + rb')*"'

QUOTED_TEXT = re.compile(QUOTED)
WRITTEN_INTEGER = re.compile(rb"-[1-9][0-9]{0,18}|0|[1-9][0-9]{0,18}")
ESCAPED = re.compile(rb"\\(x..|.)", re.S)
STRANGE = re.compile(rb'[^ !#-\[\]-~]')


class Pair(NamedTuple):
    """The value of a pair."""

    first: Any
    second: Any


class Some(NamedTuple):
    """The value of an option whose entry is there."""

    value: Any


Value = Union[bytes, int, bool, frozenset[bytes], Pair, Some, None, dict[bytes, Any]]


def quote(text: bytes) -> bytes:
    """A text as the program prints it."""

    def byte(found: re.Match[bytes]) -> bytes:
        it = found[0]
        return b"\\" + it if it in b'"\\' else b"\\n" if it == b"\n" else b"\\x%02x" % it[0]

    return b'"' + STRANGE.sub(byte, text) + b'"'


def unquote(quoted: bytes) -> bytes:
    """The text of a quoted one, which has to be spelled as the program spells it."""
    if b"\\" not in quoted:
        return quoted[1:-1]

    def byte(found: re.Match[bytes]) -> bytes:
        it = found[1]
        return bytes([int(it[1:], 16)]) if len(it) > 1 else b"\n" if it == b"n" else it

    return ESCAPED.sub(byte, quoted[1:-1])


def printed(value: Value) -> bytes:
    """A value as the program prints it."""
    if isinstance(value, bytes):
        return quote(value)
    if value is None:
        return b"none"
    if isinstance(value, bool):
        return b"true" if value else b"false"
    if isinstance(value, int):
        return b"%d" % value
    if isinstance(value, frozenset):
        return b"{" + b", ".join(map(quote, sorted(value))) + b"}"
    if isinstance(value, dict):
        rows = (quote(key) + b" = " + printed(value[key]) for key in sorted(value))
        return b"[" + b", ".join(rows) + b"]"
    if isinstance(value, Pair):
        return b"<" + printed(value.first) + b", " + printed(value.second) + b">"
    return b"some(" + printed(value.value) + b")"


class NoValue(Exception):
    """A text that spells no value."""


class ValueReader:
    """Reads a printed value, from place to place in one text."""

    def __init__(self, text: bytes, at: int = 0) -> None:
        self.text, self.at = text, at

    def sees(self, piece: bytes) -> bool:
        """Goes behind a piece where it stands here."""
        if self.text.startswith(piece, self.at):
            self.at += len(piece)
            return True
        return False

    def needs(self, piece: bytes) -> None:
        if not self.sees(piece):
            raise NoValue

    def quoted(self) -> bytes:
        found = QUOTED_TEXT.match(self.text, self.at)
        if not found:
            raise NoValue
        self.at = found.end()
        text = unquote(found[0])
        if len(text) > TEXT_LIMIT:
            raise NoValue
        return text

    def value(self, levels: int = LEVELS) -> Value:
        """The value that begins here, nested at most so many levels deep."""
        if levels == 0:
            raise NoValue
        first = self.text[self.at : self.at + 1]
        if first == b'"':
            return self.quoted()
        if first == b"{":
            return self.set()
        if first == b"[":
            return self.table(levels)
        if first == b"<":
            self.at += 1
            one = self.value(levels - 1)
            self.needs(b", ")
            two = self.value(levels - 1)
            self.needs(b">")
            return Pair(one, two)
        if self.sees(b"some("):
            inner = self.value(levels - 1)
            self.needs(b")")
            return Some(inner)
        for word, value in ((b"true", True), (b"false", False), (b"none", None)):
            if self.sees(word):
                return value
        return self.integer()

    def integer(self) -> int:
        found = WRITTEN_INTEGER.match(self.text, self.at)
        if not found or not -(2**63) <= int(found[0]) < 2**63:
            raise NoValue
        self.at = found.end()
        return int(found[0])

    def set(self) -> frozenset[bytes]:
        self.at += 1
        texts: list[bytes] = []
        while not self.sees(b"}"):
            if texts:
                self.needs(b", ")
            text = self.quoted()
            if texts and not texts[-1] < text:
                raise NoValue
            texts.append(text)
        return frozenset(texts)

    def table(self, levels: int) -> dict[bytes, Value]:
        self.at += 1
        rows: dict[bytes, Value] = {}
        last: bytes | None = None
        while not self.sees(b"]"):
            if last is not None:
                self.needs(b", ")
            key = self.quoted()
            if last is not None and not last < key:
                raise NoValue
            self.needs(b" = ")
            rows[key] = self.value(levels - 1)
            last = key
        return rows


def value_of(text: bytes) -> Value:
    """The value that a whole text spells; NoValue where it spells none."""
    it = ValueReader(text)
    value = it.value()
    if it.at != len(text):
        raise NoValue
    return value


def is_path(text: bytes) -> bool:
    """Whether a text is that of a path: `/`, or at most 64 names with `/` before each."""
    if text == b"/":
        return True
    if text[:1] != b"/" or text.count(b"/") > LEVELS:
        return False
    return all(map(is_name, text[1:].split(b"/")))


def is_name(name: bytes) -> bool:
    """Whether bytes are the name of an entry of a filestore."""
    if not 1 <= len(name) <= 255 or b"\0" in name or name in (b".", b"..", b".forest-links"):
        return False
    try:
        name.decode()
    except UnicodeDecodeError:
        return False
    return True
