"""Data from outside for scripts: names that are bound in front of each transaction.

A datum is quoted so that none of its bytes can be read as a command. `bind` puts one `let` for
each datum behind `txn {`; a place in the text that the program names is led back by `Bound`.
"""

from __future__ import annotations

import re
from typing import NamedTuple

from .statuses import Failed, Status
from .terminal import Given, Words, many, shown

TEXT_LIMIT = 65_536
NAME = re.compile(rb"[A-Za-z_][A-Za-z_0-9]{0,63}")
INTEGER = re.compile(rb"-?[0-9]{1,30}")
LEAST, MOST = -(2**63), 2**63 - 1
STRANGE = re.compile(rb"[^ !#-\[\]-~\x80-\xff]")

# A word, or what holds no word: a comment, a string, a byte. A string that does not end is a byte
# `"` alone.
PIECE = re.compile(rb'#[^\n]*|"(?:[^"\\]|\\.)*"|[A-Za-z_][A-Za-z_0-9]*|[ \t\r\n]+|.', re.S)
BLANK = (b" ", b"\t", b"\r", b"\n", b"#")


class Datum(NamedTuple):
    """A name, and the expression of the language that it is bound to."""

    name: bytes
    expression: bytes


def quoted(text: bytes) -> bytes:
    """A text as a string of the language: each byte comes back as it is."""

    def byte(found: re.Match[bytes]) -> bytes:
        it = found[0]
        return b"\\" + it if it in b'"\\' else b"\\n" if it == b"\n" else b"\\x%02x" % it[0]

    return b'"' + STRANGE.sub(byte, text) + b'"'


def integer(number: int) -> bytes:
    """An integer of 64 bits as an expression of the language, which has no negative literals."""
    if number >= 0:
        return b"%d" % number
    if number > LEAST:
        return b"(0 - %d)" % -number
    return b"((0 - %d) - 1)" % MOST


def name_of(name: bytes, word: bytes) -> bytes:
    """A name that a script may bind. Fails with USAGE if it is none."""
    if not NAME.fullmatch(name):
        raise Failed(
            Status.USAGE,
            f"{shown(word)}: a name is a letter or _, then letters, digits or _, up to 64 in all",
        )
    from .model import KEPT

    if name.decode() in KEPT:
        raise Failed(Status.USAGE, f"{shown(word)}: {name.decode()} is a word of the language")
    return name


def datum_of_word(word: bytes) -> Datum:
    """The datum of `NAME=TEXT` or `NAME:int=NUMBER`. Fails with USAGE if it is neither."""
    front, equals, text = word.partition(b"=")
    name, colon, kind = front.partition(b":")
    if not equals or colon and kind != b"int":
        raise Failed(Status.USAGE, f"--set takes NAME=TEXT or NAME:int=NUMBER, not {shown(word)}")
    name = name_of(name, word)
    if not colon:
        return Datum(name, quoted(text))
    if not INTEGER.fullmatch(text) or not LEAST <= int(text) <= MOST:
        raise Failed(
            Status.USAGE,
            f"{shown(word)}: a number is an optional -, digits, and from {LEAST} to {MOST}",
        )
    return Datum(name, integer(int(text)))


def datum_of_file(word: bytes) -> Datum:
    """The datum of `NAME=FILE`: the bytes of the file. Fails with USAGE, or UNREAD if it is not
    there or can't be read."""
    name, equals, file = word.partition(b"=")
    if not equals or not file:
        raise Failed(Status.USAGE, f"--set-file takes NAME=FILE, not {shown(word)}")
    name = name_of(name, word)
    try:
        with open(file, "rb") as it:
            text = it.read(TEXT_LIMIT + 1)
    except OSError as error:
        raise Failed(Status.UNREAD, f"{shown(file)}: {error.strerror}") from None
    if len(text) > TEXT_LIMIT:
        raise Failed(
            Status.TEXT,
            f"{shown(file)}: has more than {TEXT_LIMIT:,} bytes, and a script may have as many;"
            " give large data as files of the folder",
        )
    return Datum(name, quoted(text))


def declare(words: Words) -> None:
    """Declares `--set` and `--set-file` among the words of a tool."""
    words.option(
        "set", "NAME=TEXT", "bind a name to a text in each transaction; NAME:int=N a number", True
    )
    words.option("set-file", "NAME=FILE", "bind a name to the bytes of a file", True)


def data_of(given: Given) -> list[Datum]:
    """The data that the words of a tool give. Fails with USAGE if a name is bound twice."""
    import os

    data = [datum_of_word(os.fsencode(word)) for word in given.several("set")]
    data += [datum_of_file(os.fsencode(word)) for word in given.several("set-file")]
    names = [datum.name for datum in data]
    for name in names:
        if names.count(name) > 1:
            raise Failed(Status.USAGE, f"{name.decode()} is bound twice by --set and --set-file")
    return data


class Bound(NamedTuple):
    """A script's text with its data in it, and where they were put.

    `places` are bytes of the text as it was, in ascending order; `length` bytes stand before each
    of them now.
    """

    text: bytes
    places: tuple[int, ...] = ()
    length: int = 0

    def place(self, byte: int) -> int:
        """The byte of the text as it was, for a byte of the text as it is."""
        before = 0
        for place in self.places:
            if byte < place + before + self.length:
                return min(byte - before, place)
            before += self.length
        return byte - before


def transactions(text: bytes) -> list[int]:
    """The bytes behind each `txn {` of a script, outside strings and comments.

    Nothing is found behind a string that does not end: the program refuses the text for it, and
    what is put into it would end it.
    """
    found: list[int] = []
    was_txn = False
    for piece in PIECE.finditer(text):
        if piece[0].startswith(BLANK):
            continue
        if piece[0] == b'"':
            break
        if was_txn and piece[0] == b"{":
            found.append(piece.end())
        was_txn = piece[0] == b"txn"
    return found


def bind(word: str, text: bytes, data: list[Datum]) -> Bound:
    """The text of the script that a word names, with the data bound in each transaction.

    Fails with TEXT if it would have more bytes than a script may have, and the data alone did it.
    """
    if not data:
        return Bound(text)
    front = b"".join(b" let %s = %s" % datum for datum in data) + b" "
    places = transactions(text)
    pieces = [text[a:b] for a, b in zip([0, *places], [*places, len(text)])]
    size = len(text) + len(front) * len(places)
    if size > TEXT_LIMIT >= len(text):
        raise Failed(
            Status.TEXT,
            f"{shown(word)}: TooLarge: --set puts {many(len(front), 'byte')} into each of"
            f" {many(len(places), 'transaction')}, which makes {size:,};"
            f" a script has at most {TEXT_LIMIT:,}",
            "give large data as files of the folder",
        )
    return Bound(front.join(pieces), tuple(places), len(front))
