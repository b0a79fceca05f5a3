"""The tokens of descriptions and scripts."""

from __future__ import annotations

import re
from typing import NamedTuple

from .limits import INT, TEXT_LIMIT
from .refusals import Refused

KEPT = set(
    "file dir link opt pred in only if else and or not union minus one lines size int text first"
    " second keys present true false empty txn into to next prev out down up top let set fetch"
    " value validate print store create remove try each abort str bool names pair table".split()
)
"""The words of the language, which name nothing."""

KEPT_OF_DESCRIPTIONS = KEPT | {"def"}
"""The words that name nothing in a description."""

MARKS = ["::", "==", "++", "(", ")", "{", "}", "<", ">", ",", ":", "|", "=", "+", "-"]
"""The marks; one that begins with another stands before it."""

MARK = re.compile("|".join(map(re.escape, MARKS)).encode())
SPACE = re.compile(rb"[ \t\r\n]+")
WORD = re.compile(rb"[A-Za-z_][A-Za-z_0-9]*")
WORD_LIMIT = 64
DIGITS = re.compile(rb"[0-9]+")
HEXADECIMAL = re.compile(rb"x[0-9a-fA-F]{2}")


class Token(NamedTuple):
    """A word or a mark with its spelling, a number or a string with its value, or the end.

    `kind` is "word", "mark", "number", "string" or "end".

    `place` is its first byte, counted from 0; that of the end is the text's length.
    """

    kind: str
    value: str | int | bytes | None
    place: int


def lex(text: bytes) -> list[Token]:
    """The tokens of a text, with the end last; or raises Refused, of TooLarge or of BadToken."""
    if len(text) > TEXT_LIMIT:
        raise Refused("TooLarge")
    found: list[Token] = []
    i = 0
    while i < len(text):
        c = text[i : i + 1]
        if space := SPACE.match(text, i):
            i = space.end()
        elif c == b"#":
            end = text.find(b"\n", i)
            i = end if end >= 0 else len(text)
        elif word := WORD.match(text, i):
            if len(word[0]) > WORD_LIMIT:
                raise Refused(f"BadToken {i}")
            found.append(Token("word", word[0].decode(), i))
            i = word.end()
        elif digits := DIGITS.match(text, i):
            if len(digits[0]) > 1 and digits[0][:1] == b"0" or int(digits[0]) not in INT:
                raise Refused(f"BadToken {i}")
            found.append(Token("number", int(digits[0]), i))
            i = digits.end()
        elif c == b'"':
            value, end = string_at(text, i)
            found.append(Token("string", value, i))
            i = end
        elif mark := MARK.match(text, i):
            found.append(Token("mark", mark[0].decode(), i))
            i = mark.end()
        else:
            raise Refused(f"BadToken {i}")
    found.append(Token("end", None, len(text)))
    return found


def string_at(text: bytes, start: int) -> tuple[bytes, int]:
    """The bytes of the string whose quotation mark stands at `start`, and the place behind it."""
    value, i = bytearray(), start + 1
    while (c := text[i : i + 1]) != b'"':
        if c == b"\\":
            escape = text[i + 1 : i + 2]
            if escape in (b'"', b"\\"):
                value += escape
                i += 2
            elif escape == b"n":
                value += b"\n"
                i += 2
            elif HEXADECIMAL.match(text, i + 1):
                value.append(int(text[i + 2 : i + 4], 16))
                i += 4
            else:
                raise Refused(f"BadToken {start}")
        elif c and (0x20 <= c[0] <= 0x7E or c[0] >= 0x80):
            value += c
            i += 1
        else:
            raise Refused(f"BadToken {start}")
    return bytes(value), i + 1
