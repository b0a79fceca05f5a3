"""How texts and paths are spelled: quoted in what is printed, with `%` in a folder's table."""

from __future__ import annotations

import re

from .limits import FILE_LIMIT

Path = tuple[bytes, ...]
"""The names from the folder's root on."""

QUOTED = re.compile(rb'"((?:[ !#-\[\]-~]|\\["\\n]|\\x[0-9a-f]{2})*)"')
ESCAPE = re.compile(rb"\\(x..|.)")
SPELLED = re.compile(rb"(?:[!-$&-~]|%[0-9A-F]{2})*")


def path_text(path: Path) -> bytes:
    return b"/" + b"/".join(path)


def quote(text: bytes) -> str:
    """A text as reports print it, between quotation marks."""

    def spelled_byte(b: int) -> str:
        if b in b'"\\':
            return "\\" + chr(b)
        return chr(b) if 0x20 <= b <= 0x7E else "\\n" if b == 10 else f"\\x{b:02x}"

    return '"' + "".join(map(spelled_byte, text)) + '"'


def unquoted(text: bytes) -> tuple[bytes, bytes] | None:
    """The text whose quote stands at the front, and what stands behind; None if there is none."""
    found = QUOTED.match(text)
    if not found:
        return None
    value = ESCAPE.sub(unescaped, found[1])
    is_it = quote(value).encode() == found[0] and len(value) <= FILE_LIMIT
    return (value, text[found.end() :]) if is_it else None


def unescaped(escape: re.Match[bytes]) -> bytes:
    """The byte for which an escape stands."""
    plain = {b'"': b'"', b"\\": b"\\", b"n": b"\n"}.get(escape[1])
    return bytes([int(escape[1][1:], 16)]) if plain is None else plain


def spelled(text: bytes) -> bytes:
    """A text as a folder's table has it."""
    return b"".join(bytes([b]) if 0x21 <= b <= 0x7E and b != 0x25 else b"%%%02X" % b for b in text)


def unspelled(text: bytes) -> bytes | None:
    """The text that is so spelled in a folder's table; None if none is."""
    if not SPELLED.fullmatch(text):
        return None
    found = re.sub(rb"%(..)", lambda m: bytes([int(m[1], 16)]), text)
    return found if spelled(found) == text else None
