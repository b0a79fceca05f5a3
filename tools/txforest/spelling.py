"""How bytes are spelled in a text of words with single spaces: every byte but 0x21 to 0x7E, and
`%`, as `%` and two upper-case hexadecimal digits. The table of a folder and the intent have
it."""

from __future__ import annotations

PLAIN = bytes(b for b in range(0x21, 0x7F) if b != 0x25)


def spelled(text: bytes) -> bytes:
    """Bytes as they stand in a text of words."""
    if not text.translate(None, PLAIN):
        return text
    return b"".join(b"%c" % b if b in PLAIN else b"%%%02X" % b for b in text)


def unspelled(text: bytes) -> bytes:
    """What a spelling stands for. Raises ValueError if it is none."""
    first, *rest = text.split(b"%")
    made = first + b"".join(bytes([int(part[:2], 16)]) + part[2:] for part in rest)
    if spelled(made) != text:
        raise ValueError(text)
    return made
