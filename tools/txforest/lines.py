"""Texts of lines, by which jobs tell each other what they have seen and made.

A text begins with `txforest KIND 1` and ends with `end N`, the number of the lines between. A line
is words, spelled as spelling.py says, with one space between two; the empty word is `%`.

    absent PATH                 nothing was seen there
    directory PATH
    some-file PATH              a file, whatever it holds
    token PATH TOKEN            a file or link
    names PATH NAME..           a directory with just these names

PATH is a number of names and then the names.
"""

from __future__ import annotations

import os

from .spelling import spelled, unspelled
from .states import Kind

TYPE_CHECKING = False
if TYPE_CHECKING:
    from collections.abc import Iterable, Sequence

    from .states import Path, Seen

def word_text(word: bytes) -> bytes:
    """A word as a line spells it; `%` is the empty one."""
    return spelled(word) or b"%"


def word_of(text: bytes) -> bytes:
    """The word that a line spells. Raises ValueError if it is spelled otherwise."""
    return b"" if text == b"%" else unspelled(text)


def written_lines(path: str, kind: bytes, lines: Iterable[Sequence[bytes]]) -> None:
    """Writes a text under its name in one step."""
    made = [b" ".join(map(word_text, line)) for line in lines]
    text = b"\n".join([b"txforest %s 1" % kind, *made, b"end %d\n" % len(made)])
    with open(path + ".new", "wb") as file:
        file.write(text)
    os.rename(path + ".new", path)


def read_lines(path: str, kind: bytes, dir_fd: int | None = None) -> list[list[bytes]]:
    """The lines of a text. Raises ValueError if it has no form, OSError if it can't be read."""
    flags = os.O_RDONLY | os.O_NOFOLLOW | os.O_NONBLOCK | os.O_CLOEXEC
    with open(os.open(path, flags, dir_fd=dir_fd), "rb") as file:
        first, *lines = file.read().split(b"\n")
    if first != b"txforest %s 1" % kind or lines[-2:] != [b"end %d" % (len(lines) - 2), b""]:
        raise ValueError(path)
    return [[word_of(word) for word in line.split(b" ")] for line in lines[:-2]]


def path_words(path: Path) -> list[bytes]:
    """A path as words."""
    return [b"%d" % len(path), *path]


def path_of(words: Sequence[bytes]) -> tuple[Path, list[bytes]]:
    """A path from words, and the words behind it. Raises ValueError."""
    count = int(words[0])
    path, rest = tuple(words[1 : count + 1]), list(words[count + 1 :])
    if len(path) != count or any(name in (b"", b".", b"..") or b"/" in name for name in path):
        raise ValueError(words)
    return path, rest


def seen_line(path: Path, seen: Seen) -> list[bytes]:
    """The line of one thing seen."""
    words = path_words(path)
    if seen is None:
        return [b"absent", *words]
    if isinstance(seen, Kind):
        return [b"directory" if seen is Kind.DIRECTORY else b"some-file", *words]
    if isinstance(seen, bytes):
        return [b"token", *words, seen]
    return [b"names", *words, *sorted(seen)]


def seen_of(line: Sequence[bytes]) -> tuple[Path, Seen]:
    """What a line says was seen. Raises ValueError."""
    path, rest = path_of(line[1:])
    if line[0] == b"names":
        return path, frozenset(rest)
    if line[0] == b"token" and len(rest) == 1:
        return path, rest[0]
    plain = {b"absent": None, b"directory": Kind.DIRECTORY, b"some-file": Kind.SOME_FILE}
    if line[0] not in plain or rest:
        raise ValueError(line)
    return path, plain[line[0]]
