"""The texts that the program reads, as they were when the tool was called.

A tool reads each text once, and hands it to the program as a file in memory: so what is told of
it, what is run and what is kept are the same bytes. What the program tells of such a file is told
of the text's own name, and of the place in the text as it was given.
"""

from __future__ import annotations

import os

from .statuses import Failed, Status
from .terminal import shown

TYPE_CHECKING = False
if TYPE_CHECKING:
    from collections.abc import Sequence

    from .data import Bound

TEXT_LIMIT = 65_536
PLACED = (b"BadToken", b"Unexpected", b"TooNested")


class Source:
    """A text with the word that names it.

    word   the word
    text   the text as the program reads it
    bound  where data were put into it, or nothing
    """

    __slots__ = ("word", "text", "bound")

    def __init__(self, word: str, text: bytes | Bound) -> None:
        self.word = word
        self.text = text if isinstance(text, bytes) else text.text
        self.bound = None if isinstance(text, bytes) else text

    def with_end(self, end: bytes) -> Source:
        """The source with something behind its text; what is told of it stays the same."""
        it = Source(self.word, self.text + end)
        it.bound = self.bound
        return it


def read_text(word: str) -> bytes:
    """The bytes of the text that a word names, cut behind the first byte that is one too many.

    Fails with UNREAD, and the word, if it is not there or can't be read.
    """
    try:
        with open(word, "rb") as it:
            return it.read(TEXT_LIMIT + 1)
    except FileNotFoundError:
        raise Failed(Status.UNREAD, f"{shown(word)}: nothing stands there") from None
    except OSError as error:
        raise Failed(Status.UNREAD, f"{shown(word)}: {error.strerror}") from None


def check_folder(word: str) -> None:
    """Fails with UNREAD, and the word, if no folder stands there."""
    if not os.path.isdir(word):
        raise Failed(Status.UNREAD, f"{shown(word)}: no folder stands there")


def read_source(word: str) -> Source:
    """The source that a word names, without data."""
    return Source(word, read_text(word))


class Handed:
    """Sources as files in memory, which the program can read while this is open.

    `words` name them for the program, `fds` are the descriptors that it has to inherit.
    """

    def __init__(self, sources: Sequence[Source]) -> None:
        self.sources = sources
        self.fds: list[int] = []

    def __enter__(self) -> Handed:
        for source in self.sources:
            fd = os.memfd_create("text", os.MFD_CLOEXEC)
            self.fds.append(fd)
            with open(fd, "wb", closefd=False) as it:
                it.write(source.text)
        return self

    def __exit__(self, *_: object) -> None:
        for fd in self.fds:
            os.close(fd)
        self.fds.clear()

    @property
    def words(self) -> list[str]:
        """The words by which the program opens the texts."""
        return [f"/proc/self/fd/{fd}" for fd in self.fds]

    def refused(self, line: str) -> tuple[int, str] | None:
        """The number of the source that a line of the program refuses, and the cause, with its
        place in the text as it was given. Nothing if the line is about no source."""
        for number, (source, word) in enumerate(zip(self.sources, self.words)):
            front = f"txforest: {word}: "
            if line.startswith(front):
                return number, retold(source, line[len(front) :])
        return None

    def told(self, line: str) -> str:
        """A line of the program with a source's own name and place, if it is about one."""
        refused = self.refused(line)
        if refused is None:
            return line
        number, cause = refused
        return f"txforest: {spelled(self.sources[number].word)}: {cause}"


def spelled(word: str) -> str:
    """A word as the program tells it: one line, without control characters."""
    told = word.replace("\\", "\\\\").replace("\n", "\\n")
    return "".join(c if " " <= c != "\x7f" else f"\\x{ord(c):02x}" for c in told)


def retold(source: Source, cause: str) -> str:
    """A cause with its place in the text as it was given."""
    name, _, place = cause.partition(" ")
    if source.bound is not None and name.encode() in PLACED and place.isdigit():
        return f"{name} {source.bound.place(int(place))}"
    return cause
