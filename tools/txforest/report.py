"""What the program prints, read into objects: reports, traces, watched runs, views, `show`.

The reader is exact: it takes a text that some command of the program prints, and no other.
The objects' own `lines` print a text that was read again, byte for byte. The reader goes once
over the text, so its time grows with the length alone. docs/FORMATS.md has the formats.

The first line that no such text has there is told by its number, counted from 1. Of a report
this is the line that `txforest audit` tells with `BadLine`.
"""

from __future__ import annotations

import re
from collections.abc import Iterator
from typing import NamedTuple, NoReturn, Union

from .values import (
    QUOTED,
    QUOTED_TEXT,
    NoValue,
    Value,
    is_path,
    printed,
    quote,
    unquote,
    value_of,
)

SMALL, LARGE = 2**32, 2**64

NUMBER = rb"(0|[1-9][0-9]{0,19})"

HEAD = b"forest report 1"
REFUSALS = {
    1: "NoStep",
    2: "NoElement",
    3: "NoPlace",
    4: "Lacks",
    5: "WrongForm",
    6: "Blocked",
    7: "TooDeep",
    8: "BadName",
    9: "NoDefault",
    10: "Expr",
    11: "Absent",
    12: "Exists",
    13: "TooUnfolded",
}
BLOCKED, EXPRESSION = 6, 10
FAULTS = (b"TooLong", b"Overflow", b"NotNumber")


class BadLine(Exception):
    """A line, counted from 1, at which a text stops being one that the program prints, and why."""

    def __init__(self, number: int, why: str) -> None:
        super().__init__(f"line {number}: {why}")
        self.number, self.why = number, why


# ---- what stands in a report


class End(NamedTuple):
    """How a transaction ended: `done`, `aborted` or `stopped`.

    Of a stopped one: the number of the refused command, the refusal's number, and what is told
    behind its name: of `Blocked` the path's text, of `Expr` the fault.
    """

    kind: str
    command: int = 0
    refusal: int = 0
    more: bytes = b""

    @property
    def is_done(self) -> bool:
        return self.kind == "done"

    @property
    def name(self) -> str:
        """The refusal's name; empty if none was met."""
        return REFUSALS.get(self.refusal, "")

    def line(self) -> bytes:
        """The end as a report tells it."""
        if self.kind != "stopped":
            return self.kind.encode()
        told = b"stopped %d %d %s" % (self.command, self.refusal, self.name.encode())
        if self.refusal == BLOCKED:
            return told + b" " + quote(self.more)
        return told + b" " + self.more if self.refusal == EXPRESSION else told


class Entry(NamedTuple):
    """A committed transaction: its shell, its number in the script, its end and its answers."""

    shell: int
    txn: int
    end: End
    prints: tuple[Value, ...]


class Retry(NamedTuple):
    """A conflict: who started again, the entry in the way, and the path that this changed."""

    shell: int
    txn: int
    entry: int
    path: bytes


class Report(NamedTuple):
    """A run: its entries in the order of their commits, and its retries by shell."""

    entries: list[Entry]
    retries: list[Retry]

    def lines(self) -> Iterator[bytes]:
        """The lines of the report, without their line feeds."""
        yield HEAD
        yield b"entries %d" % len(self.entries)
        for i, entry in enumerate(self.entries):
            yield b"entry %d shell %d txn %d %s" % (i, entry.shell, entry.txn, entry.end.line())
            for value in entry.prints:
                yield b"print " + printed(value)
        yield b"retries %d" % len(self.retries)
        for it in self.retries:
            yield b"retry shell %d txn %d entry %d path %s" % (*it[:3], quote(it.path))
        yield b"end"

    def text(self) -> bytes:
        """The report as the program prints it."""
        return b"".join(line + b"\n" for line in self.lines())

    def not_done(self) -> list[tuple[int, Entry]]:
        """The entries whose transactions are not done, with their numbers."""
        return [(i, entry) for i, entry in enumerate(self.entries) if not entry.end.is_done]


# ---- events


class Look(NamedTuple):
    """A shell looked at a path when the log had so many entries."""

    shell: int
    path: bytes
    position: int

    def line(self) -> bytes:
        return b"look %d %s %d" % (self.shell, quote(self.path), self.position)


class Settled(NamedTuple):
    """A shell's transaction became the entry of this number."""

    shell: int
    entry: int

    def line(self) -> bytes:
        return b"settled %d %d" % self


class Conflict(NamedTuple):
    """A shell's transaction starts again, since this entry changed this path."""

    shell: int
    entry: int
    path: bytes

    def line(self) -> bytes:
        return b"conflict %d %d %s" % (self.shell, self.entry, quote(self.path))


class Valid(NamedTuple):
    """In a watched run: whether the folder has a value here."""

    valid: bool

    def line(self) -> bytes:
        return b"valid yes" if self.valid else b"valid no"


Event = Union[Look, Settled, Conflict, Valid]


class View(NamedTuple):
    """A transaction of VIEWS, run on the folder as so many entries leave it."""

    position: int
    end: End
    prints: tuple[Value, ...]


class Show(NamedTuple):
    """What `show` prints: whether the folder has a value, and which."""

    valid: bool
    value: Value

    def lines(self) -> Iterator[bytes]:
        yield b"valid yes" if self.valid else b"valid no"
        if self.valid:
            yield b"value " + printed(self.value)


class Printed(NamedTuple):
    """What a command printed: of `show` its answer alone, else a report.

    Before the report stand the events of a trace, and behind it the views, if there are such.
    """

    events: list[Event]
    report: Report | None
    views: list[View] | None
    show: Show | None

    def lines(self) -> Iterator[bytes]:
        """The lines of the whole text, without their line feeds."""
        if self.show:
            yield from self.show.lines()
        for event in self.events:
            yield event.line()
        if self.report:
            yield from self.report.lines()
        if self.views is not None:
            yield b"views %d" % len(self.views)
            for j, view in enumerate(self.views):
                yield b"view %d at %d %s" % (j, view.position, view.end.line())
                for value in view.prints:
                    yield b"print " + printed(value)
            yield b"end"

    def text(self) -> bytes:
        """The text as the program prints it."""
        return b"".join(line + b"\n" for line in self.lines())


# ---- reading


def form(pattern: bytes) -> re.Pattern[bytes]:
    """The form of a line: N is a number, Q a quoted text, R the rest."""
    pieces = {b"N": NUMBER, b"Q": b"(" + QUOTED + b")", b"R": b"(.*)"}
    return re.compile(b" ".join(pieces.get(word, word) for word in pattern.split(b" ")), re.S)


ENTRIES, RETRIES, VIEWS = form(b"entries N"), form(b"retries N"), form(b"views N")
ENTRY, VIEW = form(b"entry N shell N txn N R"), form(b"view N at N R")
RETRY = form(b"retry shell N txn N entry N path Q")
LOOK, SETTLED, CONFLICT = form(b"look N Q N"), form(b"settled N N"), form(b"conflict N N Q")
STOPPED = form(b"stopped N N R")


class Reader:
    """The lines of a text, each read once."""

    def __init__(self, data: bytes) -> None:
        self.lines = data.split(b"\n")
        self.rest = self.lines.pop()
        self.at = 0

    def refuse(self, why: str) -> NoReturn:
        """Refuses the line that is read now."""
        raise BadLine(self.at + 1, why)

    def line(self) -> bytes | None:
        """The line that is read now; None behind the last one."""
        return self.lines[self.at] if self.at < len(self.lines) else None

    def missing(self, what: str) -> NoReturn:
        """Refuses what stands here, where something else has to."""
        if self.line() is not None:
            self.refuse(f"this is not {what}")
        self.refuse("this line has no line feed" if self.rest else f"the text ends, without {what}")

    def word(self, line: bytes) -> None:
        """Goes behind a line of these bytes alone."""
        if self.line() != line:
            self.missing(f"`{line.decode()}`")
        self.at += 1

    def numbers(self, pattern: re.Pattern[bytes], what: str, *limits: int) -> re.Match[bytes]:
        """Goes behind a line of a form, whose numbers are below these limits."""
        line = self.line()
        found = pattern.fullmatch(line) if line is not None else None
        if not found:
            self.missing(what)
        if any(int(found[i]) >= limit for i, limit in enumerate(limits, 1)):
            self.refuse("a number is too large")
        self.at += 1
        return found

    def stepped_back(self, why: str) -> NoReturn:
        """Refuses the line that was read last."""
        self.at -= 1
        self.refuse(why)

    def path(self, quoted: bytes) -> bytes:
        """The text of the path that the line read last has."""
        text = unquote(quoted)
        if not is_path(text):
            self.stepped_back(f"{quoted.decode()} is no path")
        return text

    def end(self, told: bytes) -> End:
        """The end that the line read last has."""
        if told in (b"done", b"aborted"):
            return End(told.decode())
        found = STOPPED.fullmatch(told)
        if found and int(found[1]) < SMALL:
            command, refusal = int(found[1]), int(found[2])
            more = found[3].partition(b" ")[2]
            end = End("stopped", command, refusal, more)
            if refusal == BLOCKED and QUOTED_TEXT.fullmatch(more):
                end = end._replace(more=self.path(more))
            if end.line() == told and (refusal != EXPRESSION or more in FAULTS):
                return end
        self.stepped_back("a transaction doesn't end so")

    def prints(self) -> tuple[Value, ...]:
        """The answers that stand here, one a line."""
        values = []
        while (line := self.line()) is not None and line.startswith(b"print "):
            try:
                values.append(value_of(line[6:]))
            except NoValue:
                self.refuse("no value is printed so")
            self.at += 1
        return tuple(values)

    def close(self) -> None:
        """Goes behind the last line."""
        if self.line() is not None:
            self.refuse("the text should have ended before this line")
        if self.rest:
            self.refuse("this line has no line feed")

    # The parts of a text

    def report(self) -> Report:
        self.word(HEAD)
        count = int(self.numbers(ENTRIES, "`entries N`", LARGE)[1])
        entries: list[Entry] = []
        while (line := self.line()) is not None and line.startswith(b"entry "):
            found = self.numbers(ENTRY, "`entry I shell K txn J END`", LARGE, SMALL, SMALL)
            if len(entries) == count:
                self.stepped_back(f"{count} entries were announced, and this is one more")
            if int(found[1]) != len(entries):
                self.stepped_back(f"the next entry has the number {len(entries)}")
            shell, txn, end = int(found[2]), int(found[3]), self.end(found[4])
            entries.append(Entry(shell, txn, end, self.prints()))
        if len(entries) < count:
            self.missing(f"entry {len(entries)} of {count}")
        count = int(self.numbers(RETRIES, "`retries N`", LARGE)[1])
        retries: list[Retry] = []
        while len(retries) < count:
            what = f"retry {len(retries)} of {count}"
            found = self.numbers(RETRY, what, SMALL, SMALL, LARGE)
            path = self.path(found[4])
            retries.append(Retry(int(found[1]), int(found[2]), int(found[3]), path))
        self.word(b"end")
        return Report(entries, retries)

    def events(self) -> list[Event]:
        """The events before a report."""
        found: list[Event] = []
        while (line := self.line()) is not None and line != HEAD:
            found.append(self.event(line))
        return found

    def event(self, line: bytes) -> Event:
        word = line.split(b" ", 1)[0]
        if word == b"look":
            it = self.numbers(LOOK, "`look K PATH POSITION`", SMALL)
            if int(it[3]) >= LARGE:
                self.stepped_back("a number is too large")
            return Look(int(it[1]), self.path(it[2]), int(it[3]))
        if word == b"settled":
            it = self.numbers(SETTLED, "`settled K ENTRY`", SMALL, LARGE)
            return Settled(int(it[1]), int(it[2]))
        if word == b"conflict":
            it = self.numbers(CONFLICT, "`conflict K ENTRY PATH`", SMALL, LARGE)
            return Conflict(int(it[1]), int(it[2]), self.path(it[3]))
        if line not in (b"valid yes", b"valid no"):
            self.missing("an event or the begin of a report")
        self.at += 1
        return Valid(line == b"valid yes")

    def views(self) -> list[View]:
        count = int(self.numbers(VIEWS, "`views N`", LARGE)[1])
        views: list[View] = []
        while len(views) < count:
            found = self.numbers(VIEW, f"view {len(views)} of {count}", LARGE, LARGE)
            if int(found[1]) != len(views):
                self.stepped_back(f"the next view has the number {len(views)}")
            if views and int(found[2]) < views[-1].position:
                self.stepped_back("it looks at fewer entries than the view before")
            position, end = int(found[2]), self.end(found[3])
            views.append(View(position, end, self.prints()))
        self.word(b"end")
        return views

    def show(self) -> Show:
        valid = self.line() == b"valid yes"
        self.word(b"valid yes" if valid else b"valid no")
        if not valid:
            return Show(False, None)
        line = self.line()
        if line is None or not line.startswith(b"value "):
            self.missing("`value VALUE`")
        try:
            value = value_of(line[6:])
        except NoValue:
            self.refuse("no value is printed so")
        self.at += 1
        return Show(True, value)


def is_show(lines: list[bytes]) -> bool:
    """Whether a text that begins with `valid` is what `show` prints, and no watched run."""
    if not lines or lines[0] not in (b"valid yes", b"valid no"):
        return False
    return len(lines) == 1 or lines[1].startswith(b"value")


def read_printed(data: bytes) -> Printed:
    """Reads what some command printed: a report with its events and views, or what `show` says.

    Raises BadLine if it is no such text.
    """
    it = Reader(data)
    if is_show(it.lines):
        show = it.show()
        it.close()
        return Printed([], None, None, show)
    events = it.events()
    if it.line() is None:
        it.missing("an event or a report" if not events else "a report")
    report = it.report()
    views = it.views() if it.line() is not None or it.rest else None
    it.close()
    return Printed(events, report, views, None)


def read_report(data: bytes) -> Report:
    """Reads the report of a run, with nothing before or behind it.

    Raises BadLine if it is none, with the line that `txforest audit` tells.
    """
    it = Reader(data)
    report = it.report()
    it.close()
    return report
