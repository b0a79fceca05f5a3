"""A picture of a run, as an SVG or a page: the command txforest-picture."""

from __future__ import annotations

import os
import sys
from collections import Counter
from collections.abc import Iterator
from html import escape

from .report import Conflict, Entry, Event, Look, Printed, Report, Settled
from .statuses import Failed, Status
from .summary import printed_in
from .terminal import Words, many
from .values import printed as printed_value
from .values import quote

ABOUT = """Draws what `txforest trace` printed, or the report of a run, as an SVG: a lane for each
shell, its looks with their paths, its settles with their entries, each conflict with an arrow to
the entry that made it, and the final order along the foot. With --html it is a page of its own,
with a table of the paths that made most transactions start again, and with what each transaction
printed. Shapes and lines tell events apart, not colours alone; each mark has a title."""
USAGE = "txforest-picture [--html] [--names NAME,..] [-o FILE] [TRACE | REPORT]"

RunEvent = Look | Settled | Conflict


class Run:
    """The events and the entries of a trace, or of a report: then each conflict stands just before
    its transaction's entry."""

    def __init__(self, printed: Printed) -> None:
        """Fails with USAGE if there is no report, or if the events are not of its run."""
        if printed.report is None:
            raise Failed(Status.USAGE, "this is neither a trace nor a report of txforest")
        self.report: Report = printed.report
        self.entries: list[Entry] = self.report.entries
        self.events = list(events_of(printed.events)) or list(events_of_report(self.report))
        self.shells = 1 + max((event.shell for event in self.events), default=0)
        made = {it.entry: row for row, it in enumerate(self.events) if isinstance(it, Settled)}
        conflicts = [it.entry for it in self.events if isinstance(it, Conflict)]
        if made.keys() != set(range(len(self.entries))) or not set(conflicts) <= made.keys():
            raise Failed(Status.USAGE, "the events and the report are not of one run")
        self.rows = [made[entry] for entry in range(len(self.entries))]

    def summary(self) -> str:
        """How much there is to see."""
        looks = sum(isinstance(event, Look) for event in self.events)
        entries = many(len(self.entries), "entry", "entries")
        starts = many(len(self.report.retries), "new start")
        return f"{many(self.shells, 'shell')}, {many(looks, 'look')}, {entries}, {starts}."


def events_of(events: list[Event]) -> Iterator[RunEvent]:
    """The events of shells."""
    for event in events:
        if isinstance(event, (Look, Settled, Conflict)):
            yield event


def events_of_report(report: Report) -> Iterator[RunEvent]:
    """The conflicts and settles that a report tells."""
    before: dict[tuple[int, int], list[Conflict]] = {}
    for it in report.retries:
        conflict = Conflict(it.shell, it.entry, it.path)
        before.setdefault((it.shell, it.txn), []).append(conflict)
    for i, entry in enumerate(report.entries):
        yield from before.get((entry.shell, entry.txn), ())
        yield Settled(entry.shell, i)


# ---- pieces


def plain(path: bytes) -> str:
    """The text of a path, or its quote if it can't be read."""
    try:
        text = path.decode()
    except UnicodeDecodeError:
        text = "\n"
    return text if text.isprintable() else quote(path).decode()


def cut(text: str, most: int) -> str:
    """A text, cut before its end if it is longer."""
    return text if len(text) <= most else "…" + text[1 - most :]


# Names of attributes that are none of Python.
NAMES = {"class_": "class", "marker_end": "marker-end", "stroke_dasharray": "stroke-dasharray"}


def element(name: str, inside: str | None = None, /, **attributes: object) -> str:
    """An element of XML; `inside` is written as it is."""
    words = "".join(
        f' {NAMES.get(key, key)}="{escape(value) if isinstance(value, str) else value}"'
        for key, value in attributes.items()
    )
    return f"<{name}{words}/>" if inside is None else f"<{name}{words}>{inside}</{name}>"


def label(kind: str, x: int, y: int, text: str) -> str:
    """A text of a class at a place."""
    return element("text", escape(text), class_=kind, x=x, y=y)


def title(text: str) -> str:
    """What a mark says when it is pointed at."""
    return element("title", escape(text))


STYLE = """
text { font: 12px system-ui, sans-serif; fill: #111 }
.path { font: 12px ui-monospace, monospace; paint-order: stroke; stroke: #fff; stroke-width: 3px }
.small { font-size: 11px; fill: #444 } .head { font-weight: 600 }
.on { fill: #fff; font-size: 11px; text-anchor: middle }
.lane { stroke: #ccc } .try { stroke: #1b5e9b; stroke-width: 3 }
.lost { stroke: #b3261e; stroke-width: 2; stroke-dasharray: 3 3 }
.look { fill: #fff; stroke: #1b5e9b; stroke-width: 1.5 } .settled { fill: #1b5e9b; stroke: #0c2f52 }
.cross { stroke: #b3261e; stroke-width: 2.5; fill: none }
.arrow { stroke: #b3261e; stroke-width: 1.2; fill: none; stroke-dasharray: 5 3 }
"""
HEAD = (
    '<marker id="head" viewBox="0 0 8 8" refX="7" refY="4" markerWidth="8" markerHeight="8"'
    ' orient="auto"><path d="M0 0L8 4L0 8z" fill="#b3261e"/></marker>'
)
BOX = 96  # the width of an entry along the foot


class Picture:
    """An SVG of a run; `names` are those of the shells, as far as they go."""

    def __init__(self, run: Run, names: list[str]) -> None:
        self.run, self.names = run, names
        self.lane = 190 if run.shells <= 6 else 120 if run.shells <= 16 else 64
        self.row = 22 if len(run.events) <= 500 else 16
        self.left, self.top = 70, 46
        self.width = max(self.left + run.shells * self.lane + 150, 640)
        self.boxes = max(1, (self.width - 20) // BOX)
        self.foot = self.top + len(run.events) * self.row + 30
        self.height = self.foot + 40 + (-(-len(run.entries) // self.boxes)) * 34

    def x(self, shell: int) -> int:
        """Where the lane of a shell is."""
        return self.left + shell * self.lane + 12

    def y(self, row: int) -> int:
        """Where the event of a row is."""
        return self.top + row * self.row + self.row // 2

    def name(self, shell: int) -> str:
        """What a shell is called."""
        return self.names[shell] if shell < len(self.names) else f"shell {shell}"

    def svg(self) -> Iterator[str]:
        """The lines of the picture."""
        size = f'width="{self.width}" height="{self.height}"'
        box = f'viewBox="0 0 {self.width} {self.height}"'
        about = 'role="img" aria-labelledby="forest-title forest-what"'
        yield f'<svg xmlns="http://www.w3.org/2000/svg" {size} {box} {about}>'
        yield element("title", "A run of txforest", id="forest-title")
        what = escape(f"{self.run.summary()} Time goes down; each column is a shell.")
        yield element("desc", what, id="forest-what")
        yield element("style", STYLE) + element("defs", HEAD)
        yield element("rect", width=self.width, height=self.height, fill="#fff")
        yield label("small", 8, 30, "event")
        for shell in range(self.run.shells):
            x = self.x(shell)
            yield label("head", x - 6, 30, cut(self.name(shell), self.lane // 8))
            yield element("line", class_="lane", x1=x, y1=self.top - 8, x2=x, y2=self.foot - 14)
        yield from self.attempts()
        for row, event in enumerate(self.run.events):
            if row % 5 == 0:
                yield label("small", 8, self.y(row) + 4, str(row))
            yield self.event(row, event)
        yield from self.order()
        yield "</svg>"

    def attempts(self) -> Iterator[str]:
        """A bar for each attempt, from its first look to its end: whole if it settled, dashed if it
        started again."""
        begun: dict[int, int] = {}
        for row, event in enumerate(self.run.events):
            first = begun.setdefault(event.shell, row)
            if isinstance(event, Look):
                continue
            del begun[event.shell]
            if first < row:
                x = self.x(event.shell)
                kind = "try" if isinstance(event, Settled) else "lost"
                yield element("line", class_=kind, x1=x, y1=self.y(first), x2=x, y2=self.y(row))

    def event(self, row: int, event: RunEvent) -> str:
        """The mark of an event."""
        if isinstance(event, Look):
            return self.look(self.x(event.shell), self.y(row), event)
        if isinstance(event, Settled):
            return self.settled(self.x(event.shell), self.y(row), event)
        return self.conflict(self.x(event.shell), self.y(row), event)

    def look(self, x: int, y: int, event: Look) -> str:
        path = plain(event.path)
        after = many(event.position, "entry", "entries")
        return element(
            "g",
            title(f"{self.name(event.shell)} looked at {path}, after {after}")
            + element("circle", class_="look", cx=x, cy=y, r=4)
            + label("path", x + 12, y + 4, cut(path, 44)),
        )

    def settled(self, x: int, y: int, event: Settled) -> str:
        number = event.entry
        entry = self.run.entries[number]
        end = entry.end.line().decode()
        wide = 14 + 7 * len(str(number))
        told = f"txn {entry.txn}" + ("" if entry.end.is_done else " " + cut(end, 40))
        settled = f"settled: entry {number}, transaction {entry.txn}, {end}"
        left = x - wide // 2
        return element(
            "g",
            title(f"{self.name(event.shell)} {settled}")
            + element("rect", class_="settled", x=left, y=y - 8, width=wide, height=16, rx=2)
            + label("on", x, y + 4, str(number))
            + label("path", x + wide // 2 + 16, y + 4, told),
            id=f"e{number}",
        )

    def conflict(self, x: int, y: int, event: Conflict) -> str:
        number, path = event.entry, plain(event.path)
        maker = self.run.entries[number].shell
        x2, y2 = self.x(maker), self.y(self.run.rows[number])
        half = 8 + 7 * len(str(number)) // 2
        side = x2 + (half if x > x2 else -half)
        bend = max(20, min(90, (y - y2) // 2))
        beside = side + (40 if x > x2 else -40)
        way = f"M{x} {y}C{x} {y - bend} {beside} {y2 + bend // 3} {side} {y2}"
        cross = f"M{x - 5} {y - 5}l10 10m0 -10l-10 10"
        by = f"entry {number} of {self.name(maker)} changed {path}"
        return element(
            "g",
            title(f"{self.name(event.shell)} starts again: {by}")
            + element("path", class_="arrow", marker_end="url(#head)", d=way)
            + element("path", class_="cross", d=cross)
            + label("path", x + 12, y + 4, f"{cut(path, 36)} changed by {number}"),
        )

    def order(self) -> Iterator[str]:
        """The final order along the foot, each entry with what it printed as its title."""
        yield label("head", 8, self.foot + 8, "The order")
        for number, entry in enumerate(self.run.entries):
            x, y = 8 + number % self.boxes * BOX, self.foot + 18 + number // self.boxes * 34
            told = "".join("\n" + printed_value(value).decode() for value in entry.prints)
            end = entry.end.line().decode()
            name = self.name(entry.shell)
            dash = {} if entry.end.is_done else {"stroke_dasharray": "3 2"}
            short = f"txn {entry.txn}" + ("" if entry.end.is_done else " " + entry.end.kind)
            yield element(
                "a",
                title(f"entry {number}: {name}, transaction {entry.txn}, {end}{told}")
                + element("rect", x=x, y=y, width=90, height=28, rx=2, **FOOT, **dash)
                + label("small", x + 6, y + 12, f"{number}: {cut(name, 11)}")
                + label("small", x + 6, y + 24, short),
                href=f"#e{number}",
            )


FOOT = {"fill": "#fff", "stroke": "#0c2f52"}
PAGE_STYLE = """
body { font: 16px/1.5 system-ui, sans-serif; color: #111; background: #fff; margin: 1.5rem }
table { border-collapse: collapse; margin: .5rem 0 } td.n { text-align: right }
th, td { border: 1px solid #999; padding: .2rem .6rem; text-align: left; vertical-align: top }
code { font: 14px ui-monospace, monospace } .wide { overflow-x: auto; border: 1px solid #999 }
li { margin: .1rem 0 }
"""
WHAT = """Time goes down; each column is a shell. An open circle is a look at a path. A filled box
is a settle, with the number of its entry. A cross is a conflict: the transaction starts again, and
a dashed arrow leads to the entry that changed what it had looked at. A whole line is an attempt
that settled, a dashed one an attempt that started again."""
MOST_PATHS = 20


def row_of(*cells: str) -> str:
    """A row of a table; a cell of digits alone stands on the right."""

    def cell_of(cell: str) -> str:
        number = {"class_": "n"} if cell.replace(",", "").isdigit() else {}
        return element("td", cell, **number)

    return element("tr", "".join(map(cell_of, cells)))


def head_of(*cells: str) -> str:
    """The first row of a table."""
    return element("tr", "".join(element("th", cell) for cell in cells))


def starts(run: Run) -> Iterator[str]:
    """The table of the paths that made most transactions start again."""
    paths = Counter(retry.path for retry in run.report.retries)
    if not paths:
        return
    yield element("h2", "Paths that made most new starts")
    rows = [
        row_of(f"{number:,}", element("code", escape(plain(path))))
        for path, number in paths.most_common(MOST_PATHS)
    ]
    yield element("table", head_of("new starts", "path") + "".join(rows))
    if len(paths) > MOST_PATHS:
        yield element("p", f"and {many(len(paths) - MOST_PATHS, 'further path')}")


def answers(run: Run, picture: Picture) -> Iterator[str]:
    """The table of the entries, with what each printed."""
    yield element("h2", "The order and the answers")
    yield "<details>" if len(run.entries) > 50 else "<details open>"
    yield element("summary", many(len(run.entries), "entry", "entries"))
    yield "<table>" + head_of("entry", "shell", "transaction", "end", "printed")
    for number, entry in enumerate(run.entries):
        values = [element("code", escape(printed_value(v).decode())) for v in entry.prints]
        inside = "<br>".join(values)
        if len(values) > 3 or len(inside) > 300:
            summary = element("summary", many(len(values), "value"))
            inside = element("details", summary + inside)
        link = element("a", str(number), href=f"#e{number}")
        name, end = escape(picture.name(entry.shell)), escape(entry.end.line().decode())
        yield row_of(link, name, str(entry.txn), end, inside)
    yield "</table></details>"


def page(run: Run, picture: Picture) -> Iterator[str]:
    """A page of its own: what there is to see, the paths that made most new starts, the picture,
    the answers."""
    yield '<!doctype html><html lang="en"><meta charset="utf-8">'
    yield '<meta name="viewport" content="width=device-width">'
    yield element("title", "A run of txforest") + element("style", PAGE_STYLE)
    yield element("h1", "A run of txforest") + element("p", escape(run.summary()))
    yield element("p", WHAT)
    yield from starts(run)
    yield element("h2", "The picture") + '<div class="wide" tabindex="0">'
    yield from picture.svg()
    yield "</div>"
    yield from answers(run, picture)
    yield "</html>"


def written(file: str, text: bytes) -> None:
    """Puts a text at a path, whole or not at all."""
    fresh = file + ".new"
    try:
        with open(fresh, "wb") as it:
            it.write(text)
        os.replace(fresh, file)
    except OSError as error:
        if os.path.lexists(fresh):
            os.unlink(fresh)
        raise OSError(error.errno, error.strerror, file) from None


def tool() -> int:
    """The command txforest-picture."""
    words = Words(ABOUT, USAGE)
    words.operand("TRACE", "what txforest printed, a trace or a report (standard input)", least=0)
    words.option("html", None, "a page of its own")
    words.option("names", "NAME,..", "the names of the shells, as of their scripts")
    words.option("output", "FILE", "where the picture goes (standard output)", letter="o")
    given = words.read(sys.argv[1:])
    run = Run(printed_in(given.operands[0] if given.operands else "-"))
    names = [name for name in (given.text("names") or "").split(",") if name]
    picture = Picture(run, [plain(os.fsencode(name)) for name in names])
    lines = page(run, picture) if given.flag("html") else picture.svg()
    text = "".join(line + "\n" for line in lines).encode()
    output = given.text("output")
    if output is not None:
        written(output, text)
    else:
        sys.stdout.buffer.write(text)
        sys.stdout.buffer.flush()
    return Status.DONE
