"""What the program printed, as JSON or in a few lines: the command txforest-report.

In JSON a text that is UTF-8 is a string, another one {"base64": ".."}. A set is a list of texts in
ascending order, a pair {"first": .., "second": ..}, an option null or {"some": ..}. A table is
{"table": {..}} if all its texts are UTF-8, else {"rows": [[text, value], ..]}. So each value has
one spelling, and no two values share one. Integers are JSON numbers of up to 64 bits.
"""

from __future__ import annotations

import sys
from typing import Any

from .report import (
    BLOCKED,
    BadLine,
    Conflict,
    End,
    Event,
    Look,
    Printed,
    Report,
    Settled,
    Valid,
    View,
    read_printed,
)
from .statuses import Failed, Status
from .terminal import Words, many, shown
from .values import Pair, Some, Value

MOST_PATHS = 20


# ---- JSON


def told_text(text: bytes) -> Any:
    """A text as JSON has it."""
    try:
        return text.decode()
    except UnicodeDecodeError:
        import base64

        return {"base64": base64.b64encode(text).decode()}


def told_value(value: Value) -> Any:
    """A value as JSON has it."""
    if isinstance(value, bytes):
        return told_text(value)
    if isinstance(value, frozenset):
        return [told_text(text) for text in sorted(value)]
    if isinstance(value, Pair):
        return {"first": told_value(value.first), "second": told_value(value.second)}
    if isinstance(value, Some):
        return {"some": told_value(value.value)}
    if isinstance(value, dict):
        rows = [(told_text(key), told_value(value[key])) for key in sorted(value)]
        if all(isinstance(key, str) for key, _ in rows):
            return {"table": dict(rows)}
        return {"rows": [list(row) for row in rows]}
    return value


def told_end(end: End) -> dict[str, Any]:
    """An end as JSON has it: `end`, and of a stopped one what stopped it."""
    if end.kind != "stopped":
        return {"end": end.kind}
    told = {"end": end.kind, "command": end.command, "refusal": end.refusal, "name": end.name}
    if end.more:
        told["path" if end.refusal == BLOCKED else "fault"] = told_text(end.more)
    return told


def told_event(event: Event) -> dict[str, Any]:
    """An event as JSON has it."""
    told: dict[str, Any] = {"event": type(event).__name__.lower(), **event._asdict()}
    if isinstance(event, (Look, Conflict)):
        told["path"] = told_text(event.path)
    return told


def told_report(report: Report) -> dict[str, Any]:
    """A report as JSON has it: `entries` and `retries`."""
    entries = [
        {
            "entry": i,
            "shell": entry.shell,
            "txn": entry.txn,
            **told_end(entry.end),
            "prints": [told_value(value) for value in entry.prints],
        }
        for i, entry in enumerate(report.entries)
    ]
    retries = [{**it._asdict(), "path": told_text(it.path)} for it in report.retries]
    return {"entries": entries, "retries": retries}


def told_printed(printed: Printed) -> dict[str, Any]:
    """What a command printed, as one object of JSON."""
    told: dict[str, Any] = {}
    if printed.show:
        told["valid"] = printed.show.valid
        if printed.show.valid:
            told["value"] = told_value(printed.show.value)
    if printed.events:
        told["events"] = [told_event(event) for event in printed.events]
    if printed.report:
        told.update(told_report(printed.report))
    if printed.views is not None:
        told["views"] = [
            {
                "view": i,
                "at": view.position,
                **told_end(view.end),
                "prints": [told_value(value) for value in view.prints],
            }
            for i, view in enumerate(printed.views)
        ]
    return told


def json_line(printed: Printed) -> bytes:
    """What a command printed, as one line of JSON in UTF-8."""
    import json

    return json.dumps(told_printed(printed), ensure_ascii=False).encode() + b"\n"


# ---- a few lines


def ends_line(what: str, ends: list[End]) -> str:
    """How many of some transactions ended how."""
    kinds = [end.kind for end in ends]
    parts = [f"{kinds.count('done'):,} done"]
    parts += [f"{kinds.count(kind):,} {kind}" for kind in ("stopped", "aborted") if kind in kinds]
    return f"{many(len(ends), what)}: {', '.join(parts)}"


def summary_of_events(events: list[Event]) -> list[str]:
    """The events in a line, and of a watched run the states without a value."""
    counts = [
        many(sum(isinstance(event, kind) for event in events), word)
        for kind, word in ((Look, "look"), (Settled, "settle"), (Conflict, "conflict"))
    ]
    lines = [", ".join(counts)]
    states = [event.valid for event in events if isinstance(event, Valid)]
    without = [i for i, valid in enumerate(states) if not valid]
    if states:
        number = many(len(states), "state")
        lines.append(f"{number} of the folder, {len(without):,} without a value")
    for i in without[:MOST_PATHS]:
        lines.append(f"no value {f'behind entry {i - 1}' if i else 'before the first entry'}")
    return lines


def summary_of_report(report: Report) -> list[str]:
    """The ends, the transactions that are not done, and the paths that made others start again."""
    lines = [
        ends_line("transaction", [entry.end for entry in report.entries])
        + f"; {many(len(report.retries), 'new start')}"
    ]
    for i, entry in report.not_done():
        end = entry.end.line().decode()
        lines.append(f"entry {i}: shell {entry.shell} transaction {entry.txn} {end}")
    counts: dict[bytes, int] = {}
    for retry in report.retries:
        counts[retry.path] = counts.get(retry.path, 0) + 1
    most = sorted(counts.items(), key=lambda it: (-it[1], it[0]))
    for path, number in most[:MOST_PATHS]:
        lines.append(f"{many(number, 'new start')} because of {shown(path)}")
    if len(most) > MOST_PATHS:
        lines.append(f"and {many(len(most) - MOST_PATHS, 'further path')}")
    return lines


def summary_of_views(views: list[View]) -> list[str]:
    """The ends of views, and those that are not done."""
    lines = [ends_line("view", [view.end for view in views])]
    for i, view in enumerate(views):
        if not view.end.is_done:
            lines.append(f"view {i} at {view.position} {view.end.line().decode()}")
    return lines


def kind_of(value: Value) -> str:
    """What a value is, in words."""
    if isinstance(value, bytes):
        return f"a text of {many(len(value), 'byte')}"
    if isinstance(value, frozenset):
        return f"a set of {many(len(value), 'text')}"
    if isinstance(value, dict):
        return f"a table of {many(len(value), 'row')}"
    if isinstance(value, Pair):
        return "a pair"
    if isinstance(value, bool):
        return "a truth value"
    return "an integer" if isinstance(value, int) else "an option"


def summary(printed: Printed) -> list[str]:
    """What a command printed, in a few lines."""
    lines: list[str] = []
    if printed.show:
        valid = printed.show.valid
        lines.append(f"valid yes: {kind_of(printed.show.value)}" if valid else "valid no")
    if printed.events:
        lines += summary_of_events(printed.events)
    if printed.report:
        lines += summary_of_report(printed.report)
    if printed.views is not None:
        lines += summary_of_views(printed.views)
    return lines


# ---- the command


ABOUT = """Reads what txforest printed, and tells it as JSON or in a few lines.

FILE is a report, a trace, a watched run, a report with views, or what `show` printed. Any other
text is refused, with the number of its first bad line."""


def read_input(file: str) -> bytes:
    """The bytes of a file; `-` is standard input."""
    if file == "-":
        return sys.stdin.buffer.read()
    with open(file, "rb") as it:
        return it.read()


def printed_in(file: str) -> Printed:
    """What stands in a file that the program printed. Fails with USAGE if it is no such text."""
    try:
        return read_printed(read_input(file))
    except BadLine as bad:
        name = "standard input" if file == "-" else shown(file)
        raise Failed(
            Status.USAGE, f"{name}: line {bad.number}: {bad.why}; txforest prints no such text"
        ) from None


def tool() -> int:
    """The command txforest-report."""
    words = Words(ABOUT, "txforest-report [--json] [FILE]")
    words.operand("FILE", "what txforest printed (standard input)", least=0)
    words.option("json", None, "one object of JSON in one line")
    given = words.read(sys.argv[1:])
    printed = printed_in(given.operands[0] if given.operands else "-")
    if given.flag("json"):
        sys.stdout.buffer.write(json_line(printed))
    else:
        text = "".join(line + "\n" for line in summary(printed))
        sys.stdout.buffer.write(text.encode(errors="backslashreplace"))
    sys.stdout.buffer.flush()
    return Status.DONE
