"""Runs that tell what they looked at, and so what they can have changed.

The program traces the scripts: its events name each path at which a transaction looked. It changes
only paths at which it looked, which is proved of the program. So OUT is compared with the tree at
these paths alone. If the events leave a doubt, or if they are many, all of OUT is compared.

A last transaction asks whether what the others leave has a value by the description. It changes
nothing, and is told neither in the report nor among the looks.
"""

from __future__ import annotations

import os

from .attempt import QUESTION
from .calls import DIR
from .differences import InTheWay, differences_at
from .parts import one_by_one, report_in, states_of
from .place import clear
from .program import Answer, call
from .sources import TEXT_LIMIT, Handed

TYPE_CHECKING = False
if TYPE_CHECKING:
    from collections.abc import Sequence

    from .attempt import Attempt
    from .differences import Change
    from .sources import Source

FEW = 4  # a look at one of so many entries: with more, all of OUT is compared


class Looker:
    """The runs of an attempt, whose looks are known.

    looks   the paths at which the last run looked, as in surveys; nothing if they are not known
    shells  the same of each of its shells, as bytes
    """

    def __init__(self, attempt: Attempt) -> None:
        self.attempt = attempt
        self.looks: set[str] | None = None
        self.shells: dict[int, set[bytes]] | None = None

    def run(self, spec: Source, scripts: Sequence[Source]) -> Answer:
        """Runs scripts one behind the other into a fresh OUT; the answer is their report alone.
        Whether the last state has a value is known then. What is refused is told as `Attempt.run`
        tells it."""
        answer = self.asked(spec, scripts)
        if answer is None:
            answer = self.watch(spec, scripts)
            if answer.status == 0:
                answer.printed = report_in(answer.printed)
        return answer

    def watch(self, spec: Source, scripts: Sequence[Source]) -> Answer:
        """The same, watched: the events are told before the report."""
        self.looks = self.shells = None
        answer = self.attempt.run(spec, scripts, schedule_of(scripts))
        if answer.status == 0:
            events = events_in(answer.printed)
            self.looked(events)
            *_, self.attempt.valid = states_of(events)
        return answer

    def asked(self, spec: Source, scripts: Sequence[Source]) -> Answer | None:
        """A run with the question behind it. Nothing if it does not come to a report, or if the
        question is not its last entry."""
        attempt, last = self.attempt, scripts[-1]
        if attempt.view is None or len(last.text) + len(QUESTION) > TEXT_LIMIT:
            return None
        clear(attempt.room.fd, b"out")
        with Handed([spec, *scripts[:-1], last.with_end(QUESTION)]) as texts:
            first, *others = texts.words
            inherited = [attempt.lock, attempt.room.fd, attempt.view.fd, *texts.fds]
            words = ["trace", first, attempt.view.path, attempt.out, schedule_of(scripts), *others]
            answer = call(words, inherited, at=attempt.view.fd)
        if answer.status:
            return None
        found = without_question(report_in(answer.printed), len(scripts) - 1)
        if found is None:
            return None
        self.looked(before_last(events_in(answer.printed)))
        answer.printed, attempt.valid = found
        attempt.spec = spec
        return answer

    def looked(self, events: bytes) -> None:
        """Takes the looks of a run."""
        self.shells = looks_of(events)
        self.looks = None if self.shells is None else all_of(self.shells)

    def changes(self) -> list[Change]:
        """What the OUT of the last run changes in the tree. Raises as `Attempt.changes` does."""
        attempt, looks = self.attempt, self.looks
        if looks is None or attempt.view is None or len(looks) * FEW > len(attempt.found.taken):
            return attempt.changes()
        out = os.open(attempt.out, DIR)
        try:
            return differences_at(attempt.view, out, attempt.found, looks)
        except (InTheWay, OSError):
            return attempt.changes()  # tells why
        finally:
            os.close(out)


def schedule_of(scripts: Sequence[Source]) -> str:
    """A schedule by which scripts come one behind the other."""
    return "none" if len(scripts) == 1 else one_by_one(len(scripts))


def events_in(printed: bytes) -> bytes:
    """The events before a report."""
    return printed[: len(printed) - len(report_in(printed))]


def looks_of(events: bytes) -> dict[int, set[bytes]] | None:
    """The paths at which each shell of some events looked; nothing if a line is no event."""
    found: dict[bytes, set[bytes]] = {}
    for line in events.split(b"\n"):
        if line.startswith(b"look "):
            shell, path = line[5:].split(b" ", 1)
            path = path[: path.rindex(b'"') + 1]
            if b"\\" in path:
                from .values import unquote

                path = b'"' + unquote(path) + b'"'
            if shell not in found:
                found[shell] = set()
            found[shell].add(path[2:-1])
        elif line and not line.startswith((b"settled ", b"conflict ", b"valid ")):
            return None
    return {int(shell): paths for shell, paths in found.items()}


def all_of(shells: dict[int, set[bytes]]) -> set[str]:
    """All paths at which some shells looked, as in surveys."""
    return set(map(os.fsdecode, set[bytes]().union(*shells.values())))


def before_last(events: bytes) -> bytes:
    """The events before those of the last entry, which comes behind all others."""
    last = events.rfind(b"\nsettled ")
    return events[: events.rfind(b"\nsettled ", 0, max(last, 0)) + 1]


def without_question(report: bytes, shell: int) -> tuple[bytes, bool] | None:
    """A report without its last entry, the last transaction of a shell that asks, and what that one
    printed; nothing if the last entry is another one."""
    at = report.rfind(b"\nentry ") + 1
    head, tail = report[:at], report[at:].split(b"\n")
    words = tail[0].split(b" ")
    if words[:1] + words[2:5] + words[6:] != [b"entry", b"shell", b"%d" % shell, b"txn", b"done"]:
        return None
    if tail[1:2] not in ([b"print true"], [b"print false"]):
        return None
    first, count, rest = head.split(b"\n", 2)
    number = int(words[1])
    if count != b"entries %d" % (number + 1) or not tail[2].startswith(b"retries "):
        return None
    own = b"retry shell %d txn %s " % (shell, words[5])
    retries = [line for line in tail[3:-2] if not line.startswith(own)]
    lines = [first, b"entries %d" % number, rest + b"retries %d" % len(retries), *retries, b"end\n"]
    return b"\n".join(lines), tail[1] == b"print true"
