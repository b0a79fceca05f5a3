"""What a line of the table has to reach.

A goal is a word on it, and whether a line reaches it. It is asked with the line before, if that is
of the same kind and of another size. A goal with nothing to compare with says nothing.
"""

from __future__ import annotations

import math
from collections.abc import Callable
from dataclasses import dataclass
from typing import TYPE_CHECKING

if TYPE_CHECKING:
    from measure import Line

KIB = 1024
MILLISECONDS, MICROSECONDS = 1e-3, 1e-6
# A growth is judged from this many seconds on: shorter times swing by more than it asks.
SHORT = 0.05


@dataclass
class Goal:
    """A goal: what the table says of it, and whether a line meets it."""

    words: str
    is_met: Callable[[Line, Line | None], bool | None]


def of_peer(most: float) -> Goal:
    """At most a multiple of the peer's seconds."""

    def is_met(line: Line, _: Line | None) -> bool | None:
        peer = line.peer_time()
        return None if math.isnan(peer) else line.seconds <= most * peer

    return Goal(f"{most} of the peer", is_met)


def seconds(most: float) -> Goal:
    """At most this many seconds."""
    return Goal(f"{most} s", lambda line, _: within(line, most))


def within(line: Line, most: float) -> bool | None:
    """Whether a line takes at most so many seconds, if seconds are what it tells."""
    return line.seconds <= most if line.is_timed else None


def each(most: float, unit: float, count: int) -> Goal:
    """At most a number of units of time for each of `count` pieces of work."""
    word = {MILLISECONDS: "ms", MICROSECONDS: "us"}[unit]
    return Goal(f"{most} {word} each", lambda line, _: within(line, most * unit * count))


def growth(times: float, most: float) -> Goal:
    """For `times` the size at most `most` times the seconds; for other sizes in proportion."""

    def is_met(line: Line, before: Line | None) -> bool | None:
        if before is None or line.seconds < SHORT:
            return None
        most_times: float = (line.size / before.size) ** math.log(most, times)
        return line.seconds / before.seconds <= most_times

    return Goal(f"{most} times for {times} times the size", is_met)


def memory(most: float) -> Goal:
    """At most a multiple of the size, in bytes, of memory held."""

    def is_met(line: Line, _: Line | None) -> bool | None:
        return line.peak_kib * KIB <= most * line.size if line.is_timed else None

    return Goal(f"{most} times the size held", is_met)


NEAR_LINEAR = growth(2, 2.3)

Goals = tuple[Goal, ...]
