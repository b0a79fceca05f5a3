"""How far the proof of many crates is, and how long it has left.

A file of weights has the seconds that each crate takes a quiet processor. From these, from what
stands on what, and from the number of processors comes a plan: when each crate would be proved.
The machine is as many times slower than the plan as it has been so far.
"""

from __future__ import annotations

import heapq
from collections.abc import Callable, Collection, Mapping
from graphlib import TopologicalSorter
from typing import TextIO

Below = Mapping[str, Collection[str]]
"""For each crate those that it stands on."""

# So many seconds of the plan count as kept to before anything is proved.
BEFORE = 60.0
MINUTE = 60.0
# Sums of the same seconds in another order differ by less.
LITTLE = 1e-6
ON_TERMINAL, ELSEWHERE = 1.0, MINUTE


def weights_of(text: str) -> dict[str, float]:
    """The weights of a file: on each line a crate and its seconds."""
    lines = [line.split() for line in text.splitlines() if line and not line.startswith("#")]
    return {name: float(seconds) for name, seconds in lines}


def weighed(names: Collection[str], weights: Mapping[str, float]) -> dict[str, float]:
    """The weight of each crate; one that has none gets the mean of the others."""
    known = [weights[name] for name in names if name in weights]
    mean = sum(known) / len(known) if known else 1.0
    return {name: weights.get(name, mean) for name in names}


def planned(seconds: Mapping[str, float], below: Below, lanes: int) -> dict[str, float]:
    """When each crate is proved if so many are proved at a time, in the order in which they end.

    Of those that wait for nothing, the first is the one with the longest chain of others above it.
    """
    behind = dict(seconds)
    for name in reversed([*TopologicalSorter(below).static_order()]):
        for it in below[name]:
            behind[it] = max(behind[it], seconds[it] + behind[name])
    sorter = TopologicalSorter(below)
    sorter.prepare()
    waiting: list[tuple[float, str]] = []
    running: list[tuple[float, str]] = []
    ends: dict[str, float] = {}
    now = 0.0
    while sorter.is_active():
        for name in sorter.get_ready():
            heapq.heappush(waiting, (-behind[name], name))
        while waiting and len(running) < lanes:
            name = heapq.heappop(waiting)[1]
            heapq.heappush(running, (now + seconds[name], name))
        now, name = heapq.heappop(running)
        ends[name] = now
        sorter.done(name)
    return ends


class Progress:
    """Crates of which some are proved, some were kept from an earlier run, and some are left."""

    def __init__(self, weights: Mapping[str, float], below: Below, lanes: int) -> None:
        self.below = below
        self.lanes = lanes
        self.seconds = weighed(below, weights)
        self.kept: set[str] = set()
        self.proved: set[str] = set()
        self.last = 0.0
        self.ends = planned(self.seconds, below, lanes)

    def is_kept(self, name: str) -> None:
        """Takes in that an earlier run had proved a crate, so that it costs nothing now."""
        if name in self.seconds and name not in self.kept:
            self.kept.add(name)
            self.seconds[name] = 0.0
            self.ends = planned(self.seconds, self.below, self.lanes)

    def is_proved(self, name: str, now: float) -> None:
        """Takes in that a crate is proved, so many seconds after the beginning."""
        if name in self.seconds and name not in self.kept:
            self.proved.add(name)
            self.last = now

    def left(self, now: float) -> float:
        """The seconds that are left, if the machine goes on as it did."""
        done = sum(self.seconds[name] for name in self.proved)
        reached, following = 0.0, 0.0
        for name, end in self.ends.items():
            done -= self.seconds[name]
            following = end
            if done < -LITTLE:
                break
            reached = end
        slowness = max(
            (self.last + BEFORE) / (reached + BEFORE),
            (now + BEFORE) / (following + BEFORE),
        )
        return max(slowness * max(self.ends.values()) - now, 0.0)

    def count(self) -> str:
        """How many crates are proved."""
        return f"{len(self.proved) + len(self.kept)} of {len(self.below)} crates"

    def told(self, now: float) -> str:
        """A line on it, so many seconds after the beginning."""
        earlier = f" ({len(self.kept)} by an earlier run)" if self.kept else ""
        gone, left = now / MINUTE, max(self.left(now) / MINUTE, 1)
        return f"{self.count()} proved{earlier}, {gone:.0f} min gone, about {left:.0f} min left"

    def told_at_end(self, is_stored: bool) -> str:
        """A line on it where it is ended before all is proved: what the next call does."""
        if is_stored:
            return f"{self.count()} are proved and kept; the next call goes on from there"
        return f"{self.count()} were proved; nothing is kept here, so the next call begins anew"


class Ticker:
    """Says now and then where something stands.

    On a terminal it is one line that is written over each second, and elsewhere a line each minute.
    """

    def __init__(self, out: TextIO, columns: int, clock: Callable[[], float]) -> None:
        self.out = out
        self.columns = columns
        self.clock = clock
        self.is_rewritten = out.isatty()
        self.pause = ON_TERMINAL if self.is_rewritten else ELSEWHERE
        self.begin = self.last = clock()
        self.length = 0

    def now(self) -> float:
        """The seconds since the beginning."""
        return self.clock() - self.begin

    def rest(self) -> float:
        """The seconds until something is to be said."""
        return max(self.last + self.pause - self.clock(), 0.0)

    def tick(self, words_at: Callable[[float], str]) -> None:
        """Says the words of this moment, if it is time to."""
        if self.rest() > 0:
            return
        self.last = self.clock()
        words = words_at(self.now())
        if self.is_rewritten:
            self.write_over(words[: self.columns - 1])
        else:
            print(words, file=self.out, flush=True)

    def end(self) -> None:
        """Leaves a line that is written over empty."""
        if self.length:
            self.write_over("")
            print("\r", end="", file=self.out, flush=True)

    def write_over(self, words: str) -> None:
        """Writes words in place of the last ones."""
        print(f"\r{words.ljust(self.length)}", end="", file=self.out, flush=True)
        self.length = len(words)
