"""How far a proof is said to be, and how long it has left."""

from __future__ import annotations

import io
import unittest

from tests import bench

assert bench.BENCH

from progress import BEFORE, Progress, Ticker, planned, weighed, weights_of  # noqa: E402

BELOW = {"low": [], "one": ["low"], "two": ["low"], "top": ["one", "two"]}
WEIGHTS = {"low": 600.0, "one": 1200.0, "two": 300.0, "top": 600.0}


class Terminal(io.StringIO):
    """An output that is a terminal."""

    def isatty(self) -> bool:
        return True


class Weights(unittest.TestCase):
    """The weights of crates."""

    def test_a_file_has_a_crate_and_its_seconds_on_each_line(self) -> None:
        self.assertEqual(weights_of("# Seconds.\nlow 12\n\ntop 3.5\n"), {"low": 12, "top": 3.5})

    def test_a_crate_without_a_weight_gets_the_mean_of_the_others(self) -> None:
        found = weighed(["low", "top", "new"], {"low": 10, "top": 20, "gone": 900})
        self.assertEqual(found, {"low": 10, "top": 20, "new": 15})

    def test_without_any_weight_all_weigh_the_same(self) -> None:
        self.assertEqual(weighed(["low", "top"], {}), {"low": 1, "top": 1})


class Planned(unittest.TestCase):
    """When each crate would be proved."""

    def test_one_lane_takes_them_one_after_another(self) -> None:
        ends = planned(WEIGHTS, BELOW, 1)
        self.assertEqual(ends, {"low": 600, "one": 1800, "two": 2100, "top": 2700})

    def test_two_lanes_take_what_stands_side_by_side(self) -> None:
        ends = planned(WEIGHTS, BELOW, 2)
        wanted = [("low", 600), ("two", 900), ("one", 1800), ("top", 2400)]
        self.assertEqual([*ends.items()], wanted)

    def test_the_longest_chain_comes_first(self) -> None:
        below = {"short": [], "long": [], "above": ["long"]}
        ends = planned({"short": 50, "long": 10, "above": 100}, below, 1)
        self.assertEqual([*ends], ["long", "above", "short"])


class Left(unittest.TestCase):
    """What is said of the rest."""

    def progress(self) -> Progress:
        """Crates of which two may be proved side by side, in 40 minutes."""
        return Progress(WEIGHTS, BELOW, 2)

    def test_at_the_beginning_it_is_the_plan(self) -> None:
        self.assertEqual(self.progress().left(0), 2400)

    def test_time_that_passes_is_taken_off(self) -> None:
        self.assertEqual(self.progress().left(300), 2100)

    def test_a_machine_that_keeps_to_the_plan_ends_with_it(self) -> None:
        progress = self.progress()
        for name, end in planned(WEIGHTS, BELOW, 2).items():
            progress.is_proved(name, end)
            self.assertAlmostEqual(progress.left(end), 2400 - end)

    def test_a_machine_of_half_the_speed_takes_twice_as_long(self) -> None:
        progress = self.progress()
        progress.is_proved("low", 1200)
        slowness = (1200 + BEFORE) / (600 + BEFORE)
        self.assertAlmostEqual(progress.left(1200), slowness * 2400 - 1200)
        progress.is_proved("two", 1800)
        self.assertAlmostEqual(progress.left(1800) / 60, 48, delta=1)

    def test_a_crate_that_is_late_shows_before_it_is_proved(self) -> None:
        progress = self.progress()
        slowness = (1800 + BEFORE) / (600 + BEFORE)
        self.assertAlmostEqual(progress.left(1800), slowness * 2400 - 1800)

    def test_it_is_never_less_than_nothing(self) -> None:
        progress = self.progress()
        for name in BELOW:
            progress.is_proved(name, 60)
        self.assertEqual(progress.left(9000), 0)

    def test_what_an_earlier_run_proved_costs_nothing(self) -> None:
        progress = self.progress()
        progress.is_kept("low")
        progress.is_kept("one")
        self.assertEqual(progress.left(0), 900)
        told = "2 of 4 crates proved (2 by an earlier run), 0 min gone, about 15 min left"
        self.assertEqual(progress.told(0), told)

    def test_a_line_tells_crates_and_minutes(self) -> None:
        progress = self.progress()
        progress.is_proved("low", 600)
        self.assertEqual(progress.told(600), "1 of 4 crates proved, 10 min gone, about 30 min left")

    def test_other_crates_and_a_crate_told_twice_count_for_nothing(self) -> None:
        progress = self.progress()
        for name in ("low", "low", "other"):
            progress.is_proved(name, 600)
        progress.is_kept("other")
        self.assertEqual(progress.count(), "1 of 4 crates")

    def test_the_end_tells_what_the_next_call_does(self) -> None:
        progress = self.progress()
        told = "0 of 4 crates are proved and kept; the next call goes on from there"
        self.assertEqual(progress.told_at_end(True), told)
        told = "0 of 4 crates were proved; nothing is kept here, so the next call begins anew"
        self.assertEqual(progress.told_at_end(False), told)


class Ticks(unittest.TestCase):
    """When something is said, and how."""

    def setUp(self) -> None:
        self.now = 1000.0

    def ticker(self, out: io.StringIO, columns: int = 80) -> Ticker:
        """A ticker by this test's clock."""
        return Ticker(out, columns, lambda: self.now)

    def test_in_a_file_a_line_each_minute(self) -> None:
        out = io.StringIO()
        ticker = self.ticker(out)
        for _ in range(150):
            ticker.tick(lambda now: f"at {now:.0f}")
            self.now += 1
        ticker.end()
        self.assertEqual(out.getvalue(), "at 60\nat 120\n")

    def test_it_rests_until_something_is_to_be_said(self) -> None:
        ticker = self.ticker(io.StringIO())
        self.now += 50
        self.assertEqual(ticker.rest(), 10)
        self.now += 20
        self.assertEqual(ticker.rest(), 0)

    def test_on_a_terminal_one_line_is_written_over_each_second(self) -> None:
        out = Terminal()
        ticker = self.ticker(out)
        for words in ("a long one", "short"):
            self.now += 1
            ticker.tick(lambda _: words)
        ticker.end()
        self.assertEqual(out.getvalue(), "\ra long one\rshort     \r     \r")

    def test_on_a_narrow_terminal_it_is_cut(self) -> None:
        out = Terminal()
        ticker = self.ticker(out, 6)
        self.now += 1
        ticker.tick(lambda _: "a long one")
        self.assertEqual(out.getvalue(), "\ra lon")
