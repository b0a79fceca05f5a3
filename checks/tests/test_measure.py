"""What the benches count, and what their table says of it."""

from __future__ import annotations

import contextlib
import importlib
import io
import math
import sys
import tempfile
import unittest
from collections.abc import Iterator
from unittest import mock

from tests import bench

assert bench.BENCH

import measure  # noqa: E402
from goals import MICROSECONDS, each, growth, memory, of_peer, seconds  # noqa: E402

LOG = b"==1== Command: cp -r a b\n==1== \n==1== I   refs:      1,696,813\n"


def line(took: float, peer: float | None = None, is_timed: bool = True) -> measure.Line:
    """A line of 1,000 pieces that took so long, beside a peer."""
    name = "" if peer is None else "the peer"
    return measure.Line("a kind", 1_000, took, 2_048, name, peer, is_timed=is_timed)


class Goals(unittest.TestCase):
    """Whether a line reaches what is asked."""

    def test_of_the_peer(self) -> None:
        self.assertIs(of_peer(1.25).is_met(line(1.25, 1.0), None), True)
        self.assertIs(of_peer(1.25).is_met(line(1.26, 1.0), None), False)

    def test_a_peer_without_a_number_says_nothing(self) -> None:
        self.assertIsNone(of_peer(1.25).is_met(line(1.0, math.nan), None))

    def test_instructions_are_no_seconds_and_tell_no_memory(self) -> None:
        for goal in (seconds(1), each(1, MICROSECONDS, 1_000), memory(9_999)):
            self.assertIsNotNone(goal.is_met(line(0.5), None))
            self.assertIsNone(goal.is_met(line(0.5, is_timed=False), None))

    def test_a_growth_is_that_of_instructions_too(self) -> None:
        before = measure.Line("a kind", 500, 1.0, 0, is_timed=False)
        self.assertIs(growth(2, 2.3).is_met(line(2.0, is_timed=False), before), True)
        self.assertIs(growth(2, 2.3).is_met(line(3.0, is_timed=False), before), False)


class Instructions(unittest.TestCase):
    """Instructions in place of seconds."""

    def setUp(self) -> None:
        measure.Counting.is_on = True
        self.addCleanup(setattr, measure.Counting, "is_on", False)

    def test_they_are_read_from_the_log(self) -> None:
        self.assertEqual(measure.instructions_of(LOG), 1_696_813)

    def test_a_log_without_them_ends_the_bench(self) -> None:
        with self.assertRaises(SystemExit):
            measure.instructions_of(b"==1== I can't recover.\n")

    def test_what_is_measured_in_the_script_has_no_number(self) -> None:
        self.assertTrue(math.isnan(measure.since(0.0)))

    def test_the_head_says_what_is_counted(self) -> None:
        self.assertEqual([it for it in measure.head() if "10^9" in it], ["10^9", "peer 10^9"])

    def test_an_amount_is_told_with_what_is_counted(self) -> None:
        self.assertEqual(measure.amount(1.5), "1.500 10^9")
        self.assertEqual(measure.amount(math.nan), "no number")
        measure.Counting.is_on = False
        self.assertEqual(measure.amount(1.5), "1.500 s")

    def test_a_line_beside_a_peer_without_a_number_has_no_ratio(self) -> None:
        told = measure.cells(line(2.0, math.nan), None, True)
        self.assertEqual(told[:2] + told[3:8], ["a kind", "1,000", "2.000", "2", "", "", ""])


class Runs(unittest.TestCase):
    """Commands that are measured."""

    def test_a_run_has_its_outputs_and_its_status(self) -> None:
        script = "import sys; print(1); print(2, file=sys.stderr); sys.exit(3)"
        with tempfile.TemporaryDirectory() as scratch:
            ran = measure.run([sys.executable, "-c", script], scratch)
        self.assertEqual((ran.status, ran.out, ran.err), (3, b"1\n", b"2\n"))
        self.assertEqual(measure.By.ALL.seconds(ran), ran.user + ran.system)

    def test_what_the_script_held_before_counts_for_no_run(self) -> None:
        with tempfile.TemporaryDirectory() as scratch:
            before = measure.run(["true"], scratch).peak_kib
            held = b"x" * (256 * measure.KIB_OF_MIB**2)
            del held
            after = measure.run(["true"], scratch).peak_kib
        self.assertLess(after, before + 32 * measure.KIB_OF_MIB)

    def test_a_run_works_in_the_folder_that_is_given(self) -> None:
        with tempfile.TemporaryDirectory() as scratch, tempfile.TemporaryDirectory() as folder:
            ran = measure.done(["pwd", "-P"], scratch, folder)
        self.assertEqual(ran.out.decode().strip().rpartition("/")[2], folder.rpartition("/")[2])

    def test_peers_that_are_no_commands_have_their_turns(self) -> None:
        turns: list[None] = []
        with tempfile.TemporaryDirectory() as scratch:
            words_of = lambda out: ["mkdir", out]
            measure.best(scratch, [words_of], 3, beside=lambda: turns.append(None))
        self.assertEqual(len(turns), 3)


class Goes(unittest.TestCase):
    """The table, and what is run once more."""

    def table(self, *goes: list[float]) -> list[str]:
        """What is printed of one bench whose lines take so long beside 1 s, in its next goes."""
        left = list(goes)

        def lines(sizes: list[int]) -> Iterator[measure.Line]:
            for took in left.pop(0):
                yield measure.Line("a kind", 1_000, took, 0, "a peer", 1.0, goals=(of_peer(2),))

        all_py = importlib.import_module("all")
        bench = mock.Mock(lines=lines)
        told = io.StringIO()
        with mock.patch.object(all_py.importlib, "import_module", return_value=bench):
            with contextlib.redirect_stdout(told):
                all_py.print_table([all_py.Bench("run", [])])
        self.assertEqual(left, [], "goes that were not asked for")
        return told.getvalue().splitlines()

    def test_a_bench_that_meets_its_goals_is_run_once(self) -> None:
        self.assertEqual(self.table([1.0, 2.0])[-1], "2 met, 0 not met, 0 without a goal")

    def test_a_bench_that_misses_one_is_run_once_more(self) -> None:
        told = self.table([3.0, 1.0], [2.0, 3.0])
        self.assertIn("1 met, 1 not met, 0 without a goal", told)
        self.assertIn("once more: run", told)
        last = "in one of the two goes: 2 met, 0 not met, 0 without a goal"
        self.assertEqual(told[-1], last)

    def test_a_goal_that_is_missed_twice_is_not_met(self) -> None:
        told = self.table([3.0, 1.0], [2.5, 1.0])
        last = "in one of the two goes: 1 met, 1 not met, 0 without a goal"
        self.assertEqual(told[-1], last)

    def test_a_word_that_names_no_bench_ends_all_before_anything_is_measured(self) -> None:
        with mock.patch.object(sys, "argv", ["all.py", "run", "runs"]):
            with self.assertRaises(SystemExit) as ended:
                importlib.import_module("all").main()
        self.assertIn("runs is none of the benches", str(ended.exception))
