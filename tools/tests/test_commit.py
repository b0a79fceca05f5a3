"""Commits by files that are killed, cut off, refused and disturbed."""

from __future__ import annotations

import unittest

from . import breaking


class Broken(unittest.TestCase):
    """Small counts; checks/live.py has the large ones."""

    def test_a_kill_at_any_call_leaves_the_tree_before_or_after(self) -> None:
        breaking.kills(30)

    def test_a_power_cut_at_any_call_leaves_the_tree_before_or_after(self) -> None:
        breaking.cuts(40)

    def test_a_refused_call_tells_no_lie_and_stops_no_later_job(self) -> None:
        breaking.refused(40)

    def test_nobody_else_loses_bytes_in_a_race(self) -> None:
        breaking.races(50)
