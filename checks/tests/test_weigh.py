"""The weights of crates, from the proofs that run."""

from __future__ import annotations

import os
import subprocess
import sys
import tempfile
import unittest

from tests import bench

assert bench.BENCH

import weigh  # noqa: E402

WORKS = "import sys\nsum(range(3_000_000))\nprint(flush=True)\nsys.stdin.read()"


class Weigh(unittest.TestCase):
    """What is taken for the proof of a crate."""

    def weighed(self, folder: str, *words: str) -> weigh.Weights:
        """What is weighed below a room, while a process works in a folder of it."""
        with tempfile.TemporaryDirectory() as room:
            for name in ("one/low", "other/low"):
                os.makedirs(f"{room}/{name}")
            with subprocess.Popen(
                [sys.executable, "-IS", "-c", WORKS, *words],
                cwd=f"{room}/{folder}/low",
                stdin=subprocess.PIPE,
                stdout=subprocess.PIPE,
            ) as work:
                assert work.stdout is not None
                work.stdout.readline()
                weights: weigh.Weights = {}
                is_running = weigh.weigh(os.path.realpath(f"{room}/one"), weights)
                self.assertEqual(is_running, bool(weights))
                work.communicate()
        return weights

    def test_a_build_below_the_folder_is_one(self) -> None:
        weights = self.weighed("one", "build", "--crate-name", "fx_low", "src/lib.rt")
        self.assertEqual([*weights], ["fx_low"])
        (seconds,) = weights["fx_low"].values()
        self.assertGreater(seconds, 0)

    def test_a_build_elsewhere_is_none(self) -> None:
        self.assertEqual(self.weighed("other", "build", "--crate-name", "fx_low"), {})

    def test_another_process_is_none(self) -> None:
        self.assertEqual(self.weighed("one", "fmt", "--check", "src/lib.rt"), {})
