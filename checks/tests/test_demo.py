"""What `./demo` says of the program that it runs."""

from __future__ import annotations

import os
import subprocess
import tempfile
import unittest

TOP = os.path.join(os.path.dirname(os.path.abspath(__file__)), "..", "..")
PROGRAM = """#!/bin/sh
mkdir "$4"
: > "$4/written"
echo "$1 was done"
"""


class Demo(unittest.TestCase):
    """A program that is named is run, and is not said to be proved."""

    def test_a_program_that_is_named_may_be_any(self) -> None:
        with tempfile.TemporaryDirectory() as room:
            program = os.path.join(room, "program")
            with open(program, "w", encoding="utf-8") as it:
                it.write(PROGRAM)
            os.chmod(program, 0o755)
            told = subprocess.run(
                [os.path.join(TOP, "demo")],
                env={**os.environ, "TXFOREST": program, "TMPDIR": room},
                capture_output=True,
                text=True,
                timeout=60,
                check=True,
            ).stdout.splitlines()
        self.assertEqual(told[0], f"{program} is run, as TXFOREST is set. Nothing is proved.")
        self.assertEqual(told[1], "run was done")
        self.assertEqual(told[-1], "written")
