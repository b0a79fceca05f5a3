"""What `./install` takes back, and what it says where it may not write."""

from __future__ import annotations

import os
import subprocess
import tempfile
import unittest

TOP = os.path.join(os.path.dirname(os.path.abspath(__file__)), "..", "..")


class Install(unittest.TestCase):
    """A PREFIX of one's own, with what an install has put there."""

    def setUp(self) -> None:
        room = tempfile.TemporaryDirectory()
        self.addCleanup(room.cleanup)
        self.room = room.name
        self.program = os.path.join(self.room, "program")
        with open(self.program, "w", encoding="utf-8") as it:
            it.write("#!/bin/sh\n")
        os.chmod(self.program, 0o755)

    def install(self, *words: str) -> subprocess.CompletedProcess[str]:
        """What a call says and how it ends."""
        return subprocess.run(
            [os.path.join(TOP, "install"), *words],
            env={**os.environ, "TXFOREST": self.program},
            capture_output=True,
            text=True,
            timeout=120,
            check=False,
        )

    def test_the_prefix_and_what_is_above_it_stay(self) -> None:
        prefix = os.path.join(self.room, "home", "usr")
        for path, text in (("bin/tool", ""), ("lib/txforest/installed", "bin/tool\n")):
            os.makedirs(os.path.dirname(os.path.join(prefix, path)))
            with open(os.path.join(prefix, path), "w", encoding="utf-8") as it:
                it.write(text)
        self.assertEqual(self.install("--uninstall", prefix).returncode, 0)
        self.assertTrue(os.path.isdir(prefix))
        self.assertEqual(os.listdir(prefix), [])

    def test_where_nothing_can_be_written_it_says_what_helps(self) -> None:
        ended = self.install(os.path.join(self.program, "usr"))
        self.assertEqual(ended.returncode, 1)
        self.assertIn("another PREFIX", ended.stderr)


if __name__ == "__main__":
    unittest.main()
