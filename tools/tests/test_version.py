"""The version that the tools print: in the repository, and where they are installed."""

from __future__ import annotations

import os
import subprocess
import sys
import tempfile
import unittest

from txforest.terminal import version

TOOLS = os.path.dirname(os.path.dirname(os.path.abspath(__file__)))


class Version(unittest.TestCase):
    """`version` and `--version`."""

    def test_it_is_that_of_the_file(self) -> None:
        with open(os.path.join(TOOLS, "..", "VERSION"), encoding="ascii") as it:
            told = it.read()
        self.assertRegex(told, r"^[0-9]+\.[0-9]+\.[0-9]+\n$")
        self.assertEqual(version(), told.strip())

    def test_where_it_is_installed_the_file_stands_beside_the_package(self) -> None:
        with tempfile.TemporaryDirectory() as library:
            package = os.path.join(library, "txforest")
            os.mkdir(package)
            self.assertEqual(version(package), "unknown")
            with open(os.path.join(library, "VERSION"), "w", encoding="ascii") as it:
                it.write("1.2.3\n")
            self.assertEqual(version(package), "1.2.3")

    def test_a_tool_prints_it(self) -> None:
        for tool in ("txforest-report", "txforest-do"):
            words = [sys.executable, "-IS", os.path.join(TOOLS, tool), "--version"]
            ran = subprocess.run(words, capture_output=True, text=True, timeout=60, check=True)
            self.assertEqual(ran.stdout, f"{tool} {version()}\n")
