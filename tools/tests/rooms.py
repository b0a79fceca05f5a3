"""A room for a test: a folder of its own in which a tree is made."""

from __future__ import annotations

import os
import shutil
import tempfile
import unittest
from unittest import mock

from tests import stand_in


class Room(unittest.TestCase):
    """A test with a fresh folder `self.room`, a tree `self.top` in it, and no program."""

    def setUp(self) -> None:
        self.room = tempfile.mkdtemp(dir="/dev/shm" if os.path.isdir("/dev/shm") else None)
        self.addCleanup(shutil.rmtree, self.room, ignore_errors=True)
        self.top = os.path.join(self.room, "tree")
        os.mkdir(self.top)
        for name in "call", "called":
            patch = mock.patch(f"txforest.jobs.{name}", getattr(stand_in, name))
            patch.start()
            self.addCleanup(patch.stop)

    def write(self, path: str, text: str | bytes = "", mode: int = 0o644) -> str:
        """Makes a file of the tree, and the directories above it; answers where it stands."""
        where = os.path.join(self.top, path)
        os.makedirs(os.path.dirname(where), exist_ok=True)
        with open(where, "wb") as file:
            file.write(text.encode() if isinstance(text, str) else text)
            os.fchmod(file.fileno(), mode)
        return where

    def read(self, path: str) -> str:
        """What a file of the tree holds."""
        with open(os.path.join(self.top, path), encoding="utf-8") as file:
            return file.read()

    def spec(self, text: str) -> str:
        """A description beside the tree; answers where it stands."""
        where = os.path.join(self.room, "spec")
        with open(where, "w", encoding="utf-8") as file:
            file.write(text)
        return where

    def root(self) -> int:
        """A descriptor of the tree, which is closed behind the test."""
        fd = os.open(self.top, os.O_RDONLY | os.O_DIRECTORY)
        self.addCleanup(os.close, fd)
        return fd

    def left(self) -> list[str]:
        """What stands beside the tree and in its queue, but what stays and the description."""
        found = set(os.listdir(self.room)) - {"tree", "tree.lock", "spec", "tree.queue"}
        if os.path.isdir(self.top + ".queue"):
            found |= set(os.listdir(self.top + ".queue"))
        return sorted(found)
