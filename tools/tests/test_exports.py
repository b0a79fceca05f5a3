"""Import and export: nothing left out goes, no edit is undone, nobody reads what he may not."""

from __future__ import annotations

import os
import random
import shutil
import stat
import time
import unittest
from collections.abc import Callable
from contextlib import redirect_stdout
from functools import partial
from io import StringIO
from typing import Any
from unittest import mock

from txforest import exports, imports, view
from txforest.attributes import Kept, Left, Record, read_record
from txforest.statuses import Failed, Status

from .breaking import child, ended, forked
from .trees import picture, read, work_folder, write

NOBODY = 65534


class Trees(unittest.TestCase):
    def setUp(self) -> None:
        room = work_folder()
        self.top = room.__enter__()
        self.addCleanup(room.__exit__, None, None, None)
        self.tree, self.folder, self.out = (f"{self.top}/{name}" for name in ("t", "f", "out"))
        self.told: list[str] = []
        for module in ("imports", "exports", "attempt"):
            patch = mock.patch(f"txforest.{module}.tell", self.told.append)
            patch.start()
            self.addCleanup(patch.stop)

    def run_tool(self, tool: Any, *words: str) -> int:
        """The status of a tool with these words."""
        with mock.patch("sys.argv", ["tool", *words]), redirect_stdout(StringIO()):
            try:
                return int(tool())
            except Failed as failed:
                self.told += failed.lines
                return int(failed.status)

    def take(self, *words: str, status: int = 0) -> None:
        """Imports the tree, and makes OUT a copy of the folder."""
        for path in (self.folder, self.out):
            shutil.rmtree(path, ignore_errors=True)
        found = self.run_tool(imports.tool, *words, self.tree, self.folder)
        self.assertEqual(found, status, self.told)
        if not status:
            shutil.copytree(self.folder, self.out)

    def give(self, *words: str, status: int = 0) -> None:
        """Exports OUT with what was kept."""
        kept = ("--attributes", self.folder + ".attributes")
        found = self.run_tool(exports.tool, *kept, *words, self.out, self.tree)
        self.assertEqual(found, status, self.told)

    def new_tree(self) -> None:
        """A tree with all that there is, some of which can't be taken."""
        for name in ("bin", "data/deep", "odd"):
            os.makedirs(f"{self.tree}/{name}")
        write(f"{self.tree}/bin/run", "#!/bin/sh\n")
        os.chmod(f"{self.tree}/bin/run", 0o4755)
        write(f"{self.tree}/data/a", "a")
        write(f"{self.tree}/data/deep/b", "b")
        os.chmod(f"{self.tree}/data", 0o2751)
        os.chmod(f"{self.tree}/data/a", 0o640)
        os.symlink("data/a", f"{self.tree}/to a")
        os.symlink(f"{self.tree}/data", f"{self.tree}/in")
        os.utime(f"{self.tree}/data/a", ns=(10**18, 10**18))

    def leave(self) -> list[str]:
        """Entries that can't be taken."""
        with open(f"{self.tree}/data/large", "wb") as it:
            it.truncate(1_048_577)
        os.mkfifo(f"{self.tree}/odd/pipe")
        write(f"{self.tree}/odd/\udcff", "no UTF-8")
        return ["data/large", "odd/pipe", "odd/\udcff"]


class Exports(Trees):
    def test_there_and_back(self) -> None:
        self.new_tree()
        self.take()
        before = picture(self.tree)
        shutil.move(self.tree, f"{self.top}/old")
        self.give()
        after = picture(self.tree)
        link = before.pop("in"), after.pop("in")
        self.assertEqual(after, before)
        self.assertEqual([it[3] for it in link], [f"{self.tree}/data"] * 2)
        for path in before:
            old, new = os.lstat(f"{self.top}/old/{path}"), os.lstat(f"{self.tree}/{path}")
            self.assertEqual(new.st_mtime_ns, old.st_mtime_ns, path)
        # And an export of what is there already changes nothing, not even an inode.
        numbers = {path: os.lstat(f"{self.tree}/{path}").st_ino for path in before}
        self.give("--replace")
        self.assertEqual(numbers, {p: os.lstat(f"{self.tree}/{p}").st_ino for p in numbers})

    def test_what_was_left_out_stays(self) -> None:
        self.new_tree()
        left = self.leave()
        numbers = [os.lstat(f"{self.tree}/{path}").st_ino for path in left]
        self.take(status=1)
        self.assertEqual(sorted(os.listdir(self.top)), ["t"])
        self.take("--leave-out")
        for turn in range(3):
            write(f"{self.out}/data/a", f"turn {turn}")
            self.give("--replace")
            self.assertEqual(read(f"{self.tree}/data/a"), f"turn {turn}")
            self.assertEqual([os.lstat(f"{self.tree}/{p}").st_ino for p in left], numbers)
            self.take("--leave-out")
        self.assertEqual(sorted(os.listdir(self.top)), ["f", "f.attributes", "out", "t", "t.lock"])
        # Nor can a directory go, or an entry come, that is in its way.
        shutil.rmtree(f"{self.out}/odd")
        self.give("--replace", status=2)
        os.mkdir(f"{self.out}/odd")
        write(f"{self.out}/odd/pipe", "in the way")
        self.give("--replace", status=2)
        self.assertEqual([os.lstat(f"{self.tree}/{p}").st_ino for p in left], numbers)
        with open(f"{self.folder}.attributes", "rb") as it:
            record = read_record(it.read())
        self.assertEqual([it.path for it in record.left], sorted(left))

    def test_no_edit_is_undone(self) -> None:
        self.new_tree()
        self.take()
        write(f"{self.tree}/data/deep/b", "edited")
        write(f"{self.tree}/data/new", "came")
        os.unlink(f"{self.tree}/bin/run")
        write(f"{self.out}/data/a", "changed")
        before = picture(self.tree)
        self.give("--replace", status=Status.CHANGING)
        self.assertEqual(picture(self.tree), before)
        self.assertTrue(any("/data/new: is another than at the import" in it for it in self.told))
        self.give("--replace", "--merge")
        self.assertEqual(read(f"{self.tree}/data/a"), "changed")
        self.assertEqual(read(f"{self.tree}/data/deep/b"), "edited")
        self.assertEqual(read(f"{self.tree}/data/new"), "came")
        self.assertFalse(os.path.exists(f"{self.tree}/bin/run"))

    def test_edits_that_clash(self) -> None:
        clashes: list[tuple[Callable[[], None], Callable[[], None]]] = [
            (lambda: write(f"{self.tree}/data/a", "x"), lambda: write(f"{self.out}/data/a", "y")),
            (lambda: os.unlink(f"{self.tree}/data/a"), lambda: write(f"{self.out}/data/a", "y")),
            (lambda: write(f"{self.tree}/data/a", "x"), lambda: os.unlink(f"{self.out}/data/a")),
            (lambda: write(f"{self.tree}/new", "x"), lambda: write(f"{self.out}/new", "y")),
            (
                lambda: write(f"{self.tree}/data/deep/c", "x"),
                lambda: shutil.rmtree(f"{self.out}/data/deep"),
            ),
            (
                lambda: shutil.rmtree(f"{self.tree}/data/deep"),
                lambda: write(f"{self.out}/data/deep/c", "y"),
            ),
        ]
        for theirs, ours in clashes:
            shutil.rmtree(self.tree, ignore_errors=True)
            self.new_tree()
            self.take()
            theirs()
            ours()
            before = picture(self.tree)
            self.give("--replace", "--merge", status=Status.CHANGING)
            self.assertEqual(picture(self.tree), before)

    def test_two_loops_count(self) -> None:
        self.new_tree()
        write(f"{self.tree}/n", "0")
        folders = [f"{self.top}/f{n}" for n in range(2)]
        children = [forked(partial(self.loop, folder)) for folder in folders]
        self.assertEqual([ended(it) for it in children], [0, 0])
        self.assertEqual(read(f"{self.tree}/n"), "4\n")

    def loop(self, folder: str) -> None:
        """Counts twice, by import and export, beside somebody who does so too."""
        count = 0
        while count < 2:
            shutil.rmtree(folder, ignore_errors=True)
            if self.run_tool(imports.tool, self.tree, folder):
                continue
            write(f"{folder}/n", f"{int(read(f'{folder}/n')) + 1}\n")
            status = self.run_tool(exports.tool, "--replace", folder, self.tree)
            self.assertIn(status, (0, Status.CHANGING))
            count += not status

    def test_rights_go_with_another_content(self) -> None:
        self.new_tree()
        self.take()
        write(f"{self.out}/bin/run", "other\n")
        write(f"{self.out}/data/new", "")
        os.mkdir(f"{self.out}/data/sub")
        shutil.move(self.tree, f"{self.top}/old")
        self.give()
        for path, mode in (("bin/run", 0o755), ("data/new", 0o640), ("data/sub", 0o2751)):
            self.assertEqual(oct(stat.S_IMODE(os.lstat(f"{self.tree}/{path}").st_mode)), oct(mode))
        shutil.rmtree(self.tree)
        shutil.move(f"{self.top}/old", self.tree)
        self.give("--replace")
        self.assertEqual(oct(stat.S_IMODE(os.lstat(f"{self.tree}/bin/run").st_mode)), oct(0o755))
        self.assertEqual(oct(stat.S_IMODE(os.lstat(f"{self.tree}/data").st_mode)), oct(0o2751))

    def test_flags(self) -> None:
        self.new_tree()
        for words, mode in (((), 0o750), (("--no-flags",), 0o640)):
            write(f"{self.tree}/data/a", "a")
            os.chmod(f"{self.tree}/data/a", 0o640)
            self.take(*words)
            with open(f"{self.out}/.forest-links", "rb") as it:
                table = it.read()
            self.assertEqual(table.startswith(b"version 2\n"), not words)
            if not words:
                with open(f"{self.out}/.forest-links", "wb") as it:
                    it.write(table.replace(b"/in", b"/data/a *\n/in"))
            write(f"{self.out}/data/a", "other")
            self.give("--replace")
            self.assertEqual(stat.S_IMODE(os.lstat(f"{self.tree}/data/a").st_mode), mode)
            self.assertTrue(os.lstat(f"{self.tree}/bin/run").st_mode & 0o111)

    def test_links(self) -> None:
        self.new_tree()
        self.take()
        with open(f"{self.out}/.forest-links", "wb") as it:
            it.write(b"version 2\n/bin/run *\n/data/deep/l -> /bin\n/in -> /data/deep\n")
        self.give("--replace")
        self.assertEqual(os.readlink(f"{self.tree}/data/deep/l"), "../../bin")
        self.assertEqual(os.readlink(f"{self.tree}/in"), "data/deep")
        self.assertFalse(os.path.lexists(f"{self.tree}/to a"))

    def test_only(self) -> None:
        self.new_tree()
        self.take("--only", "data/**")
        self.assertEqual(sorted(os.listdir(self.folder)), ["data"])
        write(f"{self.out}/data/a", "changed")
        write(f"{self.tree}/bin/new", "not asked for")
        self.give("--replace")
        self.assertEqual(read(f"{self.tree}/data/a"), "changed")
        self.assertTrue(os.path.exists(f"{self.tree}/bin/new"))

    def test_what_is_refused(self) -> None:
        self.new_tree()
        self.take()
        os.unlink(f"{self.folder}.attributes")
        found = self.run_tool(exports.tool, "--replace", self.out, self.tree)
        self.assertEqual(found, 2)
        for words, status in (
            ((self.out, self.tree), 6),
            ((self.tree, self.top + "/x"), 4),
            ((self.out, self.out + "/x"), 2),
            ((self.top + "/none", self.top + "/x"), 2),
            (("--merge", self.out, self.top + "/x"), 2),
            (("--attributes", "/dev/null", self.out, self.top + "/x"), 2),
            (("--attributes", "/none", self.out, self.top + "/x"), 2),
        ):
            self.assertEqual(self.run_tool(exports.tool, *words), status, words)
        for words, status in (
            ((self.tree, self.tree + "/x"), 2),
            ((self.tree, self.out), 6),
            ((self.top + "/none", self.top + "/x"), 2),
            ((self.out, self.top + "/x"), 1),
        ):
            self.assertEqual(self.run_tool(imports.tool, *words), status, words)
        self.assertEqual(sorted(os.listdir(self.top)), ["f", "out", "t"])


class Imports(Trees):
    def test_a_name_that_turns_into_a_link(self) -> None:
        self.new_tree()
        write(f"{self.top}/secret", "secret")
        original = view.copied

        def copied(*words: Any) -> set[str]:
            if os.path.isfile(f"{self.tree}/data/a") and not os.path.islink(f"{self.tree}/data/a"):
                os.unlink(f"{self.tree}/data/a")
                os.symlink(f"{self.top}/secret", f"{self.tree}/data/a")
                os.rename(f"{self.tree}/data/deep", f"{self.tree}/data/away")
                os.symlink(self.top, f"{self.tree}/data/deep")
            return original(*words)

        with mock.patch("txforest.imports.copied", copied):
            self.take()
        for above, _, names in os.walk(self.folder):
            for name in names:
                self.assertNotIn("secret", read(os.path.join(above, name)).split("\n"))
        with mock.patch("txforest.imports.changed", return_value="data/a"):
            self.take(status=Status.CHANGING)

    def test_the_attributes_are_as_open_as_the_tree(self) -> None:
        self.new_tree()
        for mode, wanted in ((0o700, 0o600), (0o755, 0o644), (0o750, 0o640)):
            os.chmod(self.tree, mode)
            self.take()
            found = os.lstat(f"{self.folder}.attributes").st_mode
            self.assertEqual(stat.S_IMODE(found), wanted)
            self.assertEqual(stat.S_IMODE(os.lstat(self.folder).st_mode), mode)
        self.assertEqual(stat.S_IMODE(os.lstat(f"{self.folder}/bin/run").st_mode), 0o755)

    @unittest.skipIf(os.geteuid(), "needs root")
    def test_attributes_of_another_user(self) -> None:
        self.new_tree()
        self.take()
        os.rename(f"{self.folder}.attributes", f"{self.out}.attributes")
        os.chown(f"{self.out}.attributes", NOBODY, NOBODY)
        words = (self.out, self.top + "/x")
        self.assertEqual(self.run_tool(exports.tool, *words), 2)
        self.assertIn("of the user 65534", self.told[-1])
        named = ("--attributes", f"{self.out}.attributes", *words)
        self.assertEqual(self.run_tool(exports.tool, *named), 0)

    def test_many_refused_entries_take_time_by_their_number(self) -> None:
        def took(number: int) -> float:
            os.makedirs(f"{self.tree}/d{number}")
            for i in range(number):
                os.symlink("/", f"{self.tree}/d{number}/{i}")
            started = time.process_time()
            self.take("--leave-out")
            shutil.rmtree(self.tree)
            return time.process_time() - started

        small = took(500)
        self.assertLess(took(3000), 18 * small + 0.3)

    def test_killed_imports_leave_nothing_for_long(self) -> None:
        self.new_tree()

        def end(_fd: int) -> None:
            os._exit(9)

        def dies() -> None:
            with mock.patch("txforest.imports.sync_all", end):
                self.run_tool(imports.tool, self.tree, self.folder)

        self.assertEqual(child(dies), 9)
        self.assertEqual(len(os.listdir(self.top)), 2)
        self.take()
        self.assertEqual(sorted(os.listdir(self.top)), ["f", "f.attributes", "out", "t"])


class Records(unittest.TestCase):
    def record(self) -> Record:
        record = Record(True, "/srv/a b", ["a/*", "-"])
        record.left = [Left("x\udcff", None, "a FIFO"), Left("y", 7, "too large")]
        record.entries = {
            "": Kept("d", 0o755, 0, 0, -5, b"00"),
            "a b": Kept("f", 0o4755, 1, 2, 10**18, b"ff", {b"user.a b": b"", b"user.b": b"\xff"}),
            "l": Kept("l", 0o777, 1, 2, 3, b"ab", {}, b"to a\n"),
        }
        return record

    def test_texts(self) -> None:
        record = self.record()
        back = read_record(record.text())
        self.assertEqual(back.text(), record.text())
        self.assertEqual(back.entries, record.entries)
        self.assertEqual((back.root, back.only, back.left), (record.root, record.only, record.left))
        old = b"txforest attributes 1\nflags no\n/ d 0755 0 0 1 00\n"
        self.assertEqual(read_record(old).entries[""].mode, 0o755)

    def test_other_texts(self) -> None:
        draw = random.Random(7)
        text = self.record().text()
        lines = text.split(b"\n")
        for _ in range(500):
            i = draw.randrange(len(lines) - 1)
            at = draw.randrange(len(lines[i]) + 1)
            bad = lines[i][:at] + draw.choice([b" ", b"%", b"\xff", b"-", b"9" * 5000, b"\n"])
            found = b"\n".join([*lines[:i], bad + lines[i][at:], *lines[i + 1 :]])
            try:
                read_record(found)
            except ValueError as number:
                self.assertGreaterEqual(int(str(number)), 1)
        for bad in (b"", b"\n", text[:-1], text.replace(b"flags yes", b"flags maybe")):
            self.assertRaises(ValueError, read_record, bad)
        self.assertRaises(ValueError, read_record, b"txforest attributes 2\nflags no\n")


if __name__ == "__main__":
    unittest.main()
