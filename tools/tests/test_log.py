"""Lines of logs, and what is kept of a job."""

from __future__ import annotations

import os
import unittest
from unittest import mock

from txforest import log, queue
from txforest.place import Tree

from . import queues
from .queues import JOB, SPEC, new_tree, request
from .trees import read, work_folder, write


class Logs(unittest.TestCase):
    def setUp(self) -> None:
        room = work_folder()
        self.top = room.__enter__()
        self.addCleanup(room.__exit__, None, None, None)
        self.tree = Tree(new_tree(self.top))
        self.addCleanup(self.tree.close)
        self.log = f"{self.top}/log of jobs"
        self.asked = request(JOB % "a")
        self.asked.log = self.log

    def lines(self) -> list[list[str]]:
        return [line.split(" ")[1:3] for line in read(self.log).splitlines()]

    def test_numbers_go_on(self) -> None:
        for ident, status in (("a", 0), ("b", 1), ("c", 13), ("d", 11), ("c", 0), ("e", 0)):
            log.append(self.tree, ident, self.asked, status)
        wanted = [["1", "0"], ["-", "1"], ["2", "13"], ["-", "11"], ["3", "0"]]
        self.assertEqual(self.lines(), wanted)
        words = read(self.log).splitlines()[0].split(" ")
        self.assertEqual(words[3:], ["a", self.tree.path, "spec", "s0"])

    def test_a_torn_line_and_a_long_log(self) -> None:
        log.append(self.tree, "a", self.asked, 0)
        with open(self.log, "ab") as it:
            it.write(b"2026-01-01T00:00:00Z 7 0 torn")
        log.append(self.tree, "b", self.asked, 0)
        self.assertEqual(len(read(self.log).splitlines()), 3)
        self.assertEqual(self.lines()[-1], ["2", "0"])
        with open(self.log, "ab") as it:
            it.write(b"t - 1 id tree spec\n" * 10_000)
        log.append(self.tree, "c", self.asked, 0)
        self.assertEqual(self.lines()[-1], ["3", "0"])

    def test_what_can_not_be_written_is_told(self) -> None:
        os.mkfifo(f"{self.top}/pipe")
        for path in (f"{self.top}/pipe", f"{self.top}/none/log", self.tree.path):
            self.asked.log = path
            with mock.patch("txforest.log.tell") as tell:
                log.append(self.tree, "a", self.asked, 0)
            self.assertIn("gets no line of the job a", tell.call_args[0][0])
        with mock.patch("txforest.log.tell") as tell:
            log.hand_out("log", "x", b"no line", False)
        self.assertEqual(tell.call_count, 1)

    def test_the_commit_carries_the_line(self) -> None:
        ident = queue.new_ident()
        self.assertEqual(queues.lead(self.tree, self.asked, ident).status, 0)
        log.append(self.tree, ident, self.asked, 0)
        self.assertEqual(self.lines(), [["1", "0"]])

    def test_what_is_kept_is_on_the_device_before_the_commit(self) -> None:
        seen: list[list[str]] = []

        def sync_all(fd: int) -> None:
            self.assertEqual(read(f"{self.tree.path}/n"), "0")
            seen.append(sorted(os.listdir(fd)) + sorted(os.listdir(f"/proc/self/fd/{fd}/folder")))

        self.asked.keep = f"{self.top}/kept"
        with mock.patch("txforest.log.sync_all", sync_all):
            self.assertEqual(queues.lead(self.tree, self.asked).status, 0)
        self.assertEqual(seen, [["0", "folder", "report", "spec", "log", "n"]])
        failed = OSError(5, "Input/output error")
        with mock.patch("txforest.log.sync_all", side_effect=failed):
            answer = queues.lead(self.tree, self.asked)
        self.assertEqual((answer.status, read(f"{self.tree.path}/n")), (9, "1"))

    def test_what_is_kept(self) -> None:
        for change in (JOB % "a", "txn { print(1) }"):
            asked = request(change)
            asked.keep = f"{self.top}/kept/deep"
            os.symlink("n", f"{self.tree.path}/link")
            before = sorted(os.listdir(self.tree.path))
            ident = queue.new_ident()
            answer = queues.lead(self.tree, asked, ident)
            at = f"{asked.keep}/{ident}"
            self.assertEqual(sorted(os.listdir(at)), ["0", "folder", "report", "spec"])
            self.assertEqual(read(f"{at}/0"), change)
            self.assertEqual(read(f"{at}/spec").encode(), SPEC)
            self.assertEqual(read(f"{at}/report").encode(), answer.report)
            before.remove("link")
            self.assertEqual(sorted(os.listdir(f"{at}/folder")), [".forest-links", *before])
            os.unlink(f"{self.tree.path}/link")
        bad = request("txn { abort }")
        bad.keep = f"{self.top}/kept/deep"
        queues.lead(self.tree, bad, "x")
        log.drop(bad.keep, "x")
        self.assertEqual(len(os.listdir(bad.keep)), 2)
        write(f"{self.top}/file", "")
        bad = request(JOB % "b")
        bad.keep = f"{self.top}/file"
        self.assertEqual(queues.lead(self.tree, bad).status, 9)


if __name__ == "__main__":
    unittest.main()
