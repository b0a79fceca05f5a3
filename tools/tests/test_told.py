"""What the tools tell of what is missing or refused: enough for a user to go on."""

from __future__ import annotations

import os
import signal
import subprocess
import sys
import tempfile
import unittest
from unittest import mock

from txforest import apply, calls, log, picture, place, program, schedules
from txforest.do import hint_of
from txforest.statuses import Failed, Status

TOOLS = os.path.dirname(os.path.dirname(os.path.abspath(__file__)))
# The tests may run where SIGINT is ignored, as behind `&` in a script.
INTERRUPTED = """
import os, runpy, signal, sys

signal.signal(signal.SIGINT, signal.default_int_handler)

class Interrupts:
    def find_spec(self, name, path=None, target=None):
        if name == "txforest.statuses":
            os.kill(os.getpid(), 2)

sys.meta_path.insert(0, Interrupts())
runpy.run_path(sys.argv.pop(), run_name="__main__")
"""
# Python drops what is raised while it clears an object away.
LOST = """
import os, signal, time

signal.signal(signal.SIGINT, signal.default_int_handler)
from txforest import terminal

class Cleared:
    def __del__(self):
        os.kill(os.getpid(), 2)
        time.sleep(0)

def tool():
    Cleared()
    time.sleep(20)
    print("went on")

terminal.main(tool)
"""
# A commit holds signals. One that was lost just before waits with them.
HELD = """
import os, signal, sys, time

signal.signal(signal.SIGINT, signal.default_int_handler)
from txforest import commit, terminal

class Cleared:
    def __del__(self):
        os.kill(os.getpid(), 2)
        time.sleep(0)

def tool():
    terminal.SOON = 0.1
    Cleared()
    before = commit.hold_signals()
    time.sleep(0.3)
    os.write(1, b"committed")
    if sys.argv[1] == "let":
        commit.let_signals(before)
        time.sleep(20)

terminal.main(tool)
"""


class Told(unittest.TestCase):
    """Each in a folder of its own, which is where the caller works."""

    def setUp(self) -> None:
        room = tempfile.TemporaryDirectory()
        self.addCleanup(room.cleanup)
        self.room = os.path.realpath(room.name)
        self.addCleanup(os.chdir, os.getcwd())
        os.chdir(self.room)

    def write(self, name: str, text: str) -> str:
        with open(name, "w", encoding="utf-8") as it:
            it.write(text)
        return name

    def test_a_job_without_a_script_is_told_what_is_needed(self) -> None:
        os.mkdir("tree")
        for words in (["tree"], ["tree", "spec"], ["--in-place=tree", "spec"]):
            with mock.patch("sys.argv", ["txforest-apply", *words]):
                with self.assertRaises(Failed) as caught:
                    apply.tool()
            self.assertEqual(caught.exception.status, Status.USAGE)
            self.assertIn("SPEC and a SCRIPT are needed", caught.exception.lines[0])
            self.assertEqual(caught.exception.lines[-1], "--help tells more")

    def test_schedules_names_a_folder_that_is_not_there(self) -> None:
        words = ["txforest-schedules", self.write("spec", "dir\n"), "nothing"]
        with mock.patch("sys.argv", [*words, self.write("script", "txn { }\n")]):
            with self.assertRaises(Failed) as caught:
                schedules.tool()
        self.assertEqual(caught.exception.status, Status.UNREAD)
        self.assertEqual(list(caught.exception.lines), ["nothing: no folder stands there"])

    def test_a_picture_is_told_by_the_name_that_was_given(self) -> None:
        with self.assertRaises(OSError) as caught:
            picture.written("missing/p.svg", b"")
        self.assertEqual(caught.exception.filename, "missing/p.svg")

    def test_a_log_that_cant_be_written_is_told_once(self) -> None:
        os.mkdir("log")
        with mock.patch("txforest.log.tell") as told:
            for _ in range(2):  # a commit writes the line, and the end of a job looks for it again
                log.put_line(b"log", b"do-1", b"now", b"0", b"tree")
            self.assertEqual(told.call_count, 1)
            log.put_line(b"log", b"do-2", b"now", b"0", b"tree")
            self.assertEqual(told.call_count, 2)

    def test_where_no_place_can_be_made_the_folder_is_told(self) -> None:
        refused = PermissionError(13, "Permission denied")
        home = os.open(self.room, os.O_RDONLY)
        self.addCleanup(os.close, home)
        with mock.patch.object(calls.S, "mkdir", side_effect=refused):
            with self.assertRaises(PermissionError) as caught:
                place.new_place(home, b".t.txforest-")
        self.assertEqual(caught.exception.filename, self.room)
        self.assertIn("Permission denied", caught.exception.strerror)
        self.assertIn("the job's own place", caught.exception.strerror)

    def test_a_command_that_stands_where_the_caller_was(self) -> None:
        self.write("job", "echo\n")
        os.mkdir("copy")
        os.chdir("copy")
        missing = FileNotFoundError(2, "No such file or directory")
        with mock.patch.dict("os.environ", {"OLDPWD": self.room}):
            self.assertIn(os.path.join(self.room, "job"), hint_of("./job", missing))
            self.assertEqual(hint_of("./other", missing), "")
            self.assertEqual(hint_of("job", missing), "")
            self.assertEqual(hint_of("/nothing/job", missing), "")
            self.assertIn("#!", hint_of("../job", OSError(8, "Exec format error")))

    def test_an_interrupt_behind_the_end_of_the_program_is_told_as_one(self) -> None:
        told = os.memfd_create("told")
        self.addCleanup(os.close, told)
        reading, writing = os.pipe()
        pid = program.started(["true"], writing, told, ())
        wait = os.waitpid

        def interrupted(child: int, options: int) -> tuple[int, int]:
            found = wait(child, options)
            if options == 0:
                raise SystemExit(130)
            return found

        with mock.patch("os.waitpid", interrupted), self.assertRaises(SystemExit):
            program.answer_of("true", pid, reading, told, False)

    def test_an_interrupt_while_a_tool_loads_is_no_traceback(self) -> None:
        tools = sorted(name for name in os.listdir(TOOLS) if name.startswith("txforest-"))
        self.assertEqual(len(tools), 8)
        for name in tools:
            words = [sys.executable, "-IS", "-c", INTERRUPTED, os.path.join(TOOLS, name)]
            ran = subprocess.run(words, capture_output=True, text=True, timeout=60, check=False)
            self.assertEqual((name, ran.returncode, ran.stderr), (name, -signal.SIGINT, ""))

    def test_an_interrupt_while_an_object_is_cleared_away_is_not_lost(self) -> None:
        words = [sys.executable, "-c", LOST]
        ran = subprocess.run(
            words, capture_output=True, text=True, timeout=60, check=False, cwd=TOOLS
        )
        self.assertEqual((ran.returncode, ran.stdout, ran.stderr), (130, "", ""))

    def test_a_lost_interrupt_ends_no_commit(self) -> None:
        for word, status in (("let", 130), ("hold", 0)):
            ran = subprocess.run(
                [sys.executable, "-c", HELD, word],
                capture_output=True,
                text=True,
                timeout=60,
                check=False,
                cwd=TOOLS,
            )
            told = (word, ran.returncode, ran.stdout, ran.stderr)
            self.assertEqual(told, (word, status, "committed", ""))


if __name__ == "__main__":
    unittest.main()
