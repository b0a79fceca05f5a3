"""`bench/build.py` over an `rt` that proves nothing and prints what `rt ci` prints."""

from __future__ import annotations

import os
import pty
import shutil
import signal
import subprocess
import sys
import tempfile
import time
import unittest
from collections.abc import Callable

from tests.bench import BENCH

MODULES = ("build.py", "progress.py", "weights")
LINES = """# Low and high.

fx_low: indexmap
fx_one may_wait=2: fx_low
fx_two: fx_low
fx_high: fx_one fx_two
txforest: fx_high
test_low: fx_low
"""
CRATES = ["fx_low", "fx_one", "fx_two", "fx_high", "txforest"]
RT = f"""#!{sys.executable} -IS
import os, subprocess, sys, time

def say(text):
    print("rt:", text, flush=True)

if sys.argv[1:] == ["version"]:
    print("a kit")
elif sys.argv[1:] == ["doc"]:
    print(os.environ["FAKE_KIT"] + "/START-HERE.md")
elif sys.argv[1:] == ["ci"]:
    # As with rt: the shell ends its group when rt ends.
    ends, _held = os.pipe()
    quiet = subprocess.DEVNULL
    words = ["sh", "-c", "read _; kill -9 0"]
    guard = subprocess.Popen(words, preexec_fn=os.setpgrp, stdin=ends, stdout=quiet, stderr=quiet)
    join = lambda: os.setpgid(0, guard.pid)
    proof = subprocess.Popen(["sleep", "600"], preexec_fn=join, stdout=quiet, stderr=quiet)
    with open(os.environ["FAKE_STARTED"], "w") as started:
        print(os.getpid(), guard.pid, proof.pid, file=started)
    crates = [line.split(":")[0].split()[0] for line in open("crates.txt")]
    kept, fails = os.environ.get("FAKE_KEPT", "").split(), os.environ.get("FAKE_FAILS", "")
    for at, crate in enumerate(crates):
        if crate in kept:
            say(crate + " is kept: an earlier run on this machine proved the same files")
            continue
        if str(at) == os.environ.get("FAKE_STOPS"):
            time.sleep(600)
        time.sleep(float(os.environ.get("FAKE_PAUSE", "0")))
        print("== " + crate)
        print("fn " + crate + "::call: proved")
        say(crate + (" NOT PROVED" if crate == fails else " proved"))
    if not fails:
        os.makedirs("crates/txforest/out")
        open("crates/txforest/out/txforest", "w").close()
    print("0 passed, 1 failed" if fails else str(len(crates)) + " passed, 0 failed")
    sys.exit(bool(fails))
"""
SECONDS = 120.0


def mind_signals() -> None:
    """Takes each signal as usual, whatever the one that runs the tests ignores."""
    for number in (signal.SIGINT, signal.SIGTERM, signal.SIGHUP):
        signal.signal(number, signal.SIG_DFL)


def waited(is_so: Callable[[], bool]) -> bool:
    """Whether something comes to be so in time."""
    end = time.monotonic() + SECONDS
    while not is_so():
        if time.monotonic() > end:
            return False
        time.sleep(0.02)
    return True


def is_running(number: int) -> bool:
    """Whether a process runs; one that has ended and is waited for by nobody does not."""
    try:
        with open(f"/proc/{number}/stat", encoding="utf-8") as it:
            return it.read().rpartition(")")[2].split()[0] != "Z"
    except FileNotFoundError:
        return False


class Build(unittest.TestCase):
    """What is built, what is said, and how it ends."""

    def setUp(self) -> None:
        room = tempfile.TemporaryDirectory()
        self.addCleanup(room.cleanup)
        self.room = room.name
        for name in ("bin", "rattle-kept", "top/bench", "top/crates"):
            os.makedirs(self.path(name))
        for name in MODULES:
            shutil.copy(os.path.join(BENCH, name), self.path("top/bench"))
        self.write("top/crates.txt", LINES)
        self.write("top/HANDLES", "Handles allowed: none.\n")
        for name in CRATES:
            os.mkdir(self.path(f"top/crates/{name}"))
            self.write(f"top/crates/{name}/lib.rt", f"// {name}\n")
        self.write("bin/rt", RT)
        os.chmod(self.path("bin/rt"), 0o755)
        self.words = {
            **os.environ,
            "PATH": f"{self.path('bin')}:{os.environ['PATH']}",
            "XDG_CACHE_HOME": self.path("cache"),
            "FAKE_KIT": self.path("kit"),
            "FAKE_STARTED": self.path("started"),
        }

    def path(self, name: str) -> str:
        """A path of this test's room."""
        return os.path.join(self.room, name)

    def write(self, name: str, text: str) -> None:
        """Writes a file of this test's room."""
        with open(self.path(name), "w", encoding="utf-8") as it:
            it.write(text)

    def started(self, err: int = subprocess.PIPE, **words: str) -> subprocess.Popen[str]:
        """A build that has begun, in a group of its own."""
        return subprocess.Popen(
            [sys.executable, "-B", self.path("top/bench/build.py")],
            env={**self.words, **words},
            stdout=subprocess.PIPE,
            stderr=err,
            text=True,
            start_new_session=True,
            preexec_fn=mind_signals,
        )

    def built(self, **words: str) -> tuple[int, str, str]:
        """The status and both outputs of a build."""
        with self.started(**words) as build:
            out, err = build.communicate(timeout=SECONDS)
            return build.returncode, out, err

    def processes(self) -> list[int]:
        """What the gate has started, and the gate itself."""
        with open(self.path("started"), encoding="utf-8") as it:
            return [int(word) for word in it.read().split()]

    def has_started(self) -> bool:
        """Whether the gate has said so."""
        try:
            return len(self.processes()) == 3
        except FileNotFoundError:
            return False

    def has_proved_three(self) -> bool:
        """Whether the log tells of three crates."""
        try:
            with open(self.path("cache/txforest/log"), encoding="utf-8") as it:
                return it.read().count("rt: ") == 3
        except FileNotFoundError:
            return False

    def test_it_prints_where_the_program_stands(self) -> None:
        status, out, err = self.built()
        program = self.path("cache/txforest/crates/txforest/out/txforest")
        self.assertEqual((status, out, err), (0, f"{program}\n", ""))

    def test_without_a_change_nothing_is_proved_again(self) -> None:
        self.built()
        os.remove(self.path("started"))
        self.assertEqual(self.built()[0], 0)
        self.assertFalse(self.has_started())

    def test_it_says_where_the_reasons_are_if_a_proof_fails(self) -> None:
        status, out, err = self.built(FAKE_FAILS="fx_one")
        room = self.path("cache/txforest")
        self.assertEqual((status, out, err), (1, "", f"not proved: {room}/log says why\n"))
        with open(f"{room}/log", encoding="utf-8") as it:
            self.assertIn("rt: fx_one NOT PROVED\n", it.read())

    def test_without_rt_it_says_what_is_missing(self) -> None:
        os.remove(self.path("bin/rt"))
        status, out, err = self.built(PATH=self.path("bin"))
        self.assertEqual((status, out), (1, ""))
        self.assertRegex(err, r"\Art, which proves .*\n\Z")

    def on_terminal(self, **words: str) -> tuple[int, str]:
        """The status of a build, and what it writes to a terminal."""
        leader, terminal = pty.openpty()
        with self.started(terminal, **words) as build:
            os.close(terminal)
            told = b""
            try:
                while came := os.read(leader, 4096):
                    told += came
            except OSError:
                pass
            os.close(leader)
            return build.wait(SECONDS), told.decode()

    def test_on_a_terminal_it_says_how_far_it_is(self) -> None:
        status, told = self.on_terminal(FAKE_PAUSE="0.7", FAKE_KEPT="fx_low fx_one")
        self.assertEqual(status, 0)
        count = r"\d of 5 crates proved( \(\d by an earlier run\))?"
        said = rf"{count}, \d+ min gone, about \d+ min left"
        self.assertRegex(told, rf"\A(\r{said} *)+\r *\r\Z")
        self.assertIn("(2 by an earlier run)", told)

    def test_on_a_terminal_a_failure_has_a_line_of_its_own(self) -> None:
        status, told = self.on_terminal(FAKE_PAUSE="0.5", FAKE_FAILS="fx_two")
        self.assertEqual(status, 1)
        self.assertRegex(told, r"left *\r *\rnot proved: .*/log says why\r\n\Z")

    def stopped(self, number: int, **words: str) -> tuple[int, str]:
        """A build that a signal ends: its status, and what it says. Nothing runs on."""
        with self.started(FAKE_STOPS="3", **words) as build:
            self.assertTrue(waited(self.has_proved_three))
            build.send_signal(number)
            _, err = build.communicate(timeout=SECONDS)
        for process in self.processes():
            self.assertTrue(waited(lambda: not is_running(process)), process)
        return build.returncode, err

    def test_each_signal_that_ends_it_ends_the_gate(self) -> None:
        for number in (signal.SIGINT, signal.SIGTERM, signal.SIGHUP):
            with self.subTest(number):
                status, err = self.stopped(number)
                self.assertEqual(status, 128 + number)
                said = "3 of 5 crates are proved and kept; the next call goes on from there"
                self.assertEqual(err, f"stopped: {said}\n")
                os.remove(self.path("cache/txforest/log"))

    def test_where_nothing_can_be_kept_it_says_so(self) -> None:
        os.rmdir(self.path("rattle-kept"))
        _, err = self.stopped(signal.SIGINT)
        self.assertIn("nothing is kept here, so the next call begins anew\n", err)

    def test_a_stopped_build_leaves_the_next_one_free_to_go_on(self) -> None:
        self.stopped(signal.SIGINT)
        self.assertEqual(self.built()[0], 0)
