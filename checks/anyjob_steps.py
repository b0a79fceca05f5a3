"""Jobs that are killed at each step and at each system call of a commit, for checks/anyjob.py."""

from __future__ import annotations

import fcntl
import os
import random
import shutil
import signal
import time
import traceback
from collections.abc import Callable

from anyjob_histories import load

SPEC = 'dir\n'
STEPS = ("begun", "ran", "prepared", "locked", "gathered", "decided", "valued", "put", "told")
EARLY = ("begun", "ran", "prepared")
FOLLOWED = (*EARLY, "locked")  # the steps of a job that another one does
CALLS = (
    "open", "close", "down", "look", "mkdir", "unlink", "rmdir", "link", "link_open", "rename",
    "rename2", "write", "fsync", "chown", "chmod", "chmod_at",
)  # fmt: skip
NAMES = "abc"


class Jobs:
    """A tree with the files a, b, c and x, each of which a job of its name appends a line to."""

    def __init__(self, room: str) -> None:
        self.room = room
        self.top = os.path.join(room, "tree")
        os.makedirs(self.top)
        self.spec = os.path.join(room, "spec")
        with open(self.spec, "w", encoding="utf-8") as file:
            file.write(SPEC)
        for name in (*NAMES, "x"):
            self.write(name, "0\n")

    def write(self, name: str, text: str) -> None:
        """Writes a file of the tree."""
        with open(os.path.join(self.top, name), "w", encoding="utf-8") as file:
            file.write(text)

    def read(self, name: str) -> str:
        """What a file of the tree holds."""
        with open(os.path.join(self.top, name), encoding="utf-8") as file:
            return file.read()

    def begin(self, name: str, step: str | None = None, call: int | None = None) -> int:
        """Starts a job, which is killed at a step or before a call; the number of its process."""
        pid = os.fork()
        if pid:
            return pid
        status = 99
        try:
            os.closerange(3, 256)  # a lock that is handed down counts as held
            err = os.open(os.path.join(self.room, "err"), os.O_WRONLY | os.O_CREAT | os.O_APPEND)
            os.dup2(err, 2)
            status = self.job(name, step, call)
        except SystemExit as ended:
            status = int(ended.code or 0)
        except BaseException:
            traceback.print_exc()
        os._exit(status)

    def job(self, name: str, step: str | None, call: int | None) -> int:
        """The job, in a process of its own."""
        from txforest import calls, do, jobs, terminal

        terminal.take_signals()

        def reached(clerk: object, at: str) -> None:
            if at == step:
                os.kill(os.getpid(), signal.SIGKILL)

        setattr(jobs.Clerk, "reached", reached)
        if call is not None:
            setattr(calls, "S", Killed(call, os.path.join(self.room, "count")))
        words = ["--tries", "9", self.top, self.spec, "--", "sh", "-c", f"echo {name} >> {name}"]
        status = do.transaction(do.given_words(words))
        killed: object = calls.S
        if isinstance(killed, Killed):
            killed.tell()
        return status

    def prepared(self) -> int:
        """How many jobs stand prepared."""
        queue = self.top + ".queue"
        if not os.path.isdir(queue):
            return 0
        return sum(
            os.path.exists(os.path.join(queue, name, "job")) for name in os.listdir(queue)
        )

    def errors(self) -> str:
        """What the jobs told on standard error."""
        with open(os.path.join(self.room, "err"), encoding="utf-8") as file:
            return file.read()[-3000:]

    def left(self) -> list[str]:
        """What is left beside the tree."""
        found = [name for name in os.listdir(self.room) if name.startswith(".")]
        return found + os.listdir(self.top + ".queue")


class Killed:
    """The system calls of a commit; before a number of them the process is killed."""

    def __init__(self, at: int, file: str) -> None:
        from txforest import calls

        self.real = calls.Calls()
        self.at = at
        self.file = file
        self.count = 0

    def __getattr__(self, name: str) -> object:
        found = getattr(self.real, name)
        if name not in CALLS:
            return found

        def call(*words: object, **named: object) -> object:
            self.count += 1
            if self.count == self.at:
                os.kill(os.getpid(), signal.SIGKILL)
            return found(*words, **named)

        return call

    def tell(self) -> None:
        """Leaves the number of calls in a file."""
        with open(self.file, "w", encoding="utf-8") as file:
            file.write(str(self.count))


def wait_until(what: Callable[[], object], seconds: float = 60) -> bool:
    """Waits until something is so; False if it does not come to be."""
    end = time.monotonic() + seconds
    while not what():
        if time.monotonic() > end:
            return False
        time.sleep(0.005)
    return True


def status_of(pid: int) -> int:
    """The status of a process, less than 0 for a signal."""
    return os.waitstatus_to_exitcode(os.waitpid(pid, 0)[1])


def one(
    room: str, step: str | None, call: int | None, follows: bool = False
) -> tuple[bool, str]:
    """Three jobs, of which one is killed, the first or one that follows: whether the killed one's
    change stands, and what is wrong."""
    it = Jobs(room)
    pids: dict[str, int] = {}
    with open(it.top + ".lock", "w", encoding="utf-8") as lock:
        fcntl.flock(lock, fcntl.LOCK_EX)
        for count, name in enumerate("bac" if follows else "abc", 1):
            is_killed = name == "a"
            pids[name] = it.begin(name, step if is_killed else None, call if is_killed else None)
            gone = step in EARLY and "a" in pids
            wait_until(lambda: it.prepared() >= count - gone)
            time.sleep(0.05)  # it waits for the lock by now, behind those before it
    statuses = [status_of(pids[name]) for name in NAMES]
    last = status_of(it.begin("x"))
    found = {name: it.read(name) for name in (*NAMES, "x")}
    killed = -9 if call is None or statuses[0] == -9 else 0
    right = (
        statuses == [killed, 0, 0]
        and last == 0
        and all(found[name] == f"0\n{name}\n" for name in "bcx")
        and found["a"] in ("0\n", "0\na\n")
        and not it.left()
    )
    if right:
        return found["a"] != "0\n", ""
    told = f"{step or call}: {statuses}, {last}, {found}, left {it.left()}: {it.errors()}"
    return found["a"] != "0\n", told


def kills(top: str, part: int) -> tuple[str, str]:
    """Kills a leader at each step, and at each `part`-th call; what is told and what is wrong."""
    load()
    kept = 0
    for follows, steps in ((False, STEPS), (True, FOLLOWED)):
        for step in steps:
            room = os.path.join(top, step)
            stands, wrong = one(room, step, None, follows)
            if wrong:
                return "", f"{'a follower, ' if follows else ''}{wrong}"
            kept += stands
            shutil.rmtree(room)
    room = os.path.join(top, "count")
    one(room, None, 10**9)
    with open(os.path.join(room, "count"), encoding="utf-8") as file:
        calls = int(file.read())
    shutil.rmtree(room)
    tried = stood = 0
    for call in range(1, calls + 1, part):
        room = os.path.join(top, f"call{call}")
        stands, wrong = one(room, None, call)
        if wrong:
            return "", f"call {wrong}"
        tried, stood = tried + 1, stood + stands
        shutil.rmtree(room)
    told = (
        f"one of three jobs, killed at each of {len(STEPS)} steps as their leader and of "
        f"{len(FOLLOWED)} as a follower ({kept} kept), and before {tried} of {calls} calls as the "
        f"leader ({stood} kept): each of the others' changes stands exactly once"
    )
    return told, ""


def at_random(top: str, count: int) -> tuple[str, str]:
    """Kills jobs at random moments, one after another."""
    load()
    r = random.Random(5)
    it = Jobs(os.path.join(top, "random"))
    expected, kept = "0\n", 0
    for number in range(count):
        pid = it.begin("a")
        time.sleep(r.random())
        os.kill(pid, r.choice([signal.SIGKILL, signal.SIGTERM]))
        status = status_of(pid)
        status_of(it.begin("x"))  # whoever comes next ends what was begun
        now = it.read("a")
        stands = now != expected
        lies = status >= 0 and stands != (status == 0)  # a status of its own says what is so
        if now not in (expected, expected + "a\n") or lies:
            return "", f"kill {number}: {now!r} behind {expected!r}, status {status}: {it.errors()}"
        kept += stands
        expected = now
    told = f"{count} jobs ended at random moments: {kept} kept, and told so; of the others nothing"
    return told, f"left {it.left()}" if it.left() else ""
