"""Random histories of jobs on one tree, for checks/anyjob.py.

Jobs run at once, each a random shell script under txforest-do or a random function of the interface
for Python. Then the accepted ones run once more, one after another in the order in which they were
accepted, with the plain commands on a copy. What each printed, and what stands in the tree, has to
be the same. A job that ended with another status than 0 is replayed on a copy of its own: also what
it printed is an answer.
"""

from __future__ import annotations

import gc
import importlib
import os
import random
import shutil
import stat
import subprocess
import sys
import time
import traceback
from collections.abc import Sequence
from typing import Any

SPEC = '<a : ("a" :: file), <b : ("b" :: file), pred(((int(a) + int(b)) < 8))>>\n'
KINDS = ("traced", "whole", "plain", "only", "python")
FAULTS = ("no reads", "no absent paths", "no listings")
FAILED, NO_VALUE = 3, 122
USED = (
    "calls", "commit", "copies", "declared", "differences", "do", "folders", "intent", "interface",
    "jobs", "lines", "links", "lock", "log", "mounts", "only", "operations", "place", "program",
    "queue", "room", "settle", "signals", "spelling", "stage", "staged", "states", "statuses",
    "survey", "terminal", "traced", "valued", "view", "waiting", "whole",
)  # fmt: skip


def load() -> None:
    """Loads the modules that jobs use: each job is a fork, and need not read them anew."""
    for name in USED:
        importlib.import_module(f"txforest.{name}")


def script_of(r: random.Random, label: str) -> str:
    """A random shell script."""
    made = [step_of(r, label) for _ in range(r.randint(1, 4))]
    if r.random() < 0.5:
        made.insert(r.randrange(len(made)), f"sleep 0.0{r.randint(1, 6)}")
    made.append(f"exit {FAILED}" if r.random() < 0.1 else "exit 0")
    return "\n".join(made) + "\n"


def step_of(r: random.Random, label: str) -> str:
    """One of the kinds of steps."""
    x, y = r.sample("abc", 2)
    n, m = r.choice("pqr"), r.choice("pqrs")
    steps = [
        f'v=$(cat {x}); w=$(cat {y}); echo "move $v $w"; if [ $v -ge 1 ];'
        f" then echo $((v-1)) > {x}; echo $((w+1)) > {y}; fi",
        f's=$(( $(cat a) + $(cat b) )); echo "sum $s";'
        f" if [ $s -gt 0 ]; then echo $(( $(cat {r.choice('ab')}) - 1 )) > {r.choice('ab')}; fi",
        'n=$(ls d | wc -l); echo "n $n"; echo $n > count',
        f'if [ -e d/{n} ]; then echo "there $(cat d/{n})"; else'
        f' echo {label} > d/{n}; echo made; fi',
        f"rm -f d/{n}; ls d",
        f"rm -rf d/sub; mkdir d/sub; echo {label} > d/sub/f; ls d/sub",
        f"mkdir -p d/sub; echo {label} > d/sub/{label}",
        f"rm -rf d/sub; mkdir -p d/sub/deep; echo {label} > d/sub/deep/{label}; ls d/sub/deep",
        f"ln -sfn {x} cur; readlink cur",
        "echo cur $(cat cur)",
        f"if [ -x {x} ]; then chmod -x {x}; echo off; else chmod +x {x}; echo on; fi",
        f"echo {label} >> log; wc -l < log",
        f"if [ -e d/{n} ]; then mv d/{n} d/{m} 2>/dev/null || echo same; fi; ls d",
        f"printf %s {label} > tmp{label}; mv tmp{label} w; ls",
        "find . -type f | sort | xargs cat | cksum",
        "rmdir d/sub 2>/dev/null && echo gone || echo kept",
        f"if [ -L k ]; then rm k; mkdir k; echo {label} > k/{label};"
        f" elif [ -d k ]; then ls k; rm -r k; echo {label} > k; else rm -f k; ln -s a k; fi;"
        f" echo k",
        "test -e nothere && echo odd",
        "if [ -L cur ]; then mv cur old; else mv old cur; fi; ls; readlink old || echo none",
        f"echo {label} > blind; true",
        f"sed -i 's/$/{label}/' w; cat w",
    ]
    return r.choice(steps)


def function_of(r: random.Random, label: str) -> list[Sequence[Any]]:
    """A random function of a transaction, as a list of what it does."""
    made: list[Sequence[Any]] = []
    for _ in range(r.randint(1, 4)):
        x, y = r.sample("abc", 2)
        n, m = r.choice("pqr"), r.choice("pqrs")
        made.append(
            r.choice(
                [
                    ("move", x, y),
                    ("sum", r.choice("ab")),
                    ("count",),
                    ("make", n, label),
                    ("drop", n),
                    ("sub", label),
                    ("nosub",),
                    ("link", x),
                    ("flag", x),
                    ("log", label),
                    ("mv", n, m),
                    ("blind", label),
                    ("walk",),
                    ("rest", r.random() * 0.04),
                ]
            )
        )
    return made


def follow(t: Any, steps: Sequence[Sequence[Any]]) -> list[Any]:
    """Does such a list with a transaction, or with a plain folder that has the same words."""
    told: list[Any] = []
    for step, *w in steps:
        if step == "move":
            v, u = int(t.read(w[0])), int(t.read(w[1]))
            told.append((v, u))
            if v >= 1:
                t.write(w[0], f"{v - 1}\n")
                t.write(w[1], f"{u + 1}\n")
        elif step == "sum":
            s = int(t.read("a")) + int(t.read("b"))
            told.append(s)
            if s > 0:
                t.write(w[0], f"{int(t.read(w[0])) - 1}\n")
        elif step == "count":
            t.write("count", f"{len(t.list('d'))}\n")
        elif step == "make":
            there = t.exists(f"d/{w[0]}")
            told.append(there)
            if there:
                told.append(t.read(f"d/{w[0]}"))
            else:
                t.write(f"d/{w[0]}", w[1])
        elif step == "drop":
            if t.exists(f"d/{w[0]}"):
                t.remove(f"d/{w[0]}")
            told.append(t.list("d"))
        elif step == "sub":
            t.write(f"d/sub/{w[0]}", w[0])
        elif step == "nosub":
            if t.exists("d/sub"):
                told.append(t.list("d/sub"))
                t.remove("d/sub")
        elif step == "link":
            told.append(t.readlink("cur"))
            t.remove("cur")
            t.symlink("cur", w[0])
        elif step == "flag":
            on = t.is_executable(w[0])
            told.append(on)
            t.set_executable(w[0], not on)
        elif step == "log":
            t.append("log", w[0] + "\n")
        elif step == "mv":
            if t.exists(f"d/{w[0]}") and w[0] != w[1]:
                t.rename(f"d/{w[0]}", f"d/{w[1]}")
        elif step == "blind":
            t.write("blind", w[0])
        elif step == "walk":
            told.append([t.read(n) for n in t.list() if t.is_file(n)])
        elif step == "rest" and not isinstance(t, PlainFolder):
            time.sleep(w[0])
    return told


class PlainFolder:
    """The words of a transaction on a folder itself."""

    def __init__(self, top: str) -> None:
        self.top = top

    def at(self, path: str) -> str:
        return os.path.join(self.top, path)

    def read(self, path: str) -> bytes:
        with open(self.at(path), "rb") as file:
            return file.read()

    def exists(self, path: str) -> bool:
        return os.path.lexists(self.at(path))

    def is_file(self, path: str) -> bool:
        return os.path.isfile(self.at(path)) and not os.path.islink(self.at(path))

    def is_executable(self, path: str) -> bool:
        return bool(os.lstat(self.at(path)).st_mode & 0o111)

    def readlink(self, path: str) -> str:
        return os.readlink(self.at(path))

    def list(self, path: str = ".") -> list[str]:
        return sorted(os.listdir(self.at(path)))

    def write(self, path: str, data: bytes | str, executable: bool | None = None) -> None:
        os.makedirs(os.path.dirname(self.at(path)), exist_ok=True)
        with open(self.at(path), "wb") as file:
            file.write(data.encode() if isinstance(data, str) else data)
        if executable is not None:
            mode = stat.S_IMODE(os.lstat(self.at(path)).st_mode)
            os.chmod(self.at(path), mode | (mode & 0o444) >> 2 if executable else mode & ~0o111)

    def append(self, path: str, data: str) -> None:
        self.write(path, (self.read(path) if self.exists(path) else b"") + data.encode())

    def set_executable(self, path: str, on: bool) -> None:
        self.write(path, self.read(path), executable=on)

    def symlink(self, path: str, target: str) -> None:
        os.symlink(target, self.at(path))

    def remove(self, path: str) -> None:
        where = self.at(path)
        is_folder = os.path.isdir(where) and not os.path.islink(where)
        shutil.rmtree(where) if is_folder else os.unlink(where)

    def rename(self, path: str, new: str) -> None:
        os.rename(self.at(path), self.at(new))


def seed(top: str) -> None:
    """The tree of each history."""
    os.makedirs(os.path.join(top, "d"))
    texts = {"a": "3\n", "b": "2\n", "c": "1\n", "log": "", "w": "w\n", "d/p": "one\n", "k": "k\n"}
    for name, text in texts.items():
        with open(os.path.join(top, name), "w", encoding="utf-8") as file:
            file.write(text)
    os.symlink("a", os.path.join(top, "cur"))


def picture(top: str) -> dict[str, tuple[object, ...]]:
    """What stands in a tree: kinds, modes, contents, texts of links."""
    found: dict[str, tuple[object, ...]] = {}
    for at, folders, files in os.walk(top):
        for name in folders + files:
            where = os.path.join(at, name)
            path, s = os.path.relpath(where, top), os.lstat(where)
            if stat.S_ISLNK(s.st_mode):
                found[path] = ("link", os.readlink(where))
            elif stat.S_ISDIR(s.st_mode):
                found[path] = ("dir", stat.S_IMODE(s.st_mode))
            else:
                with open(where, "rb") as file:
                    found[path] = (stat.S_IMODE(s.st_mode), file.read())
    return found


class History:
    """One history in a room of its own."""

    def __init__(self, kind: str, number: int, room: str, fault: str | None = None) -> None:
        self.kind = kind
        self.room = room
        self.fault = fault
        self.random = random.Random(f"{kind}{number}")
        self.top, self.spec, self.log = (os.path.join(room, n) for n in ("tree", "spec", "log"))
        seed(self.top)
        shutil.copytree(self.top, os.path.join(room, "plain"), symlinks=True)
        with open(self.spec, "w", encoding="utf-8") as file:
            file.write(SPEC)
        make = function_of if kind == "python" else script_of
        self.work = [make(self.random, f"j{k}") for k in range(self.random.randint(2, 6))]
        self.tries = 0

    def run(self) -> str | None:
        """What is wrong, or nothing. `jobs`, `tries` and `groups` are counted then."""
        statuses = self.statuses()
        entries = [line.split() for line in self.told()]
        names = {words[1]: int(words[2]) for words in entries if words[0] == "room"}
        order = []
        for words in entries:
            if words[0] == "group":
                order += [names[name] for name in words[1:]]
            elif words[0] == "alone":
                order.append(int(words[1]))
        self.tries = len(names)
        self.groups = sum(words[0] == "group" for words in entries)
        self.jobs = len(order)
        ended = sorted(k for k, status in statuses.items() if status in (0, FAILED))
        known = set(order)
        order += [k for k in ended if k not in known]  # of those that looked at nothing
        good = set(statuses.values()) <= {0, FAILED, NO_VALUE}
        if sorted(order) != ended or not good:
            return f"statuses {statuses}, order {order}: {self.errors()}"
        wrong = self.replayed(order, statuses)
        if wrong:
            return wrong
        left = set(os.listdir(self.top + ".queue")) if os.path.isdir(self.top + ".queue") else set()
        left |= {name for name in os.listdir(self.room) if name.startswith(".")}
        return f"left {left}" if left else None

    def told(self) -> list[str]:
        """The lines of the log."""
        try:
            with open(self.log, encoding="utf-8") as file:
                return file.readlines()
        except FileNotFoundError:
            return []

    def errors(self) -> str:
        """What the jobs told on standard error."""
        found = ""
        for k in range(len(self.work)):
            with open(os.path.join(self.room, f"err{k}"), encoding="utf-8") as file:
                found += file.read()
        return found[-2000:]

    def statuses(self) -> dict[int, int]:
        """The jobs run at once; the status of each."""
        pids: dict[int, int] = {}
        for k, work in enumerate(self.work):
            if self.random.random() < 0.3:
                time.sleep(self.random.random() * 0.08)
            pid = os.fork()
            if not pid:
                status = 99
                try:
                    status = self.job(k, work)
                except BaseException:
                    traceback.print_exc()
                    sys.stderr.flush()
                os._exit(status)
            pids[pid] = k
        return {k: os.waitstatus_to_exitcode(os.waitpid(pid, 0)[1]) for pid, k in pids.items()}

    def line(self, text: str) -> None:
        """Appends a line to the log, in one write."""
        fd = os.open(self.log, os.O_WRONLY | os.O_APPEND | os.O_CREAT, 0o644)
        os.write(fd, text.encode() + b"\n")
        os.close(fd)

    def job(self, k: int, work: Any) -> int:
        """One job, in a process of its own: its status."""
        gc.disable()  # as the tool does
        for number, name in ((1, "out"), (2, "err")):
            where = os.path.join(self.room, f"{name}{k}")
            os.dup2(os.open(where, os.O_WRONLY | os.O_CREAT | os.O_APPEND, 0o644), number)
        self.watch(k)
        if self.kind == "python":
            return self.python(work)
        where = os.path.join(self.room, f"script{k}")
        with open(where, "w", encoding="utf-8") as file:
            file.write(str(work))
        from txforest import do
        from txforest.statuses import Failed

        kinds: dict[str, list[str]] = {
            "traced": ["--trace"],
            "whole": ["--whole"],
            "plain": [],
            "only": ["--only", "*"],
        }
        words = ["--hold", *kinds[self.kind], self.top, self.spec, "--", "sh", where]
        given = do.given_words(words)
        if self.kind == "plain":
            from txforest.copies import Plain

            do.kinds_of = lambda given: [Plain]
        try:
            return do.transaction(given)
        except Failed as failed:
            print(failed.lines, file=sys.stderr, flush=True)
            return 98

    def python(self, work: Any) -> int:
        """A job of the interface."""
        import txforest

        try:
            for t in txforest.attempts(self.top, self.spec):
                with t:
                    answer = follow(t, work)
        except txforest.NoValue:
            return NO_VALUE
        os.write(1, repr(answer).encode())
        return 0

    def watch(self, k: int) -> None:
        """Has the order of jobs written to the log, and the fault planted that one wants to see."""
        from txforest import do, jobs

        submit, put, settled = jobs.Clerk.submit, jobs.Leader.put, do.Transaction.settled

        def submitted(clerk: Any, room: Any, looked: Any, *more: Any) -> Any:
            self.line(f"room {room.name} {k}")
            plant(self.fault, looked)
            return submit(clerk, room, looked, *more)

        def placed(leader: Any, group: Any, order: Any, *more: Any) -> None:
            put(leader, group, order, *more)
            self.line(" ".join(["group", *(group[number].name for number in order)]))

        def ended(transaction: Any, room: Any, copy: Any, status: Any, held: Any) -> Any:
            found = settled(transaction, room, copy, status, held)
            is_submitted = f"room {room.name} {k}\n" in self.told()
            if held is not None and found == status and not is_submitted:
                self.line(f"alone {k}")
            return found

        setattr(jobs.Clerk, "submit", submitted)
        setattr(jobs.Leader, "put", placed)
        setattr(do.Transaction, "settled", ended)

    def replayed(self, order: list[int], statuses: dict[int, int]) -> str | None:
        """Runs the accepted jobs once more in their order; what is other then."""
        plain = os.path.join(self.room, "plain")
        for k in order:
            top = plain
            if statuses[k]:
                top = os.path.join(self.room, f"plain{k}")
                shutil.copytree(plain, top, symlinks=True)
            told = self.plain_job(k, top)
            with open(os.path.join(self.room, f"out{k}"), "rb") as file:
                found = file.read()
            if found != told:
                return f"job {k} of {order} told {found!r}, and replayed {told!r}"
        if picture(plain) != picture(self.top):
            return f"order {order}: {picture(self.top)}, and replayed {picture(plain)}"
        return None

    def plain_job(self, k: int, top: str) -> bytes:
        """What a job prints on a plain folder."""
        if self.kind == "python":
            return repr(follow(PlainFolder(top), self.work[k])).encode()
        words = ["sh", os.path.join(self.room, f"script{k}")]
        quiet = subprocess.DEVNULL
        return subprocess.run(words, cwd=top, stdout=subprocess.PIPE, stderr=quiet).stdout


def plant(fault: str | None, looked: Any) -> None:
    """Breaks what a job says it has read, to see that the histories show it."""
    reads = looked.reads
    if fault in ("no reads", "no listings"):
        looked.kinds.clear()
    if fault == "no reads":
        reads.clear()
    for path in list(reads):
        is_listing = isinstance(reads[path], frozenset)
        is_absent = reads[path] is None
        if fault == "no absent paths" and is_absent or fault == "no listings" and is_listing:
            del reads[path]


def histories(kind: str, count: int, first: int, fault: str | None, top: str) -> tuple[int, str]:
    """Runs so many histories: the number of the first that is wrong, or -1, and what is told."""
    load()
    jobs = tries = groups = 0
    for number in range(first, first + count):
        room = os.path.join(top, f"history{number}")
        os.mkdir(room)
        it = History(kind, number, room, fault)
        wrong = it.run()
        if wrong:
            return number, f"{kind} {number}: {wrong}"
        jobs, tries, groups = jobs + it.jobs, tries + it.tries, groups + it.groups
        shutil.rmtree(room)
    told = f"{count:,} histories, {jobs:,} jobs in {tries:,} tries and {groups:,} groups, 0 differ"
    return -1, told
