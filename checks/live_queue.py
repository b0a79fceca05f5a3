"""Tries the queue of a live tree: parts of checks/live.py. A fault is an AssertionError."""

from __future__ import annotations

import fcntl
import os
import random
import resource
import shutil
import signal
import sqlite3
import subprocess
import sys
import tempfile
import time
from collections import Counter
from collections.abc import Callable, Iterable, Iterator
from contextlib import nullcontext

TOP = os.path.dirname(os.path.dirname(os.path.abspath(__file__)))
TOOLS = os.environ.get("TOOLS", os.path.join(TOP, "tools"))
sys.path.insert(0, os.path.join(TOP, "tools"))

from tests import breaking, queues  # noqa: E402
from txforest.place import Tree  # noqa: E402
from txforest.queue import Answer  # noqa: E402

SPEC = '{(k :: file) | k in (one("log") union one("n"))}\n'
JOB = (
    'txn { to("log") down fetch l : str store((l ++ (who ++ "\\n")))'
    ' top to("n") down fetch n : str store((text((int(n) + 1)) ++ "\\n")) print(int(n)) }\n'
)
ODD = {
    "abort": "txn { abort }\n",
    "half": JOB + "txn { up }\n",
    "refused": "txn { $ }\n",
    "breaks": 'txn { to("log") down remove }\n',
}
STATUS_OF = {"abort": 1, "half": 1, "refused": 3, "breaks": 10}


def write(path: str, text: str) -> None:
    """Writes a file."""
    with open(path, "w", encoding="utf-8") as it:
        it.write(text)


def read(path: str) -> str:
    """What a file holds."""
    with open(path, encoding="utf-8") as it:
        return it.read()


def new_tree(room: str) -> str:
    """A tree with a log and a count, beside a description and scripts."""
    os.mkdir(f"{room}/t")
    write(f"{room}/t/log", "")
    write(f"{room}/t/n", "0\n")
    write(f"{room}/spec", SPEC)
    write(f"{room}/job", JOB)
    for name, text in ODD.items():
        write(f"{room}/{name}", text)
    return f"{room}/t"


Process = subprocess.Popen[bytes]


def job(room: str, who: str, *more: str, script: str = "job", **given: str) -> Process:
    """Starts a job that writes a name into the log of the tree."""
    words = [f"{TOOLS}/txforest-apply", *more, "--set", f"who={who}", "t", "spec", script]
    return subprocess.Popen(
        words,
        cwd=room,
        env={**os.environ, **given},
        stdin=subprocess.DEVNULL,
        stdout=subprocess.PIPE,
        stderr=subprocess.PIPE,
    )


def ended(process: Process) -> tuple[int, str, str]:
    """The status of a job, what it printed and what it told."""
    printed, told = process.communicate(timeout=300)
    return process.returncode, printed.decode(), told.decode(errors="replace")


def checked_state(room: str) -> list[str]:
    """The names in the log, each once and all counted."""
    lines = read(f"{room}/t/log").split()
    assert len(set(lines)) == len(lines), ("done twice", lines)
    assert int(read(f"{room}/t/n")) == len(lines), "the count differs"
    return lines


# ---- kills


def leaders_are_killed(_: str, number: int) -> str:
    """Who leads and who settles end at each of their calls; the model runs the scripts."""
    count = queues.kills(number or 10_000)
    return (
        f"{count.stops} kills before and behind the calls of a leader with two jobs in its queue,"
        f" and of those who settled it: {count.answered} times its commit stood and both were"
        " answered,"
        f" {count.again} times they were done by others; none was lost, none done twice"
    )


def jobs_are_killed(room: str, number: int) -> str:
    """Rounds of 3 to 10 jobs at once, some of them odd, some killed at random moments."""
    new_tree(room)
    count: Counter[str] = Counter()
    for turn in range(number or 40):
        started: list[tuple[str, str, Process]] = []
        for i in range(random.choice([3, 6, 10])):
            script = random.choice(["job"] * 6 + [*ODD])
            name = f"r{turn}j{i}"
            started.append((name, script, job(room, name, "--log", "jobs", script=script)))
            if random.random() < 0.5:
                time.sleep(random.random() * 0.2)
        time.sleep(random.random())
        for _, _, process in random.sample(started, random.choice([0, 1, 1, 2])):
            process.send_signal(random.choice([signal.SIGKILL, signal.SIGTERM]))
        results = [(name, script, *ended(process)) for name, script, process in started]
        mop = ended(job(room, f"mop{turn}", "--log", "jobs"))
        assert mop[0] == 0, mop
        check_round(room, results, count)
    numbers = [line.split(" ")[1] for line in read(f"{room}/jobs").splitlines()]
    numbers = [number for number in numbers if number != "-"]
    assert numbers == [str(i + 1) for i in range(len(numbers))], numbers
    return (
        f"{count['rounds']} rounds: {count['answered']} jobs answered, {count['odd']} refused or"
        f" stopped, {count['killed']} killed, of which {count['done']} were done; none was done"
        f" twice, and each answer told the place that its job had in the end"
    )


def check_round(
    room: str, results: list[tuple[str, str, int, str, str]], count: Counter[str]
) -> None:
    """What a round came to: each answer is true."""
    lines = checked_state(room)
    count["rounds"] += 1
    for name, script, status, printed, told in results:
        if status in (-signal.SIGKILL, -signal.SIGTERM, 128 + signal.SIGTERM):
            count["killed"] += 1
            count["done"] += name in lines
        elif script == "job":
            assert status == 0, (name, status, told)
            at = int(printed.split("print ")[1].split("\n")[0])
            assert lines[at] == name, ("told another place", name, at, lines)
            count["answered"] += 1
        else:
            assert status == STATUS_OF[script], (name, script, status, told)
            assert name not in lines, ("refused, and done", name)
            count["odd"] += 1
    left = sorted(os.listdir(room))
    wanted = sorted(["t", "t.lock", "spec", "job", "jobs", *ODD])
    assert left == wanted, left


# ---- who gets what


def counting_program(room: str) -> str:
    """A program that notes each call in the file `calls`."""
    path = f"{room}/program"
    write(path, f'#!/bin/sh\necho "$1" >> {room}/calls\nexec "{os.environ["TXFOREST"]}" "$@"\n')
    os.chmod(path, 0o755)
    return path


def each_gets_its_own(room: str, number: int) -> str:
    """Jobs that wait for a lock that is held, then are done in one go: good ones and odd ones."""
    tree = new_tree(room)
    number = number or 24
    program = counting_program(room)
    held = os.open(f"{tree}.lock", os.O_RDWR | os.O_CREAT, 0o666)
    fcntl.flock(held, fcntl.LOCK_EX)
    started = []
    for i in range(number):
        script = "job" if i % 4 else list(ODD)[i // 4 % len(ODD)]
        more = ["--json"] if i % 5 == 0 else []
        process = job(room, f"j{i}", "--log", "jobs", *more, script=script, TXFOREST=program)
        started.append((f"j{i}", script, process))
    late = job(room, "late", "--wait", "1")
    end = time.monotonic() + 120
    while waiting(tree) < number and time.monotonic() < end:
        time.sleep(0.05)
    assert waiting(tree) >= number, waiting(tree)
    assert ended(late)[0] == 11, "a job that gave up was not told so"
    fcntl.flock(held, fcntl.LOCK_UN)
    os.close(held)
    results = [(name, script, *ended(process)) for name, script, process in started]
    lines = checked_state(room)
    assert "late" not in lines
    good = [name for name, script, *_ in results if script == "job"]
    assert sorted(lines) == sorted(good), (lines, good)
    for name, script, status, printed, told in results:
        assert status == STATUS_OF.get(script, 0), (name, script, status, told)
        if script == "job" and not printed.startswith("{"):
            assert printed.startswith("forest report 1\nentries 1\nentry 0 shell 0 txn 0 done\n")
        if script == "refused":
            assert told == "txforest-apply: txforest: refused: BadToken 6\n", told
    calls = read(f"{room}/calls").split()
    logged = [line.split(" ")[1:3] for line in read(f"{room}/jobs").splitlines()]
    assert len(logged) == number and sum(it[0] != "-" for it in logged) == len(good), logged
    return (
        f"{number} jobs that waited, of four odd kinds {number - len(good)}, and one that gave up,"
        f" each with its own status, report and line of the log, by {len(calls)} calls of the"
        " program"
    )


def waiting(tree: str) -> int:
    """How many jobs wait in the queue of a tree."""
    try:
        names = os.listdir(f"{tree}.queue")
    except FileNotFoundError:
        return 0
    return sum(os.path.exists(f"{tree}.queue/{name}/waits") for name in names if "-" in name[1:])


def kept_jobs_can_be_audited(room: str, number: int) -> str:
    """What --keep leaves of jobs done in one go: the program says yes of each."""
    tree = new_tree(room)
    number = number or 6
    with open(f"{tree}.lock", "w") as held:
        fcntl.flock(held, fcntl.LOCK_EX)
        started = [job(room, f"j{i}", "--keep", "kept", "--log", "jobs") for i in range(number)]
        while waiting(tree) < number:
            time.sleep(0.05)
    for process in started:
        assert ended(process)[0] == 0
    idents = [line.split(" ")[3] for line in read(f"{room}/jobs").splitlines()]
    assert sorted(os.listdir(f"{room}/kept")) == sorted(idents)
    for ident in idents:
        at = f"{room}/kept/{ident}"
        scripts = sorted((name for name in os.listdir(at) if name.isdigit()), key=int)
        words = ["audit", "spec", "folder", "report", *scripts]
        ran = subprocess.run([os.environ["TXFOREST"], *words], cwd=at, stdout=subprocess.PIPE)
        assert ran.stdout == b"audit yes\n", (ident, ran.stdout)
    return f"audit says yes of what was kept of {number} jobs, done in one go"


# ---- whom a conflict touches

NAMES = "abcdef"
ADD = 'to("%s") down fetch n : str store(text((int(n) + 1)))'
SUM = 'to("%s") down fetch m : str top to("%s") down fetch n : str store(text((int(m) + int(n))))'


def a_conflict_is_told_to_its_own_jobs(room: str, number: int) -> str:
    """Jobs done in one go, by the program; somebody edits a file behind their commit. That is told
    to the jobs that read or change this file, and to no other."""
    draw = random.Random(number)
    told = others = 0
    for turn in range(number or 100):
        top = f"{room}/c{turn}"
        os.makedirs(f"{top}/f")
        for name in NAMES:
            write(f"{top}/f/{name}", "1")
        paths = [draw.sample(NAMES, draw.choice([1, 1, 2])) for _ in range(draw.randrange(2, 9))]
        edited = draw.choice(paths)[-1]  # one that is changed
        with Tree(f"{top}/f") as tree:
            asked = [queues.request(body(own), spec=FILES) for own in paths]
            waiting = [queues.left(tree, it) for it in asked[1:]]
            with breaking.using(breaking.Edited(lambda: write(f"{top}/f/{edited}", "100"))):
                answers = [queues.lead(tree, asked[0], program=nullcontext)]
            answers += [it.answer() or Answer(-1) for it in waiting]
            for it in waiting:
                it.remove()
        statuses = [it.status for it in answers]
        assert statuses == [13 if edited in own else 0 for own in paths], (turn, paths, statuses)
        told += statuses.count(13)
        others += statuses.count(0)
        assert read(f"{top}/f/{edited}") == "100", (turn, "somebody's edit is lost")
        assert os.path.exists(f"{top}/f/{edited}.txforest-new"), turn
        shutil.rmtree(top)
    return (
        f"{told + others} jobs in {number or 100} commits under which a file was edited: {told}"
        f" that had read or changed it were told, {others} others were done"
    )


def body(own: list[str]) -> str:
    """A script that adds to a file, or adds one file to another."""
    return "txn { " + (ADD % own[0] if len(own) == 1 else SUM % tuple(own)) + " }"


ALL = "".join(f'(one("{name}") union ' for name in NAMES[:-1]) + f'one("{NAMES[-1]}")'
FILES = f"{{(k :: file) | k in {ALL}{')' * (len(NAMES) - 1)}}}".encode()


# ---- costs

WIDE = "<d : dir, {(k :: <e : dir, {(f :: file) | f in e}>) | k in d}>\n"
Commands = Callable[[str, list[str]], list[list[str]]]


def folders_of(number: int) -> int:
    """How many folders a tree of so many files has: each of 64 jobs has one of its own."""
    return max(64, number // 100)


def many_files(tree: str, number: int) -> None:
    """A tree of so many files, in each of its folders one that counts."""
    for folder in range(folders_of(number)):
        os.makedirs(f"{tree}/d{folder:04d}")
        for file in range(number // folders_of(number) - 1):
            write(f"{tree}/d{folder:04d}/f{file:02d}", f"{file}\n" * 20)
        write(f"{tree}/d{folder:04d}/count", "0\n")


def with_apply(base: str, folders: list[str]) -> list[list[str]]:
    """The jobs of txforest-apply."""
    words = []
    for i, folder in enumerate(folders):
        move = f'into next to("{folder}") down into next to("count") down fetch n : str'
        write(f"{base}/j{i}", f'txn {{ {move} store((text((int(n) + 1)) ++ "\\n")) }}\n')
        words.append([f"{TOOLS}/txforest-apply", f"{base}/t", f"{base}/spec", f"{base}/j{i}"])
    return words


def with_flock(base: str, folders: list[str]) -> list[list[str]]:
    """The same by a lock and a shell, with what is written on the device."""
    one = "f={0}/t/{1}/count; echo $(($(cat $f) + 1)) > $f.new && sync $f.new && mv $f.new $f"
    one += " && sync {0}/t/{1}"
    return [["flock", f"{base}/lock", "sh", "-c", one.format(base, name)] for name in folders]


def with_git(base: str, folders: list[str]) -> list[list[str]]:
    """The same in a clone of one's own: commit, rebase, push, until it is taken."""
    make = (
        "cd {0}/t && git init -q -b main . && git config gc.auto 0 && git config user.name a"
        " && git config user.email a@b && git add -A && git commit -qm first"
        " && git config receive.denyCurrentBranch ignore"
    )
    subprocess.run(["bash", "-c", make.format(base)], check=True, stdout=subprocess.DEVNULL)
    one = (
        "git clone -q --shared {0}/t {0}/w{2} && cd {0}/w{2} &&"
        " git config user.name a && git config user.email a@b &&"
        " echo $(($(cat {1}/count) + 1)) > {1}/count && git commit -qm {2} {1}/count &&"
        " until git push -q {0}/t HEAD:main 2> /dev/null; do"
        " git fetch -q {0}/t main && git rebase -q FETCH_HEAD 2> /dev/null || exit 1; done"
    )
    return [["bash", "-c", one.format(base, name, i)] for i, name in enumerate(folders)]


def with_sqlite(base: str, folders: list[str]) -> list[list[str]]:
    """The same in a database."""
    data = sqlite3.connect(f"{base}/data")
    data.execute("create table f(path text primary key, body text)")
    for above, _, names in os.walk(f"{base}/t"):
        for name in names:
            path = os.path.join(above, name)
            row = os.path.relpath(path, f"{base}/t"), read(path)
            data.execute("insert into f values(?, ?)", row)
    data.commit()
    data.close()
    one = (
        "import sqlite3; d = sqlite3.connect({0!r}, 60, isolation_level=None);"
        " d.execute('pragma synchronous = full'); d.execute('begin immediate');"
        " d.execute('update f set body = cast(body as integer) + 1 where path = ?', ({1!r},));"
        " d.execute('commit')"
    )
    paths = [f"{name}/count" for name in folders]
    return [[sys.executable, "-IS", "-c", one.format(f"{base}/data", path)] for path in paths]


WAYS: dict[str, Commands] = {
    "txforest-apply": with_apply,
    "flock and a shell": with_flock,
    "SQLite": with_sqlite,
    "git: a clone, commit, rebase, push": with_git,  # last: it makes the tree a repository
}
JOBS = (1, 8, 64)


def measured(words: list[list[str]]) -> tuple[float, float]:
    """The processor time and the time of commands that run at once; each has to end with 0."""
    before, started = resource.getrusage(resource.RUSAGE_CHILDREN), time.perf_counter()
    running = [subprocess.Popen(it, stdout=subprocess.DEVNULL) for it in words]
    ends = [it.wait() for it in running]
    after = resource.getrusage(resource.RUSAGE_CHILDREN)
    assert not any(ends), ends
    used = after.ru_utime + after.ru_stime - before.ru_utime - before.ru_stime
    return used, time.perf_counter() - started


BARE = """
import os, sys
for turn in range(2):
    left = [sys.argv[1]]
    while left:
        with os.scandir(left.pop()) as entries:
            for entry in entries:
                entry.stat(follow_symlinks=False)
                if entry.is_dir(follow_symlinks=False):
                    left.append(entry.path)
"""
TURNS = {100: 7, 10_000: 5, 60_000: 3}
WORK_TREES = 700_000  # files that all clones of git may have together


def costs_of_many(room: str, number: int) -> str:
    """1, 8 and 64 jobs at once on trees of 100, 10,000 and 60,000 files, each in a folder of its
    own, beside `txforest run` alone; a number is the largest of the trees. Least of several."""
    lines = ["", "| files | jobs | by | processor | of a run | by the clock |", "|" + "---|" * 6]
    for files in TURNS:
        if number and files > number:
            continue
        base = tempfile.mkdtemp(dir="/dev/shm" if os.access("/dev/shm", os.W_OK) else room)
        try:
            lines += costs_on(base, files)
        finally:
            shutil.rmtree(base)
    return "\n".join([*lines, machine()])


def machine() -> str:
    """What was measured on."""
    with open("/proc/cpuinfo", encoding="utf-8", errors="replace") as it:
        models = [line.split(":", 1)[1].strip() for line in it if line.startswith("model name")]
    return (
        f"{os.cpu_count()} processors ({models[0] if models else os.uname().machine}),"
        f" Linux {os.uname().release}, Python {sys.version.split(' ')[0]},"
        f" load {os.getloadavg()[0]:.0f}"
    )


def costs_on(base: str, files: int) -> Iterator[str]:
    """The rows of one tree, which all ways change in turn."""
    many_files(f"{base}/t", files)
    write(f"{base}/spec", WIDE)
    run = run_alone(base, TURNS[files])
    yield f"| {files:,} | 1 | `txforest run` | {run:.3f} s | 1.0 | |"
    words = [sys.executable, "-IS", "-c", BARE, f"{base}/t"]
    bare = run + min(measured([words])[0] for _ in range(TURNS[files]))
    told = "the run, and two bare looks at each entry"
    yield f"| {files:,} | 1 | {told} | {bare:.3f} s | {bare / run:.1f} | |"
    rows: dict[int, list[str]] = {jobs: [] for jobs in JOBS}
    for way in WAYS:
        if way.startswith("git") and not shutil.which("git"):
            continue
        folders = [f"d{i * (folders_of(files) // max(JOBS)):04d}" for i in range(max(JOBS))]
        words_of = dict(zip(folders, WAYS[way](base, folders)))
        for jobs in JOBS:
            if way.startswith("git") and jobs * files > WORK_TREES:
                continue
            turns = 1 if way.startswith("git") and jobs > 8 else TURNS[files]
            own = folders[:: max(JOBS) // jobs]
            went = [turn(base, way, {name: words_of[name] for name in own}) for _ in range(turns)]
            used, clock = min(it[0] for it in went), min(it[1] for it in went)
            row = f"{used:.3f} s | {used / run:.1f} | {clock:.2f} s |"
            rows[jobs].append(f"| {files:,} | {jobs} | {way} | {row}")
            print(rows[jobs][-1], file=sys.stderr, flush=True)  # the whole may take long
    for jobs in JOBS:
        yield from rows[jobs]


def turn(base: str, way: str, words_of: dict[str, list[str]]) -> tuple[float, float]:
    """The processor time and the time of jobs at once, each of which has to count in its folder."""
    before = counts(base, way, words_of)
    used = measured(list(words_of.values()))
    after = counts(base, way, words_of)
    assert after == [number + 1 for number in before], (way, before, after)
    for name in os.listdir(base):
        if name.startswith("w"):  # a clone
            shutil.rmtree(f"{base}/{name}")
    return used


def counts(base: str, way: str, folders: Iterable[str]) -> list[int]:
    """What the jobs of some folders have counted."""
    if way == "SQLite":
        data = sqlite3.connect(f"{base}/data")
        rows = dict(data.execute("select path, body from f where path like '%/count'"))
        data.close()
        return [int(rows[f"{name}/count"]) for name in folders]
    if way.startswith("git"):
        show = ["git", "-C", f"{base}/t", "show"]
        return [int(subprocess.check_output([*show, f"main:{it}/count"])) for it in folders]
    return [int(read(f"{base}/t/{name}/count")) for name in folders]


def run_alone(base: str, turns: int) -> float:
    """What the program alone takes for a job, without OUT's removal."""
    with_apply(base, ["d0000"])
    used = []
    for _ in range(turns):
        words = ["run", f"{base}/spec", f"{base}/t", f"{base}/out", f"{base}/j0"]
        used.append(measured([[os.environ["TXFOREST"], *words]])[0])
        shutil.rmtree(f"{base}/out")
    return min(used)


PARTS = [
    each_gets_its_own,
    a_conflict_is_told_to_its_own_jobs,
    kept_jobs_can_be_audited,
    jobs_are_killed,
    leaders_are_killed,
    costs_of_many,
]
