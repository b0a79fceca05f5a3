"""What jobs cost beside flock, git, txforest-apply and the program alone, for checks/anyjob.py."""

from __future__ import annotations

import os
import resource
import shutil
import subprocess
import sys
import time

TOP = os.path.dirname(os.path.dirname(os.path.abspath(__file__)))
TOOLS = os.path.join(TOP, "tools")
JOB = "v=$(cat $1); echo $((v + 1)) > $1\n"
SPEC = '("d0000" :: ("f00" :: file))\n'
SCRIPT = 'txn { down down fetch v : str store((text((int(v) + 1)) ++ "\\n")) }\n'
GIT = """
set -e
k=$1 f=$2 top=$PWD
while :; do
    git -C clone fetch -q origin main 2>/dev/null || { sleep 0.05; continue; }
    git -C clone worktree add -q --detach "$top/wt$k" origin/main 2>/dev/null || {
        rm -rf "$top/wt$k"; git -C clone worktree prune; sleep 0.05; continue; }
    (cd wt$k && sh ../job.sh $f && git commit -q -am "job $k")
    while :; do
        git -C wt$k push -q origin HEAD:main 2>/dev/null && { done=1; break; }
        git -C wt$k fetch -q origin main 2>/dev/null || { sleep 0.05; continue; }
        git -C wt$k rebase -q origin/main >/dev/null 2>&1 || {
            git -C wt$k rebase --abort 2>/dev/null || :; done=0; break; }
    done
    git -C clone worktree remove --force "$top/wt$k" 2>/dev/null || rm -rf wt$k
    [ $done = 1 ] && break
done
"""
SETUP = """
cp -a tree first; git init -q --bare -b main bare.git; git -C bare.git config gc.auto 0
cd first; git init -q -b main; git config user.email a@b; git config user.name a
git add .; git commit -qm first; git push -q ../bare.git main; cd ..
git clone -q bare.git clone; git -C clone config user.email a@b; git -C clone config user.name a
git -C clone config gc.auto 0
"""
COPY = (
    "cp -a tree new$1; (cd new$1; sh ../job.sh $2); mv tree old$1; mv new$1 tree; rm -rf old$1"
)
PYTHON = """
import sys
sys.path.insert(0, sys.argv[1])
import txforest
@txforest.transactional("tree", "spec")
def job(t, path):
    t.write(path, str(int(t.read(path)) + 1) + chr(10))
for _ in range(int(sys.argv[3])):
    job(sys.argv[2])
"""


def used() -> float:
    """Processor seconds of all children that have ended."""
    it = resource.getrusage(resource.RUSAGE_CHILDREN)
    return it.ru_utime + it.ru_stime


def make_tree(top: str, count: int) -> None:
    """A tree of so many files, a hundred in a directory."""
    for number in range(count):
        if number % 100 == 0:
            os.makedirs(f"{top}/d{number // 100:04d}")
        with open(f"{top}/d{number // 100:04d}/f{number % 100:02d}", "w", encoding="ascii") as it:
            it.write("0\n")


def path_of(number: int, files: int) -> str:
    """The file of a job: the jobs go over the directories."""
    return f"d{number % max(1, files // 100):04d}/f{number // max(1, files // 100) % 100:02d}"


class Bench:
    """A room with a tree of some size, and a copy of it under git."""

    def __init__(self, room: str, files: int, git: bool) -> None:
        self.room = room
        self.files = files
        shutil.rmtree(room, ignore_errors=True)
        make_tree(f"{room}/tree", files)
        texts = {"job.sh": JOB, "spec": SPEC, "dir": "dir\n", "script": SCRIPT, "git.sh": GIT}
        texts["copy.sh"] = COPY
        for name, text in texts.items():
            with open(f"{room}/{name}", "w", encoding="ascii") as it:
                it.write(text)
        if git:
            subprocess.run(["sh", "-ec", SETUP], cwd=room, check=True, stderr=subprocess.DEVNULL)

    def words(self, kind: str, number: int) -> list[str]:
        """The words of one job of a kind."""
        path = path_of(number, self.files)
        job = ["sh", f"{self.room}/job.sh", path]
        do = [f"{TOOLS}/txforest-do"]
        return {
            "script": ["sh", "-c", f"cd tree; sh ../job.sh {path}"],
            "flock": ["flock", "tree.lock", "sh", "-c", f"cd tree; sh ../job.sh {path}"],
            "copy": ["flock", "tree.lock", "sh", "-e", "copy.sh", str(number), path],
            "git": ["sh", "git.sh", str(number), path],
            "apply": [f"{TOOLS}/txforest-apply", "tree", "spec", "script"],
            "run": [os.environ["TXFOREST"], "run", "spec", "tree", f"out{number}", "script"],
            "traced": [*do, "--trace", "tree", "spec", "--", *job],
            "only": [*do, "--only", path, "tree", "spec", "--", *job],
            "whole": [*do, "--whole", "tree", "spec", "--", *job],
            "python": [sys.executable, "-IS", "-c", PYTHON, TOOLS, path, "1"],
            "python20": [sys.executable, "-IS", "-c", PYTHON, TOOLS, path, "20"],
        }[kind]

    def each(self, kind: str, rounds: int) -> tuple[float, float]:
        """Processor seconds of one job, the median and the least of some."""
        found = []
        for number in range(rounds):
            begun = used()
            pipe = subprocess.PIPE
            ran = subprocess.run(self.words(kind, 0), cwd=self.room, stdout=pipe, stderr=pipe)
            if ran.returncode:
                sys.exit(f"{self.words(kind, 0)}: {ran}")
            found.append(used() - begun)
            shutil.rmtree(f"{self.room}/out0", ignore_errors=True)
        if kind == "python20":
            found = [it / 20 for it in found]
        return sorted(found)[len(found) // 2], min(found)

    def at_once(self, kind: str, jobs: int) -> tuple[float, float, int]:
        """Processor seconds and seconds of jobs at once, and how many of them counted."""
        begun, clock = used(), time.monotonic()
        quiet = subprocess.DEVNULL
        running = [
            subprocess.Popen(self.words(kind, n), cwd=self.room, stdout=quiet, stderr=quiet)
            for n in range(jobs)
        ]
        ended = [job.wait() for job in running]
        cost, clock = used() - begun, time.monotonic() - clock
        top = "tree"
        if kind == "git":
            top = "last"
            words = ["git", "clone", "-q", "bare.git", "last"]
            subprocess.run(words, cwd=self.room, check=True)
        count = 0
        for path in {path_of(number, self.files) for number in range(jobs)}:
            with open(f"{self.room}/{top}/{path}", encoding="ascii") as it:
                count += int(it.read())
        return cost, clock, count if not any(ended) else -1


ROWS = (
    ("script", "the script alone, in place"),
    ("flock", "`flock`, the script in place"),
    ("copy", "`flock`, `cp -a`, the script, two `mv`"),
    ("git", "git: fetch, worktree, commit, push"),
    ("run", "`txforest run` with a script of ours, alone"),
    ("apply", "`txforest-apply` with that script"),
    ("traced", "`txforest-do --trace`"),
    ("only", "`txforest-do --only`"),
    ("whole", "`txforest-do --whole`"),
    ("python", "`import txforest`, one transaction with Python's start"),
    ("python20", "`import txforest`, each of 20 in one process"),
)


def costs(room: str, sizes: list[int], rounds: int) -> str:
    """The table of one job after another, and that of jobs at once."""
    head = " | ".join(f"{size:,} files" for size in sizes)
    lines = [f"| | {head} |", "|---" * (len(sizes) + 1) + "|"]
    cells: dict[str, list[str]] = {kind: [] for kind, _ in ROWS}
    for size in sizes:
        bench = Bench(f"{room}/each", size, True)
        for kind, _ in ROWS:
            median, least = bench.each(kind, rounds if size < 50_000 else min(rounds, 3))
            cells[kind].append(f"{median * 1000:,.0f} ms ({least * 1000:,.0f})")
            print(f"{size} {kind} {cells[kind][-1]}", file=sys.stderr, flush=True)
    lines += [f"| {name} | {' | '.join(cells[kind])} |" for kind, name in ROWS]
    return "\n" + "\n".join(lines)


def together(room: str, pairs: list[tuple[int, int]], kinds: list[str]) -> str:
    """The table of jobs at once, each on a file of its own."""
    lines = [f"| Files, jobs | {' | '.join(kinds)} |", "|---" * (len(kinds) + 1) + "|"]
    for files, jobs in pairs:
        cells = []
        for kind in kinds:
            bench = Bench(f"{room}/once", files, kind == "git")
            cost, clock, count = bench.at_once(kind, jobs)
            told = "" if count == jobs else f", counted {count}"
            cells.append(f"{cost:.2f} s ({clock:.1f}){told}")
            print(f"{files} {jobs} {kind} {cells[-1]}", file=sys.stderr, flush=True)
        lines.append(f"| {files:,}, {jobs} | {' | '.join(cells)} |")
    return "\n" + "\n".join(lines)
