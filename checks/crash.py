"""Stops `journal` of the built program at every moment, and holds what `recover` then gives.

usage: crash.py PROGRAM LIBRARY [SEED] [KILLS]

What it is held against is the second program of the meaning, the model. LIBRARY is crash.c, built.
First `journal` runs once on each input, and LIBRARY keeps a record of its writes and syncs of the
journal and of what it told. From each front of the record images are made: the bytes at the last
sync, and over them each later write as a stopped machine may leave it, done, undone, in part, or as
any bytes. Then `journal` runs KILLS times, 200 if none are given, on a disk and as often in memory,
and is killed after a random time.

On each image, and on what each kill left, `recover` has to print `recovered N`, with N at least the
number of the commits that were told and no more than were made. It has to leave at OUT what the
first N transactions of the order make of the folder, and to leave JOURNAL as it was. An image from
before the start's sync is left out: that journal is started anew.

Prints for each input how many images there were, and for each place how many kills, and ends with 1
at the first that is not so. TMPDIR names the disk; what is in memory stands in /dev/shm.
"""

from __future__ import annotations

import os
import random
import re
import shutil
import signal
import subprocess
import sys
import tempfile
import time

from repository import model

SECONDS = 120
TORN = 12
RECORD = 9
MEMORY = "/dev/shm"

COUNTS = "txn { down fetch a : str store(text((int(a) + 1))) }"
STOPS = 'txn { down store("no") down }'

# A description, a folder, a schedule and scripts, each the list of its transactions.
INPUTS: dict[str, tuple[str, dict[str, bytes], str, list[list[str]]]] = {
    "one shell": ('("a" :: file)', {"a": b"1"}, "none", [[COUNTS] * 3]),
    "two shells that meet": ('("a" :: file)', {"a": b"1"}, "0,1,0,1,1,0", [[COUNTS], [COUNTS]]),
    "three shells, a refusal": (
        '("a" :: file)',
        {"a": b"7"},
        "2,1,0",
        [[COUNTS, COUNTS], [STOPS, COUNTS], [COUNTS]],
    ),
    "no transaction": ('("a" :: file)', {"a": b"1"}, "none", [[]]),
}


class Wrong(Exception):
    """A stop after which something is not as it should be."""


class Stage:
    """A folder with one input, and what a run of it comes to."""

    def __init__(
        self,
        program: str,
        around: str | None,
        spec: str,
        folder: dict[str, bytes],
        schedule: str,
        scripts: list[list[str]],
    ) -> None:
        self.program = program
        self.room = tempfile.TemporaryDirectory(prefix="crash-", dir=around)
        self.top = self.room.name
        self.schedule, self.names = schedule, [f"s{i}" for i in range(len(scripts))]
        self.put("spec", spec.encode())
        for name, script in zip(self.names, scripts):
            self.put(name, "\n".join(script).encode())
        os.mkdir(self.at("in"))
        for name, text in folder.items():
            self.put(f"in/{name}", text)
        plan = [model.read_script("\n".join(script).encode()) for script in scripts]
        turns = [] if schedule == "none" else [int(k) for k in schedule.split(",")]
        self.root, self.base = model.read_description(spec.encode()), model.load(self.at("in"))
        _, order, _, _ = model.trace(self.root, plan, self.base, turns)
        self.txns = [plan[k][j] for k, j, _, _ in order]
        self.whole = (
            b"".join(b"\x01" + k.to_bytes(4, "big") + j.to_bytes(4, "big") for k, j, _, _ in order)
            + b"\x00"
        )
        self.given = model.saved(self.at("in"))
        self.states: dict[int, model.Saved] = {}

    def at(self, name: str) -> str:
        """A path in the folder."""
        return os.path.join(self.top, name)

    def put(self, name: str, content: bytes) -> None:
        """Writes a file of the folder."""
        with open(self.at(name), "wb") as it:
            it.write(content)

    def get(self, name: str) -> bytes:
        """What a file of the folder holds."""
        with open(self.at(name), "rb") as it:
            return it.read()

    def clear(self, *names: str) -> None:
        """Removes what stands there."""
        for name in names:
            if os.path.isdir(self.at(name)):
                shutil.rmtree(self.at(name))
            elif os.path.lexists(self.at(name)):
                os.remove(self.at(name))

    def state(self, count: int) -> model.Saved:
        """The folder after the first transactions of the order."""
        if count not in self.states:
            _, last = model.whole_run(self.root, self.txns[:count], self.base)
            self.states[count] = model.folder_of(last)
        return self.states[count]

    def journal(self) -> list[str]:
        """The words of the run, from an empty place on."""
        self.clear("out", "journal", "printed", "record")
        return [self.program, "journal", "spec", "in", "out", "journal", self.schedule, *self.names]

    def check_recovered(self, told: int) -> int:
        """Recovers from the journal, after `told` commits were told; how many came back."""
        self.clear("back")
        before = self.get("journal") if os.path.exists(self.at("journal")) else b""
        words = [self.program, "recover", "spec", "in", "journal", "back", *self.names]
        ran = subprocess.run(
            words, cwd=self.top, stdin=subprocess.DEVNULL, capture_output=True, timeout=SECONDS
        )
        found = re.fullmatch(rb"recovered (0|[1-9][0-9]*)\n", ran.stdout)
        if ran.returncode or ran.stderr or not found:
            raise Wrong(
                f"status {ran.returncode}, {ran.stdout!r}, {ran.stderr!r}, from {before.hex()}"
            )
        count = int(found[1])
        if not told <= count <= len(self.txns):
            raise Wrong(
                f"{told} of {len(self.txns)} commits were told, and {count} are recovered"
                f" from {before.hex()}"
            )
        if model.saved(self.at("back")) != self.state(count):
            raise Wrong(f"OUT is not the folder after {count} commits, from {before.hex()}")
        if self.get("journal") != before:
            raise Wrong(f"JOURNAL was {before.hex()}, and is {self.get('journal').hex()}")
        if model.saved(self.at("in")) != self.given:
            raise Wrong("FOLDER changed")
        return count


def commits_in(printed: bytes) -> int:
    """How many whole lines tell a commit."""
    lines = printed.split(b"\n")[:-1]
    return sum(line.startswith(b"settled ") for line in lines)


def recorded(stage: Stage, library: str) -> tuple[list[list[str]], bytes]:
    """A whole run: its calls, and what it printed."""
    given = {
        **os.environ,
        "LD_PRELOAD": library,
        "CRASH_FILE": "journal",
        "CRASH_RECORD": stage.at("record"),
    }
    ran = subprocess.run(
        stage.journal(),
        cwd=stage.top,
        env=given,
        stdin=subprocess.DEVNULL,
        capture_output=True,
        timeout=SECONDS,
    )
    if ran.returncode or ran.stderr:
        raise Wrong(f"journal: status {ran.returncode}, {ran.stderr!r}")
    if stage.get("journal") != stage.whole:
        raise Wrong(
            f"the journal of a whole run is {stage.get('journal').hex()}, and should be"
            f" {stage.whole.hex()}"
        )
    if commits_in(ran.stdout) != len(stage.txns):
        raise Wrong(f"a whole run prints {ran.stdout!r}")
    calls = [line.split(" ") for line in stage.get("record").decode().splitlines()]
    return calls, ran.stdout


def torn(r: random.Random, image: bytes, start: int, content: bytes) -> bytes:
    """The image with a write as a stopped machine may leave it."""
    end = start + len(content)
    done = image[:start].ljust(start, b"\0") + content + image[end:]
    how = r.choice(["done", "undone", "front", "mixed", "any"])
    if how == "done":
        return done
    if how == "undone":
        return image
    size = r.randint(len(image), max(len(image), end))
    old, new = image.ljust(size, b"\0"), done.ljust(size, b"\0")
    cut = r.randint(start, end)
    made = bytearray(old)
    for i in range(start, min(end, size)):
        if how == "any":
            made[i] = r.choice([0, 1, r.randrange(256)])
        elif how == "front" and i < cut or how == "mixed" and r.random() < 0.5:
            made[i] = new[i]
        elif i >= len(image):
            made[i] = r.choice([0, 1, r.randrange(256)])
    return bytes(made)


def try_images(name: str, stage: Stage, library: str, r: random.Random) -> int:
    """Recovers from images of every front of the record; how many."""
    calls, printed = recorded(stage, library)
    kept = b""
    later: list[tuple[int, bytes]] = []
    shown = count = syncs = 0
    for call in [["begin"], *calls]:
        if call[0] == "write":
            later.append((int(call[1]), bytes.fromhex(call[2])))
        elif call[0] == "told":
            shown += int(call[1])
        elif call[0] == "sync":
            for start, content in later:
                kept = kept[:start] + content + kept[start + len(content) :]
            later, syncs = [], syncs + 1
        if kept == b"":
            continue
        images = {kept} if not later else set()
        for _ in range(TORN if later else 0):
            image = kept
            for start, content in later:
                image = torn(r, image, start, content)
            images.add(image)
        for image in sorted(images):
            stage.put("journal", image)
            stage.check_recovered(commits_in(printed[:shown]))
            count += 1
    if stage.txns:
        stage.put("journal", stage.whole[: -RECORD - 1] + b"\0")
        try:
            stage.check_recovered(len(stage.txns))
        except Wrong:
            pass
        else:
            raise Wrong("a journal that lacks a commit that was told is taken")
    print(f"{name}: {count} images of {len(calls)} calls, {syncs} of them syncs", flush=True)
    return count


def timed(stage: Stage) -> float:
    """How long a whole run takes."""
    begin = time.monotonic()
    with open(stage.at("printed") + "-whole", "wb") as out:
        subprocess.run(
            stage.journal(),
            cwd=stage.top,
            stdin=subprocess.DEVNULL,
            stdout=out,
            timeout=SECONDS,
            check=True,
        )
    return time.monotonic() - begin


def killed(stage: Stage, wait: float) -> int:
    """Kills a run after `wait` seconds; how many commits it had told."""
    words = stage.journal()
    with open(stage.at("printed"), "wb") as out:
        ran = subprocess.Popen(words, cwd=stage.top, stdin=subprocess.DEVNULL, stdout=out)
        time.sleep(wait)
        ran.send_signal(signal.SIGKILL)
        ran.wait(SECONDS)
    return commits_in(stage.get("printed"))


def try_kills(program: str, place: str, around: str, kills: int, r: random.Random) -> int:
    """Kills runs at random moments, and recovers from what each left; how many."""
    counts, txns = [], 40
    while True:
        stage = Stage(
            program,
            around,
            '("a" :: file)',
            {"a": b"0"},
            "none",
            [[COUNTS] * txns, [COUNTS] * txns],
        )
        whole = timed(stage)
        if whole > 0.15 or txns >= 640:
            break
        txns *= 2
    for _ in range(kills):
        told = killed(stage, r.random() * whole)
        counts.append(stage.check_recovered(told))
    inside = sum(0 < count < len(stage.txns) for count in counts)
    print(
        f"{place}: {kills} kills in runs of {len(stage.txns)} commits, {inside} of them between"
        " the first and the last",
        flush=True,
    )
    return kills


def main() -> None:
    """Tries all images, and then kills."""
    program, library = (os.path.abspath(word) for word in sys.argv[1:3])
    r = random.Random(int(sys.argv[3]) if len(sys.argv) > 3 else 1)
    times = int(sys.argv[4]) if len(sys.argv) > 4 else 200
    images = kills = 0
    for name, (spec, folder, schedule, scripts) in INPUTS.items():
        try:
            images += try_images(
                name, Stage(program, None, spec, folder, schedule, scripts), library, r
            )
        except Wrong as wrong:
            sys.exit(f"{name}: {wrong}")
    for place, around in (("on a disk", tempfile.gettempdir()), ("in memory", MEMORY)):
        if not os.path.isdir(around):
            print(f"{place}: there is no {around}")
            continue
        try:
            kills += try_kills(program, place, around, times, r)
        except Wrong as wrong:
            sys.exit(f"{place}: {wrong}")
    print(
        f"{images} images and {kills} kills: each gives a front of the order with every commit"
        " that was told"
    )


if __name__ == "__main__":
    main()
