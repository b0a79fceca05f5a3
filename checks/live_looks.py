"""Tries what a job takes from the looks that the program tells: a part of checks/live.py."""

from __future__ import annotations

import os
import random
import shutil
import subprocess
import sys

TOP = os.path.dirname(os.path.dirname(os.path.abspath(__file__)))
sys.path.insert(0, os.path.join(TOP, "tools"))

from making import MEETING, Maker  # noqa: E402

from txforest.attempt import Attempt  # noqa: E402
from txforest.calls import DIR  # noqa: E402
from txforest.differences import differences_at  # noqa: E402
from txforest.lock import lock  # noqa: E402
from txforest.looked import Looker, all_of, events_in, looks_of  # noqa: E402
from txforest.place import Tree  # noqa: E402
from txforest.sources import Source  # noqa: E402
from txforest.statuses import Failed  # noqa: E402
from txforest.view import read_table  # noqa: E402

Entries = dict[str, tuple[str, bytes]]


def made(room: str, number: int) -> tuple[str, list[Source]]:
    """A random case: its folder at `in`, its description, its scripts."""
    maker = Maker(random.Random(number))
    r, kind = maker.r, maker.r.choice(["plain"] * 5 + ["meeting"] * 3 + ["unfolding"])
    if kind == "meeting":
        maker.meeting_folder(f"{room}/in")
        description, script = MEETING, maker.meeting_script
    else:
        maker.folder(f"{room}/in")
        description, script = maker.description(), maker.script
        if kind == "unfolding":
            description, script = maker.unfolding()
    texts = [script() for _ in range(r.choice([1, 1, 2, 3]))]
    return description, [Source(f"s{i}", text) for i, text in enumerate(texts)]


def entries_of(top: str) -> Entries:
    """What stands in a folder, by path: kinds with contents or texts, flags among them."""
    found: Entries = {}
    for above, folders, files in os.walk(top):
        for name in folders:
            found[os.path.relpath(os.path.join(above, name), top)] = ("d", b"")
        for name in files:
            path = os.path.relpath(os.path.join(above, name), top)
            if path != ".forest-links":
                with open(os.path.join(above, name), "rb") as it:
                    found[path] = ("f", it.read())
    fd = os.open(top, DIR)
    try:
        links, flags = read_table(fd)
    finally:
        os.close(fd)
    found.update((path, ("l", text)) for path, text in links.items())
    found.update((path, ("x", found[path][1])) for path in flags)
    return found


def traced(room: str, spec: str, scripts: list[Source], draw: random.Random) -> set[str] | None:
    """Traces a case by a random schedule into `out`; the paths at which it looked. Nothing if the
    program refuses it."""
    with open(f"{room}/spec", "w", encoding="utf-8") as it:
        it.write(spec)
    for i, script in enumerate(scripts):
        with open(f"{room}/s{i}", "wb") as file:
            file.write(script.text)
    names = [f"s{i}" for i in range(len(scripts))]
    steps = [draw.randrange(len(scripts)) for _ in range(draw.randrange(40))]
    turns = ",".join(map(str, steps)) or "none"
    words = [os.environ["TXFOREST"], "trace", "spec", "in", "out", turns, *names]
    ran = subprocess.run(words, cwd=room, stdout=subprocess.PIPE, stderr=subprocess.DEVNULL)
    looks = looks_of(events_in(ran.stdout)) if ran.returncode == 0 else None
    return None if looks is None else all_of(looks)


def looks_name_all_that_changes(room: str, number: int) -> str:
    """Of random cases each path that a run has changed is one at which it looked, by the program's
    own events; and a job finds the same changes by the looks as by comparing all."""
    number = number or 400
    draw = random.Random(number)
    runs = changed = jobs = put = refused = 0
    for turn in range(number):
        at = f"{room}/c{turn}"
        os.mkdir(at)
        spec, scripts = made(at, turn + 1)
        looks = traced(at, spec, scripts, draw)
        if looks is None:
            refused += 1
            shutil.rmtree(at)
            continue
        before, after = entries_of(f"{at}/in"), entries_of(f"{at}/out")
        differ = {p for p in before.keys() | after.keys() if before.get(p) != after.get(p)}
        assert differ <= looks, (turn, sorted(differ - looks))
        runs += 1
        changed += len(differ)
        found = both_ways(f"{at}/in", Source("spec", spec.encode()), scripts)
        if found is not None:
            jobs += 1
            put += found
        shutil.rmtree(at)
    return (
        f"{runs} random runs changed {changed} paths, each one at which they looked; {jobs} jobs"
        f" found the same {put} changes by the looks as by comparing all; {refused} were refused"
    )


def both_ways(path: str, spec: Source, scripts: list[Source]) -> int | None:
    """Does a job up to its commit: the changes by the looks have to be those of the whole."""
    held = lock(path)
    try:
        with Tree(path) as tree, Attempt(tree, held) as it:
            looker = Looker(it)
            if looker.run(spec, scripts).status:
                return None
            assert looker.looks is not None and it.view is not None, "no looks are known"
            whole = it.changes()
            out = os.open(it.out, DIR)
            try:
                few = differences_at(it.view, out, it.found, looker.looks)
            finally:
                os.close(out)
            told, wanted = (
                [(it.kind, it.path, it.data, it.flag, it.room) for it in changes]
                for changes in (few, whole)
            )
            assert told == wanted, (told, wanted)
            return len(whole)
    except Failed:
        return None
    finally:
        os.close(held)


PARTS = [looks_name_all_that_changes]
