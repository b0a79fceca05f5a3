"""Trees and changes at random, and what a tree looks like, for the tests of the live tree."""

from __future__ import annotations

import os
import random
import shutil
import stat
import tempfile
from collections.abc import Callable, Iterator, Sequence
from contextlib import contextmanager

from txforest import calls
from txforest.commit import commit
from txforest.differences import Change
from txforest.place import Tree
from txforest.settle import Settled, settle
from txforest.survey import survey
from txforest.touched import Looks

Picture = dict[str, tuple[object, ...]]
FIELDS = ("st_mode", "st_uid", "st_gid")


@contextmanager
def work_folder() -> Iterator[str]:
    """A folder for trees, in memory if there is such; it goes in the end."""
    memory = "/dev/shm" if os.access("/dev/shm", os.W_OK) else None
    top = tempfile.mkdtemp(prefix="txforest-test.", dir=os.environ.get("WORK", memory))
    try:
        yield top
    finally:
        shutil.rmtree(top, ignore_errors=True)


def write(path: str, text: str) -> None:
    """Writes a file."""
    with open(path, "w", encoding="utf-8") as it:
        it.write(text)


def read(path: str) -> str:
    """What a file holds."""
    with open(path, encoding="utf-8") as it:
        return it.read()


def new_tree(path: str) -> str:
    """A tree with files, links, an execute bit to come, and a name that is left out."""
    for name in ("a/b", "c", "gone/deep", "turns", "links", "big"):
        os.makedirs(f"{path}/{name}")
    for n in range(random.randint(3, 6)):
        write(f"{path}/a/f{n}", f"old {n}\n" * random.randint(0, 40))
    write(f"{path}/a/b/x", "x")
    write(f"{path}/gone/one", "1")
    write(f"{path}/gone/deep/two", "2")
    write(f"{path}/turns/inner", "was a folder")
    write(f"{path}/file", "becomes a folder")
    write(f"{path}/run", "#!/bin/sh\n")
    write(f"{path}/keep", "is never touched")
    write(f"{path}/odd\udcffname", "left out")
    os.symlink("../a/f0", f"{path}/links/one")
    os.symlink("nowhere", f"{path}/links/two")
    os.symlink("turns me", f"{path}/links/three")
    os.chmod(f"{path}/a/f1", 0o640)
    os.utime(f"{path}/a/f2", ns=(-5_000_000_000, -5_000_000_000))
    return path


def some_changes() -> list[Change]:
    """Changes in the order of a commit: room, new, other, gone."""
    room, new, other, gone = [], [], [], []
    if random.random() < 0.7:
        room += [Change("remove", "turns/inner"), Change("rmdir", "turns", room=True)]
        new.append(Change("store", "turns", b"now a file", False))
    if random.random() < 0.7:
        new += [Change("mkdir", "file"), Change("store", "file/in", b"now below", True)]
    if random.random() < 0.7:
        new += [Change("mkdir", "new"), Change("mkdir", "new/er", mode=0o2750)]
        new.append(Change("store", "new/er/st", b"n" * random.randint(0, 5000)))
    if random.random() < 0.3:
        new.append(Change("mkdir", "empty"))
    if random.random() < 0.5:
        new.append(Change("link", "links/four", b"../new"))
    if random.random() < 0.5:
        new.append(Change("store", "links/three", b"a file now", False))
    for n in random.sample(range(3), random.randint(1, 3)):
        data = b"changed %d\n" % n * random.randint(0, 300)
        other.append(Change("store", f"a/f{n}", data, random.choice([None, True, False])))
    if random.random() < 0.5:
        other.append(Change("link", "links/one", b"/a/b/x"))
    if random.random() < 0.5:
        other.append(Change("mode", "run", b"", True))
    if random.random() < 0.3:
        other.append(Change("mode", "c", mode=0o750))
    if random.random() < 0.7:
        gone += [Change("remove", "gone/one"), Change("remove", "gone/deep/two")]
        gone += [Change("rmdir", "gone/deep"), Change("rmdir", "gone")]
    if random.random() < 0.5:
        gone.append(Change("remove", "links/two"))
    return room + new + other + gone


def picture(path: str) -> Picture:
    """All of a tree: kinds, modes, owners, contents."""
    found: Picture = {}
    left = [""]
    while left:
        front = left.pop()
        with os.scandir(f"{path}/{front}") as entries:
            for entry in entries:
                it = entry.stat(follow_symlinks=False)
                what: object = None
                if stat.S_ISLNK(it.st_mode):
                    what = os.readlink(entry.path)
                elif stat.S_ISREG(it.st_mode):
                    what = content(entry.path)
                elif stat.S_ISDIR(it.st_mode):
                    left.append(f"{front}{entry.name}/")
                found[front + entry.name] = (oct(it.st_mode), it.st_uid, it.st_gid, what)
    return found


def content(path: str) -> bytes:
    """The bytes of a file."""
    with open(path, "rb", 0) as it:
        return it.read()


def copy(source: str, target: str) -> str:
    """A copy of a tree, with modes and times."""
    os.mkdir(target)
    with os.scandir(source) as entries:
        for entry in entries:
            to = f"{target}/{entry.name}"
            if entry.is_symlink():
                os.symlink(os.readlink(entry.path), to)
            elif entry.is_dir():
                copy(entry.path, to)
            else:
                with open(to, "xb", 0) as made:
                    made.write(content(entry.path))
                like(to, entry.stat())
    like(target, os.stat(source))
    return target


def like(path: str, it: os.stat_result) -> None:
    """Gives a file or directory the mode and the times of another one."""
    os.chmod(path, stat.S_IMODE(it.st_mode))
    os.utime(path, ns=(it.st_atime_ns, it.st_mtime_ns))


class Inbox:
    """Those who wait for answers: what was handed out, and how often."""

    def __init__(self, top: str) -> None:
        self.top = top
        os.makedirs(top, exist_ok=True)

    def hand_out(
        self, _tree: Tree, place: int, names: Sequence[str], _conflicts: Sequence[str]
    ) -> None:
        """Moves answers to those who wait; one that was moved already is passed over."""
        fd = os.open(self.top, os.O_RDONLY | os.O_DIRECTORY)
        try:
            for name in names:
                if calls.S.look(b"answer-" + name.encode(), place) is not None:
                    calls.S.rename(b"answer-" + name.encode(), place, name.encode(), fd)
        finally:
            os.close(fd)

    def answers(self) -> dict[str, str]:
        """What was handed out."""
        return {name: read(f"{self.top}/{name}") for name in os.listdir(self.top)}


def job(
    path: str,
    changes: list[Change],
    last_look: Callable[[], None] = lambda: None,
    told: list[str] | None = None,
    inbox: Inbox | None = None,
) -> list[str]:
    """A commit with a fresh survey; answers the conflicts."""
    with Tree(path) as tree:
        found = survey(tree.root)
        answers = {"id": b"answer"} if inbox else None
        looks = {"id": Looks({b"a"})} if inbox else None
        hand_out = inbox.hand_out if inbox else None
        made = commit(tree, changes, found, answers, last_look, hand_out, looks)
    if told is not None:
        told += made.told
    return list(made.conflicts)


def mop(path: str, inbox: Inbox | None = None) -> Settled:
    """Settles what was left."""
    with Tree(path) as tree:
        return settle(tree, inbox.hand_out if inbox else None)


def strays(path: str) -> list[str]:
    """The places that are left beside a tree."""
    above, name = os.path.split(path)
    return [it for it in os.listdir(above) if it.startswith(f".{name}.txforest-")]


def expected(changes: list[Change], base: str, work: str) -> tuple[Picture, Picture]:
    """A tree before and after changes, on a copy."""
    shutil.rmtree(work, ignore_errors=True)
    copy(base, work)
    before = picture(work)
    conflicts = job(work, changes)
    assert not conflicts, conflicts
    return before, picture(work)
