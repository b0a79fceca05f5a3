"""Breaks commits in four ways: kills, power cuts, refused calls, somebody else's changes at each
call.

Each function takes a number and a seed, raises AssertionError at the first fault, and answers
what it counted. The unit tests take small numbers, checks/live.py large ones.
"""

from __future__ import annotations

import errno
import os
import random
import shutil
import stat
from collections import Counter
from collections.abc import Callable
from typing import Any

from txforest import calls
from txforest.calls import EXCHANGE, Calls
from txforest.commit import Changed, Refused, Unfinished
from txforest.differences import Change
from txforest.place import Tree
from txforest.settle import settle

from .trees import (
    Inbox,
    Picture,
    copy,
    expected,
    job,
    mop,
    new_tree,
    picture,
    some_changes,
    strays,
    work_folder,
    write,
)

PASSED_OVER = ("mark", "openat2")
COUNTED = [name for name in dir(Calls) if name[0] != "_" and name not in PASSED_OVER]
CHANGING = [name for name in COUNTED if name not in ("look", "text", "close")]
CAUSES = [errno.ENOSPC, errno.EIO, errno.EPERM, errno.EDQUOT, errno.EMFILE]


class Watched(Calls):
    """Calls of which each is told before and behind it: `at(number, name, behind)`."""

    def __init__(self, names: list[str]) -> None:
        self.count = 0
        for name in names:
            setattr(self, name, self.told(name, getattr(self, name)))

    def told(self, name: str, method: Callable[..., Any]) -> Callable[..., Any]:
        """A call that is told."""

        def call(*words: Any) -> Any:
            self.count += 1
            number = self.count
            self.at(number, name, False)
            try:
                return method(*words)
            finally:
                self.at(number, name, True)

        return call

    def at(self, number: int, name: str, behind: bool) -> None:
        """What happens at a call."""


class using:
    """Makes calls the ones in use for a while."""

    def __init__(self, made: Calls) -> None:
        self.made = made

    def __enter__(self) -> Calls:
        calls.S = self.made
        return self.made

    def __exit__(self, *_: object) -> None:
        calls.S = calls.PLAIN


# ---- kills


class Killed(Watched):
    """Ends the process at the n-th call, before or behind it."""

    def __init__(self, end: int = 0, behind: bool = False) -> None:
        super().__init__(COUNTED)
        self.end = end
        self.behind = behind

    def at(self, number: int, name: str, behind: bool) -> None:
        if number == self.end and behind == self.behind:
            os._exit(77)


def forked(work: Callable[[], object]) -> int:
    """A child that works, by its number."""
    pid = os.fork()
    if not pid:
        status = 1
        try:
            work()
            status = 0
        finally:
            os._exit(status)
    return pid


def ended(pid: int) -> int:
    """The status of a child, once it ends."""
    return os.waitstatus_to_exitcode(os.waitpid(pid, 0)[1])


def child(work: Callable[[], object]) -> int:
    """The status of a child that works."""
    return ended(forked(work))


def kills(number: int, seed: int = 1) -> str:
    """A commit ends at each of its calls, before and behind it; its settling is killed too, none to
    two times; then it is settled."""
    random.seed(seed)
    stops, befores, rounds = 0, 0, 0
    with work_folder() as top:
        while stops < number:
            rounds += 1
            base = new_tree(f"{top}/base{rounds}")
            changes = some_changes()
            before, after = expected(changes, base, f"{top}/expected")
            with using(Killed()) as counting:
                job(copy(base, f"{top}/count"), changes, inbox=Inbox(f"{top}/count.in"))
            total = counting.count  # type: ignore[attr-defined]
            shutil.rmtree(f"{top}/count")
            turns = [(at, behind) for at in range(1, total + 1) for behind in (False, True)]
            if number < 1000:
                turns = random.sample(turns, min(len(turns), number // 2 + 1))
            for at, behind in turns:
                befores += killed_once(top, base, changes, (before, after), at, behind)
                stops += 1
    return f"{stops} stops in {rounds} commits: {befores} as before, {stops - befores} as after"


def killed_once(
    top: str,
    base: str,
    changes: list[Change],
    states: tuple[Picture, Picture],
    at: int,
    behind: bool,
) -> bool:
    """One kill; answers whether the tree is as before."""
    tree = copy(base, f"{top}/t")
    inbox = Inbox(f"{top}/in")
    keep = os.lstat(f"{tree}/keep").st_ino

    def die() -> None:
        calls.S = Killed(at, behind)
        job(tree, changes, inbox=inbox)

    status = child(die)
    assert status == 77, (status, at, behind)
    for _ in range(random.choice([0, 0, 1, 2])):
        end, after = random.randint(1, 60), random.random() < 0.5

        def die_again() -> None:
            calls.S = Killed(end, after)
            mop(tree, inbox)

        assert child(die_again) in (0, 77)
    settled = mop(tree, inbox)
    now = picture(tree)
    assert not settled.conflicts, settled.conflicts
    assert now in states, (at, behind, [x for x in now if now.get(x) != states[1].get(x)])
    assert os.lstat(f"{tree}/keep").st_ino == keep
    assert not strays(tree), strays(tree)
    is_before = now != states[1]
    answers = inbox.answers()
    assert answers == ({} if is_before else {"id": "answer"}), (at, behind, is_before, answers)
    shutil.rmtree(tree)
    shutil.rmtree(inbox.top)
    return is_before


# ---- power cuts


class Recorded(Calls):
    """Does each call, and writes down what it means: versions of each inode's content and
    attributes, of each directory's entries, and up to where each is on the device."""

    def __init__(self, above: bytes) -> None:
        self.ids: dict[int, int] = {}
        self.events: list[tuple[Any, ...]] = []
        self.next = 0
        self.above = self.enter(above)

    def fresh(self, found: os.stat_result) -> int:
        """A number for a new inode: those of the system come again."""
        self.next += 1
        self.ids[found.st_ino] = self.next
        return self.next

    def enter(self, path: bytes) -> int:
        """Takes down what stands at a path, as being on the device."""
        found = os.lstat(path)
        uid = self.fresh(found)
        if stat.S_ISDIR(found.st_mode):
            self.events.append(("inode", uid, found, None))
            for name in os.listdir(path):
                self.events.append(("entry", uid, name, self.enter(os.path.join(path, name))))
        elif stat.S_ISLNK(found.st_mode):
            self.events.append(("inode", uid, found, os.readlink(path)))
        else:
            with open(path, "rb") as it:
                self.events.append(("inode", uid, found, it.read()))
        self.events.append(("fsync", uid))
        return uid

    def version(self, fd: int) -> None:
        """A new version of an inode."""
        found = os.fstat(fd)
        data = None
        if not stat.S_ISDIR(found.st_mode):
            with open(f"/proc/self/fd/{fd}", "rb") as it:
                data = it.read()
        self.events.append(("inode", self.uid(fd), found, data))

    def uid(self, fd: int) -> int:
        """The number of what is open."""
        return self.ids[os.fstat(fd).st_ino]

    def at(self, name: bytes, fd: int) -> int:
        """The number of what stands at a name."""
        return self.ids[os.stat(name, dir_fd=fd, follow_symlinks=False).st_ino]

    def entry(self, fd: int, name: bytes, uid: int | None) -> None:
        """A name leads elsewhere."""
        self.events.append(("entry", self.uid(fd), name, uid))

    def by_name(self, name: bytes, dir_fd: int) -> None:
        """A new version of what stands at a name."""
        fd = os.open(name, os.O_RDONLY, dir_fd=dir_fd)
        try:
            self.version(fd)
        finally:
            os.close(fd)

    def open(self, name: bytes, flags: int, dir_fd: int, mode: int = 0o600) -> int:
        made = super().open(name, flags, dir_fd, mode)
        if flags & os.O_CREAT or flags & os.O_TMPFILE == os.O_TMPFILE:
            uid = self.fresh(os.fstat(made))
            self.events.append(("inode", uid, os.fstat(made), b""))
            if flags & os.O_CREAT:
                self.entry(dir_fd, name, uid)
        return made

    def write(self, fd: int, data: bytes) -> None:
        super().write(fd, data)
        self.version(fd)

    def chown(self, fd: int, uid: int, gid: int) -> None:
        super().chown(fd, uid, gid)
        self.version(fd)

    def chmod(self, fd: int, mode: int) -> None:
        super().chmod(fd, mode)
        self.version(fd)

    def chmod_at(self, name: bytes, dir_fd: int, mode: int, mark: bytes) -> bool:
        done = super().chmod_at(name, dir_fd, mode, mark)
        self.by_name(name, dir_fd)
        return done

    def chown_at(self, name: bytes, dir_fd: int, uid: int, gid: int, mark: bytes) -> bool:
        done = super().chown_at(name, dir_fd, uid, gid, mark)
        self.by_name(name, dir_fd)
        return done

    def mkdir(self, name: bytes, mode: int, dir_fd: int) -> None:
        super().mkdir(name, mode, dir_fd)
        uid = self.fresh(os.stat(name, dir_fd=dir_fd, follow_symlinks=False))
        self.by_name(name, dir_fd)
        self.entry(dir_fd, name, uid)

    def symlink(self, text: bytes, name: bytes, dir_fd: int) -> None:
        super().symlink(text, name, dir_fd)
        found = os.stat(name, dir_fd=dir_fd, follow_symlinks=False)
        uid = self.fresh(found)
        self.events.append(("inode", uid, found, text))
        self.events.append(("fsync", uid))  # a link's text comes with its inode
        self.entry(dir_fd, name, uid)

    def link(self, a: bytes, a_fd: int, b: bytes, b_fd: int) -> None:
        super().link(a, a_fd, b, b_fd)
        self.entry(b_fd, b, self.at(b, b_fd))

    def link_open(self, fd: int, name: bytes, dir_fd: int) -> None:
        super().link_open(fd, name, dir_fd)
        self.entry(dir_fd, name, self.at(name, dir_fd))

    def unlink(self, name: bytes, dir_fd: int) -> None:
        super().unlink(name, dir_fd)
        self.entry(dir_fd, name, None)

    def rmdir(self, name: bytes, dir_fd: int) -> None:
        super().rmdir(name, dir_fd)
        self.entry(dir_fd, name, None)

    def rename(self, a: bytes, a_fd: int, b: bytes, b_fd: int) -> None:
        uid = self.at(a, a_fd)
        super().rename(a, a_fd, b, b_fd)
        pair = [(self.uid(b_fd), b, uid), (self.uid(a_fd), a, None)]
        self.events.append(("pair", pair))

    def rename2(self, a: bytes, a_fd: int, b: bytes, b_fd: int, flag: int) -> None:
        uid = self.at(a, a_fd)
        super().rename2(a, a_fd, b, b_fd, flag)
        other = self.at(a, a_fd) if flag == EXCHANGE else None
        self.events.append(("pair", [(self.uid(b_fd), b, uid), (self.uid(a_fd), a, other)]))

    def fsync(self, fd: int) -> None:
        super().fsync(fd)
        self.events.append(("fsync", self.uid(fd)))


class Forgetful(Recorded):
    """Passes over the syncs of one kind, as a commit without them would."""

    KINDS = ("staged", "intent", "place", "home", "commit", "directory")

    def __init__(self, above: bytes, left_out: str) -> None:
        super().__init__(above)
        self.left_out = left_out

    def fsync(self, fd: int) -> None:
        if self.kind(os.readlink(b"/proc/self/fd/%d" % fd), fd) != self.left_out:
            super().fsync(fd)

    def kind(self, path: bytes, fd: int) -> str:
        """Which sync it is."""
        name = os.path.basename(path)
        if not os.path.isdir(path):
            in_place = b".txforest-" in os.path.dirname(path)
            return "intent" if name == b"intent.new" else "staged" if in_place else "target"
        if b".txforest-" in name:
            return "commit" if b"intent" in map(os.fsencode, os.listdir(fd)) else "place"
        return "home" if self.uid(fd) == self.above else "directory"


Names = dict[int, dict[bytes, Any]]


def cut(events: list[tuple[Any, ...]], end: int, model: str) -> tuple[Names, dict[int, Any]]:
    """What may stand on the device behind a power cut at an event.

    Model `loose`: of each inode and of each name, the last synced version or any later one,
    whatever else is there. Model `journal`: names by a prefix of all changes of names that has at
    least those before the last sync of anything; contents as in `loose`.
    """
    inode: dict[int, list[Any]] = {}
    names: Names = {}
    front = 0

    def entry(number: int, folder: int, name: bytes, uid: int | None) -> None:
        names.setdefault(folder, {}).setdefault(name, [(-1, None)]).append((number, uid))

    for number, event in enumerate(events[:end]):
        if event[0] == "inode":
            inode.setdefault(event[1], []).append(event[2:])
        elif event[0] == "entry":
            entry(number, *event[1:])
        elif event[0] == "pair":
            for it in event[1]:
                entry(number, *it)
        else:
            front = number
            if event[1] in inode:
                del inode[event[1]][:-1]
            for name in names.get(event[1], ()):
                del names[event[1]][name][:-1]
    limit = random.randint(front, end)
    settled: Names = {}
    for folder, by_name in names.items():
        for name, all_ in by_name.items():
            may = all_
            if model == "journal":
                may = [[it for it in all_ if it[0] <= limit or it is all_[0]][-1]]
            settled.setdefault(folder, {})[name] = random.choice(may)[1]
    return settled, {uid: content_of(all_) for uid, all_ in inode.items()}


def content_of(versions: list[Any]) -> Any:
    """The content of an inode behind a power cut, torn if it was not synced."""
    found, data = random.choice(versions)
    several = len({bytes(it) for _, it in versions if it is not None}) > 1
    if several and data and random.random() < 0.4:
        data = random.choice([data[: random.randint(0, len(data))], bytes(len(data)), b""])
    return found, data


class Afterwards(Calls):
    """The system behind a power cut that was made up: inodes that were not touched since count as
    those that they stand for."""

    def __init__(self) -> None:
        self.stands: dict[int, tuple[Any, os.stat_result]] = {}

    def mark(self, found: os.stat_result) -> bytes:
        known = self.stands.get(found.st_ino)
        plain = super().mark(found)
        kind = stat.S_IFMT(found.st_mode)
        if known and kind == stat.S_IFMT(known[1].st_mode):
            as_seen = known[0] == (found.st_mtime_ns, found.st_size)
            parts = plain.split(b":")
            if kind == stat.S_IFDIR or as_seen:
                parts[1] = b"%d" % known[1].st_ino
            if kind != stat.S_IFDIR and as_seen:
                parts[3] = b"%d" % known[1].st_mtime_ns
            return b":".join(parts)
        return plain


def materialized(where: bytes, settled: Names, contents: dict[int, Any], root: int) -> Afterwards:
    """Makes what stands on the device behind a power cut."""
    after = Afterwards()
    made: dict[int, bytes] = {}

    def make(uid: int, path: bytes) -> None:
        found, data = contents[uid]
        if stat.S_ISDIR(found.st_mode):
            if uid in made:
                return  # a directory at two names: the second is lost
            made[uid] = path
            os.mkdir(path)
            for name, inside in settled.get(uid, {}).items():
                if inside is not None and inside in contents:
                    make(inside, os.path.join(path, name))
            os.chmod(path, stat.S_IMODE(found.st_mode))
        elif uid in made:
            os.link(made[uid], path, follow_symlinks=False)
        else:
            made[uid] = path
            if stat.S_ISLNK(found.st_mode):
                os.symlink(data, path)
            else:
                with open(path, "wb") as it:
                    it.write(data)
                os.chmod(path, stat.S_IMODE(found.st_mode))
        now = os.lstat(path)
        after.stands[now.st_ino] = ((now.st_mtime_ns, now.st_size), found)

    make(root, where)
    return after


def cuts(number: int, seed: int = 1, models: str = "loose journal") -> str:
    """Power cuts at random moments of two commits on one tree: behind settling it is as before,
    after the first or after the second one, and no commit is lost that was on the device."""
    random.seed(seed)
    tally: Counter[str] = Counter()
    done, rounds = 0, 0
    with work_folder() as top:
        while done < number:
            rounds += 1
            above = f"{top}/c{rounds}"
            os.mkdir(above)
            done += cut_pair(top, above, min(number, 80), models.split(), tally)
            shutil.rmtree(above)
    told = ", ".join(f"{key}: {count}" for key, count in sorted(tally.items()))
    return f"{done} cuts in {rounds} pairs of commits ({told})"


def mutations(number: int, seed: int = 1) -> str:
    """Of each kind of sync: power cuts of commits without it have to find a fault."""
    found = []
    for kind in Forgetful.KINDS:
        random.seed(seed)
        done = 0
        while True:
            with work_folder() as top:
                os.mkdir(f"{top}/c")
                try:
                    done += cut_pair(top, f"{top}/c", 40, ["loose"], Counter(), kind)
                except AssertionError:
                    break
            assert done < number, f"{done} power cuts without the sync '{kind}' find no fault"
        found.append(f"{kind} within {done + 40}")
    return f"power cuts find that a sync is left out: {', '.join(found)}"


def cut_pair(
    top: str,
    above: str,
    number: int,
    models: list[str],
    tally: Counter[str],
    left_out: str | None = None,
) -> int:
    """The cuts of one pair of commits, of which a kind of sync may be left out."""
    tree = new_tree(f"{above}/tree")
    changes = some_changes()
    states = [*expected(changes, tree, f"{top}/expected")]
    # A second job behind the first: that the first one's place is gone is not synced by the first.
    second = [
        Change("store", "a/f0", b"by the second job"),
        Change("store", "second", b"new"),
        Change("remove", "a/b/x"),
    ]
    real_ino = os.lstat(tree).st_ino
    record = Forgetful(os.fsencode(above), left_out) if left_out else Recorded(os.fsencode(above))
    first, marks = len(record.events), list[int]()
    with using(record):
        for it in (changes, second):
            assert not job(tree, it, lambda: marks.append(len(record.events)))
    states.append(picture(tree))
    # The first sync behind the last look is the commit: then it is on the device.
    commits = [
        next(i for i in range(mark, len(record.events)) if record.events[i][0] == "fsync") + 1
        for mark in marks
    ]
    for turn in range(number):
        model = models[turn % len(models)]
        end = random.randint(first, len(record.events))
        where = f"{top}/cut"
        shutil.rmtree(where, ignore_errors=True)
        settled, contents = cut(record.events, end, model)
        after = materialized(os.fsencode(where), settled, contents, record.above)
        with using(after), Tree(f"{where}/tree") as found:
            found.ino = real_ino
            ended = settle(found)
        now = picture(f"{where}/tree")
        least = sum(end >= it for it in commits)
        assert not ended.conflicts, (model, end, commits, ended.conflicts)
        assert now in states, (model, end, commits, [x for x in now if now[x] != states[0].get(x)])
        assert states.index(now) >= least, ("a commit was lost", model, end, commits)
        tally[f"{model} {least} on the device, {states.index(now)} in the tree"] += 1
    return number


# ---- refused calls


class Refusing(Watched):
    """Refuses the n-th call of those that change something, once or from then on."""

    def __init__(self, end: int, number: int, for_good: bool) -> None:
        super().__init__(CHANGING)
        self.end = end
        self.number = number
        self.for_good = for_good
        self.hit = ""

    def at(self, number: int, name: str, behind: bool) -> None:
        if not behind and (number == self.end or self.for_good and number > self.end):
            self.hit = self.hit or name
            raise OSError(self.number, os.strerror(self.number), name)


def refused(number: int, seed: int = 1) -> str:
    """Each changing call is refused: done means after, refused means before, unfinished is after
    once settled, EPERM behind the commit is a told conflict; a later job is not stopped."""
    random.seed(seed)
    tally: Counter[str] = Counter()
    done, rounds = 0, 0
    with work_folder() as top:
        while done < number:
            rounds += 1
            base = new_tree(f"{top}/base")
            changes = some_changes()
            states = expected(changes, base, f"{top}/expected")
            at, step = 0, max(1, 90 // number)
            while True:
                at += random.randint(1, step)
                refusing = Refusing(at, random.choice(CAUSES), random.random() < 0.3)
                tally[refused_once(f"{top}/t", base, changes, states, refusing)] += 1
                done += 1
                if not refusing.hit:
                    break
            shutil.rmtree(base)
    told = ", ".join(f"{key} {count}" for key, count in sorted(tally.items()))
    return f"{done} refused calls in {rounds} commits ({told})"


def refused_once(
    tree: str,
    base: str,
    changes: list[Change],
    states: tuple[Picture, Picture],
    refusing: Refusing,
) -> str:
    """One refused call; answers how the job ended."""
    before, after = states
    copy(base, tree)
    seen = (refusing.end, errno.errorcode[refusing.number], refusing.for_good)
    with using(refusing):
        try:
            end = "conflict" if job(tree, changes) else "done"
        except Unfinished:
            end = "unfinished"
        except (OSError, Refused, Changed):
            end = "refused"
    now = picture(tree)
    if end == "done":
        assert now == after, (seen, refusing.hit)
    elif end == "refused":
        assert now == before, (seen, refusing.hit)
    settled = mop(tree)
    now = picture(tree)
    assert not strays(tree), strays(tree)
    if end == "unfinished":
        assert now == after and not settled.conflicts, (seen, refusing.hit, settled.conflicts)
    if end == "conflict":
        assert refusing.number == errno.EPERM, (seen, refusing.hit)
    assert job(tree, [Change("store", "a/b/x", b"later")]) == []
    shutil.rmtree(tree)
    return end


# ---- somebody else


class Meddling(Watched):
    """Before certain calls somebody without the lock changes the tree."""

    def __init__(self, turns: dict[int, Callable[[], None]]) -> None:
        super().__init__(COUNTED)
        self.turns = turns
        self.hit = 0

    def at(self, number: int, name: str, behind: bool) -> None:
        if not behind and number in self.turns:
            self.hit += 1
            self.turns[number]()


class Edited(Calls):
    """Somebody without the lock edits the tree between a commit and its operations, and the process
    may end there."""

    def __init__(self, edit: Callable[[], None], ends: bool = False) -> None:
        self.edit = edit
        self.ends = ends

    def rename(self, a: bytes, a_fd: int, b: bytes, b_fd: int) -> None:
        super().rename(a, a_fd, b, b_fd)
        if b == b"intent":
            self.edit()
            if self.ends:
                os._exit(77)


def over(path: str, text: str) -> None:
    """He writes beside, and renames over the target."""
    write(f"{os.path.dirname(path)}/.his", text)
    os.rename(f"{os.path.dirname(path)}/.his", path)


def inside(path: str, text: str) -> None:
    """He writes into the target in place."""
    write(path, text)


def away(path: str, _text: str) -> None:
    """He removes the target."""
    if os.path.lexists(path):
        os.unlink(path)


OURS = {"a/f0": b"ours", "a/f1": b"ours too", "new": b"ours, new"}


def races(number: int, seed: int = 1) -> str:
    """Somebody changes a target at each call, in one of three ways, once or twice: his last bytes
    are never lost, and ours stand beside if that is told."""
    random.seed(seed)
    tally: Counter[str] = Counter()
    done = 0
    changes = [Change("store", path, data) for path, data in OURS.items() if path == "new"]
    changes += [Change("store", path, data) for path, data in OURS.items() if path != "new"]
    changes.append(Change("remove", "gone/one"))
    with work_folder() as top:
        base = new_tree(f"{top}/base")
        while done < number:
            for way in (over, inside, away):
                for name in (*OURS, "gone/one"):
                    at, step = 0, max(1, 1000 // number)
                    while True:
                        at += random.randint(1, step)
                        again = at + random.randint(1, 12) if random.random() < 0.5 else 0
                        end = race(copy(base, f"{top}/t"), changes, way, name, at, again)
                        shutil.rmtree(f"{top}/t")
                        done += 1
                        if not end:
                            break
                        tally[f"{way.__name__} {end}"] += 1
    told = ", ".join(f"{key} {count}" for key, count in sorted(tally.items()))
    return f"{done} races ({told})"


def race(
    tree: str,
    changes: list[Change],
    way: Callable[[str, str], None],
    name: str,
    at: int,
    again: int,
) -> str:
    """One race; answers how the job ended, nothing if there was no such call."""
    path = f"{tree}/{name}"
    turns: dict[int, Callable[[], None]] = {at: lambda: way(path, "HIS first")}
    if again:
        turns[again] = lambda: way(path, "HIS second")
    told: list[str] = []
    with using(Meddling(turns)) as meddling:
        try:
            end = "conflict" if job(tree, changes, told=told) else "done"
        except Changed:
            end = "again"
    hit: int = meddling.hit  # type: ignore[attr-defined]
    assert not strays(tree), strays(tree)
    if not hit:
        return ""
    texts = [it[3] for it in picture(tree).values()]
    his = b"HIS second" if hit == 2 else b"HIS first"
    if way is not away:
        assert his in texts, (way.__name__, name, at, again, end)
        ours_was_written = way is inside and hit == 2  # into ours, while it stood at the target
        if end == "conflict" and name in OURS and not ours_was_written:
            assert OURS[name] in texts, (way.__name__, name, at, again, texts)
    if end == "again":
        assert b"ours, new" not in texts
    return end
