"""The two ways to commit a whole tree in one step, for readers that must never see two states.

`--exchange` makes the new tree beside and exchanges the two names; `--link` makes it beside and
turns a symbolic link to it. Both cost a copy of the tree, and give each file a new inode: open
descriptors, hard links, watchers and bind mounts stay with the tree of before.

In the place stand `made`, the new tree and behind an exchange the old one, and the text `step`:

    txforest exchange 1 ID tree INODE made INODE as NAME.before-TIME
    txforest link 1 ID tree INODE made INODE as NAME.TIME

The step itself is the commit: whoever settles sees by the inodes whether it was done.
"""

from __future__ import annotations

import errno
import os
import stat
import time

from . import calls
from .calls import DIR, EXCHANGE, FILE, NEW, NOREPLACE, sync_all
from .commit import Committed, Unfinished, commit, give_answers, write_answers
from .intent import number_of
from .place import Place, Tree, clear, new_place
from .spelling import spelled, unspelled
from .stage import Refused
from .statuses import Failed, Status
from .survey import MOUNT, Survey, survey
from .terminal import shown
from .whole import copy_tree

TYPE_CHECKING = False
if TYPE_CHECKING:
    from collections.abc import Mapping, Sequence

    from .attempt import Attempt
    from .commit import HandOut
    from .differences import Change
    from .settle import Settled

STAMP = 15  # bytes of a time in a name: 20261129T171500
DIGITS = frozenset(b"0123456789T-")


class Step:
    """What a step is to do: its kind, the inodes of the old and the new tree, and the name that the
    old one gets by an exchange, the new one by a link."""

    __slots__ = ("kind", "ino", "made", "name")

    def __init__(self, kind: bytes, ino: int, made: int, name: bytes) -> None:
        self.kind = kind
        self.ino = ino
        self.made = made
        self.name = name

    def text(self, ident: bytes) -> bytes:
        """The step as it stands in its place."""
        parts = (self.kind, ident, self.ino, self.made, spelled(self.name))
        return b"txforest %s 1 %s tree %d made %d as %s\n" % parts


def read_step(text: bytes, ident: bytes, name: bytes) -> Step:
    """The step of a place beside a tree of a name. Raises ValueError if it is none."""
    words = text.split(b" ")
    if len(words) != 10 or words[0] != b"txforest" or words[1] not in (b"exchange", b"link"):
        raise ValueError(text)
    if words[2:5] != [b"1", ident, b"tree"] or words[6] != b"made" or words[8] != b"as":
        raise ValueError(text)
    if not words[9].endswith(b"\n"):
        raise ValueError(text)
    other = unspelled(words[9][:-1])
    front = name + (b".before-" if words[1] == b"exchange" else b".")
    if not other.startswith(front) or not DIGITS.issuperset(other[len(front) :]):
        raise ValueError(text)
    return Step(words[1], number_of(words[5]), number_of(words[7]), other)


# ---- what is refused


def check(tree: Tree, found: Survey) -> None:
    """Refuses a tree that can't be made once more as it is, with the reason."""
    if tree.inside:
        raise Refused(f"{shown(tree.path)}: is a mount, which nothing beside it can replace")
    for left in found.left:
        if left.why == MOUNT:
            raise Refused(f"{shown('/' + left.path)}: a mount, which a new tree would not have")
    if file_system(tree.root) == b"overlay":
        raise Refused(f"{shown(tree.path)}: lies on an overlay, which can't exchange directories")
    me = os.geteuid()
    if me:
        for path, it in found.taken.items():
            if it.st_uid != me:
                raise Refused(f"{shown('/' + path)}: another owner's, whom a copy would not have")


def file_system(fd: int) -> bytes:
    """The kind of the file system on which a descriptor's entry lies."""
    mount = calls.mount_of(fd)
    with open("/proc/self/mountinfo", "rb") as it:
        for line in it:
            words = line.split(b" ")
            if words[0] == mount:
                return words[words.index(b"-") + 1]
    return b""


def stamp_of(folder: int, front: bytes) -> bytes:
    """This moment, as a name behind a front that is free in a folder and later than the others."""
    now = time.strftime("%Y%m%dT%H%M%S", time.gmtime()).encode()
    last = max(stamped(folder, front), default=b"")
    if front + now > last:
        return front + now
    number = 1
    while front + now + b"-%06d" % number <= last:
        number += 1
        if number > 999_999:
            raise Refused(f"{shown(last)}: no later name is free")
    return front + now + b"-%06d" % number


def stamped(folder: int, front: bytes) -> list[bytes]:
    """The names in a folder that a front and a moment make up, in order."""
    found = []
    for name in map(os.fsencode, os.listdir(folder)):
        rest = name[len(front) :]
        if name.startswith(front) and len(rest) >= STAMP and DIGITS.issuperset(rest):
            found.append(name)
    return sorted(found)


# ---- the commit


def put_whole(
    attempt: Attempt,
    changes: Sequence[Change],
    before: int,
    kind: bytes,
    answers: Mapping[str, bytes] | None = None,
    hand_out: HandOut | None = None,
) -> Committed:
    """Makes the tree with its changes beside, and puts it in place in one step. `before` trees of
    before are kept. Raises as commit.commit does."""
    tree, found = attempt.tree, attempt.found
    if not changes and not answers:
        attempt.look_again()
        return Committed([], [])
    check(tree, found)
    told: list[str] = []
    done = False
    place = new_place(tree.home, tree.front)
    try:
        copy_tree(tree, found, place.fd, told)
        made = changed_copy(attempt, place.fd, changes, told)
        front = tree.name + (b".before-" if kind == b"exchange" else b".")
        step = Step(kind, tree.ino, made, stamp_of(tree.home, front))
        write_answers(place.fd, answers or {})
        write_step(place, step)
        sync_all(place.fd)
        attempt.look_again()
        take(tree, place, step)
        done = True
        calls.S.fsync(tree.home)
        end(tree, place, step, before, told, hand_out)
        return Committed([], told)
    except OSError as error:
        if done:
            raise Unfinished(f"{shown(place.name)}: {error.strerror or error}") from error
        undo(tree, place, told)
        raise
    except BaseException:
        if not done:
            undo(tree, place, told)
        raise
    finally:
        place.close()


def changed_copy(attempt: Attempt, place: int, changes: Sequence[Change], told: list[str]) -> int:
    """Makes the changes in the copy; answers its inode."""
    with Tree(f"/proc/self/fd/{place}/made") as made:
        found = survey(made.root, only=attempt.only, as_root=os.fsencode(attempt.tree.path))
        committed = commit(made, changes, found)
        told += committed.told
        if committed.conflicts:
            raise Refused(committed.conflicts[0])
        return made.ino


def write_step(place: Place, step: Step) -> None:
    """Writes what the step is to do."""
    fd = calls.S.open(b"step", NEW, place.fd)
    try:
        calls.S.write(fd, step.text(place.ident))
        calls.S.fsync(fd)
    finally:
        calls.S.close(fd)
    calls.S.fsync(place.fd)


def take(tree: Tree, place: Place, step: Step) -> None:
    """The step."""
    if step.kind == b"exchange":
        try:
            calls.S.rename2(b"made", place.fd, tree.name, tree.home, EXCHANGE)
        except OSError as error:
            if error.errno in (errno.ENOSYS, errno.EINVAL):
                raise Refused("this file system can't exchange two directories") from None
            raise
        return
    calls.S.rename2(b"made", place.fd, step.name, tree.home, NOREPLACE)
    calls.S.symlink(step.name, b"link", place.fd)
    calls.S.fsync(tree.home)
    calls.S.rename(b"link", place.fd, tree.name, tree.home)


def end(
    tree: Tree,
    place: Place,
    step: Step,
    before: int | None,
    told: list[str],
    hand_out: HandOut | None,
) -> None:
    """What comes behind the step: the old tree gets its name, older ones go, answers are given."""
    if step.kind == b"exchange" and calls.S.look(b"made", place.fd) is not None:
        calls.S.rename2(b"made", place.fd, step.name, tree.home, NOREPLACE)
        calls.S.fsync(tree.home)
    give_answers(tree, place.fd, hand_out, [])
    if before is not None:
        prune(tree, place, step, before, told)
    place.clear(told)


def prune(tree: Tree, place: Place, step: Step, before: int, told: list[str]) -> None:
    """Removes the trees of before, all but the last ones. What can't be removed is told and
    stays."""
    front = tree.name + (b".before-" if step.kind == b"exchange" else b".")
    names = [name for name in stamped(tree.home, front) if name != step.name]
    if step.kind == b"exchange":
        names.append(step.name)
    for number, name in enumerate(names[: max(0, len(names) - before)]):
        gone = b"gone%d" % number
        try:
            calls.S.rename(name, tree.home, gone, place.fd)
            clear(place.fd, gone)
        except OSError as error:
            told.append(f"{shown(name)}: is not removed: {error.strerror}")
            try:
                calls.S.rename2(gone, place.fd, name, tree.home, NOREPLACE)
            except OSError:
                pass


def undo(tree: Tree, place: Place, told: list[str]) -> None:
    """Removes what a step that was not done has left, beside the tree too."""
    try:
        step = step_of(place, tree.name)
        if step is not None:
            take_back(tree, place, step)
    except (OSError, ValueError) as error:
        told.append(f"{shown(place.name)}: stays: {error}")
        return
    place.clear(told)


# ---- settling


def step_of(place: Place, name: bytes) -> Step | None:
    """The step of a place, or nothing if it has none. Raises ValueError if it is of no form."""
    found = calls.S.look(b"step", place.fd)
    if found is None:
        return None
    if not stat.S_ISREG(found.st_mode) or found.st_uid != os.geteuid():
        raise ValueError("no step")
    with open(calls.S.open(b"step", FILE, place.fd), "rb") as it:
        return read_step(it.read(4096), place.ident, name)


def take_back(tree: Tree, place: Place, step: Step) -> None:
    """Takes the new tree of a link that was not turned back into the place."""
    if step.kind != b"link":
        return
    found = calls.S.look(step.name, tree.home)
    if found is not None and found.st_ino == step.made:
        calls.S.rename2(step.name, tree.home, b"made", place.fd, NOREPLACE)


def is_done(tree: Tree, place: Place, step: Step) -> bool:
    """Whether a step was done, by the inodes."""
    if step.kind == b"link":
        found = calls.S.look(tree.name, tree.home)
        is_link = found is not None and stat.S_ISLNK(found.st_mode)
        return is_link and calls.S.text(tree.name, tree.home) == step.name
    made = calls.S.look(b"made", place.fd)
    if made is not None:
        return made.st_ino == step.ino
    there = calls.S.look(tree.name, tree.home)
    return there is not None and there.st_ino == step.made


def settle_step(
    tree: Tree, place: Place, step: Step, settled: Settled, hand_out: HandOut | None
) -> None:
    """Ends or takes back a step that a killed job left."""
    calls.S.fsync(place.fd)
    if is_done(tree, place, step):
        calls.S.fsync(tree.home)
        end(tree, place, step, None, settled.told, hand_out)
        return
    take_back(tree, place, step)
    place.clear(settled.told)


def linked_tree(name: str) -> Tree:
    """The tree to which a symbolic link leads; its places stand beside the link."""
    path = os.path.abspath(name)
    if not os.path.islink(path) or not os.path.isdir(path):
        raise Failed(Status.USAGE, f"{shown(name)}: no symbolic link to a folder stands there")
    tree = Tree(os.path.realpath(path))
    above, last = os.path.split(path)
    if (os.path.realpath(above) + "/").startswith(tree.path + "/"):
        tree.close()
        raise Failed(
            Status.USAGE, f"{shown(name)}: what stands beside it lies in the folder itself"
        )
    os.close(tree.above)
    tree.above = tree.home = os.open(os.path.realpath(above), DIR)
    tree.name, tree.inside = os.fsencode(last), False
    tree.front = b"." + tree.name[:200] + b".txforest-"
    if os.fstat(tree.above).st_dev != os.fstat(tree.root).st_dev:
        tree.close()
        raise Failed(Status.USAGE, f"{shown(name)}: leads to another file system")
    return tree
