"""Commit by files: changes get into a live tree whole, also across kills and power cuts; nobody
else's change is lost; what does not change is not touched.

In a place, a directory of one's own beside the tree (in it, if the tree is a mount):

    n0, n1, ..   the new files, with their last mode, owner and access lists
    m0, l0, ..   during an operation: what is exchanged with a target; behind that, what stood there
    r0, r1, ..   during an operation: what was removed
    answer-..    answers that are handed out to those who wait, behind the commit
    touched      which operations touch which answers, if they are of several jobs
    intent       what is to be done; its name, synced, is the commit

The syncs, and what a power cut can do without each:

    each staged file     an empty or torn file under its name
    each target that     an older one comes back, and is taken for somebody else's
      changed lately
    intent.new           no intent under its name: a commit is lost
    the place            the intent is there, a staged file is not
    the place's home     the operations are there, the place is not; that of the job before is back
    -- intent.new gets the name intent --
    the place            operations are there, the intent is not: this sync is the commit
    each touched         the place goes, and the operations are not there
      directory

Behind them the intent is removed, then the rest, then the place. That needs no sync: the next
commit syncs the place's home before its own intent has its name.
"""

from __future__ import annotations

import os

from . import calls
from .calls import NEW
from .intent import Operation, intent_text
from .operations import Conflict, perform
from .place import Place, Tree, new_place
from .stage import Refused, staged
from .survey import Changed, Survey
from .terminal import shown

TYPE_CHECKING = False
if TYPE_CHECKING:
    from collections.abc import Callable, Mapping, Sequence

    from .differences import Change
    from .touched import Looks, Touched

    # Moves answers from a place (a descriptor) to those who wait: that of NAME is the place's file
    # `answer-NAME`. It is told their conflicts too, which turn a status. It may be called again for
    # the same ones if it was stopped; it leaves none.
    HandOut = Callable[[Tree, int, Sequence[str], Sequence[str]], None]

ANSWER = b"answer-"
__all__ = ["Changed", "Committed", "Refused", "Unfinished", "commit", "give_answers"]


class Unfinished(Exception):
    """The commit stands; the system refused an operation, which whoever has the lock next does."""


class Committed:
    """What became of a commit: the conflicts (paths that somebody else changed meanwhile, which
    were not written over), and what else is to be told, a line each."""

    __slots__ = ("conflicts", "told", "touched")

    def __init__(
        self, conflicts: list[Conflict], told: list[str], touched: Touched | None = None
    ) -> None:
        self.conflicts = conflicts
        self.told = told
        self.touched = touched

    def told_to(self, name: str) -> list[str]:
        """The conflicts that are told to the job of an answer."""
        if self.touched is None:
            return [str(it) for it in self.conflicts]
        return self.touched.told_to(name, self.conflicts)


def commit(
    tree: Tree,
    changes: Sequence[Change],
    found: Survey,
    answers: Mapping[str, bytes] | None = None,
    last_look: Callable[[], None] = lambda: None,
    hand_out: HandOut | None = None,
    looks: Mapping[str, Looks] | None = None,
) -> Committed:
    """Makes changes in a tree, of which `found` is the survey; the lock is held.

    `last_look` is called last before the commit, and may raise Changed. `answers` are put into the
    place before the commit and handed out behind it, by `hand_out` here or by whoever settles the
    place: each exactly once. `looks` says of answers at what their jobs looked: these are told the
    conflicts that touch them alone. Raises Refused, Changed or OSError with nothing changed;
    Unfinished behind the commit. Behind the commit nothing else is raised.
    """
    told: list[str] = []
    touched: Touched | None = None
    stands = False
    place = new_place(tree.home, tree.front)
    before = hold_signals()
    try:
        operations = staged(tree, place.fd, changes, found, told)
        write_answers(place.fd, answers or {})
        if looks:
            from .touched import touched_by, write_touched

            touched = touched_by(operations, looks)
            write_touched(place.fd, touched)
        umask = os.umask(0)
        os.umask(umask)
        write_intent(tree, place, umask, operations)
        last_look()
        calls.S.rename(b"intent.new", place.fd, b"intent", place.fd)
        stands = True
        calls.S.fsync(place.fd)  # the commit
        conflicts = perform(tree, place.fd, operations, umask)
        give_answers(tree, place.fd, hand_out, conflicts)
        place.clear(told)
        return Committed(conflicts, told, touched)
    except OSError as error:
        if stands:
            raise Unfinished(f"{shown(place.name)}: {error.strerror or error}") from error
        place.clear(told)
        raise
    except BaseException:
        if not stands:
            place.clear(told)
        raise
    finally:
        place.close()
        let_signals(before)


def hold_signals() -> set[int]:
    """Signals that would end the tool wait from now on; answers those that waited before."""
    from .signals import HELD, signal

    return {int(number) for number in signal.pthread_sigmask(signal.SIG_BLOCK, HELD)}


def let_signals(before: set[int]) -> None:
    """Signals that did not wait before don't from now on."""
    from .signals import signal

    signal.pthread_sigmask(signal.SIG_SETMASK, before)


def write_intent(tree: Tree, place: Place, umask: int, operations: Sequence[Operation]) -> None:
    """Writes the intent, not yet under its name, and waits until all that was staged is on the
    device: the names too, and that the place of the job before is gone."""
    fd = calls.S.open(b"intent.new", NEW, place.fd)
    try:
        calls.S.write(fd, intent_text(place.ident, tree.ino, umask, operations))
        calls.S.fsync(fd)
    finally:
        calls.S.close(fd)
    calls.S.fsync(place.fd)
    calls.S.fsync(tree.home)


def write_answers(place: int, answers: Mapping[str, bytes]) -> None:
    """Writes the answers into a place. A name is letters, digits, `.`, `_` and `-` alone."""
    for name, text in answers.items():
        fd = calls.S.open(ANSWER + name.encode(), NEW, place)
        try:
            calls.S.write(fd, text)
            calls.S.fsync(fd)
        finally:
            calls.S.close(fd)


def give_answers(
    tree: Tree, place: int, hand_out: HandOut | None, conflicts: Sequence[Conflict] = ()
) -> None:
    """Hands out the answers that stand in a place, if there are any, each with those of the
    conflicts of its operations that touch it."""
    names = answers_in(place)
    if not names:
        return
    if hand_out is None:
        from . import queue

        hand_out = queue.hand_out
    if not conflicts:
        hand_out(tree, place, names, [])
        return
    from .touched import read_touched

    for group, told in read_touched(place).parted(names, conflicts):
        hand_out(tree, place, group, told)


def answers_in(place: int) -> list[str]:
    """The names of the answers that stand in a place."""
    names = sorted(name for name in map(os.fsencode, os.listdir(place)) if name.startswith(ANSWER))
    return [os.fsdecode(name[len(ANSWER) :]) for name in names]
