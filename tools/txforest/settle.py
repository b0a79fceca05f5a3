"""Settling: whoever takes the lock ends what killed jobs began."""

from __future__ import annotations

import os
import stat

from . import calls
from .calls import DIR, FILE
from .commit import give_answers
from .intent import LIMIT, read_intent
from .operations import perform
from .place import Place, Tree, beside_front, hold, place_names
from .room import MEMORY, room_front
from .terminal import shown

TYPE_CHECKING = False
if TYPE_CHECKING:
    from .commit import HandOut


class Settled:
    """What was settled: how many places were ended or cleared, the conflicts met, and lines to
    tell."""

    __slots__ = ("count", "conflicts", "told")

    def __init__(self) -> None:
        self.count = 0
        self.conflicts: list[str] = []
        self.told: list[str] = []


def settle(tree: Tree, hand_out: HandOut | None = None) -> Settled:
    """Ends what killed jobs left beside a tree, whose lock is held.

    A place with an intent is done to its end and its answers are handed out; one without is
    cleared. Places in use (their lock is held), others' places and planted ones stay, and are
    told. Raises OSError if the system refuses an operation for now: then the rest waits for the
    next job.
    """
    settled = Settled()
    clear_rooms(tree, settled)
    homes = [(tree.home, name) for name in tree.places()]
    if tree.inside:
        homes += [(tree.above, name) for name in place_names(tree.above, beside_front(tree.name))]
    for home, name in homes:
        try:
            fd = calls.S.open(name, DIR, home)
        except OSError:
            continue  # no directory: it is nobody's place
        place = Place(home, name, fd)
        try:
            why = not_to_settle(fd)
            if why is None:
                settle_place(tree, place, settled, hand_out)
            elif why:
                settled.told.append(f"{shown(name)}: {why}")
        finally:
            place.close()
    return settled


def clear_rooms(tree: Tree, settled: Settled) -> None:
    """Clears the rooms in memory that killed jobs left; others' are left alone."""
    try:
        memory = os.open(MEMORY, DIR)
    except OSError:
        return
    try:
        for name in place_names(memory, room_front(tree)):
            try:
                room = Place(memory, name, calls.S.open(name, DIR, memory))
            except OSError:
                continue
            try:
                if not_to_settle(room.fd) is None:
                    room.clear(settled.told)
            finally:
                room.close()
    finally:
        os.close(memory)


def not_to_settle(fd: int) -> str | None:
    """Why a directory is none of one's own places that was left; empty if nothing is to be told."""
    found = os.fstat(fd)
    if found.st_uid != os.geteuid():
        return f"a place of the user {found.st_uid}; it stays, and is theirs to settle"
    if found.st_mode & 0o077:
        return "others may look into it, so that it is no place; it stays"
    return None if hold(fd) else ""


def settle_place(tree: Tree, place: Place, settled: Settled, hand_out: HandOut | None) -> None:
    """Ends one place."""
    if calls.S.look(b"step", place.fd) is not None:
        settle_whole(tree, place, settled, hand_out)
        return
    text = intent_of(place.fd)
    if text is not None:
        try:
            intent = read_intent(text, place.ident)
        except ValueError:
            settled.told.append(f"{shown(place.name)}: no intent stands in it; it stays")
            return
        if intent.ino != tree.ino:
            settled.told.append(f"{shown(place.name)}: for another folder of this name; it stays")
            return
        # The stop may have come before the commit was on the device: now it is.
        calls.S.fsync(place.fd)
        conflicts = perform(tree, place.fd, intent.operations, intent.umask)
        settled.conflicts += conflicts
        give_answers(tree, place.fd, hand_out, conflicts)
    settled.count += 1
    place.clear(settled.told)


def settle_whole(tree: Tree, place: Place, settled: Settled, hand_out: HandOut | None) -> None:
    """Ends a place of one step for the whole tree."""
    from .exchange import settle_step, step_of

    try:
        step = step_of(place, tree.name)
    except ValueError:
        settled.told.append(f"{shown(place.name)}: no step stands in it; it stays")
        return
    if step is not None and tree.ino in (step.ino, step.made):
        settle_step(tree, place, step, settled, hand_out)
        settled.count += 1
    else:
        settled.told.append(f"{shown(place.name)}: for another folder of this name; it stays")


def intent_of(place: int) -> bytes | None:
    """The text of a place's intent, or nothing. What is no file of one's own is an empty text."""
    try:
        fd = calls.S.open(b"intent", FILE, place)
    except FileNotFoundError:
        return None
    except OSError:
        return b""
    found = os.fstat(fd)
    if not stat.S_ISREG(found.st_mode) or found.st_uid != os.geteuid() or found.st_size > LIMIT:
        calls.S.close(fd)
        return b""
    with open(fd, "rb") as it:
        return it.read()
