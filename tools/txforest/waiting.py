"""The rooms in which jobs of any program wait: the directories TREE.queue/do-ID.

A room is a directory of one's own, mode 0700, and it is in use while its lock is held, which ends
with the process. Rooms that are not in use are cleared by whoever has the tree's lock. In one stand

    job         a job that is prepared, and waits for whoever has the lock
    taken       the same, once somebody with the lock does it, or was killed meanwhile
    gone        the same, withdrawn by its own process: nobody does it
    answer      what it came to, from whoever led or settled

`job` becomes `taken` or `gone` by one rename, so that no job is both done and given up.

If no room can be made beside the tree, it stands in the folder for temporary files: that job leads
itself, and nobody takes it along.
"""

from __future__ import annotations

import fcntl
import os
import stat

from .calls import DIR, FILE, S
from .copies import DEFAULT, remove_tree
from .place import DIGITS, IDENT, listed

TYPE_CHECKING = False
if TYPE_CHECKING:
    from collections.abc import Iterator, Mapping, Sequence

    from .place import Tree

QUEUE = ".queue"
KIND = "do-"  # with what the name of a room begins; other jobs wait in the same folder
NEW = ".new-"
JOB, TAKEN, GONE, ANSWER = "job", "taken", "gone", "answer"
BETWEEN = b"\0\0"
LIMIT = 256 << 20  # bytes of what one job tells another


class Room:
    """A room of one's own, in use until it is closed."""

    def __init__(self, tree: Tree) -> None:
        self.name = KIND + os.urandom(IDENT // 2).hex()
        self.stays = ""  # why it could not be removed, once it is closed
        folder = queue_of(tree)
        self.is_shared = folder is not None
        if folder is None:
            import tempfile

            folder = tempfile.gettempdir()
        fresh = os.path.join(folder, f"{NEW}{self.name}")
        os.mkdir(fresh, 0o700)
        self.fd = os.open(fresh, DIR)
        fcntl.flock(self.fd, fcntl.LOCK_EX)
        if DEFAULT in listed(self.fd):  # else what is made here has rights that the tree has not
            os.removexattr(self.fd, DEFAULT)
        self.path = os.path.join(folder, self.name if self.is_shared else fresh)
        os.rename(fresh, self.path)

    def inside(self, name: str) -> str:
        """The path of what stands in it."""
        return os.path.join(self.path, name)

    def answer(self) -> bytes | None:
        """The answer, once it is there."""
        return text_in(self.fd, ANSWER)

    def withdraw(self) -> bool:
        """Takes the job back. False if somebody has taken it, who may do it yet."""
        return renamed(self.fd, JOB, GONE) or not stands(self.fd, TAKEN)

    def end(self) -> None:
        """Nobody does the job from now on. The tree's lock is held."""
        if not renamed(self.fd, TAKEN, GONE):
            renamed(self.fd, JOB, GONE)

    def close(self) -> None:
        """Removes it. What can't be removed stays, and is in nobody's way."""
        try:
            remove_tree(self.path)
        except OSError as error:
            self.stays = error.strerror or str(error)
        finally:
            os.close(self.fd)

    def __enter__(self) -> Room:
        return self

    def __exit__(self, *_: object) -> None:
        self.close()


def queue_of(tree: Tree) -> str | None:
    """The folder of all rooms, made if it is missing; nothing if one can make no room in it."""
    path = tree.beside(QUEUE)
    try:
        os.mkdir(path, 0o700)
    except FileExistsError:
        pass
    except OSError:
        return None
    found = os.stat(path, follow_symlinks=False)
    is_own = stat.S_ISDIR(found.st_mode) and found.st_uid == os.geteuid()
    return path if is_own and not found.st_mode & 0o077 else None


def is_room(name: str) -> bool:
    """Whether a name is that of a room."""
    digits = os.fsencode(name[len(KIND) :])
    return name.startswith(KIND) and len(digits) == IDENT and DIGITS.issuperset(digits)


def renamed(room: int, old: str, new: str) -> bool:
    """Gives a file of a room another name; False if no such file stands there."""
    try:
        os.rename(old, new, src_dir_fd=room, dst_dir_fd=room)
    except FileNotFoundError:
        return False
    return True


def stands(room: int, name: str) -> bool:
    """Whether something stands at a name in a room."""
    return S.look(os.fsencode(name), room) is not None


def take(room: int) -> bool:
    """Takes the job of a room, if one waits there. The tree's lock is held."""
    return not stands(room, ANSWER) and (renamed(room, JOB, TAKEN) or stands(room, TAKEN))


def put_back(tree: Tree, name: str) -> None:
    """Lets the job of a room wait again, unless it has an answer."""
    try:
        room = os.open(os.path.join(tree.beside(QUEUE), name), DIR)
    except OSError:
        return
    try:
        if not stands(room, ANSWER):
            renamed(room, TAKEN, JOB)
    finally:
        os.close(room)


def text_in(room: int, name: str) -> bytes | None:
    """The text of a file of one's own in a room, or nothing."""
    try:
        fd = os.open(name, FILE, dir_fd=room)
    except FileNotFoundError:
        return None
    with open(fd, "rb") as file:
        found = os.fstat(fd)
        if not stat.S_ISREG(found.st_mode) or found.st_uid != os.geteuid():
            return None
        return file.read(LIMIT)


def rooms(tree: Tree) -> Iterator[tuple[str, int, bool]]:
    """The rooms of this user: of each its name, a descriptor and whether it is in use.

    The descriptor is closed behind each step. Of one that is not in use it holds the lock.
    """
    try:
        queue = os.open(tree.beside(QUEUE), DIR)
    except OSError:
        return
    try:
        for name in sorted(os.listdir(queue)):
            if not is_room(name[len(NEW) :] if name.startswith(NEW) else name):
                continue
            try:
                fd = os.open(name, DIR, dir_fd=queue)
            except OSError:
                continue
            try:
                found = os.fstat(fd)
                if found.st_uid == os.geteuid() and not found.st_mode & 0o077:
                    yield name, fd, is_used(fd)
            finally:
                os.close(fd)
    finally:
        os.close(queue)


def is_used(fd: int) -> bool:
    """Whether the job of a room lives; of a room of none the lock is had then."""
    try:
        fcntl.flock(fd, fcntl.LOCK_EX | fcntl.LOCK_NB)
    except BlockingIOError:
        return True
    return False


def clear_left(tree: Tree) -> int:
    """Removes the rooms of jobs that were killed; answers how many. The tree's lock is held. What
    can't be removed stays, and stops no job."""
    count = 0
    for name, fd, used in rooms(tree):
        is_young = name.startswith(NEW) and os.fstat(fd).st_ctime + 60 > now()
        if used or is_young:
            continue
        try:
            remove_tree(os.path.join(tree.beside(QUEUE), name))
            count += 1
        except OSError:
            continue
    return count


def now() -> float:
    """The time, in seconds."""
    import time

    return time.time()


def give_answer(tree: Tree, name: str, answer: bytes) -> None:
    """Gives an answer to the job of a room, unless it has one or is gone."""
    if not is_room(name):
        return
    try:
        room = os.open(os.path.join(tree.beside(QUEUE), name), DIR)
    except OSError:
        return
    try:
        found = os.fstat(room)
        if found.st_uid != os.geteuid() or S.look(os.fsencode(ANSWER), room) is not None:
            return
        new = f"{ANSWER}.new"
        flags = os.O_WRONLY | os.O_CREAT | os.O_TRUNC | os.O_NOFOLLOW | os.O_CLOEXEC
        fd = os.open(new, flags, 0o600, dir_fd=room)
        try:
            S.write(fd, answer)
        finally:
            os.close(fd)
        os.rename(new, ANSWER, src_dir_fd=room, dst_dir_fd=room)
    except FileNotFoundError:  # the job went away
        return
    finally:
        os.close(room)


def give_answers(tree: Tree, answers: Mapping[str, bytes]) -> None:
    """Gives answers to the jobs of rooms."""
    for name, answer in answers.items():
        give_answer(tree, name, answer)


def hand_out(tree: Tree, place: int, names: Sequence[str], conflicts: Sequence[str]) -> None:
    """Moves answers from a place to those who wait: NAME stands there in the file `answer-NAME`.

    The conflicts of the commit stand behind each answer; BETWEEN is before them and between two.
    Answers of other jobs than those of rooms are handed out by the queue.
    """
    others = [name for name in names if not name.startswith(KIND)]
    for name in names:
        found = text_in(place, f"{ANSWER}-{name}") if name not in others else None
        if found is not None:
            give_answer(tree, name, BETWEEN.join([found, *map(os.fsencode, conflicts)]))
            S.unlink(os.fsencode(f"{ANSWER}-{name}"), place)
    if others:
        from . import queue

        queue.hand_out(tree, place, others, conflicts)
