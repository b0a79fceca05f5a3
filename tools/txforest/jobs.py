"""Jobs of any program: each is prepared in a room of its own, and one of them commits many.

A job waits for the tree's lock. Whoever has it leads: it takes the jobs that stand prepared for the
same description, lets the program decide which of them can be committed (staged.py), looks that
each state has a value (valued.py), and puts what they make in place by one commit. The others find
their answers when they get the lock.

The text of a prepared job, the file `job` of its room, is one of lines.py, with these besides:

    description TEXT            what the description was when the job was called
    log TEXT                    what the place of the commit carries for the job's log (log.py)
    total DIGEST                all of the tree was read
    kinds PATH TEXT             which kinds the names of a directory had, as states.py tells them
    put PATH TOKEN SOURCE       a file or link is to stand there; SOURCE is below the room
    make PATH SOURCE            a directory
    gone PATH                   nothing
    clear PATH                  what stands there goes first, being of another kind
    mode PATH MODE              a directory that was there gets this mode
    owner PATH USER GROUP       and this owner
    attribute PATH NAME VALUE   the file gets this extended attribute
    without PATH NAME           the file has this one no longer
"""

from __future__ import annotations

import os
import stat

from .commit import Changed, Refused, Unfinished, commit, hold_signals, let_signals
from .copies import Changes, Looked, digest_of, kept_attributes
from .differences import Change
from .lines import path_of, path_words, read_lines, seen_line, seen_of, written_lines
from .lock import lock
from .program import call, called
from .waiting import (
    BETWEEN,
    JOB,
    NEW,
    TAKEN,
    Room,
    clear_left,
    give_answers,
    put_back,
    rooms,
    take,
)
from .settle import settle
from .staged import JOBS, NODES, Decision, Job, Sum, decide
from .states import LINK, Kind, Reader, identity, new_digest, token_of
from .statuses import Failed, Status
from .survey import Survey
from .terminal import below, shown
from .valued import Value

TYPE_CHECKING = False
if TYPE_CHECKING:
    from collections.abc import Iterator, Sequence

    from .copies import Attributes
    from .place import Tree
    from .program import Answer as ProgramAnswer
    from .states import Made, Path, Seen
    from .touched import Looks

DONE, CONFLICT, NO_VALUE = b"done", b"conflict", b"no value"
MADE = (b"put", b"make", b"gone", b"clear", b"mode", b"owner", b"attribute", b"without")
AGAIN = 3  # how often a leader begins again if somebody without the lock changes the tree


class Answer:
    """What became of a job: done, a conflict with the path that was another, or no value."""

    def __init__(
        self, what: bytes, at: Path | None = None, conflicts: Sequence[str] = ()
    ) -> None:
        self.what = what
        self.at = at
        self.conflicts = list(conflicts)  # what is not in place as it should be, a line each

    def text(self) -> bytes:
        """The answer as a text for another job."""
        words = [self.what.replace(b" ", b"-")]
        if self.at is not None:
            words += path_words(self.at)
        return b"\0".join(words)

    def where(self) -> str:
        """The path of a conflict, as it is told."""
        return "the tree" if self.at is None else below(self.at)


def answer_of(text: bytes) -> Answer:
    """The answer that a text says."""
    head, *conflicts = text.split(BETWEEN)
    what, *words = head.split(b"\0")
    told = [os.fsdecode(line) for line in conflicts]
    return Answer(what.replace(b"-", b" "), path_of(words)[0] if words else None, told)


# ---- a prepared job


class Prepared:
    """A job with its description, what it has seen and what it makes."""

    def __init__(
        self,
        name: str,
        description: bytes,
        looked: Looked,
        changes: Changes,
        room: str,
        log: bytes = b"",
    ) -> None:
        self.name = name
        self.description = description
        self.looked = looked
        self.changes = changes
        self.room = room
        self.log = log

    def write(self) -> None:
        """Makes it stand prepared in its room."""
        written_lines(os.path.join(self.room, JOB), b"job", self.lines())

    def lines(self) -> Iterator[list[bytes]]:
        """Its text, a list of words a line."""
        yield [b"description", self.description]
        yield [b"log", self.log]
        if self.looked.total is not None:
            yield [b"total", self.looked.total]
        for path, seen in self.looked.reads.items():
            yield seen_line(path, seen)
        for path, text in self.looked.kinds.items():
            yield [b"kinds", *path_words(path), text]
        made = self.changes
        job = Job(self.name, {}, made.writes, made.before)
        for path, new in made.writes.items():
            source = b""
            if path in made.files:
                source = os.fsencode(os.path.relpath(made.files[path], self.room))
            words = path_words(path)
            if new is None:
                yield [b"gone", *words]
            elif isinstance(new, bytes):
                yield [b"put", *words, new, source]
            else:
                yield [b"make", *words, source]
            if path in job.removes:
                yield [b"clear", *words]
        for path, mode in made.modes.items():
            yield [b"mode", *path_words(path), b"%o" % mode]
        for path, (user, group) in made.owners.items():
            yield [b"owner", *path_words(path), b"%d" % user, b"%d" % group]
        for path, attributes in made.attributes.items():
            for name, value in attributes.items():
                words = [*path_words(path), os.fsencode(name)]
                yield [b"without", *words] if value is None else [b"attribute", *words, value]

    def job(self, tree: Tree) -> Job:
        """The job as the program is asked about it. Of very many reads one sum is made."""
        job = Job(self.name, self.looked.reads, self.changes.writes, self.changes.before)
        total, sums = self.looked.total, []
        if total is not None:
            sums = [Sum(total, lambda: digest_of(tree.root), lambda other: True)]
        if total is not None or job.weight() > NODES // 2:
            sums.append(sum_of(job.reads, tree.root))
            job.reads = {}
        if self.looked.kinds:
            sums.append(sum_of_kinds(self.looked.kinds, tree.root))
        if sums:
            job.total = added(sums)
        return job


def prepared_in(room: int, name: str, path: str) -> Prepared | None:
    """The job that was taken in another one's room; nothing if it has no form."""
    try:
        lines = read_lines(TAKEN, b"job", room)
        made, looked, description, log = Changes(), Looked(), b"", b""
        for line in lines:
            if line[0] == b"description":
                description = line[1]
            elif line[0] == b"log":
                log = line[1]
            elif line[0] == b"total":
                looked.total = line[1]
            elif line[0] == b"kinds":
                at, rest = path_of(line[1:])
                looked.kinds[at] = rest[0]
            elif line[0] in MADE:
                take_line(made, line, path)
            else:
                at, seen = seen_of(line)
                looked.reads[at] = seen
    except (OSError, ValueError, IndexError):
        return None
    return Prepared(name, description, looked, made, path, log)


def take_line(made: Changes, line: list[bytes], room: str) -> None:
    """Takes one line on what a job makes. Raises ValueError or IndexError if it has no form."""
    path, rest = path_of(line[1:])
    if line[0] == b"gone":
        made.writes[path] = None
    elif line[0] == b"put":
        made.writes[path] = rest[0]
        if rest[1]:
            made.files[path] = source_in(room, rest[1])
    elif line[0] == b"make":
        made.writes[path] = Kind.DIRECTORY
        if rest[0]:
            made.files[path] = source_in(room, rest[0])
    elif line[0] == b"clear":  # that something of another kind stood there is all that counts
        made.before[path] = b"x" if made.writes[path] is Kind.DIRECTORY else Kind.DIRECTORY
    elif line[0] == b"mode":
        made.modes[path] = int(rest[0], 8)
    elif line[0] == b"owner":
        made.owners[path] = int(rest[0]), int(rest[1])
    else:
        value = rest[1] if line[0] == b"attribute" else None
        made.attributes.setdefault(path, {})[os.fsdecode(rest[0])] = value


def source_in(room: str, source: bytes) -> str:
    """The path of a file in a room. Raises ValueError if it leads out."""
    if source.startswith(b"/") or b".." in source.split(b"/"):
        raise ValueError(source)
    return os.path.join(room, os.fsdecode(source))


def sum_of(reads: dict[Path, Seen], root: int) -> Sum:
    """Very many reads as one."""
    listings = {path for path, seen in reads.items() if isinstance(seen, frozenset)}

    def now() -> bytes:
        reader = Reader(root)
        try:
            return digest_of_states({path: again(reader, path, reads[path]) for path in reads})
        finally:
            reader.close()

    def touches(other: Job) -> bool:
        return any(path in reads or path[:-1] in listings for path in other.writes)

    return Sum(digest_of_states(reads), now, touches)


def sum_of_kinds(kinds: dict[Path, bytes], root: int) -> Sum:
    """The kinds of the names of directories as one. Who changes one clears what stood there."""

    def now() -> bytes:
        reader = Reader(root)
        try:
            return digest_of_states({path: reader.kinds(path) for path in kinds})
        finally:
            reader.close()

    def touches(other: Job) -> bool:
        return any(path[:-1] in kinds for path in other.removes)

    return Sum(digest_of_states(dict(kinds)), now, touches)


def added(sums: list[Sum]) -> Sum:
    """Several sums as one."""
    if len(sums) == 1:
        return sums[0]
    return Sum(
        b" ".join(it.seen for it in sums),
        lambda: b" ".join(it.now() for it in sums),
        lambda other: any(it.touches(other) for it in sums),
    )


def again(reader: Reader, path: Path, seen: Seen) -> Seen:
    """What stands at a path now, told as closely as it was seen."""
    state: Seen = reader.state(path)
    if isinstance(seen, frozenset) and state is Kind.DIRECTORY:
        return frozenset(reader.names(path))
    if seen is Kind.SOME_FILE and isinstance(state, bytes) and state[:1] in b"fhi":
        return Kind.SOME_FILE
    return state


def digest_of_states(states: dict[Path, Seen]) -> bytes:
    """One text for what was seen at many paths."""
    made = new_digest()
    for path in sorted(states):
        for word in seen_line(path, states[path]):
            made.update(b"%d " % len(word) + word)
    return b"sum " + made.hexdigest().encode()


# ---- the tree while its lock is held


class Watched(Reader):
    """The tree as its leader reads it: each path once, so that a last look can tell a change."""

    def __init__(self, root: int) -> None:
        super().__init__(root)
        self.states: dict[Path, Made] = {}
        self.found: dict[Path, os.stat_result | None] = {}
        self.listed: dict[Path, list[bytes]] = {}
        self.sums: list[Sum] = []

    def state(self, path: Path) -> Made:
        if path not in self.states:
            self.found[path] = self.look(path)
            self.states[path] = super().state(path)
        return self.states[path]

    def names(self, path: Path) -> list[bytes]:
        if path not in self.listed:
            self.listed[path] = super().names(path)
        return self.listed[path]

    def look_again(self) -> None:
        """Raises Changed if somebody without the lock has changed what was read."""
        for path, names in self.listed.items():
            if set(super().names(path)) != set(names):
                raise Changed(os.fsdecode(b"/".join(path)))
        if any(total.now() != total.seen for total in self.sums):
            raise Changed("the tree")
        for path, before in self.found.items():
            now = self.look(path)
            if before is None or now is None:
                is_same = before is now
            elif stat.S_ISDIR(before.st_mode):
                is_same = before.st_ino == now.st_ino and before.st_mode == now.st_mode
            else:
                is_same = identity(before) == identity(now)
            if not is_same:
                raise Changed(os.fsdecode(b"/".join(path)))


# ---- the leader


class Leader:
    """One who has the lock of the tree and commits a group of jobs, its own among them."""

    def __init__(self, clerk: Clerk, held: int, room: Room) -> None:
        """`held` is the descriptor of the lock, `room` that of one's own job."""
        self.clerk = clerk
        self.tree = clerk.tree
        self.held = held
        self.room = room
        self.rounds = 0

    def gathered(self, own: Prepared) -> list[Prepared]:
        """The jobs that are committed together: one's own, then the others as they came."""
        found: list[tuple[int, Prepared]] = []
        if self.room.is_shared:
            for name, fd, used in rooms(self.tree):
                is_named = not name.startswith(NEW)  # else it has another name by now
                if not used or name == self.room.name or not is_named or not take(fd):
                    continue
                come = os.stat(TAKEN, dir_fd=fd).st_mtime_ns
                other = prepared_in(fd, name, os.path.join(os.path.dirname(self.room.path), name))
                if other is not None and other.description == own.description:
                    found.append((come, other))
                else:
                    put_back(self.tree, name)
        found.sort(key=lambda it: it[0])
        group, weight = [own], own.job(self.tree).weight()
        for _, other in found:
            weight += other.job(self.tree).weight()
            if weight > NODES or len(group) == JOBS:
                put_back(self.tree, other.name)
            else:
                group.append(other)
        return group

    def lead(self, own: Prepared) -> Answer:
        """Commits one's own job, with all that wait. Raises Failed; then nothing of it is kept."""
        group = self.gathered(own)
        self.clerk.reached("gathered")
        try:
            return self.commit(group)
        except (Failed, OSError):  # the others lead themselves, and are told what is wrong
            for other in group[1:]:
                put_back(self.tree, other.name)
            if len(group) == 1:
                raise
            return self.commit([own])

    def commit(self, group: list[Prepared]) -> Answer:
        """Commits a group; answers of the first of it. The others' answers are handed out."""
        for _ in range(AGAIN):
            try:
                return self.attempt(group)
            except Changed as where:
                last = str(where)
        raise Failed(
            Status.CHANGING,
            f"{below(tuple(os.fsencode(last).split(b'/')))}: somebody who takes no lock keeps "
            "changing it; nothing was changed",
        )

    def attempt(self, group: list[Prepared]) -> Answer:
        """One attempt. Raises Changed if somebody without the lock comes in between."""
        held = Watched(self.tree.root)
        try:
            answers: dict[int, Answer] = {}
            while True:
                left = [number for number in range(len(group)) if number not in answers]
                decision, order = self.decision(group, left, answers, held)
                self.clerk.reached("decided")
                bad = self.without_value(group, order, held)
                if not bad:
                    break
                answers.update((number, Answer(NO_VALUE)) for number in bad)
            answers.update((number, Answer(DONE)) for number in order)
            self.clerk.reached("valued")
            self.put(group, order, decision, answers, held)
            self.clerk.reached("put")
            return answers[0]
        finally:
            held.close()

    def decision(
        self, group: list[Prepared], left: list[int], answers: dict[int, Answer], held: Watched
    ) -> tuple[Decision, list[int]]:
        """What the program decides on some jobs of a group, and the order of those that are done.

        The others among them are told their conflicts.
        """
        if not left:
            return Decision([], {}, {}), []
        jobs = [group[number].job(self.tree) for number in left]
        decision = decide(self.run, self.fresh("decided"), jobs, held)
        for number, path in decision.refused.items():
            done = [jobs[other] for other in decision.done]
            at = path or self.other_path(group[left[number]], done)
            answers[left[number]] = Answer(CONFLICT, at)
        totals = [jobs[number].total for number in decision.done]
        held.sums = [total for total in totals if total is not None]
        return decision, [left[number] for number in decision.done]

    def fresh(self, name: str) -> str:
        """A path in one's own room at which nothing stands."""
        self.rounds += 1
        return self.room.inside(f"{name}{self.rounds}")

    def run(self, words: list[str | bytes]) -> bytes:
        """What the program prints. It keeps the lock while it lives."""
        return called(words, (self.held,))

    def ask(self, words: list[str | bytes], *, until_line: bool = False) -> ProgramAnswer:
        """What the program comes to. It keeps the lock while it lives."""
        return self.told_of(call(words, (self.held,), until_line))

    def description(self) -> str:
        """The path of the description as it was when the job was called."""
        path = self.room.inside("description")
        with open(path, "wb") as file:
            file.write(self.clerk.text)
        return path

    def told_of(self, answer: ProgramAnswer) -> ProgramAnswer:
        """What the program came to, with the description's own path in its line."""
        own = os.fsencode(self.room.inside("description"))
        answer.line = answer.line.replace(own, os.fsencode(self.clerk.description))
        return answer

    def other_path(self, it: Prepared, done: Sequence[Job]) -> Path | None:
        """A path that is not as a job has seen it, if it told no path but a sum."""
        for path in (path for other in done for path in other.removes):
            if path[:-1] in it.looked.kinds:
                return path
        reader = Reader(self.tree.root)
        try:
            for path, seen in it.looked.reads.items():
                if again(reader, path, seen) != seen:
                    return path
            for path, text in it.looked.kinds.items():
                if reader.kinds(path) != text:
                    return path
        finally:
            reader.close()
        return None

    def without_value(self, group: list[Prepared], order: list[int], held: Watched) -> list[int]:
        """The jobs of an order behind which the state, without those told before, has no value."""
        writing = [number for number in order if group[number].changes.writes]
        if not writing:
            return []
        value = Value(self.description(), self.fresh("valued"), held, self.ask)
        bad: list[int] = []
        for number in writing:
            made = group[number].changes
            back = value.change(made.writes, made.files)
            if not value.holds():
                bad.append(number)
                value.go_back(back)
        return bad

    # ---- what is put in place

    def put(
        self,
        group: list[Prepared],
        order: list[int],
        decision: Decision,
        answers: dict[int, Answer],
        held: Watched,
    ) -> None:
        """Puts in place what the done jobs make, and hands out the answers of the others."""
        texts = {group[n].name: answers[n].text() for n in range(1, len(group))}
        logs = [group[n] for n in order if group[n].log]
        found = Survey()
        found.taken[""] = os.fstat(self.tree.root)
        changes = changes_of([group[number] for number in order], decision.after, held, found)
        if not changes:
            for it in logs:
                log_line(it)
            give_answers(self.tree, texts)
            return
        texts.update((f"log-{it.name}", it.log) for it in logs)
        looks = looks_of(group, order) if len(group) > 1 else None
        try:
            done = commit(self.tree, changes, found, texts, held.look_again, looks=looks)
            answers[0].conflicts = done.told_to(group[0].name)
            self.clerk.told += done.told
        except Unfinished as error:
            answers[0].conflicts = [f"it is kept, but not all of it is in place: {error}"]
        except Refused as why:
            raise Failed(Status.SYSTEM, f"{why}; nothing was changed") from None


def looks_of(group: Sequence[Prepared], done: Sequence[int]) -> dict[str, Looks]:
    """At what the jobs of a group that are done looked and what they change, by the names of their
    answers; of the others nothing."""
    from .touched import Looks

    found = {it.name: Looks() for it in group}
    for number in done:
        it = group[number]
        made, reads = it.changes, it.looked.reads
        paths = map(b"/".join, {*reads, *made.writes, *made.modes, *made.owners})
        names = {b"/".join(path) for path, seen in reads.items() if isinstance(seen, frozenset)}
        looks = Looks(set(paths), names, it.looked.total is not None)
        found[it.name] = found[f"log-{it.name}"] = looks
    return found


def log_line(it: Prepared) -> None:
    """The line of a job that is done and makes no change."""
    from . import log

    log.hand_out("log", it.name, it.log, False)


def changes_of(
    done: Sequence[Prepared], after: dict[Path, Made], held: Watched, found: Survey
) -> list[Change]:
    """The changes that make of the tree what the done jobs leave, in the order of the commit.

    `after` is what the program has left at each path. `found` is told what stands there now.
    """
    last = {path: it for it in done for path in it.changes.writes}
    turns: dict[str, list[Change]] = {"room": [], "new": [], "other": [], "gone": []}
    rooms: set[Path] = set()  # the directories whose place a file or a link takes
    for path in sorted(after):
        new, it = after[path], last[path]
        source = it.changes.files.get(path)
        if new != it.changes.writes[path] or not is_source(new, source):
            raise Failed(Status.SYSTEM, f"{below(path)}: is not what the program has decided")
        old = held.look(path)
        name = os.fsdecode(b"/".join(path))
        if old is not None:
            found.taken[name] = old
        attributes = attributes_at(path, done, held)
        if new == held.state(path) and attributes is None:
            continue
        for turn, change in change_of(name, new, old, source, attributes):
            if turn == "room":
                rooms.add(path)
            elif turn == "gone" and any(path[:length] in rooms for length in range(len(path))):
                turn = "room"
            turns[turn].append(change)
    for it in done:
        modes, owners = it.changes.modes, it.changes.owners
        for path in sorted({*modes, *owners}):
            old = held.look(path)
            if old is not None and stat.S_ISDIR(old.st_mode) and path not in after:
                name = os.fsdecode(b"/".join(path))
                found.taken[name] = old
                mode = modes.get(path, stat.S_IMODE(old.st_mode))
                turns["other"].append(Change("mode", name, mode=mode, owner=owners.get(path)))
    room, gone = reversed(turns["room"]), reversed(turns["gone"])
    return [*room, *turns["new"], *turns["other"], *gone]


def attributes_at(path: Path, done: Sequence[Prepared], held: Watched) -> Attributes | None:
    """The extended attributes that a file is to have: those that it has now, with what the done
    jobs change of them. Nothing if they change none."""
    changed = [it.changes.attributes[path] for it in done if path in it.changes.attributes]
    if not changed:
        return None
    found = kept_attributes(held, path)
    for attributes in changed:
        for name, value in attributes.items():
            if value is None:
                found.pop(name, None)
            else:
                found[name] = value
    return found


def is_source(new: Made, source: str | None) -> bool:
    """Whether a file has what is to stand at a path; its owner may be another."""
    if not isinstance(new, bytes) or new.startswith(LINK):
        return True
    found = token_of(source, -1) if source else None
    if not isinstance(found, bytes):
        return False
    has, wants = found.split(b" ", 4), new.split(b" ", 4)
    return has[:2] == wants[:2] and has[4:] == wants[4:]


def change_of(
    name: str,
    new: Made,
    old: os.stat_result | None,
    source: str | None,
    attributes: Attributes | None,
) -> Iterator[tuple[str, Change]]:
    """The changes at one path, each with its turn."""
    was_directory = old is not None and stat.S_ISDIR(old.st_mode)
    if new is None:
        if old is not None:
            yield "gone", Change("rmdir" if was_directory else "remove", name)
        return
    if new is Kind.DIRECTORY:
        if not was_directory:
            made = os.lstat(source) if source else None
            mode = stat.S_IMODE(made.st_mode) if made else None
            owner = (made.st_uid, made.st_gid) if made and os.geteuid() == 0 else None
            yield "new", Change("mkdir", name, mode=mode, owner=owner)
        return
    assert isinstance(new, bytes)
    if was_directory:
        yield "room", Change("rmdir", name, room=True)
    turn = "new" if old is None or was_directory else "other"
    if new.startswith(LINK):
        yield turn, Change("link", name, new[len(LINK) :])
        return
    bits, user, group = new.split(b" ", 4)[1:4]
    yield turn, Change(
        "store",
        name,
        source=source,
        mode=int(bits, 8),
        owner=(int(user), int(group)) if os.geteuid() == 0 else None,
        attributes=attributes,
    )


# ---- one job among many


class Hold:
    """The lock of one tree in this process: one thread has it at a time, and may have it twice."""

    def __init__(self) -> None:
        from _thread import RLock  # type: ignore[attr-defined]  # threading costs the start

        self.thread = RLock()
        self.depth = 0
        self.fd = -1

    def take(self, path: str, wait: float | None) -> bool:
        """Takes the lock; whether this thread did not have it before. Raises Failed with LOCKED."""
        if not self.thread.acquire(timeout=-1 if wait is None else wait):
            raise Failed(Status.LOCKED, f"{shown(path)}.lock: another thread holds the lock")
        try:
            if not self.depth:
                self.fd = lock(path, wait)
        except BaseException:
            self.thread.release()
            raise
        self.depth += 1
        return self.depth == 1

    def let_go(self) -> None:
        """Lets the lock go, if this is the end of the first taking."""
        self.depth -= 1
        if not self.depth:
            os.close(self.fd)
        self.thread.release()


HOLDS: dict[str, Hold] = {}  # by the trees' paths


class Held:
    """The lock while a block lasts: `with clerk.holding() as fd`."""

    def __init__(self, clerk: Clerk) -> None:
        self.clerk = clerk
        self.hold = HOLDS.setdefault(clerk.tree.path, Hold())

    def __enter__(self) -> int:
        if self.hold.take(self.clerk.tree.path, self.clerk.wait):
            try:
                self.clerk.settle()
            except BaseException:
                self.hold.let_go()
                raise
        return self.hold.fd

    def __exit__(self, *_: object) -> None:
        self.hold.let_go()


class Clerk:
    """How a job comes to its answer: by leading, or by another one that leads."""

    def __init__(self, tree: Tree, description: str, wait: float | None = None) -> None:
        """Raises OSError if the description can't be read."""
        self.tree = tree
        self.description = description
        self.wait = wait
        self.to_the_end = False
        self.told: list[str] = []
        with open(description, "rb") as file:
            self.text = file.read()

    def reached(self, step: str) -> None:
        """A step is reached; tests stop here."""

    def holding(self) -> Held:
        """The tree's lock, with what killed jobs have left ended. Raises Failed with LOCKED."""
        return Held(self)

    def settle(self) -> None:
        """Ends what killed jobs have left; the lock is held."""
        done = settle(self.tree)
        self.told += [*done.conflicts, *done.told]
        clear_left(self.tree)

    def submit(
        self,
        room: Room,
        looked: Looked,
        changes: Changes,
        held: int | None = None,
        log: bytes = b"",
    ) -> Answer:
        """Hands in a job and waits for its answer; `held` is the lock if one has it already.

        `log` is what the place of its commit carries for its log.
        """
        own = Prepared(room.name, self.text, looked, changes, room.path, log)
        if held is not None:  # nobody else is taken along, so that nobody comes in between
            return self.answered(own, room, held, alone=True)
        own.write()
        self.reached("prepared")
        try:
            with self.holding() as fd:
                self.reached("locked")
                return self.answered(own, room, fd)
        except BaseException:
            # The lock was not had in time, or a signal came: somebody may do the job all the same.
            answer = self.given_up(room)
            if answer is None:
                raise
            return answer

    def answered(self, own: Prepared, room: Room, held: int, alone: bool = False) -> Answer:
        """The answer that is there, or that one comes to by leading.

        Signals that would end this process wait meanwhile; if the job is done and `to_the_end` is
        set they wait for good, as no status of theirs would be true.
        """
        before, answer = hold_signals(), None
        try:
            text = room.answer()
            if text is not None:
                answer = answer_of(text)
            else:
                leader = Leader(self, held, room)
                answer = leader.commit([own]) if alone else leader.lead(own)
                self.reached("told")
            return answer
        finally:
            room.end()  # before the lock goes: else the next leader does it once more
            if answer is None or answer.what != DONE or not self.to_the_end:
                let_signals(before)

    def given_up(self, room: Room) -> Answer | None:
        """Withdraws a job. If somebody has taken it, the answer, should there come one."""
        if room.withdraw():
            return None
        before = hold_signals()
        try:
            self.wait = None
            with self.holding():
                room.end()
                text = room.answer()
                return None if text is None else answer_of(text)
        finally:
            let_signals(before)
