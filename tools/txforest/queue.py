"""The queue of a tree: the jobs that wait for its lock, and their answers.

A job that does not get the lock at once leaves its texts, as they are then, in the directory
`TREE.queue/ID`, which it keeps locked while it lives:

    job            its texts and its terms
    waits          it may be taken by whoever has the lock, and withdrawn by its caller
    taken          in place of `waits`: somebody with the lock does it, or was killed meanwhile
    answer         what it came to; its caller takes it away with the directory

`waits` becomes `taken` or `gone` by one rename, so a job is never both done and given up. An answer
that rests on a change gets into the change's own place before the commit, and from there into the
queue by whoever settles that place. So a job that is answered was done once, and one that is not
answered is done by whoever has the lock next.

The queue is a directory of one's own, mode 0700. What stands there and is none of this is passed
over; a queue of another user is not used, and the job waits for the lock alone.
"""

from __future__ import annotations

import os
import stat

from . import calls
from .calls import DIR, FILE, NEW
from .place import Tree, clear, hold
from .spelling import spelled, unspelled

TYPE_CHECKING = False
if TYPE_CHECKING:
    from collections.abc import Sequence

QUEUE = b".queue"
NEWER = b".new-"  # with what the name of a job begins that is not yet whole
STALE = 60.0  # seconds behind which such a one is taken for a killed caller's
JOB, ANSWER, FRESH = b"job", b"answer", b"answer.new"
WAITS, TAKEN, GONE = b"waits", b"taken", b"gone"
IDENT = 33  # 20 digits of a time, a dash, 12 hexadecimal digits
JOB_LIMIT, ANSWER_LIMIT = 16 << 20, 1 << 30
MAGIC_OF_JOB, MAGIC_OF_ANSWER = b"txforest job 1", b"txforest answer 1"
CONFLICT, SYSTEM = 13, 9  # as in statuses, which needs not be loaded here


class Text:
    """A text of a waiting job: its word, its bytes, and where data were put into it."""

    __slots__ = ("word", "text", "length", "places")

    def __init__(self, word: str, text: bytes, length: int = 0, places: Sequence[int] = ()) -> None:
        self.word = word
        self.text = text
        self.length = length
        self.places = tuple(places)


class Request:
    """What a job asks for: the description, the scripts, and on which terms.

    `terms` are what has to be the same for two jobs to be done in one go, besides the description:
    what is taken of the tree, and with which rights new files are made. `log` and `keep` are
    absolute paths, or empty: the log that gets a line of the job, and where its inputs are kept.
    """

    __slots__ = ("terms", "allow_stopped", "spec", "scripts", "log", "keep")

    def __init__(
        self,
        terms: bytes,
        allow_stopped: bool,
        spec: Text,
        scripts: Sequence[Text],
        log: str = "",
        keep: str = "",
    ) -> None:
        self.terms = terms
        self.allow_stopped = allow_stopped
        self.spec = spec
        self.scripts = list(scripts)
        self.log = log
        self.keep = keep

    @property
    def transactions(self) -> int:
        """How many transactions the scripts have at most."""
        return sum(script.text.count(b"txn") for script in self.scripts)

    def goes_with(self, other: Request) -> bool:
        """Whether both can be done in one go."""
        return self.terms == other.terms and self.spec.text == other.spec.text


class Answer:
    """What a job came to: its status, its report, and what is told, a line each."""

    __slots__ = ("status", "report", "lines")

    def __init__(self, status: int, report: bytes = b"", lines: Sequence[str] = ()) -> None:
        self.status = status
        self.report = report
        self.lines = list(lines)

    def with_conflicts(self, conflicts: Sequence[str]) -> Answer:
        """The same behind a commit that met conflicts: what is in place is not all of it."""
        if not conflicts or self.status:
            return self
        return Answer(CONFLICT, self.report, [*self.lines, *conflicts])


# ---- the texts of the queue


def request_text(request: Request) -> bytes:
    """A request as it stands in the queue."""
    texts = [request.spec, *request.scripts]
    lines = [
        MAGIC_OF_JOB,
        b"terms " + (spelled(request.terms) or b"-"),
        b"stopped " + (b"yes" if request.allow_stopped else b"no"),
        b"log " + (spelled(os.fsencode(request.log)) or b"-"),
        b"keep " + (spelled(os.fsencode(request.keep)) or b"-"),
    ]
    for it in texts:
        places = b",".join(b"%d" % place for place in it.places) or b"-"
        word = spelled(os.fsencode(it.word))
        lines.append(b"text %d %s %d %s" % (len(it.text), word, it.length, places))
    return b"\n".join([*lines, b"end", b"".join(it.text for it in texts)])


def read_request(data: bytes) -> Request:
    """The request that a text of the queue is. Raises ValueError if it is none."""
    head, found, body = data.partition(b"\nend\n")
    lines = head.split(b"\n")
    if not found or len(lines) < 7 or lines[0] != MAGIC_OF_JOB:
        raise ValueError("no job of the queue")
    terms, stopped, log, keep = map(named_line, (b"terms", b"stopped", b"log", b"keep"), lines[1:])
    if stopped not in (b"yes", b"no"):
        raise ValueError("no terms")
    texts, at = [], 0
    for line in lines[5:]:
        word, size, name, length, places = line.split(b" ")
        if word != b"text" or not size.isdigit() or not length.isdigit():
            raise ValueError(line)
        end = at + int(size)
        found_at = [] if places == b"-" else [int(place) for place in places.split(b",")]
        texts.append(Text(os.fsdecode(unspelled(name)), body[at:end], int(length), found_at))
        at = end
    if at != len(body):
        raise ValueError("the texts have another length")
    files = os.fsdecode(log), os.fsdecode(keep)
    return Request(terms, stopped == b"yes", texts[0], texts[1:], *files)


def named_line(name: bytes, line: bytes) -> bytes:
    """What a line of a name and a spelling says. Raises ValueError if it has another form."""
    word, spelling = line.split(b" ")
    if word != name:
        raise ValueError(line)
    return b"" if spelling == b"-" else unspelled(spelling)


def answer_text(answer: Answer) -> bytes:
    """An answer as it stands in a place and in the queue."""
    lines = [MAGIC_OF_ANSWER, b"status %d" % answer.status]
    lines += [b"line " + spelled(line.encode(errors="surrogateescape")) for line in answer.lines]
    return b"\n".join([*lines, b"report %d" % len(answer.report), answer.report])


def read_answer(data: bytes) -> Answer:
    """The answer that a text of the queue is. Raises ValueError if it is none."""
    head, found, body = data.partition(b"\nreport ")
    lines = head.split(b"\n")
    size, line_feed, report = body.partition(b"\n")
    if not found or not line_feed or len(lines) < 2 or lines[0] != MAGIC_OF_ANSWER:
        raise ValueError("no answer of the queue")
    status = lines[1].split(b" ")
    if len(status) != 2 or status[0] != b"status" or not status[1].isdigit():
        raise ValueError("no status")
    if not size.isdigit() or int(size) != len(report):
        raise ValueError("the report has another length")
    told = []
    for line in lines[2:]:
        if not line.startswith(b"line "):
            raise ValueError(line)
        told.append(unspelled(line[5:]).decode(errors="surrogateescape"))
    return Answer(int(status[1]), report, told)


# ---- files of the queue


def written(folder: int, name: bytes, data: bytes) -> None:
    """Makes a file with these bytes, in place of one of this name."""
    try:
        calls.S.unlink(name, folder)
    except FileNotFoundError:
        pass
    fd = calls.S.open(name, NEW, folder)
    try:
        calls.S.write(fd, data)
    finally:
        calls.S.close(fd)


def read_at(folder: int, name: bytes, limit: int) -> bytes | None:
    """The bytes of a file of one's own; nothing if no such file stands there."""
    try:
        fd = calls.S.open(name, FILE, folder)
    except OSError:
        return None
    with open(fd, "rb") as it:
        found = os.fstat(fd)
        regular = stat.S_ISREG(found.st_mode) and found.st_uid == os.geteuid()
        return it.read() if regular and found.st_size <= limit else None


def stands(folder: int, name: bytes) -> bool:
    """Whether something stands at a name."""
    return calls.S.look(name, folder) is not None


def renamed(folder: int, old: bytes, new: bytes) -> bool:
    """Gives a file of a directory another name; False if it has not the old one."""
    try:
        calls.S.rename(old, folder, new, folder)
        return True
    except FileNotFoundError:
        return False


class Queue:
    """The queue of a tree, opened at `fd`; `name` is its name in the directory `above`."""

    def __init__(self, fd: int, name: bytes, above: int) -> None:
        self.fd = fd
        self.name = name
        self.above = above

    def close(self) -> None:
        """Closes it."""
        calls.S.close(self.fd)

    def __enter__(self) -> Queue:
        return self

    def __exit__(self, *_: object) -> None:
        self.close()

    def remove_empty(self) -> None:
        """Removes it if nobody waits there."""
        try:
            calls.S.rmdir(self.name, self.above)
        except OSError:
            pass  # others wait there

    def names(self) -> list[bytes]:
        """The jobs that stand in it, in the order in which they came."""
        return sorted(name for name in map(os.fsencode, os.listdir(self.fd)) if is_ident(name))

    def opened(self, name: bytes) -> int | None:
        """The directory of a job, or nothing."""
        try:
            return calls.S.open(name, DIR, self.fd)
        except OSError:
            return None


def is_ident(name: bytes) -> bool:
    """Whether a name is that of a job."""
    time_, dash, rest = name.partition(b"-")
    if len(name) != IDENT or not dash or not time_.isdigit() or len(time_) != 20:
        return False
    return frozenset(b"0123456789abcdef").issuperset(rest)


def new_ident() -> str:
    """The name of a new job: later ones come behind it."""
    import time

    return f"{time.time_ns():020d}-{os.urandom(6).hex()}"


def queue_of(tree: Tree, make: bool = False) -> Queue | None:
    """The queue of a tree; nothing if there is none, or none that is a directory of one's own."""
    name = tree.name + QUEUE
    try:
        fd = calls.S.open(name, DIR, tree.above)
    except FileNotFoundError:
        if not make:
            return None
        try:
            calls.S.mkdir(name, 0o700, tree.above)
        except FileExistsError:
            pass
        except OSError:
            return None
        return queue_of(tree)
    except OSError:
        return None
    it = os.fstat(fd)
    if it.st_uid == os.geteuid() and not it.st_mode & 0o077:
        return Queue(fd, name, tree.above)
    calls.S.close(fd)
    return None


# ---- the caller of a job


class Waiting:
    """A job of this process in the queue."""

    def __init__(self, queue: Queue, name: bytes, fd: int) -> None:
        self.queue = queue
        self.name = name
        self.fd = fd

    @property
    def ident(self) -> str:
        """The name of the job."""
        return self.name.decode()

    def answer(self) -> Answer | None:
        """Its answer, if it has one. Raises ValueError if what stands there is none."""
        data = read_at(self.fd, ANSWER, ANSWER_LIMIT)
        return None if data is None else read_answer(data)

    def withdraw(self) -> bool:
        """Takes it back, if nobody has taken it: then nobody will. If it was answered or taken it
        stays, and False is the answer. With the tree's lock held it may be removed in any case."""
        return renamed(self.fd, WAITS, GONE)

    def remove(self) -> None:
        """Removes it, and lets its lock go. What can't be removed stays, and waits for nobody."""
        try:
            clear(self.queue.fd, self.name)
        except OSError:
            pass
        self.queue.remove_empty()
        calls.S.close(self.fd)
        self.queue.close()


def enqueue(tree: Tree, request: Request, ident: str) -> Waiting | None:
    """Leaves a job in the queue of a tree, by its name; nothing if there is no queue for it here.
    The tree has to stay open for as long as it waits."""
    queue = queue_of(tree, make=True)
    if queue is None:
        return None
    name = ident.encode()
    fd: int | None = None
    try:
        calls.S.mkdir(NEWER + name, 0o700, queue.fd)
        fd = calls.S.open(NEWER + name, DIR, queue.fd)
        if hold(fd) and not is_free(queue, NEWER + name):
            written(fd, JOB, request_text(request))
            written(fd, WAITS, b"")
            calls.S.rename(NEWER + name, queue.fd, name, queue.fd)
            return Waiting(queue, name, fd)
    except OSError:
        pass  # then it waits for the lock alone
    if fd is not None:
        calls.S.close(fd)
    try:
        clear(queue.fd, NEWER + name)
    except OSError:
        pass
    queue.close()
    return None


def is_free(queue: Queue, name: bytes) -> bool:
    """Whether nobody holds the lock of a job's directory: its caller has ended."""
    fd = queue.opened(name)
    if fd is None:
        return True
    try:
        return hold(fd)
    finally:
        calls.S.close(fd)


# ---- who has the lock


class Taken:
    """A job of the queue that is done here."""

    def __init__(self, queue: Queue, name: bytes, fd: int, request: Request) -> None:
        self.queue = queue
        self.name = name
        self.fd = fd
        self.request = request

    @property
    def ident(self) -> str:
        """The name of the job."""
        return self.name.decode()

    def give(self, answer: Answer) -> None:
        """Gives it an answer that rests on no change."""
        given(self.fd, answer_text(answer))

    def put_back(self) -> None:
        """Lets it wait again, unless it is answered; its caller, or another one, does it then."""
        if not stands(self.fd, ANSWER):
            renamed(self.fd, TAKEN, WAITS)

    def close(self) -> None:
        """Closes its descriptor."""
        calls.S.close(self.fd)


def given(folder: int, text: bytes) -> None:
    """Gives a job its answer, unless it has one: the first one counts. A caller that was ended may
    have taken its directory away meanwhile: then nobody waits for the answer."""
    if stands(folder, ANSWER):
        return
    try:
        written(folder, FRESH, text)
    except FileNotFoundError:
        return
    renamed(folder, FRESH, ANSWER)


def take(queue: Queue, request: Request, own: str, shells: int, transactions: int) -> list[Taken]:
    """Takes jobs that wait and go with a request, in the order in which they came: those that have
    no more scripts and transactions than these in all. `own` is the name of the request itself.
    Jobs whose callers have ended are removed."""
    found: list[Taken] = []
    for name in queue.names():
        fd = queue.opened(name) if name != own.encode() else None
        if fd is None:
            continue
        job = taken(queue, name, fd, request, shells, transactions)
        if job is None:
            calls.S.close(fd)
            continue
        found.append(job)
        shells -= len(job.request.scripts)
        transactions -= job.request.transactions
    remove_stale(queue)
    if not found:
        queue.remove_empty()  # who was there last was killed before it could
    return found


def taken(
    queue: Queue, name: bytes, fd: int, request: Request, shells: int, transactions: int
) -> Taken | None:
    """One job of the queue, taken, if it can be."""
    try:
        if hold(fd):
            clear(queue.fd, name)
            return None
        if stands(fd, ANSWER):
            return None
        other = read_request(read_at(fd, JOB, JOB_LIMIT) or b"")
        if len(other.scripts) > shells or other.transactions > transactions:
            return None
        if other.goes_with(request) and (renamed(fd, WAITS, TAKEN) or stands(fd, TAKEN)):
            return Taken(queue, name, fd, other)
    except (OSError, ValueError):
        pass  # it went meanwhile, or is no job: its caller has the lock next, and does it
    return None


def remove_stale(queue: Queue) -> None:
    """Removes what callers left that were killed before their job was whole."""
    import time

    for name in map(os.fsencode, os.listdir(queue.fd)):
        it = calls.S.look(name, queue.fd) if name.startswith(NEWER) else None
        if it is not None and time.time() - it.st_mtime > STALE and is_free(queue, name):
            try:
                clear(queue.fd, name)
            except OSError:
                pass


# ---- what stands in a place


def hand_out(tree: Tree, place: int, names: Sequence[str], conflicts: Sequence[str]) -> None:
    """Moves the answers of a place, whose commit stands, to those who wait for them.

    `job-ID` is the answer of a job, `log-ID` a line of a log, `keep-ID` what is to be kept, and
    `do-ID` one of a job of `txforest-do`. Each is removed behind that, so that it is done once;
    done twice it changes nothing. Raises OSError if the system refuses something for now.
    """
    queue = queue_of(tree)
    try:
        for name in names:
            kind, _, ident = name.partition("-")
            if kind == "do":
                from . import waiting

                waiting.hand_out(tree, place, [name], conflicts)
                continue
            file = b"answer-" + name.encode()
            data = read_at(place, file, ANSWER_LIMIT)
            if kind == "job" and queue is not None and data is not None:
                deliver(queue, ident.encode(), data, conflicts)
            elif kind in ("log", "keep") and data is not None:
                from . import log

                log.hand_out(kind, ident, data, bool(conflicts))
            calls.S.unlink(file, place)
    finally:
        if queue is not None:
            queue.close()


def stands_in_place(tree: Tree, ident: str) -> bool:
    """Whether the answer of a job stands in a place, so that its commit stands."""
    for name in tree.places():
        try:
            fd = calls.S.open(name, DIR, tree.home)
        except OSError:
            continue
        try:
            if stands(fd, b"intent") and stands(fd, b"answer-job-" + ident.encode()):
                return True
        finally:
            calls.S.close(fd)
    return False


def deliver(queue: Queue, name: bytes, data: bytes, conflicts: Sequence[str]) -> None:
    """Gives a job of the queue its answer, if its caller still waits."""
    fd = queue.opened(name) if is_ident(name) else None
    if fd is None:
        return
    try:
        if conflicts:
            data = answer_text(read_answer(data).with_conflicts(conflicts))
        given(fd, data)
    except ValueError:
        lines = ["the job is done, but somebody spoiled its answer"]
        given(fd, answer_text(Answer(SYSTEM, b"", lines)))
    finally:
        calls.S.close(fd)
