"""txforest-do: any command as a transaction on a tree.

The command runs in a private copy of the tree. What it has read and made there is decided together
with all other jobs that wait (jobs.py). If another job came in between, it runs again; the last
time with the lock held, so that nobody is kept out for ever.
"""

from __future__ import annotations

import errno
import os
import sys

from .statuses import Failed, Status
from .terminal import hold_streams, many, print_version, shown, status_of, take_signals, tell

TYPE_CHECKING = False
if TYPE_CHECKING:
    from collections.abc import Sequence
    from typing import NoReturn

    from .copies import Copy
    from .jobs import Answer, Clerk
    from .place import Tree
    from .waiting import Room

PARTLY, CONFLICT, NO_VALUE, LOCKED, REFUSED, USAGE = 120, 121, 122, 123, 124, 125
CANNOT_RUN, NOT_FOUND, SIGNALLED = 126, 127, 128
STAYS = 5.0  # seconds after which what the command has left running is told and ended
OWN = {
    int(Status.USAGE): USAGE,
    int(Status.NO_VALUE): NO_VALUE,
    int(Status.LOCKED): LOCKED,
    int(Status.UNFINISHED): PARTLY,
}

USAGE_LINE = (
    "txforest-do [--whole | --trace | --only PATTERN..] [--tries N] [--hold] [--wait SECONDS] "
    "TREE SPEC -- COMMAND ARG.."
)
HELP = f"""usage: {USAGE_LINE}

Runs a command as a transaction on the tree of files at TREE. It works in a private copy; if it ends
with 0, and what it has read is still so, what it has changed is put in place. Else it is run again,
or nothing of it is kept. The proved program decides, and each state has a value by the description
SPEC.

  --trace            what the command looks at counts as read, and no more; else it ends with 124
  --whole            all of the tree counts as read
  --only PATTERN     the copy has just the paths of the patterns: nothing else can be read or
                     changed. May be given several times; a directory comes with all below it
  (none of these)    traced if the system lets it, else a plain copy and the whole tree
  --tries N          how often the command is run at most (10); the last time with the lock held
  --optimistic       the last time without the lock too
  --hold             what the command prints is kept back until its end, and printed once
  --wait SECONDS     how long to wait for the lock (for ever)
  --log FILE         appends a line for each job: time, order of commits, status, how it was run
  --verbose          tells how the copy is made, and each try
  --python           prints the folder to put into PYTHONPATH for `import txforest`
  --help             prints this
  --version          prints the version

exit status:
  0        the command ended with 0, and what it changed is in place
  1-119    the command's own: nothing of it is kept
  120      it is kept, but something of it is not in place or not printed, which is told
  121      others changed what the command had read, at each try: nothing of it is kept
  122      the result has no value by SPEC: nothing of it is kept
  123      the lock was not had within --wait: nothing of it is kept
  124      the program or the system refused something, which is told: nothing of it is kept.
           So ends a command whose own status is one of 120 to 125
  125      the words have no form of this tool
  126      the command can't be run; 127: it is not found; 128+N: signal N ended it

The command begins in its copy, and OLDPWD says where one was. A file by an absolute path, and
whatever else is outside TREE, is neither private nor undone.
"""


class Given:
    """The words of one call."""

    def __init__(self) -> None:
        self.tree = ""
        self.spec = ""
        self.command: list[str] = []
        self.only: list[str] = []
        self.flags: set[str] = set()
        self.tries = 10
        self.wait: float | None = None
        self.log: str | None = None


def given_words(words: Sequence[str]) -> Given:
    """The words of a call. Raises Failed with USAGE if they have no form."""
    given, rest = Given(), list(words)
    operands: list[str] = []
    while rest and len(operands) < 3:
        word = rest.pop(0)
        if word == "--":
            break
        if not word.startswith("-") or word == "-":
            operands.append(word)
            continue
        name, equals, value = word[2:].partition("=") if word.startswith("--") else ("?", "", "")
        if name in ("only", "tries", "wait", "log"):
            if not equals:
                if not rest:
                    refuse(f"--{name} needs a value")
                value = rest.pop(0)
            take_value(given, name, value)
        elif name in ("whole", "trace", "hold", "optimistic", "verbose") and not equals:
            given.flags.add(name)
        elif word in ("--help", "-h", "--python"):
            above = os.path.dirname(os.path.dirname(os.path.realpath(__file__)))
            sys.stdout.write(above + "\n" if word == "--python" else HELP)
            sys.stdout.flush()
            raise SystemExit(0)
        elif word == "--version":
            print_version()
        else:
            refuse(f"{shown(word)}: no option of this tool")
    if len(operands) != 2:
        refuse("TREE and SPEC are needed, and the command behind --")
    if not rest:
        refuse("a command is needed behind --")
    given.tree, given.spec = operands
    given.command = rest
    if len({"whole", "trace"} & given.flags) + bool(given.only) > 1:
        refuse("only one of --whole, --trace and --only")
    return given


def take_value(given: Given, name: str, value: str) -> None:
    """Takes the value of an option."""
    if name == "only":
        given.only.append(value)
    elif name == "log":
        given.log = os.path.abspath(value)
    elif name == "tries":
        if not (value.isascii() and value.isdigit() and 0 < int(value) < 10**6):
            refuse(f"--tries takes a whole number above 0, not {shown(value)}")
        given.tries = int(value)
    else:
        try:
            given.wait = float(value)
        except ValueError:
            given.wait = -1.0
        if not 0 <= given.wait < 10**9:
            refuse(f"--wait takes a number of seconds, not {shown(value)}")


def refuse(line: str) -> NoReturn:
    """Ends with USAGE."""
    raise Failed(Status.USAGE, line, f"usage: {USAGE_LINE}", "--help tells more")


# ---- the command


class Command:
    """A command with streams of its own: its input is the same at each run."""

    def __init__(self, words: Sequence[str], hold: bool) -> None:
        self.words = list(words)
        self.hold = hold
        self.begin: int | None = None
        self.is_ready = False
        self.outputs: list[int] = []

    def ready(self) -> None:
        """Lets its input begin anew; what can't be read twice is kept in a file without a name."""
        if not self.is_ready:
            self.is_ready = True
            self.begin = first_input()
        if self.begin is not None:
            os.lseek(0, self.begin, os.SEEK_SET)

    def run(self, copy: Copy) -> int:
        """Its status, once it and all that it has started have ended.

        Raises CannotEnter if the system makes no such copy.
        """
        from .copies import CannotEnter
        from .mounts import adopt_orphans
        from .signals import HELD, signal

        adopt_orphans()
        self.drop()
        self.outputs = [unnamed_file() for _ in range(2)] if self.hold else []
        sys.stdout.flush()
        telling, told = os.pipe()
        child = os.fork()
        if not child:
            os.close(telling)
            self.become(copy, told)
        copy.entered()
        os.close(told)
        with open(telling, "rb") as file:
            refused = file.read().decode(errors="replace")
        try:
            status = waited(child, copy.helper(), self.words)
        except BaseException:
            signal.pthread_sigmask(signal.SIG_BLOCK, HELD)
            end_children()
            raise
        if refused:
            raise CannotEnter(refused)
        return SIGNALLED - status if status < 0 else status

    def become(self, copy: Copy, told: int) -> NoReturn:
        """In the process that becomes the command."""
        from .copies import CannotEnter
        from .mounts import end_with_parent
        from .signals import ENDING, signal

        status = REFUSED
        try:
            for number, stream in enumerate(self.outputs, 1):
                os.dup2(stream, number)
            end_with_parent()
            try:
                copy.enter()
            except OSError as error:
                where = f"{shown(error.filename)}: " if error.filename else ""
                os.write(told, f"{where}{error.strerror}".encode())
                os._exit(REFUSED)
            except CannotEnter as error:
                os.write(told, str(error).encode())
                os._exit(REFUSED)
            for signal_ in (*ENDING, signal.SIGPIPE):
                if signal.getsignal(signal_) != signal.SIG_IGN or signal_ == signal.SIGPIPE:
                    signal.signal(signal_, signal.SIG_DFL)
            signal.signal(signal.SIGXFSZ, signal.SIG_DFL)
            status = CANNOT_RUN
            try:
                execute(self.words)
            except FileNotFoundError as error:
                status = NOT_FOUND
                tell(f"{shown(self.words[0])}: {error.strerror}{hint_of(self.words[0], error)}")
            except OSError as error:
                tell(f"{shown(self.words[0])}: {error.strerror}{hint_of(self.words[0], error)}")
        finally:
            os._exit(status)

    def release(self) -> None:
        """Prints what was kept back. Raises OSError if that can't be written."""
        for number, stream in enumerate(self.outputs, 1):
            os.lseek(stream, 0, os.SEEK_SET)
            while piece := os.read(stream, 1 << 20):
                write_all(number, piece)
        self.drop()

    def drop(self) -> None:
        """Forgets what was kept back."""
        for stream in self.outputs:
            os.close(stream)
        self.outputs = []


def execute(words: list[str]) -> None:
    """Becomes a command, as os.execvp does, which loads a module for it. Raises OSError."""
    if "/" in words[0]:
        os.execv(words[0], words)
    refused: OSError | None = None
    missing = FileNotFoundError(errno.ENOENT, os.strerror(errno.ENOENT))
    for folder in os.environ.get("PATH", os.defpath).split(os.pathsep):
        try:
            os.execv(os.path.join(folder, words[0]), words)
        except (FileNotFoundError, NotADirectoryError):
            continue
        except OSError as error:
            refused = refused or error
    raise refused or missing


def hint_of(word: str, error: OSError) -> str:
    """What helps against an error of `execute`, behind it, or nothing."""
    if error.errno == errno.ENOEXEC:
        return "; a script begins with a line as #!/bin/sh"
    before = os.path.normpath(os.path.join(os.environ.get("OLDPWD", "/"), word))
    if error.errno != errno.ENOENT or "/" not in word or word.startswith("/"):
        return ""
    if os.path.lexists(word) or not os.path.exists(before):
        return ""
    return f"; the command begins in the tree's copy, so name it as {shown(before)}"


def unnamed_file() -> int:
    """A file without a name, in the folder for temporary files."""
    import tempfile

    with tempfile.TemporaryFile() as file:
        return os.dup(file.fileno())


def first_input() -> int | None:
    """Where the standard input begins; a pipe is kept in a file, which becomes the input."""
    import stat

    found = os.fstat(0)
    if stat.S_ISREG(found.st_mode):
        return os.lseek(0, 0, os.SEEK_CUR)
    if not (stat.S_ISFIFO(found.st_mode) or stat.S_ISSOCK(found.st_mode)):
        return None
    kept = unnamed_file()
    while piece := os.read(0, 1 << 18):
        write_all(kept, piece)
    os.dup2(kept, 0)
    os.close(kept)
    return 0


def write_all(fd: int, data: bytes) -> None:
    """Writes all of some bytes."""
    while data:
        data = data[os.write(fd, data) :]


def children() -> list[int]:
    """The processes that this one has started, or that were left to it."""
    with open(f"/proc/self/task/{os.getpid()}/children", "rb") as file:
        return [int(number) for number in file.read().split()]


def waited(child: int, helper: int | None, words: Sequence[str]) -> int:
    """Waits for the command and for all that it has started; the command's status.

    What still runs some seconds behind the command is told and ended. The helper ends by itself.
    """
    _, how = os.waitpid(child, 0)
    others = [number for number in children() if number != helper]
    if others:
        end_stayers(helper, words)
    if helper is not None:
        os.waitpid(helper, 0)
    return os.waitstatus_to_exitcode(how)


def end_stayers(helper: int | None, words: Sequence[str]) -> None:
    """Waits some seconds for what the command has left running, then tells of it and ends it."""
    import time

    end, pause = time.monotonic() + STAYS, 0.001
    while True:
        for number in children():
            if number != helper:
                os.waitpid(number, os.WNOHANG)
        others = [number for number in children() if number != helper]
        if not others:
            return
        if time.monotonic() > end:
            break
        time.sleep(pause)
        pause = min(pause * 2, 0.1)
    names = ", ".join(f"{name_of(number)} ({number})" for number in others[:5])
    count = many(len(others), "process", "processes")
    tell(f"{shown(words[0])} left {count} running, ended with it: {names}")
    end_children(helper)


def name_of(process: int) -> str:
    """The name of a process."""
    try:
        with open(f"/proc/{process}/comm", encoding="utf-8", errors="replace") as file:
            return shown(file.read().rstrip("\n"))
    except OSError:
        return "?"


def end_children(but: int | None = None) -> None:
    """Ends all that the command has started, and what that has started."""
    while others := [number for number in children() if number != but]:
        for number in others:
            try:
                os.kill(number, 9)
            except ProcessLookupError:
                continue
        for number in others:
            try:
                os.waitpid(number, 0)
            except ChildProcessError:
                continue
    if but is not None:
        return


# ---- the transaction


class Transaction:
    """One command on one tree."""

    def __init__(self, given: Given, tree: Tree, clerk: Clerk) -> None:
        self.given = given
        self.tree = tree
        self.clerk = clerk
        self.command = Command(given.command, "hold" in given.flags)
        self.kinds = kinds_of(given)
        self.tried = 0
        self.ident = "do"  # the name of the last room

    def run(self) -> int:
        """The status of the whole. The command runs until what it has read is still so then."""
        given = self.given
        last: Answer | None = None
        while self.tried < given.tries:
            self.tried += 1
            is_last = self.tried == given.tries and given.tries > 1
            if is_last and "optimistic" not in given.flags:
                with self.clerk.holding() as held:
                    found = self.attempt(held)
            else:
                found = self.attempt(None)
            if isinstance(found, int):
                return self.released(found)
            last = found
            if self.tried < given.tries:
                tell(f"{last.where()} was changed by another job: run again")
        assert last is not None
        times = many(self.tried, "time")
        tell(f"{last.where()} was changed by another job, {times} of {times}: nothing was changed")
        return CONFLICT

    def released(self, status: int) -> int:
        """Prints what was kept back of a job that has come to a status; the status then."""
        try:
            self.command.release()
        except OSError as error:
            tell(f"what the command printed can't be written: {error.strerror}")
            return status or PARTLY
        return status

    def attempt(self, held: int | None) -> int | Answer:
        """Runs the command once: the status of the whole, or an answer that makes it run again."""
        from .copies import CannotEnter
        from .jobs import CONFLICT, Answer
        from .waiting import Room

        while True:
            room = Room(self.tree)
            try:
                self.ident = room.name
                self.check_description(room)
                self.clerk.reached("begun")
                copy = self.kinds[0](room.path, self.tree.root)
                self.verbose(f"try {self.tried}: {copy.name}")
                if copy.spoiled is not None:
                    return Answer(CONFLICT, copy.spoiled)
                self.command.ready()
                status = self.command.run(copy)
                self.clerk.reached("ran")
                return self.settled(room, copy, status, held)
            except CannotEnter as error:
                kind = self.kinds.pop(0)
                if not self.kinds:
                    raise Failed(
                        Status.SYSTEM, f"this system makes no such copy: {error}"
                    ) from None
                self.verbose(f"not {kind.name}: {error}")
            finally:
                room.close()
                if room.stays:
                    tell(f"{shown(room.path)}: stays, and is in nobody's way: {room.stays}")

    def check_description(self, room: Room) -> None:
        """Raises Failed if the program refuses the description, before the command runs first."""
        if self.tried == 1:
            from .program import is_valid

            empty = room.inside("empty")
            os.mkdir(empty)
            is_valid(self.clerk.description, empty)
            os.rmdir(empty)

    def settled(self, room: Room, copy: Copy, status: int, held: int | None) -> int | Answer:
        """What becomes of a command that has ended.

        Also a status other than 0 is the command's own only if what it has read is still so.
        """
        from .copies import Changes
        from .jobs import CONFLICT, DONE, Answer

        looked = copy.looked()
        changes = copy.changes(looked) if status == 0 else Changes()
        changes.check()
        if looked.spoiled is not None:
            return Answer(CONFLICT, looked.spoiled)
        if not changes and (held is not None or not looked.reads and looked.total is None):
            return own_status(status, self.given.command)
        log = b"" if status else self.log_of_commit()
        answer = self.clerk.submit(room, looked, changes, held, log)
        for line in (*self.clerk.told, *answer.conflicts):
            tell(line)
        self.clerk.told = []
        if answer.what == CONFLICT:
            return answer
        if answer.what == DONE:
            return PARTLY if answer.conflicts else own_status(status, self.given.command)
        tell(f"the result has no value by {shown(self.given.spec)}, so nothing was changed")
        return NO_VALUE

    def verbose(self, line: str) -> None:
        """Tells a line if one wants to know more."""
        if "verbose" in self.given.flags:
            tell(line)

    def log_words(self) -> bytes:
        """What the line of this job says of it: the tree, the description, how the copy was made,
        the number of tries, and the command."""
        from .spelling import spelled

        kind = self.kinds[0].word if self.kinds else "none"
        how = f"do:{kind}:{self.tried}"
        words = [self.tree.path, self.clerk.description, how, *self.given.command]
        return b" ".join(spelled(os.fsencode(word)) or b"%" for word in words)

    def log_of_commit(self) -> bytes:
        """What the place of the commit carries for the log, so that the line is there if the job is
        done, also if this process is killed behind the commit."""
        if self.given.log is None:
            return b""
        from .log import now
        from .spelling import spelled

        name = spelled(os.fsencode(self.given.log))
        return b"%s\n%s %s" % (name, now(), self.log_words())

    def log(self, status: int) -> None:
        """Appends the line of this job to the log, unless its commit did so."""
        if self.given.log is None:
            return
        from .log import now, put_line

        where, ident = os.fsencode(self.given.log), self.ident.encode()
        put_line(where, ident, now(), b"%d" % status, self.log_words())


def own_status(status: int, words: Sequence[str]) -> int:
    """The status of a command, if it can't be taken for one of this tool; else REFUSED."""
    if PARTLY <= status <= USAGE:
        tell(f"{shown(words[0])}: ended with status {status}, so nothing was changed")
        return REFUSED
    return status


def kinds_of(given: Given) -> list[type[Copy]]:
    """How the private copy may be made: the closest first, as far as the system lets one."""
    from .copies import Plain

    if given.only:
        from .declared import declared

        return [declared(given.only)]
    from .traced import Traced, Whole

    if "trace" in given.flags:
        return [Traced]
    return [Whole, Plain] if "whole" in given.flags else [Traced, Plain]


def transaction(given: Given) -> int:
    """The status of one call."""
    from .jobs import Clerk
    from .place import Tree

    spec = os.path.abspath(given.spec)
    try:
        os.close(os.open(spec, os.O_RDONLY | os.O_CLOEXEC))
    except OSError as error:
        raise Failed(Status.USAGE, f"{shown(given.spec)}: {error.strerror}") from None
    with Tree(given.tree) as tree:
        clerk = Clerk(tree, spec, given.wait)
        clerk.to_the_end = True
        it = Transaction(given, tree, clerk)
        status = REFUSED
        try:
            status = it.run()
        except Failed as failed:
            status = OWN.get(int(failed.status), REFUSED)
            raise
        except SystemExit as ended:  # a signal
            status = int(ended.code or 0)
            raise
        finally:
            it.log(status)
        return status


def main() -> NoReturn:
    """The command: its statuses leave those of commands free."""
    import gc

    gc.disable()
    hold_streams()
    take_signals()
    ended: list[int] = []

    def tool() -> int:
        ended.append(transaction(given_words(sys.argv[1:])))
        return 0

    status = status_of(tool)
    sys.exit(ended[0] if ended and not status else OWN.get(status, REFUSED))
