"""The program: where it is, how it is called, and what its answers say."""

from __future__ import annotations

import os
import sys

from .statuses import Failed, Status
from .terminal import shown

TYPE_CHECKING = False
if TYPE_CHECKING:
    from collections.abc import Sequence


def program() -> str:
    """The program: TXFOREST if it is set, else the one beside the tool, else that on the PATH."""
    if os.environ.get("TXFOREST"):
        return os.environ["TXFOREST"]
    beside = os.path.join(os.path.dirname(os.path.realpath(sys.argv[0])), "txforest")
    return beside if os.path.isfile(beside) and os.access(beside, os.X_OK) else "txforest"


class Answer:
    """What a call of the program came to: its status, its output and its line on standard error."""

    __slots__ = ("status", "printed", "line")

    def __init__(self, status: int, printed: bytes, line: bytes) -> None:
        self.status = status
        self.printed = printed
        self.line = line

    def told(self) -> str:
        """The line on standard error, without its line feed."""
        return self.line.decode(errors="replace").rstrip("\n")


def call(
    words: Sequence[str | bytes],
    pass_fds: Sequence[int] = (),
    until_line: bool = False,
    at: int | None = None,
) -> Answer:
    """Runs the program with these words and reads all it prints.

    With `until_line` it reads the first line and ends the program then; the status is 0 then.
    `pass_fds` are descriptors that the program inherits: so it keeps a lock while it lives.
    `at` is a directory that a word names by its descriptor: the program is started in it, and finds
    it as `.`, so that each of its calls has a shorter way. For processes of one thread alone.
    Python ignores SIGXFSZ, and the program inherits that: a limit of file sizes is status 7.
    Raises Failed with SYSTEM if the program can't be started or a signal ended it.
    """
    name = program()
    told = os.memfd_create("told")
    try:
        reading, writing = os.pipe()
        pid = started_at(at, [name, *words], writing, told, pass_fds)
        return answer_of(name, pid, reading, told, until_line)
    finally:
        os.close(told)


def started_at(
    at: int | None,
    words: Sequence[str | bytes],
    printed: int,
    told: int,
    pass_fds: Sequence[int],
) -> int:
    """Starts a program in a directory, if this process can go there and back."""
    back = None if at is None else way_back()
    if at is None or back is None:
        return started(words, printed, told, pass_fds)
    name, *rest = words
    here = [os.path.abspath(name) if os.sep in os.fsdecode(name) else name]
    here += ["." if word == f"/proc/self/fd/{at}" else word for word in rest]
    try:
        os.fchdir(at)
        return started(here, printed, told, pass_fds)
    finally:
        os.fchdir(back)
        os.close(back)


def way_back() -> int | None:
    """A descriptor of the directory in which this process is. Nothing if there is none, or if
    programs are looked for from there on."""
    if not all(map(os.path.isabs, os.environ.get("PATH", os.defpath).split(os.pathsep))):
        return None
    try:
        return os.open(".", os.O_PATH | os.O_DIRECTORY | os.O_CLOEXEC)
    except OSError:
        return None


def started(
    words: Sequence[str | bytes], printed: int, told: int, pass_fds: Sequence[int]
) -> int:
    """Starts a program with its output and errors at two descriptors; the first is closed here."""
    open_, dup2 = os.POSIX_SPAWN_OPEN, os.POSIX_SPAWN_DUP2
    actions = [(open_, 0, "/dev/null", os.O_RDONLY, 0), (dup2, printed, 1), (dup2, told, 2)]
    kept = [fd for fd in pass_fds if not os.get_inheritable(fd)]
    try:
        for fd in kept:
            os.set_inheritable(fd, True)
        return os.posix_spawnp(words[0], list(words), os.environ, file_actions=actions)
    except OSError as error:
        raise Failed(
            Status.SYSTEM,
            f"{shown(words[0])}: {error.strerror}: set TXFOREST to the program, or install it",
        ) from None
    finally:
        os.close(printed)
        for fd in kept:
            os.set_inheritable(fd, False)


def end(pid: int) -> None:
    """Ends a child and waits for it, unless that was done already: its number may be another's."""
    try:
        if os.waitpid(pid, os.WNOHANG)[0] == 0:
            os.kill(pid, 9)
            os.waitpid(pid, 0)
    except ChildProcessError:
        pass


def answer_of(name: str, pid: int, reading: int, told: int, until_line: bool) -> Answer:
    """Reads what a process prints, and waits for its end. If the tool ends before, so does it."""
    parts: list[bytes] = []
    cut = False
    try:
        while part := os.read(reading, 1 << 18):
            parts.append(part)
            if until_line and b"\n" in part:
                cut = True
                break
        if cut:
            os.kill(pid, 9)
        ended = os.waitstatus_to_exitcode(os.waitpid(pid, 0)[1])
    except BaseException:
        end(pid)
        raise
    finally:
        os.close(reading)
    if cut:
        return Answer(0, b"".join(parts), b"")
    if ended < 0:
        raise Failed(Status.SYSTEM, f"{shown(name)}: ended by signal {-ended}")
    return Answer(ended, b"".join(parts), os.pread(told, 1 << 16, 0))


def called(words: Sequence[str | bytes], pass_fds: Sequence[int] = ()) -> bytes:
    """The program's output if it ends with 0. Else raises Failed with its status and its line."""
    answer = call(words, pass_fds)
    if answer.status:
        raise Failed(answer.status, answer.told())
    return answer.printed


def is_valid(
    spec: str | bytes, folder: str | bytes, pass_fds: Sequence[int] = ()
) -> bool:
    """Whether a folder has a value by a description, by the first line of `show` alone."""
    answer = call(["show", spec, folder], pass_fds, until_line=True)
    if answer.printed.startswith((b"valid yes\n", b"valid no\n")):
        return answer.printed.startswith(b"valid yes\n")
    raise Failed(
        answer.status or Status.SYSTEM,
        answer.told() or f"{shown(program())}: its `show` gave no answer",
    )
