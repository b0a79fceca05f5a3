"""One attempt of a job: survey, view, runs beside, differences, and the commit. `txforest-apply`,
the queue and `txforest-do` make attempts."""

from __future__ import annotations

import os

from .calls import DIR
from .commit import Changed, Committed, Refused, Unfinished, commit
from .differences import Change, InTheWay, differences
from .place import Place, Tree, clear
from .program import Answer, call, is_valid
from .room import is_in_memory, room_of
from .sources import TEXT_LIMIT, Handed, Source, read_source
from .statuses import Failed, Status
from .survey import Survey, changed, settled_survey
from .terminal import shown, tell
from .view import View, view_of

TYPE_CHECKING = False
if TYPE_CHECKING:
    from collections.abc import Callable, Mapping, Sequence
    from typing import TypeVar

    from .commit import HandOut
    from .only import Only
    from .touched import Looks

    T = TypeVar("T")

QUESTION = b"\ntxn { validate v print(v) }\n"  # asks whether the last state has a value


class KeepsChanging(Failed):
    """Somebody who takes no lock keeps changing the tree, last at this path."""

    def __init__(self, path: str, line: str) -> None:
        super().__init__(Status.CHANGING, line)
        self.path = path


class Attempt:
    """A survey and a view of a tree whose lock is held, and runs over them.

        with Attempt(tree, lock) as it:
            answer = it.run(spec, [script])    # as often as one likes; OUT is that of the last one
            if answer.status == 0 and it.is_valid():
                it.commit({"id": answer.printed})

    found  the survey
    view   what the program reads
    """

    def __init__(
        self, tree: Tree, lock: int, only: Only | None = None, as_root: bytes | None = None
    ) -> None:
        """Surveys the tree, which stands for `as_root` if that is given, and makes the view. Raises
        Failed, Changed, OSError."""
        self.tree = tree
        self.lock = lock
        self.only = only
        self.found: Survey = settled_survey(
            tree.root, tree.home, tree.skip(), only, as_root
        )
        self.room: Place = room_of(tree, self.found)
        self.view: View | None = None
        self.spec: Source | None = None
        self.valid: bool | None = None
        self.refused: int | None = None  # the text that the last run refused: 0 is the description
        self.cause = ""  # and why
        try:
            self.make_view()
        except BaseException:
            self.close()
            raise

    def make_view(self) -> None:
        """Makes the view; beside the tree, if there is no space in memory."""
        try:
            self.view = view_of(self.tree, self.found, self.room.fd)
        except OSError:
            if not is_in_memory(self.room):
                raise
            self.close()
            self.room = room_of(self.tree, self.found, in_memory=False)
            self.view = view_of(self.tree, self.found, self.room.fd)

    def __enter__(self) -> Attempt:
        return self

    def __exit__(self, *_: object) -> None:
        self.close()

    def close(self) -> None:
        """Removes the view and OUT."""
        told: list[str] = []
        if self.view is not None:
            self.view.close()
            self.view = None
        if self.room.fd >= 0:
            self.room.clear(told)
            self.room.close()
            os.close(self.room.home)
            self.room.fd = -1
        for line in told:
            tell(line)

    # ---- runs

    def run(
        self, spec: str | Source, scripts: Sequence[str | Source], schedule: str | None = None
    ) -> Answer:
        """Runs scripts over the view into a fresh OUT, and answers what the program came to; its
        line names the texts by their words. With a schedule the run is watched, and its events
        are told before the report. Raises Failed if a text can't be read."""
        sources = [read_source(it) if isinstance(it, str) else it for it in (spec, *scripts)]
        self.spec, self.valid = sources[0], None
        answer = self.asked(sources) if len(sources) == 2 and schedule is None else None
        if answer is None:
            answer = self.run_sources(sources, schedule)
        if answer.status == Status.UNWRITTEN and is_in_memory(self.room):
            self.close()  # memory may have become short meanwhile
            self.room = room_of(self.tree, self.found, in_memory=False)
            self.make_view()
            answer = self.run_sources(sources, schedule)
        return answer

    def asked(self, sources: Sequence[Source]) -> Answer | None:
        """A run of one script with one transaction more, which asks whether what the others leave
        has a value. It is the last one, and changes nothing; the report is told without it.
        Nothing, if the run does not come to a report."""
        spec, script = sources
        if len(script.text) + len(QUESTION) > TEXT_LIMIT:
            return None
        answer = self.run_sources([spec, script.with_end(QUESTION)])
        if answer.status:
            return None
        parted = without_question(answer.printed)
        if parted is None:
            return None
        answer.printed, self.valid = parted
        return answer

    def run_sources(self, sources: Sequence[Source], schedule: str | None = None) -> Answer:
        """Runs texts into a fresh OUT."""
        if self.view is None:
            raise ValueError("the attempt is closed")
        clear(self.room.fd, b"out")
        self.refused = None
        with Handed(sources) as texts:
            spec, *scripts = texts.words
            inherited = [self.lock, self.room.fd, self.view.fd, *texts.fds]
            command = ["run", spec, self.view.path, self.out]
            if schedule is not None:
                command = ["watch", *command[1:], schedule]
            answer = call([*command, *scripts], inherited)
            if answer.status:
                refused = texts.refused(answer.told())
                if refused is not None:
                    self.refused, self.cause = refused
                answer.line = os.fsencode(texts.told(answer.told()))
        return answer

    def is_valid(self) -> bool:
        """Whether the OUT of the last run has a value by its description."""
        if self.valid is None:
            if self.spec is None:
                raise ValueError("nothing was run")
            with Handed([self.spec]) as texts:
                inherited = [self.lock, self.room.fd, *texts.fds]
                self.valid = is_valid(texts.words[0], self.out, inherited)
        return self.valid

    @property
    def out(self) -> str:
        """OUT, as the program's word for it."""
        return f"/proc/self/fd/{self.room.fd}/out"

    # ---- the end

    def look_again(self) -> None:
        """Raises Changed if somebody changed the tree since the survey. What a run answers is told
        only behind this, also if nothing is put in place."""
        where = changed(self.tree.root, self.found, self.tree.skip(), self.only)
        if where is not None:
            raise Changed(where)

    def changes(self) -> list[Change]:
        """What the OUT of the last run changes in the tree. Raises Failed with USAGE if a script
        is in the way of an entry that is left out."""
        return self.changes_to(self.out)

    def changes_to(self, folder: str) -> list[Change]:
        """What a folder changes in the tree. Raises as `changes` does."""
        if self.view is None:
            raise ValueError("the attempt is closed")
        out = os.open(folder, DIR)
        try:
            return differences(self.view, out, self.found)
        except InTheWay as where:
            raise Failed(Status.USAGE, in_the_way(self.found, str(where))) from None
        except OSError:
            self.look_again()  # the view may be the tree itself, and somebody may change it
            raise
        finally:
            os.close(out)

    def commit(
        self,
        changes: Sequence[Change],
        answers: Mapping[str, bytes] | None = None,
        hand_out: HandOut | None = None,
        looks: Mapping[str, Looks] | None = None,
    ) -> Committed:
        """Puts changes in place by files; looks again last before the commit. With neither
        changes nor answers nothing is done but that look. Takes and raises what commit.commit
        does."""
        if not changes and not answers:
            self.look_again()
            return Committed([], [])
        return commit(
            self.tree, changes, self.found, answers, self.look_again, hand_out, looks
        )


def without_question(report: bytes) -> tuple[bytes, bool] | None:
    """A report of one shell without its last transaction, and what that one printed; nothing if the
    report has no such one."""
    at = report.rfind(b"\nentry ") + 1
    head, tail = report[:at], report[at:].split(b"\n")
    first, _, rest = head.partition(b"\n")
    count, _, rest = rest.partition(b"\n")
    words = tail[0].split(b" ")
    if words[:1] + words[2:5] + words[6:] != [b"entry", b"shell", b"0", b"txn", b"done"]:
        return None
    if words[1] != words[5] or count != b"entries %d" % (int(words[1]) + 1):
        return None
    if tail[1:2] not in ([b"print true"], [b"print false"]):
        return None
    if tail[2:] != [b"retries 0", b"end", b""]:
        return None
    made = first + b"\nentries " + words[1] + b"\n" + rest + b"retries 0\nend\n"
    return made, tail[1] == b"print true"


def in_the_way(found: Survey, path: str) -> str:
    """What is told of a script in the way of an entry that is left out."""
    for it in found.left:
        if it.path == path or it.path.startswith(path + "/"):
            return (
                f"{shown('/' + it.path)}: is left out ({it.why}), and a script is in its way,"
                " so nothing was changed"
            )
    line = "a script is in the way of what is left out, so nothing was changed"
    return f"{shown('/' + path)}: {line}"


def attempts(
    tree: Tree,
    lock: int,
    only: Only | None,
    work: Callable[[Attempt], T],
    tries: int = 3,
    as_root: bytes | None = None,
    kept: list[Attempt] | None = None,
) -> T:
    """What `work` answers of an attempt; it begins again if somebody changes the tree (Changed).

    With `kept` the attempt that was answered is left there for the caller to close: to remove its
    OUT takes time, for which nobody has to wait.

    Raises Failed: KeepsChanging behind the last try, USAGE if a change is refused, UNFINISHED if a
    commit stands and something of it waits.
    """
    where = last = ""
    for again in range(tries):
        if again:
            tell(f"somebody who takes no lock changed {where}; the job begins again")
        try:
            it = Attempt(tree, lock, only, as_root)
            try:
                answer = work(it)
                if kept is not None:
                    kept.append(it)
                return answer
            finally:
                if kept is None or it not in kept:
                    it.close()
        except Changed as at:
            last = str(at)
            where = shown(f"/{last}")
        except Refused as why:
            raise Failed(Status.USAGE, f"{why}, so nothing was changed") from None
        except Unfinished as why:
            line = "the change is committed, and the next job puts the rest of it in place"
            raise Failed(Status.UNFINISHED, f"{why}; {line}") from None
    line = f"somebody who takes no lock keeps changing the tree, last {where}"
    raise KeepsChanging(last, f"{line}; nothing was changed after {tries} tries")
