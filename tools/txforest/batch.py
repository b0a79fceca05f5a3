"""Jobs done in one go by who has the lock: its own, and those that wait in the queue.

They are shells of one run. Each gets its own report and its own status, as if it had been done
alone, behind those before it:

- A refused text gives 3 to its job; the others are run again without it.
- A job with a transaction that stopped or was aborted gets 1, and none of it is in place. If
  another of its transactions was done, it is taken out and run alone.
- The state behind each job has a value. A job behind which there is none is taken out and run
  alone: so it gets 10, also where a later one mends what it broke.
- What stops several at once (no room, somebody in the way) is done again in halves, down to the one
  that it is due to. If somebody keeps changing a path, the jobs that looked there are done apart.
- A path that somebody changed behind the commit is told to the jobs that looked there, and to no
  other.
"""

from __future__ import annotations

import os

from .attempt import Attempt, KeepsChanging, attempts
from .commit import hold_signals, let_signals
from .looked import Looker
from .parts import Part, parted, report_in
from .queue import Answer, Request, Text, answer_text
from .sources import Source, spelled
from .statuses import Failed, Status
from .terminal import many, shown

TYPE_CHECKING = False
if TYPE_CHECKING:
    from collections.abc import Callable, Mapping, Sequence

    from .commit import Committed
    from .differences import Change
    from .only import Only
    from .place import Tree
    from .program import Answer as Run
    from .queue import Taken
    from .survey import Survey
    from .touched import Looks

    Given = Mapping[str, Looks] | None
    Put = Callable[[Attempt, Sequence[Change], dict[str, bytes], Given], Committed]
    Come = Callable[[int, int], Sequence[Taken]]

SHELLS = 64
LARGE = 20_000  # entries of a tree times transactions, from which on fewer states are looked at
STATES = 256  # how many transactions are watched in one go at most
SEVERAL = (Status.UNWRITTEN, Status.NO_MEMORY)


class Member:
    """A job of a batch: one's own, or one of the queue. Its answer comes in the end."""

    def __init__(self, ident: str, request: Request, taken: Taken | None = None) -> None:
        self.ident = ident
        self.request = request
        self.taken = taken
        self.answer: Answer | None = None

    @property
    def spec(self) -> Source:
        """The description, as this job names it."""
        return source_of(self.request.spec)

    @property
    def scripts(self) -> list[Source]:
        """The scripts."""
        return [source_of(text) for text in self.request.scripts]

    def word(self, shell: int) -> str:
        """What a script is called, as it is told."""
        return shown(self.request.scripts[shell].word)


def source_of(text: Text) -> Source:
    """A text of a request as the program gets it."""
    if not text.places:
        return Source(text.word, text.text)
    from .data import Bound

    return Source(text.word, Bound(text.text, text.places, text.length))


def text_of(source: Source) -> Text:
    """A source as a request has it."""
    if source.bound is None:
        return Text(source.word, source.text)
    return Text(source.word, source.text, source.bound.length, source.bound.places)


class Batch:
    """Jobs of one description on one tree, whose lock is held."""

    def __init__(
        self, tree: Tree, held: int, only: Only | None, put: Put, come: Come = lambda *_: ()
    ) -> None:
        """`put` commits changes with answers and the looks of their jobs, and holds signals from
        then on. `come` takes jobs that wait, so many scripts and transactions at most."""
        self.tree = tree
        self.held = held
        self.only = only
        self.put = put
        self.come: Come | None = come  # until it was asked
        self.members: list[Member] = []
        self.surveyed: Callable[[Survey], None] = lambda found: None  # told of each survey
        self.rooms: list[Attempt] = []  # what is to be closed behind the answers
        self.looker: Looker | None = None  # of the last run
        self.known: list[Change] | None = None  # what the last run changes, if that was asked
        self.standing: list[Member] = []  # whose answers stand in a place, for whoever settles it

    def do(self, own: Member) -> Answer:
        """Does one's own job, and those of the queue as far as they are done with it. The others
        wait again. Raises Failed with UNFINISHED if a commit stands and something of it waits."""
        self.members = [own]
        groups = [[own]]
        signals = hold_signals()
        let_signals(signals)
        try:
            while own.answer is None:
                groups[:1] = self.done(groups[0])
                if own.answer is None:
                    let_signals(signals)
            return own.answer
        finally:
            for member in self.members:
                if member.taken is not None and member.answer is None:
                    if member not in self.standing:
                        member.taken.put_back()

    def close(self) -> None:
        """Removes what is left of the last attempt."""
        while self.rooms:
            self.rooms.pop().close()

    def done(self, group: list[Member]) -> list[list[Member]]:
        """Does a group. Answers the groups that are still to be done."""
        try:
            self.close()
            return attempts(
                self.tree,
                self.held,
                self.only,
                lambda it: self.attempted(it, group),
                kept=self.rooms,
            )
        except Failed as failed:
            if failed.status == Status.UNFINISHED:
                self.standing = group
                raise
            if isinstance(failed, KeepsChanging):
                groups = self.apart(group, failed.path)
                if groups:
                    return groups
            answer = Answer(failed.status, b"", failed.lines)
        except OSError as error:
            where = f"{shown(error.filename)}: " if isinstance(error.filename, (str, bytes)) else ""
            answer = Answer(Status.SYSTEM, b"", [f"{where}{error.strerror or error}"])
        if len(group) > 1:
            return halves(group)
        self.answered(group[0], answer)
        return []

    def apart(self, group: list[Member], path: str) -> list[list[Member]]:
        """A group as those that did not look at a path, together, and each of the others alone; no
        groups, if that parts nothing or is not known."""
        looks = self.looks_of(group)
        if looks is None:
            return []
        at = os.fsencode(path)
        own = [looks[f"job-{member.ident}"].touches(at, None) for member in group]
        rest = [member for member, touched in zip(group, own) if not touched]
        alone = [[member] for member, touched in zip(group, own) if touched]
        return [rest, *alone] if rest and alone else []

    def looks_of(self, group: list[Member]) -> dict[str, Looks] | None:
        """At what the jobs of a group looked in the last run, by the names of their answers.
        Nothing if there is one alone, or if that is not known."""
        shells = None if self.looker is None else self.looker.shells
        if shells is None or len(group) == 1:
            return None
        from .touched import Looks

        found: dict[str, Looks] = {}
        first = 0
        for member in group:
            behind = first + len(member.request.scripts)
            paths = set[bytes]().union(*(shells.get(it, ()) for it in range(first, behind)))
            first = behind
            for kind in ("job", "log"):
                found[f"{kind}-{member.ident}"] = Looks(paths)
        return found

    def attempted(self, attempt: Attempt, group: list[Member]) -> list[list[Member]]:
        """One attempt at a group. Answers the groups that are still to be done."""
        self.looker = None
        self.surveyed(attempt.found)
        self.take_along(group)
        answer = self.ran(attempt, group)
        if answer.status:
            attempt.look_again()
            return self.refused(attempt, group, answer.status, answer.told())
        parts = parted(answer.printed, [len(member.request.scripts) for member in group])
        if len(group) == 1:
            # The program's own text, byte for byte, if it is one's own alone.
            return self.alone(attempt, group[0], parts[0], answer.printed)
        odd = [bool(part.odd) and not it.request.allow_stopped for it, part in zip(group, parts)]
        out = [
            (is_odd and part.dones > 0) or (not is_odd and part.valid is False)
            for is_odd, part in zip(odd, parts)
        ]
        if any(out):
            rest = [member for member, is_out in zip(group, out) if not is_out]
            apart = [[member] for member, is_out in zip(group, out) if is_out]
            return [rest, *apart] if rest else apart
        answers = [
            stopped(member, part, part.report) if is_odd else Answer(Status.DONE, part.report)
            for member, part, is_odd in zip(group, parts, odd)
        ]
        self.commit(attempt, group, answers, answer.printed)
        return []

    def take_along(self, group: list[Member]) -> None:
        """Takes the jobs that wait into the first group, once. The tree is surveyed by then, which
        may have taken long, so that others came meanwhile. It is looked at once more in the end, so
        they are done on what they found too."""
        come, self.come = self.come, None
        if come is None:
            return
        shells = SHELLS - sum(len(it.request.scripts) for it in group)
        transactions = STATES - sum(it.request.transactions for it in group)
        new = [Member(it.ident, it.request, it) for it in come(shells, transactions)]
        self.members += new
        group += new
        group.sort(key=lambda it: it.ident)

    def ran(self, attempt: Attempt, group: list[Member]) -> Run:
        """The run of a group. That of several is watched, so that each state is known to have a
        value or not; unless the tree is large, and it is seen that the last state speaks for
        all."""
        self.known = None
        looker = self.looker = Looker(attempt)
        spec = group[0].spec
        scripts = [script for member in group for script in member.scripts]
        if len(group) == 1:
            return looker.run(spec, scripts)
        transactions = sum(member.request.transactions for member in group)
        if len(attempt.found.taken) * transactions > LARGE:
            from .blind import are_blind, keep_all

            if are_blind(spec.text, [script.text for script in scripts]):
                answer = looker.run(spec, scripts)
                if answer.status:
                    return answer
                changes = looker.changes()
                if keep_all(changes, attempt.found) and attempt.is_valid():
                    self.known = changes
                    return answer
        return looker.watch(spec, scripts)

    def alone(
        self, attempt: Attempt, member: Member, part: Part, report: bytes
    ) -> list[list[Member]]:
        """What an attempt at one job comes to."""
        if part.odd and not member.request.allow_stopped:
            attempt.look_again()
            self.answered(member, stopped(member, part, report))
        elif not attempt.is_valid():
            attempt.look_again()
            spec = shown(member.request.spec.word)
            line = f"the result has no value by {spec}, so nothing was changed"
            self.answered(member, Answer(Status.NO_VALUE, report, [line]))
        else:
            self.commit(attempt, [member], [Answer(Status.DONE, report)], report)
        return []

    def refused(
        self, attempt: Attempt, group: list[Member], status: int, line: str
    ) -> list[list[Member]]:
        """What comes of a run that the program refuses."""
        if status == Status.TEXT and attempt.refused:
            number, cause = attempt.refused - 1, attempt.cause
            for member in group:
                if number < len(member.request.scripts):
                    word = spelled(member.request.scripts[number].word)
                    self.answered(member, Answer(status, b"", [f"txforest: {word}: {cause}"]))
                    return [[other for other in group if other is not member]] if group[1:] else []
                number -= len(member.request.scripts)
        if status in SEVERAL and len(group) > 1:
            return halves(group)
        for member in group:
            told = line
            if status == Status.TEXT and attempt.refused == 0:
                told = f"txforest: {spelled(member.request.spec.word)}: {attempt.cause}"
            self.answered(member, Answer(status, b"", [told]))
        return []

    def commit(
        self, attempt: Attempt, group: list[Member], answers: list[Answer], printed: bytes
    ) -> None:
        """Puts the result of an attempt in place, with the answers of those who wait."""
        if self.looker is None:
            raise ValueError("nothing was run")
        changes = self.looker.changes() if self.known is None else self.known
        carried = self.carried(attempt, group, answers, printed)
        if not changes:
            # Nothing is to be kept across a stop: an answer that is lost is come to again.
            carried = {name: it for name, it in carried.items() if name.startswith("keep-")}
        committed = self.put(attempt, changes, carried, self.looks_of(group))
        for member, answer in zip(group, answers):
            answer = answer.with_conflicts(committed.told_to(f"job-{member.ident}"))
            if member.taken is None:
                answer.lines[:0] = committed.told
            if changes:
                member.answer = answer
            else:
                self.answered(member, answer)

    def carried(
        self, attempt: Attempt, group: list[Member], answers: list[Answer], printed: bytes
    ) -> dict[str, bytes]:
        """What goes into the place of a commit: the answers of those who wait, the lines that logs
        get, and the names of what is kept."""
        found: dict[str, bytes] = {}
        for member, answer in zip(group, answers):
            if member.taken is not None:
                found[f"job-{member.ident}"] = answer_text(answer)
            request = member.request
            if answer.status == Status.DONE and (request.log or request.keep):
                from . import log

                if request.log:
                    found[f"log-{member.ident}"] = log.carried_line(self.tree, request)
                if request.keep:
                    scripts = [script for it in group for script in it.scripts]
                    found[f"keep-{member.ident}"] = log.kept(
                        attempt, member.ident, request.keep, scripts, report_in(printed)
                    )
        return found

    def answered(self, member: Member, answer: Answer) -> None:
        """Gives a job an answer that rests on no change."""
        member.answer = answer
        if member.taken is not None:
            member.taken.give(answer)


def stopped(member: Member, part: Part, report: bytes) -> Answer:
    """The answer of a job with transactions that are not done."""
    lines = [f"{member.word(shell)}: transaction {txn} {end}" for shell, txn, end in part.odd]
    line = f"{many(len(part.odd), 'transaction')} not done, so nothing was changed"
    lines.append(f"{line}; txforest-explain says why, --allow-stopped goes on")
    return Answer(Status.NOT_DONE, report, lines)


def halves(group: list[Member]) -> list[list[Member]]:
    """A group as two."""
    half = len(group) // 2
    return [group[:half], group[half:]]


def terms_of(only: Sequence[str]) -> bytes:
    """What two jobs have to have in common to be done in one go."""
    umask = os.umask(0)
    os.umask(umask)
    groups = ",".join(map(str, sorted({os.getegid(), *os.getgroups()})))
    own = f"umask {umask:o} group {os.getegid()} groups {groups} only "
    return own.encode() + b"\0".join(map(os.fsencode, only))
