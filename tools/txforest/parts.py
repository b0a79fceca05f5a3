"""The report of several jobs that were shells of one run, parted: each gets its own.

The texts are those that the program has just printed, so their form is not in question.
"""

from __future__ import annotations

TYPE_CHECKING = False
if TYPE_CHECKING:
    from collections.abc import Iterator, Sequence

HEAD = b"forest report 1\n"
LONGEST = 110_000  # bytes of the schedule, a word of the command line


class Part:
    """What one job did in a run.

    report  its report: its shells and its entries are numbered from 0
    odd     its transactions that are not done: the shell, the transaction, the end
    dones   how many are done
    valid   whether the state behind its last entry has a value; nothing if that was not asked
    """

    __slots__ = ("lines", "retries", "odd", "dones", "valid")

    def __init__(self) -> None:
        self.lines: list[bytes] = []
        self.retries: list[bytes] = []
        self.odd: list[tuple[int, int, str]] = []
        self.dones = 0
        self.valid: bool | None = None

    @property
    def entries(self) -> int:
        """How many entries it has."""
        return self.dones + len(self.odd)

    @property
    def report(self) -> bytes:
        """Its report."""
        head = [b"forest report 1", b"entries %d" % self.entries]
        tail = [b"retries %d" % len(self.retries), *self.retries, b"end\n"]
        return b"\n".join([*head, *self.lines, *tail])

    def entry(self, shell: int, txn: bytes, end: bytes) -> int:
        """Takes an entry, and answers its number."""
        number = self.entries
        self.lines.append(b"entry %d shell %d txn %s %s" % (number, shell, txn, end))
        if end == b"done":
            self.dones += 1
        else:
            self.odd.append((shell, int(txn), end.decode(errors="replace")))
        return number


def parted(printed: bytes, counts: Sequence[int]) -> list[Part]:
    """The parts of jobs that have so many scripts each, in the order of the shells.

    `printed` is a report, or that of a watched run with its events before it: then it is known of
    each state whether it has a value. A retry stands in its job's part if the entry is of that job.
    """
    report = report_in(printed)
    events = printed[: len(printed) - len(report)]
    parts = [Part() for _ in counts]
    owners = [(part, shell) for part, count in zip(parts, counts) for shell in range(count)]
    states = list(states_of(events)) if events else None
    numbers: list[tuple[Part, int]] = []
    now = parts[0]
    for line in report.split(b"\n"):
        if line.startswith(b"entry "):
            words = line.split(b" ", 6)
            now, shell = owners[int(words[3])]
            if states is not None:
                now.valid = states[len(numbers) + 1]
            numbers.append((now, now.entry(shell, words[5], words[6])))
        elif line.startswith(b"print "):
            now.lines.append(line)
        elif line.startswith(b"retry "):
            words = line.split(b" ", 7)
            part, shell = owners[int(words[2])]
            other, entry = numbers[int(words[6])]
            if other is part:
                told = b"retry shell %d txn %s entry %d %s"
                part.retries.append(told % (shell, words[4], entry, words[7]))
    if states is not None:
        for part in parts:
            if not part.entries:
                part.valid = states[-1]
    return parts


def report_in(printed: bytes) -> bytes:
    """The report of what was printed, without the events of a watched run."""
    return printed if printed.startswith(HEAD) else printed[printed.index(b"\n" + HEAD) + 1 :]


def states_of(events: bytes) -> Iterator[bool]:
    """Whether each state of a watched run has a value, the first one before all entries."""
    for line in events.split(b"\n"):
        if line.startswith(b"valid "):
            yield line == b"valid yes"


def one_by_one(shells: int) -> str:
    """A schedule by which each shell in turn is done before the next one begins. A step of a shell
    that is done is none; what needs more steps goes on behind them, and is right all the same."""
    length = len(str(shells - 1)) + 1
    steps = max(1, LONGEST // (length * shells))
    return ",".join(",".join([str(shell)] * steps) for shell in range(shells))
