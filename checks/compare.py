"""Holds the built program against the second program of the meaning, the model, on random inputs.

usage: compare.py PROGRAM [SEED] [COUNT] [COMMAND..]     every command if none is named

Each case is a random folder with links and flags, a description with definitions, some scripts and
a schedule. `show`, `trace`, `watch`, `journal`, `run` and `views` have to print, write and refuse
what the model says, and `recover` from the journal and from changed ones. In every third case the
scripts work on the same few files, so that they meet. In some the calls of the description go as
deep as they may, by several definitions in turn.

Of `run` and `views` the order and the retries are those that they print: the answers and OUT are
those of the transactions run whole in that order, and `audit` says of the report of `run`, and of
changed ones, what the model says. Of a view the number of entries is the printed one: its answers
are those of its transaction on what that number of entries leaves. Some texts are broken before, so
that refusals are compared too. Then four cases from numbers: what `gen` writes, and what `large`
leaves and prints.

Prints how many cases there were of each kind. Ends with 1 at the first difference, which it tells;
and if a kind of case that it is there for has not occurred in 1,000 cases of every command.
"""

from __future__ import annotations

import os
import random
import re
import shutil
import subprocess
import sys
import tempfile
from collections import Counter
from collections.abc import Iterator, Sequence
from typing import Any, NamedTuple

from making import MEETING, MEETING_LOOK, Maker
from repository import model
from waiting import finished

COMMANDS = ["show", "trace", "watch", "journal", "recover", "run", "audit", "views", "gen", "large"]
SECONDS = 60

# What a thousand cases have to have.
EXPECTED = [
    "valid yes, by mutual recursion",
    "valid no, by mutual recursion",
    "stopped 13 TooUnfolded",
    "stopped 10 Expr",
    "show refused 3",
    "show refused 4",
    "run refused 3",
    "views refused 3",
    "views refused 4",
    "views refused, and a script too",
    "conflicts",
    "watched not valid",
    "bad journals",
    "audit yes",
    "audit no Answer",
]


class Read(NamedTuple):
    """What the texts and the folder of a case stand for."""

    root: model.Description
    plan: list[list[model.Txn]]
    store: model.Filestore


class Refusal(NamedTuple):
    """The status and the line of what is refused."""

    status: int
    line: str


class Different(Exception):
    """The program and the model differ."""


class Case(NamedTuple):
    """A case at work: its folder, the program, the commands asked for, and what has occurred."""

    room: str
    program: str
    asked: set[str]
    counts: Counter[str]

    def there(self, name: str) -> str:
        """A path in the folder."""
        return os.path.join(self.room, name)

    def read(self, name: str) -> bytes:
        """What a file of the folder holds."""
        with open(self.there(name), "rb") as it:
            return it.read()

    def put(self, name: str, content: bytes) -> None:
        """Writes a file of the folder."""
        with open(self.there(name), "wb") as it:
            it.write(content)

    def run(self, words: list[str]) -> tuple[int, str, str]:
        """The status of the program, and what it prints on both outputs."""
        child = subprocess.Popen(
            [self.program, *words],
            cwd=self.room,
            stdout=subprocess.PIPE,
            stderr=subprocess.PIPE,
            stdin=subprocess.DEVNULL,
        )
        try:
            printed, line = finished(child, SECONDS)
        except TimeoutError as late:
            raise Different(f"{words}: {late}") from None
        return child.returncode, printed.decode(), line.decode()


def expect(what: str, found: object, wanted: object) -> None:
    """Raises Different if the program says something else than the model."""
    if found != wanted:
        raise Different(f"{what}:\n--- the program\n{found}\n--- the model\n{wanted}")


def inputs(case: Case, scripts: list[str], views: Sequence[str] = ()) -> Read | Refusal:
    """What the texts and the folder stand for; or the first of them that is refused.

    The views' transactions are a script before the others.
    """
    word = "spec"
    plan: list[list[model.Txn]] = []
    try:
        root = model.read_description(case.read(word))
        for names in (views, scripts):
            before = len(plan)
            for word in names:
                earlier = sum(len(txns) for txns in plan[before:])
                plan.append(model.read_script(case.read(word), earlier))
        word = "folder"
        return Read(root, plan, model.load(case.there("in")))
    except model.Refused as refused:
        return Refusal(4 if word == "folder" else 3, f"txforest: {word}: {refused}\n")


def called_in(part: Any) -> set[str]:
    """The names that a part of a description calls."""
    found = {part[1]} if part[0] == "call" else set()
    return found.union(*(called_in(it) for it in part if isinstance(it, tuple) and it))


def is_mutual(description: model.Description) -> bool:
    """Whether the root leads to definitions that lead to each other."""
    called = {definition.name: called_in(definition.body) for definition in description.defs}

    def reached(names: set[str]) -> set[str]:
        found: set[str] = set()
        while names - found:
            found |= names
            names = set().union(*(called[name] for name in names))
        return found

    below = {name: reached(called[name]) for name in reached(called_in(description.root))}
    return any(a != b and b in below[a] and a in below[b] for a in below for b in below)


def compare(case: Case, maker: Maker) -> None:
    """Makes a case, and compares each command that is asked."""
    r, kind = maker.r, maker.r.choice(["plain"] * 5 + ["meeting"] * 3 + ["unfolding"])
    meet = kind == "meeting"
    if meet:
        maker.meeting_folder(case.there("in"))
    else:
        maker.folder(case.there("in"))
    description, script = MEETING, maker.meeting_script
    if kind == "plain":
        description, script = maker.description(), lambda: maker.broken(maker.script())
    elif kind == "unfolding":
        description, script = maker.unfolding()
    case.put("spec", description.encode() if meet else maker.broken(description.encode()))
    scripts = [f"s{i}" for i in range(r.choice([2, 3, 4] if meet else [1, 1, 2, 2, 3]))]
    for name in scripts:
        case.put(name, script())
    if kind == "plain":
        case.put("views", maker.broken(script()))
    else:
        case.put("views", (MEETING_LOOK * meet + script()) * r.randrange(1, 4))
    schedule = [r.randrange(len(scripts)) for _ in range(r.randrange(0, 60 if meet else 12))]
    times = r.randrange(1, 25) if meet else 1

    if "show" in case.asked:
        compare_show(case)
    if "views" in case.asked:
        compare_views(case, scripts, times)
    read, turns = inputs(case, scripts), ",".join(map(str, schedule)) or "none"
    if isinstance(read, Refusal):
        compare_refused(case, scripts, read, turns)
        return
    if case.asked & {"trace", "watch", "journal", "recover"}:
        compare_scheduled(case, scripts, read, schedule, turns)
    if case.asked & {"run", "audit"}:
        compare_threaded(case, scripts, read, r)


def compare_refused(case: Case, scripts: list[str], read: Refusal, turns: str) -> None:
    """Each command that reads them refuses scripts, or what is read before; nothing is made."""
    between = {
        "trace": ["out", turns],
        "watch": ["out", turns],
        "journal": ["out", "journal", turns],
        "recover": ["journal", "out"],
        "run": ["out"],
        "audit": ["spec"],
    }
    for command, words in between.items():
        if command in case.asked:
            expect(
                command,
                case.run([command, "spec", "in", *words, *scripts]),
                (read.status, "", read.line),
            )
    for name in ("out", "journal"):
        expect(f"{name} after a refusal", os.path.exists(case.there(name)), False)
    case.counts[f"run refused {read.status}"] += 1


def compare_scheduled(
    case: Case, scripts: list[str], read: Read, schedule: list[int], turns: str
) -> None:
    """`trace`, `watch`, `journal` and `recover`, by a schedule, whose turns are these."""
    root, plan, store = read
    events, order, retries, last = model.trace(root, plan, store, schedule)
    report = model.report(order, retries)
    wanted = (0, "".join(e + "\n" for e in events) + report, "")
    if "trace" in case.asked:
        expect("trace", case.run(["trace", "spec", "in", "traced", turns, *scripts]), wanted)
        expect("OUT of trace", model.saved(case.there("traced")), model.folder_of(last))
        case.counts["traces"] += 1
    if "watch" in case.asked:
        lines, _, _, _ = model.watch(root, plan, store, schedule)
        found = case.run(["watch", "spec", "in", "watched", turns, *scripts])
        expect("watch", found, (0, "".join(line + "\n" for line in lines) + report, ""))
        expect("OUT of watch", model.saved(case.there("watched")), model.folder_of(last))
        case.counts["watched valid"] += lines.count("valid yes")
        case.counts["watched not valid"] += lines.count("valid no")
    if case.asked & {"journal", "recover"}:
        found = case.run(["journal", "spec", "in", "journaled", "journal", turns, *scripts])
        expect("journal", found, wanted)
        expect("OUT of journal", model.saved(case.there("journaled")), model.folder_of(last))
        expect(
            "the journal's bytes",
            case.read("journal"),
            model.journal_of([turn[:2] for turn in order]),
        )
    if "recover" in case.asked:
        compare_recover(case, scripts, read)
    for _, _, _, end in order:
        case.counts[re.sub(r"stopped \d+ (\d+ \w+).*", r"stopped \1", end)] += 1
    case.counts["conflicts"] += len(retries)


def compare_threaded(case: Case, scripts: list[str], read: Read, r: random.Random) -> None:
    """`run` on threads, and `audit` of its report."""
    status, printed, line = case.run(["run", "spec", "in", "out", *scripts])
    expect("run", (status, line), (0, ""))
    states, retries = compare_run("run", read, printed)
    expect("OUT of run", model.saved(case.there("out")), model.folder_of(states[-1]))
    if "audit" in case.asked:
        for report in [printed.encode(), *changed_reports(r, printed.encode())]:
            compare_audit(case, scripts, read, report)
    case.counts["runs"] += 1
    case.counts["retries of runs"] += retries


def compare_show(case: Case) -> None:
    """`show` of the folder."""
    found, read = case.run(["show", "spec", "in"]), inputs(case, [])
    if isinstance(read, Refusal):
        expect("show", found, (read.status, "", read.line))
        case.counts[f"show refused {read.status}"] += 1
        return
    try:
        v = model.top_value(model.View(read.store.get), read.root)
        wanted = f"valid yes\nvalue {model.printed(v)}\n"
    except model.NoValue:
        wanted = "valid no\n"
    expect("show", found, (0, wanted, ""))
    valid = wanted.split("\n")[0]
    case.counts[valid] += 1
    case.counts[f"{valid}, by mutual recursion"] += is_mutual(read.root)


def compare_run(what: str, read: Read, printed: str) -> tuple[list[model.Filestore], int]:
    """Compares the report of a run on threads with its transactions, run whole in its order.

    Gives the filestores before and after each entry, and the number of retries.
    """
    root, plan, store = read
    turns = [
        (int(k), int(j)) for k, j in re.findall(r"(?m)^entry \d+ shell (\d+) txn (\d+) ", printed)
    ]
    told = re.findall(r"(?m)^retry shell (\d+) txn (\d+) entry (\d+) path (.*)$", printed)
    retries = []
    for k, j, i, text in told:
        path = model.told_path(text.encode())
        if path is None:
            raise Different(f"{what}: {text} is no path")
        retries.append(model.Retry(int(k), int(j), int(i), path))
    for shell, txns in enumerate(plan):
        found = [txn for it, txn in turns if it == shell]
        expect(f"the order of {what}, of shell {shell}", found, list(range(len(txns))))
    expect(f"the order of {what}", len(turns), sum(map(len, plan)))
    entries, states = [], [store]
    ran = model.runs_of(root, [plan[shell][txn] for shell, txn in turns], store)
    for (shell, txn), (outputs, end, state) in zip(turns, ran):
        entries.append(model.Entry(shell, txn, outputs, end))
        states.append(state)
    expect(what, printed, model.report(entries, retries))
    told_by_model = model.audit(root, plan, store, printed.encode())
    expect(f"the model's audit of {what}", told_by_model, "audit yes\n")
    return states, len(retries)


def compare_views(case: Case, scripts: list[str], times: int) -> None:
    """`views` with these scripts, each `times` times one after another."""
    writers = [f"{name}x{times}" for name in scripts]
    for name, writer in zip(scripts, writers):
        case.put(writer, case.read(name) * times)
    read = inputs(case, writers, ["views"])
    status, printed, line = case.run(["views", "spec", "in", "viewed", "views", *writers])
    if isinstance(read, Refusal):
        there = os.path.exists(case.there("viewed"))
        expect("views", (status, printed, line, there), (read.status, "", read.line, False))
        case.counts[f"views refused {read.status}"] += 1
        if read.line.startswith("txforest: views: "):
            alone = inputs(case, writers)
            is_text = isinstance(alone, Refusal) and alone.status == 3
            case.counts["views refused, and a script too"] += is_text
        return
    expect("views", (status, line), (0, ""))
    root, (views, *plan), store = read
    report, end, behind = printed.partition("\nend\n")
    states, retries = compare_run("views", Read(root, plan, store), report + end)
    expect("OUT of views", model.saved(case.there("viewed")), model.folder_of(states[-1]))
    positions = [int(i) for i in re.findall(r"(?m)^view \d+ at (\d+) ", behind)]
    if (
        len(positions) != len(views)
        or positions != sorted(positions)
        or positions[-1:] > [len(states) - 1]
    ):
        raise Different(
            f"the positions of {len(views)} views beside {len(states) - 1} entries: {behind}"
        )
    expect("what the views saw", behind, model.views(root, views, states, positions))
    case.counts["runs with views"] += 1
    case.counts["retries of runs with views"] += retries
    for position in positions:
        case.counts[
            "views at the "
            + ("beginning" if position == 0 else "end" if position == len(states) - 1 else "middle")
        ] += 1


def changed_reports(r: random.Random, report: bytes) -> Iterator[bytes]:
    """The report with a byte changed, a line left out, a line twice, two lines exchanged."""
    lines, i = report.splitlines(keepends=True), r.randrange(len(report))
    a, b = r.randrange(len(lines)), r.randrange(len(lines))
    yield report[:i] + bytes([r.choice(b'0123456789 \n"aotx{<,-')]) + report[i + 1 :]
    yield b"".join(lines[:a] + lines[a + 1 :])
    yield b"".join(lines[:a] + [lines[b]] + lines[a:])
    lines[a], lines[b] = lines[b], lines[a]
    yield b"".join(lines)
    digits = [at for at, byte in enumerate(report) if chr(byte).isdigit()]
    at = r.choice(digits)
    yield report[:at] + b"%d" % r.randrange(10) + report[at + 1 :]


def changed_journals(r: random.Random, journal: bytes) -> Iterator[bytes | None]:
    """The journal, none, what a stop may leave of it, and some with a byte or a record changed."""
    i, cut = r.randrange(len(journal)), r.randrange(len(journal))
    yield journal
    yield None
    yield journal[:cut]
    yield journal[: cut - cut % 9] + b"\0" + r.randbytes(r.randrange(12))
    yield journal[:i] + bytes([r.choice([0, 1, 2, 255])]) + journal[i + 1 :]
    yield journal[:-1] + model.journal_of([(r.randrange(3), r.randrange(4))])


def compare_recover(case: Case, scripts: list[str], read: Read) -> None:
    """`recover` gives what the journal of a run tells, and what changed ones do."""
    root, plan, store = read
    journal = case.read("journal")
    for image in changed_journals(random.Random(len(journal) + len(store)), journal):
        shutil.rmtree(case.there("recovered"), ignore_errors=True)
        os.remove(case.there("journal"))
        if image is not None:
            case.put("journal", image)
        found = case.run(["recover", "spec", "in", "journal", "recovered", *scripts])
        try:
            count, last = model.recover(root, plan, store, image or b"")
        except model.BadJournal:
            expect(f"recover from {image!r}", found, (9, "", "txforest: bad journal\n"))
            expect("OUT of a bad journal", os.path.exists(case.there("recovered")), False)
            case.counts["bad journals"] += 1
        else:
            expect(f"recover from {image!r}", found, (0, f"recovered {count}\n", ""))
            expect("OUT of recover", model.saved(case.there("recovered")), model.folder_of(last))
            case.counts["recovered"] += 1
        expect("the journal after recover", case.read("journal"), image or b"")


def compare_audit(case: Case, scripts: list[str], read: Read, report: bytes) -> None:
    """`audit` of a report."""
    root, plan, store = read
    case.put("report", report)
    wanted = model.audit(root, plan, store, report)
    expect(
        f"audit of {report!r}",
        case.run(["audit", "spec", "in", "report", *scripts]),
        (0, wanted, ""),
    )
    case.counts[re.sub(r"[ 0-9]+$", "", wanted.strip())] += 1


def compare_generated(case: Case, number: int) -> None:
    """The case of a number, as `gen` writes it, and as `large` leaves it and sums it up."""
    description, scripts, store = model.generated(number)
    if "gen" in case.asked:
        expect("gen", case.run(["gen", f"{number}", "case"]), (0, "generated\n", ""))
        texts = {"spec": description, **{f"s{k}": text for k, text in enumerate(scripts)}}
        expect(
            "what gen writes",
            sorted(os.listdir(case.there("case"))),
            sorted([*texts, "in"]),
        )
        for name, text in texts.items():
            with open(os.path.join(case.room, "case", name), encoding="ascii") as it:
                expect(name, it.read(), text)
        expect(
            "the folder of gen",
            model.saved(os.path.join(case.room, "case", "in")),
            model.folder_of(store),
        )
    if "large" in case.asked:
        txns = [txn for text in scripts for txn in model.read_script(text.encode())]
        _, last = model.whole_run(model.read_description(description.encode()), txns, store)
        expect(
            "large",
            case.run(["large", f"{number}", "last"]),
            (0, model.summed(last, len(txns)), ""),
        )
        expect("the folder of large", model.saved(case.there("last")), model.folder_of(last))
    case.counts["cases from numbers"] += 1


def try_numbered(
    first: int, count: int, program: str, asked: set[str], counts: Counter[str]
) -> None:
    """Compares random cases, and keeps the folder of one that differs."""
    for number in range(first, first + count):
        with tempfile.TemporaryDirectory(prefix="compare-") as room:
            try:
                compare(Case(room, program, asked, counts), Maker(random.Random(number)))
            except model.TooMuch:
                counts["left out: too many parts to value"] += 1
            except Different as different:
                kept = f"/tmp/compare-{number}"
                shutil.rmtree(kept, ignore_errors=True)
                shutil.copytree(room, kept)
                sys.exit(f"case {number}, kept in {kept}: {different}")


def try_generated(first: int, program: str, asked: set[str], counts: Counter[str]) -> None:
    """Compares the cases of four numbers."""
    for number in [0, 7, 2**32 - 1, random.Random(first).randrange(2**32)]:
        with tempfile.TemporaryDirectory(prefix="compare-") as room:
            try:
                compare_generated(Case(room, program, asked, counts), number)
            except Different as different:
                sys.exit(f"the case of {number}: {different}")


def main() -> None:
    """Compares all cases, and tells how many there were of each kind."""
    program, *words = sys.argv[1:]
    first = int(words[0]) if words else 1
    count = int(words[1]) if len(words) > 1 else 1000
    asked = set(words[2:] or COMMANDS)
    unknown = asked.difference(COMMANDS)
    if unknown:
        told = ", ".join(sorted(unknown))
        sys.exit(f"compare.py: {told}: none of {', '.join(COMMANDS)}")
    model.View.most = 3_000
    counts: Counter[str] = Counter()
    try_numbered(first, count, os.path.abspath(program), asked, counts)
    if asked & {"gen", "large"}:
        try_generated(first, os.path.abspath(program), asked, counts)
    for what, n in sorted(counts.items()):
        print(f"{n:7} {what}")
    missing = [what for what in EXPECTED if not counts[what]]
    if count >= 1_000 and asked == set(COMMANDS) and missing:
        sys.exit(f"of {count} cases none had: {', '.join(missing)}")
    print(f"{count:7} cases, the same in both")


if __name__ == "__main__":
    main()
