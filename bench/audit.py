"""`txforest audit` of the report of a large run, and of a report of long outputs.

The first stands beside the `run` that made the report. An audit runs each transaction once more, in
the order of the report, so it should take about the processor time of the run. It holds the report
and what its entries tell, so the second is told with its memory as a multiple of the report.
"""

from __future__ import annotations

import os
import sys
import tempfile
from collections.abc import Iterator

import measure
from goals import memory, of_peer

SHELLS = 64
EACH = [156, 1_562]
SIZES = [1_000_000, 20_000_000, 200_000_000]
LARGE = 200_000_000
OUTPUT = 50_000
OF_SCRIPT = 1_500
REPEATS = 3
YES = b"audit yes\n"
DESCRIPTION = '("a" :: file)\n'
TXN = "txn { down fetch x : str print(x) }\n"


def audited(ran: measure.Run) -> measure.Run:
    """The run of an audit, which has to say yes."""
    if ran.out != YES:
        sys.exit(f"another verdict: {ran.out[:200]!r}")
    return ran


def run_and_audit(
    scratch: str, texts: list[str], repeats: int
) -> tuple[measure.Run, measure.Run, int]:
    """A run of scripts with these texts, the fastest audit of its report, and the report's size."""
    spec, folder = measure.write(scratch, "spec", DESCRIPTION), os.path.join(scratch, "in")
    scripts = [measure.write(scratch, f"s{k:02}", text) for k, text in enumerate(texts)]
    ((ran, _),) = measure.best(
        scratch, [lambda out: [measure.program(), "run", spec, folder, out, *scripts]], repeats
    )
    report = os.path.join(scratch, "report")
    with open(report, "wb") as file:
        file.write(ran.out)
    words = [measure.program(), "audit", spec, folder, report, *scripts]
    best = min(
        (audited(measure.done(words, scratch)) for _ in range(repeats)), key=lambda it: it.user
    )
    return ran, best, len(ran.out)


def folder_of(scratch: str, text: str) -> None:
    """Makes the folder, with one file."""
    folder = os.path.join(scratch, "in")
    os.mkdir(folder)
    measure.write(folder, "a", text)


def beside_run(each: int) -> measure.Line:
    """The audit of a run of 64 shells, beside this run, in seconds of processor."""
    with tempfile.TemporaryDirectory() as scratch:
        folder_of(scratch, "1")
        ran, best, _ = run_and_audit(scratch, [TXN * each] * SHELLS, REPEATS)
        goals = (of_peer(2),) if each == max(EACH) else ()
        return measure.Line(
            "audit: entries",
            SHELLS * each,
            best.user,
            best.peak_kib,
            "run, processor",
            ran.user,
            f"seconds of processor; {measure.amount(best.seconds)} on the clock",
            goals,
        )


def of_size(size: int) -> measure.Line:
    """The audit of a report of about `size` bytes: each transaction prints a long text."""
    with tempfile.TemporaryDirectory() as scratch:
        folder_of(scratch, "x" * OUTPUT)
        count = max(1, size // (OUTPUT + 40))
        texts = [TXN * min(OF_SCRIPT, count - done) for done in range(0, count, OF_SCRIPT)]
        ran, best, held = run_and_audit(scratch, texts, REPEATS)
        return measure.Line(
            "audit: bytes of the report",
            held,
            best.seconds,
            best.peak_kib,
            "run",
            ran.seconds,
            f"{best.peak_kib * 1024 / held:.2f} times the report in memory",
            (memory(4),) if size >= LARGE else (),
        )


def lines(sizes: list[int]) -> Iterator[measure.Line]:
    """The lines of this bench, of these sizes or its own."""
    for each in EACH:
        yield beside_run(each)
    for size in sizes or SIZES:
        yield of_size(size)
