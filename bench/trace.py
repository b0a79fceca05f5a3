"""`txforest trace` over many transactions of one file each, by the schedule `none`."""

from __future__ import annotations

import os
import sys
import tempfile
from collections.abc import Iterator

import measure

SIZES = [1_000, 10_000, 100_000]
TRANSACTION = 'txn{down store("1")}\n'
TEXT_LIMIT = 65_536
SCRIPT_LIMIT = 64
REPEATS = 3


def write_scripts(scratch: str, transactions: list[str]) -> list[str]:
    """Scripts of these transactions, as few as their limit of bytes allows."""
    texts = [""]
    for transaction in transactions:
        if len(texts[-1]) + len(transaction) > TEXT_LIMIT:
            texts.append("")
        texts[-1] += transaction
    if len(texts) > SCRIPT_LIMIT:
        sys.exit(f"the transactions ask for {len(texts)} scripts, and there may be {SCRIPT_LIMIT}")
    return [measure.write(scratch, f"s{i}", text) for i, text in enumerate(texts)]


def traced(scratch: str, spec: str, folder: str, scripts: list[str], count: int) -> measure.Run:
    """A trace of so many transactions, which all become entries."""
    words_of = lambda out: [measure.program(), "trace", spec, folder, out, "none", *scripts]
    ((ran, _),) = measure.best(scratch, [words_of], 1)
    if f"entries {count}\n".encode() not in ran.out:
        sys.exit(f"the report has not {count} entries")
    return ran


def lines(sizes: list[int]) -> Iterator[measure.Line]:
    """The lines of this bench, of these sizes or its own."""
    for count in sizes or SIZES:
        with tempfile.TemporaryDirectory() as scratch:
            folder = os.path.join(scratch, "in")
            os.mkdir(folder)
            measure.write(folder, "a", "0")
            spec = measure.write(scratch, "spec", '("a" :: file)\n')
            scripts = write_scripts(scratch, [TRANSACTION] * count)
            ran = min(
                (traced(scratch, spec, folder, scripts, count) for _ in range(REPEATS)),
                key=measure.By.WALL.seconds,
            )
        more = f"{len(scripts)} scripts, {len(ran.out):,} bytes printed"
        yield measure.Line(
            "trace: transactions on one file", count, ran.seconds, ran.peak_kib, more=more
        )
