"""What is printed: values, reports and views."""

from __future__ import annotations

from typing import Iterable, NamedTuple, Sequence

from .expr import Value
from .spelling import Path, path_text, quote
from .store import Filestore
from .trees import Description, Txn
from .txn import run_txn


class Entry(NamedTuple):
    """A committed transaction: its shell, its number there, its answers and its end."""

    shell: int
    txn: int
    outputs: list[Value]
    end: str


class Retry(NamedTuple):
    """A transaction that started again.

    `entry` is the entry that stood in its way, `path` a path that this entry changed.
    """

    shell: int
    txn: int
    entry: int
    path: Path


def printed(v: Value) -> str:
    """A value as reports print it."""
    if isinstance(v, bytes):
        return quote(v)
    if isinstance(v, bool):
        return "true" if v else "false"
    if isinstance(v, int):
        return str(v)
    if isinstance(v, frozenset):
        return "{" + ", ".join(quote(t) for t in sorted(v)) + "}"
    if v is None:
        return "none"
    if isinstance(v, dict):
        return "[" + ", ".join(f"{quote(t)} = {printed(v[t])}" for t in sorted(v)) + "]"
    return f"<{printed(v[1])}, {printed(v[2])}>" if v[0] == "pair" else f"some({printed(v[1])})"


def report(order: Iterable[tuple[int, int, list[Value], str]], retries: Iterable[Retry]) -> str:
    """The report of a run: an entry for each committed transaction, a retry for each conflict."""
    entries, retried = list(order), list(retries)
    lines = ["forest report 1", f"entries {len(entries)}"]
    for i, (shell, txn, outputs, end) in enumerate(entries):
        lines.append(f"entry {i} shell {shell} txn {txn} {end}")
        lines += [f"print {printed(v)}" for v in outputs]
    lines.append(f"retries {len(retried)}")
    lines += [
        f"retry shell {k} txn {j} entry {i} path {quote(path_text(p))}" for k, j, i, p in retried
    ]
    return "".join(line + "\n" for line in [*lines, "end"])


def views(
    root: Description, txns: list[Txn], states: Sequence[Filestore], positions: Sequence[int]
) -> str:
    """What is printed of views behind the report of a run.

    `states` are the filestores before and after each entry; a view looks at that of its position.
    """
    lines = [f"views {len(txns)}"]
    for j, (txn, position) in enumerate(zip(txns, positions)):
        ran = run_txn(root, txn, states[position].get)
        lines.append(f"view {j} at {position} {ran.end}")
        lines += [f"print {printed(v)}" for v in ran.outputs]
    return "".join(line + "\n" for line in [*lines, "end"])
