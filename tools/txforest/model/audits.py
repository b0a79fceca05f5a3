"""Audits: whether bytes are the report of a run."""

from __future__ import annotations

from .reading import BadLine, Told, read_report
from .reports import Retry, printed
from .run import Plan
from .spelling import Path
from .store import Filestore, over
from .trees import Description
from .txn import run_txn


def audit(root: Description, plan: Plan, store: Filestore, data: bytes) -> str:
    """What `audit` prints of bytes as the report of a run."""
    try:
        entries, retries = read_report(data)
    except BadLine as bad:
        return f"audit no BadLine {bad}\n"
    done = [0 for _ in plan]
    for i, entry in enumerate(entries):
        k, j = entry.shell, entry.txn
        if k >= len(plan) or j != done[k] or j >= len(plan[k]):
            return f"audit no Order {i}\n"
        done[k] += 1
    changed: list[set[Path]] = []
    for i, entry in enumerate(entries):
        ran = run_txn(root, plan[entry.shell][entry.txn], store.get)
        if ([printed(v) for v in ran.outputs], ran.end) != (entry.outputs, entry.end):
            return f"audit no Answer {i}\n"
        after = over(store, ran.changes)
        changed.append({p for p in ran.changes if store.get(p) != after.get(p)})
        store = after
    for k, txns in enumerate(plan):
        if done[k] < len(txns):
            return f"audit no Missing {k} {done[k]}\n"
    m = bad_retry(entries, retries, changed)
    return "audit yes\n" if m is None else f"audit no Retry {m}\n"


def bad_retry(entries: list[Told], retries: list[Retry], changed: list[set[Path]]) -> int | None:
    """The first retry that can't have been, where the entries changed these paths."""
    place = {(entry.shell, entry.txn): i for i, entry in enumerate(entries)}
    last: Retry | None = None
    for m, retry in enumerate(retries):
        k, j, i, path = retry
        if not (i < place.get((k, j), 0) and entries[i].shell != k and path in changed[i]):
            return m
        if last and not (last.shell < k or last.shell == k and last.txn <= j and last.entry < i):
            return m
        last = retry
    return None
