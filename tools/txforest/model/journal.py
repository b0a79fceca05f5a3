"""The journal of a run, and what is recovered from it."""

from __future__ import annotations

from typing import Iterable

from .limits import RECORDS_LIMIT
from .run import Plan
from .store import Filestore
from .trees import Description
from .txn import whole_run

RECORD = 9
"""Bytes of a record: a gate, and two numbers of four bytes."""


class BadJournal(Exception):
    """The number of the first bad record.

    It is cut short, or one too many, or no run has it there.
    """


def journal_of(order: Iterable[tuple[int, int]]) -> bytes:
    """The journal of a run with this order: a record for each turn, then a closed gate."""
    records = (b"\1" + shell.to_bytes(4, "big") + txn.to_bytes(4, "big") for shell, txn in order)
    return b"".join(records) + b"\0"


def order_of(image: bytes) -> list[tuple[int, int]]:
    """The turns that a journal spells, up to the first gate that is not 1; or raises BadJournal."""
    order: list[tuple[int, int]] = []
    while image[RECORD * len(order) : RECORD * len(order) + 1] == b"\1":
        record = image[RECORD * len(order) + 1 : RECORD * (len(order) + 1)]
        if len(record) < RECORD - 1 or len(order) == RECORDS_LIMIT:
            raise BadJournal(len(order))
        order.append((int.from_bytes(record[:4], "big"), int.from_bytes(record[4:], "big")))
    return order


def recover(root: Description, plan: Plan, store: Filestore, image: bytes) -> tuple[int, Filestore]:
    """How many commits a journal tells, and the filestore after them; or raises BadJournal."""
    order, done = order_of(image), [0] * len(plan)
    for i, (shell, txn) in enumerate(order):
        if shell >= len(plan) or txn != done[shell] or txn >= len(plan[shell]):
            raise BadJournal(i)
        done[shell] += 1
    return len(order), whole_run(root, [plan[shell][txn] for shell, txn in order], store)[1]
