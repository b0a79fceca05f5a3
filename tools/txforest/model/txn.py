"""Transactions: commands in order over a view, and transactions run whole one after another."""

from __future__ import annotations

from typing import Iterator, NamedTuple

from .check import spec_shape
from .edits import edit
from .expr import Env, Value, guarded, guarded_texts
from .moves import fetch, move
from .refusals import LACKS, WRONG_FORM, NoValue, Stop
from .spelling import Path
from .store import Changes, Filestore, Get, View, over
from .trees import Act, Ask, Command, Description, Txn, count
from .values import Address, place, value


class Over(Exception):
    """The end of a transaction that changes nothing, as the report has it."""

    def __init__(self, end: str) -> None:
        super().__init__(end)
        self.end = end


class Transaction:
    """A transaction at work: its view, its address, its variables, and its answers up to now."""

    def __init__(self, root: Description, view: View) -> None:
        self.root, self.view = root, view
        self.address: Address = ()
        self.variables: Env = []
        self.outputs: list[Value] = []

    def act(self, act: Act) -> None:
        """Does a move or an edit; or raises Stop."""
        if act.kind in ("store", "create", "remove"):
            self.view.own |= edit(self.view, self.root, self.address, act, self.variables)
        else:
            self.address = move(self.view, self.root, self.address, act, self.variables)

    def bind(self, name: str, found: Value) -> None:
        self.variables = [*self.variables, (name, found)]

    def block(self, number: int, commands: Txn) -> None:
        """Runs commands, of which the first has this number; or raises Over."""
        for c in commands:
            try:
                self.command(number, c)
            except Stop as stop:
                raise Over(f"stopped {number} {stop.number} {stop.name}{stop.more}") from None
            number += count([c])

    def within(self, number: int, commands: Txn) -> None:
        """Runs a block, which keeps what it binds to itself."""
        kept = len(self.variables)
        self.block(number, commands)
        self.variables = self.variables[:kept]

    def command(self, number: int, c: Command) -> None:
        """Runs the command of this number; or raises Stop or Over."""
        if c.kind == "do":
            self.act(c.act)
        elif c.kind == "try":
            try:
                self.act(c.act)
                self.bind(c.name, 0)
            except Stop as stop:
                self.bind(c.name, stop.number)
        elif c.kind == "let":
            self.bind(c.name, guarded(self.variables, c.value))
        elif c.kind == "set":
            found = guarded(self.variables, c.value)
            i = max(i for i, (word, _) in enumerate(self.variables) if word == c.name)
            self.variables = [*self.variables[:i], (c.name, found), *self.variables[i + 1 :]]
        elif c.kind == "fetch":
            self.bind(c.name, fetch(self.view, self.root, self.address, c.shape))
        elif c.kind == "value":
            self.bind(c.name, self.whole(c))
        elif c.kind == "validate":
            here = place(self.view, self.root, self.address)
            try:
                value(self.view, *here)
                self.bind(c.name, True)
            except NoValue:
                self.bind(c.name, False)
        elif c.kind == "print":
            self.outputs.append(guarded(self.variables, c.value))
        elif c.kind == "if":
            if guarded(self.variables, c.condition):
                self.within(number + 1, c.then)
            else:
                self.within(number + 1 + count(c.then), c.otherwise)
        elif c.kind == "each":
            for text in sorted(guarded_texts(self.variables, c.texts)):
                kept = len(self.variables)
                self.bind(c.name, text)
                self.block(number + 1, c.block)
                self.variables = self.variables[:kept]
        else:
            raise Over("aborted")

    def whole(self, c: Ask) -> Value:
        """What `value` gives; or raises Stop."""
        here = place(self.view, self.root, self.address)
        if spec_shape(here.part) != c.shape:
            raise Stop(*WRONG_FORM)
        try:
            return value(self.view, *here)
        except NoValue:
            raise Stop(*LACKS) from None


class Ran(NamedTuple):
    """What a transaction came to: its answers, its end and its changes.

    `way` are the paths that it asked for, in order.
    """

    outputs: list[Value]
    end: str
    changes: Changes
    way: list[Path]


def run_txn(root: Description, txn: Txn, known: Get) -> Ran:
    """Runs a transaction over what is known."""
    view = View(known)
    it = Transaction(root, view)
    end = "done"
    try:
        it.block(0, txn)
    except Over as over_:
        end = over_.end
    return Ran(it.outputs, end, view.own if end == "done" else {}, list(view.way))


Answer = tuple[list[Value], str]
"""A transaction's outputs and its end."""


def runs_of(
    root: Description, txns: list[Txn], store: Filestore
) -> Iterator[tuple[list[Value], str, Filestore]]:
    """Outputs and end of each transaction, run one after another, and the filestore behind it."""
    for txn in txns:
        ran = run_txn(root, txn, store.get)
        store = over(store, ran.changes)
        yield ran.outputs, ran.end, store


def whole_run(
    root: Description, txns: list[Txn], store: Filestore
) -> tuple[list[Answer], Filestore]:
    """Outputs and end of each transaction, run whole one after another, and the last filestore."""
    answers: list[Answer] = []
    for outputs, end, store in runs_of(root, txns, store):
        answers.append((outputs, end))
    return answers, store
