"""A stand-in for the program, by the model: for tests of what stands around it."""

from __future__ import annotations

import os
from collections.abc import Iterator, Sequence
from contextlib import contextmanager
from functools import cache
from typing import Any
from unittest import mock

from txforest import model
from txforest.program import Answer

from .stand_in import description_of, script_of


def write_folder(store: Any, out: Any) -> None:
    """Writes a filestore as a folder."""
    top = os.fsencode(out)
    for path, node in sorted(model.folder_of(store).items()):
        at = os.path.join(top, *path)
        if node[0] == "dir":
            os.mkdir(at)
        else:
            with open(at, "xb") as it:
                it.write(node[1])


def call(
    words: Sequence[Any],
    pass_fds: Sequence[int] = (),
    until_line: bool = False,
    at: int | None = None,
) -> Answer:
    """What the program prints: of `run`, `trace`, `watch` and `show`."""
    command, spec, folder, *more = words
    out = more.pop(0) if command != "show" else None
    schedule = more.pop(0) if command in ("trace", "watch") else "none"
    word = spec
    try:
        root = description_of(word)
        plan: list[Any] = []
        for word in more:
            plan.append(script_of(word, sum(map(len, plan))))
    except model.Refused as refused:
        return Answer(3, b"", f"txforest: {word}: {refused}\n".encode())
    store = model.load(folder)
    if command == "show":
        return Answer(0, model.valid_line(root, store).encode() + b"\n", b"")
    most = 60 * max(1, max((len(txns) for txns in plan), default=1))
    steps = steps_of(schedule, most)
    lines: list[str] = []
    if command == "watch":
        lines, order, retries, after = model.watch(root, plan, store, steps)
    elif command == "trace":
        lines, order, retries, after = model.trace(root, plan, store, steps)
    else:
        _, order, retries, after = model.trace(root, plan, store, [])
    write_folder(after, out)
    events = "".join(line + "\n" for line in lines)
    return Answer(0, (events + model.report(order, retries)).encode(), b"")


@cache
def steps_of(schedule: str, most: int) -> list[int]:
    """The steps of a schedule, of each shell so many at most: the others are none."""
    kept: list[int] = []
    count: dict[str, int] = {}
    for word in schedule.split(",") if schedule != "none" else ():
        count[word] = count.get(word, 0) + 1
        if count[word] <= most:
            kept.append(int(word))
    return kept


def is_valid(spec: Any, folder: Any, _fds: Sequence[int] = ()) -> bool:
    """Whether a folder has a value."""
    return call(["show", spec, folder]).printed.startswith(b"valid yes")


@contextmanager
def program() -> Iterator[None]:
    """The stand-in in place of the program; schedules are short."""
    with mock.patch("txforest.attempt.call", call), mock.patch("txforest.looked.call", call):
        with mock.patch("txforest.attempt.is_valid", is_valid):
            with mock.patch("txforest.parts.LONGEST", 2000):
                yield
