"""The second program of the meaning in the program's place, for tests that have no program.

It runs the scripts in their order, and takes the words of `run` and of `trace`.
"""

from __future__ import annotations

import os
from collections.abc import Sequence
from functools import cache

from txforest import model
from txforest.program import Answer
from txforest.statuses import Failed


def call(
    words: Sequence[str | bytes], pass_fds: Sequence[int] = (), until_line: bool = False
) -> Answer:
    """As program.call."""
    name, spec, folder, *rest = words
    out = rest.pop(0) if name != "show" else b""
    if name == "trace":
        rest = rest[1:]
    try:
        root = description_of(spec)
        plan = [script_of(word) for word in rest]
        store = model.load(os.fsencode(folder))
    except model.Refused as refused:
        return Answer(3, b"", str(refused).encode() + b"\n")
    if name == "show":
        return Answer(0, model.valid_line(root, store).encode() + b"\n", b"")
    if name == "trace":
        events, order, retries, last = model.trace(root, plan, store, [])
    else:
        events, order, retries, last = [], [], [], store
        for shell, txns in enumerate(plan):
            for number, txn in enumerate(txns):
                outputs, end, changes, _ = model.run_txn(root, txn, last.get)
                last = model.over(last, changes)
                order.append(model.Entry(shell, number, outputs, end))
    save(last, os.fsencode(out))
    lines = "".join(event + "\n" for event in events)
    return Answer(0, (lines + model.report(order, retries)).encode(), b"")


def called(words: Sequence[str | bytes], pass_fds: Sequence[int] = ()) -> bytes:
    """As program.called."""
    answer = call(words, pass_fds)
    if answer.status:
        raise Failed(answer.status, answer.told())
    return answer.printed


def description_of(path: str | bytes) -> model.Description:
    """The description of a file."""
    return read_description(text_of(path))


def script_of(path: str | bytes, before: int = 0) -> list[model.Txn]:
    """The script of a file, before which so many transactions stand."""
    return read_script(text_of(path), before)


read_description, read_script = cache(model.read_description), cache(model.read_script)


def text_of(path: str | bytes) -> bytes:
    """What a file holds."""
    with open(path, "rb") as file:
        return file.read()


def save(store: model.Filestore, out: bytes) -> None:
    """Writes a filestore as a folder."""
    for path, node in sorted(model.folder_of(store).items()):
        where = b"/".join((out, *path)) if path else out
        if node[0] == "dir":
            os.mkdir(where)
        else:
            with open(where, "xb") as file:
                file.write(node[1])
