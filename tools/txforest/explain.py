"""What txforest tells in a word, in more words: the command txforest-explain."""

from __future__ import annotations

import os
import sys
import tempfile
from collections.abc import Iterator
from typing import Any, NamedTuple

from . import model
from .program import call
from .reasons import Path, Why, bindings, met, valued
from .refusals import Folder
from .report import BadLine, Entry, read_report
from .sources import Handed, check_folder
from .statuses import Failed, Status
from .summary import read_input
from .terminal import Given, Words, below, many, shown
from .texts import Text, Texts

ABOUT = """Explains what txforest tells in a word: a mistake in a text with its line, its column and
what was expected there; every entry of a folder and every line of its table that is refused;
`valid no` with the first part that has no value; each transaction that stopped, with its command
and what it met.

    txforest-explain SPEC                          a description alone
    txforest-explain --scripts SCRIPT...           scripts alone
    txforest-explain SPEC FOLDER                   a folder by its description
    txforest-explain SPEC FOLDER SCRIPT...         and a run, which is made beside and dropped
    txforest-explain --report FILE SPEC FOLDER SCRIPT...    and the run of which this is the report
    txforest-explain --walk SPEC [FOLDER]          the moves that lead to each part, and its path"""
USAGE = "txforest-explain [--scripts | --report FILE | --walk] SPEC [FOLDER [SCRIPT...]]"
NOT_DONE = "a mistake, a missing value or a transaction that is not done was told"

Filestore = dict[Path, Any]


def out(*lines: str) -> None:
    """Prints lines; what is no UTF-8 in them is told by its bytes."""
    text = "".join(line + "\n" for line in lines)
    sys.stdout.buffer.write(text.encode(errors="backslashreplace"))


# ---- texts and folders


def tell_mistakes(texts: list[Text]) -> bool:
    """Tells the mistakes of texts, and answers whether there are some."""
    for text in texts:
        out(*text.told())
    return bool(texts)


def filestore_of(folder: str) -> Filestore | None:
    """The filestore of a folder; None if some of it is refused, which is told then."""
    found = Folder(folder)
    out(*found.told(folder))
    if found.refused or found.bad:
        return None
    try:
        store: Filestore = model.load(folder)
        return store
    except model.Refused as refused:
        out(f"{shown(folder)}: {refused}: links count as entries, and their texts as bytes")
        return None


def tell_value(spec: Text, folder: str, store: Filestore) -> bool:
    """Tells whether a folder has a value, and if not the first part that has none."""
    calls = model.Calls(spec.tree.defs, 0)
    try:
        valued(model.View(store.get), (), [], spec.tree.root, calls)
    except Why as why:
        head, lines = spec.line(spec.where(why.part))
        out(f"{head}: no value at {below(why.path)}", *lines, f"  {why.reason}")
        out(f"  names: {bindings(why.env)}")
        return False
    out(f"{shown(folder)}: has a value by {spec.file}")
    return True


# ---- runs


class Watched(model.Transaction):
    """A transaction that keeps the command at which it ends, and what that met."""

    ended: Any = None  # the command
    lines: list[str] = ["`abort` ends the transaction, which changes nothing"]
    refused = False

    def command(self, number: int, c: Any) -> None:
        if not self.refused:
            self.ended = c
        try:
            super().command(number, c)
        except model.Stop as stop:
            if not self.refused:
                self.refused = True
                self.ended, self.lines = c, met(self, c, stop)
            raise


def tell_ends(spec: Text, scripts: list[Text], store: Filestore, entries: list[Entry]) -> int:
    """Tells of each transaction of a report that is not done which command ended it, and what that
    met. The transactions are run again by the model, in the order of the report.

    Answers how many are not done. Fails with USAGE if the report is not of these texts.
    """
    odd = 0
    changed: Filestore = {}

    def known(path: Path) -> Any:
        return changed[path] if path in changed else store.get(path)

    for entry in entries:
        text = scripts[entry.shell] if entry.shell < len(scripts) else None
        if text is None or entry.txn >= len(text.tree):
            raise Failed(Status.USAGE, "the report is not of these scripts")
        view = model.View(known)
        it, found = Watched(spec.tree, view), "done"
        try:
            it.block(0, text.tree[entry.txn])
        except model.Over as over:
            found = over.end
        end = entry.end.line().decode()
        if found != end:
            raise Failed(
                Status.USAGE,
                "the report is not of these scripts on this folder: shell"
                f" {entry.shell} txn {entry.txn} ends there with {end}, and here with {found}",
            )
        if entry.end.is_done:
            changed.update(view.own)
            continue
        odd += 1
        head, lines = text.line(text.where(it.ended))
        out(f"{head}: transaction {entry.txn} {end}", *lines)
        out(*(f"  {line}" for line in it.lines))
    return odd


def report_of(given: Given, texts: Texts, folder: str) -> list[Entry]:
    """The entries of the report that is given, or of a run that is made beside and dropped."""
    file = given.text("report")
    if file is not None:
        data = read_input(file)
    else:
        with tempfile.TemporaryDirectory(prefix="txforest-") as room:
            data = run_of(texts, folder, os.path.join(room, "out"))
    try:
        return read_report(data).entries
    except BadLine as bad:
        name = shown(file or "the report")
        raise Failed(
            Status.USAGE, f"{name}: line {bad.number}: {bad.why}; this is no report of txforest"
        ) from None


def run_of(texts: Texts, folder: str, place: str) -> bytes:
    """The report of a run. If the program refuses something the tool ends as it did."""
    with Handed(texts.sources) as handed:
        spec, *scripts = handed.words
        answer = call(["run", spec, folder, place, *scripts], handed.fds)
        if answer.status:
            raise Failed(answer.status, handed.told(answer.told()))
        return answer.printed


# ---- walks


class Row(NamedTuple):
    """A part of a description: the moves to it, its path if it is known, and how it is spelled."""

    moves: str
    path: Path | None
    part: str
    note: str = ""

    def cells(self) -> tuple[str, str, str]:
        """What is told of it."""
        path = below(self.path) if self.path is not None else "?"
        return self.moves, path, self.part + (f"    {self.note}" if self.note else "")


class Walk:
    """The parts of a description, each with the moves that lead to it and its path.

    With a folder the elements of comprehensions are shown too, and the first one is gone into.
    """

    def __init__(self, spec: Text, store: Filestore | None) -> None:
        self.spec = spec
        self.view = model.View(store.get) if store is not None else None
        self.rows: list[Row] = []
        calls = model.Calls(spec.tree.defs, 0)
        self.go(spec.tree.root, [], (), [] if store is not None else None, calls, frozenset())

    def go(
        self,
        s: Any,
        moves: list[str],
        path: Path | None,
        env: Any,
        calls: Any,
        around: frozenset[str],
    ) -> None:
        """Goes into a part. `env` is None where names have no values, `around` are the definitions
        that are gone into."""
        self.rows.append(Row(" ".join(moves) or "top", path, self.spec.spelled(s)))
        kind = s[0]
        if kind == "focus":
            self.go(s[2], [*moves, "down"], self.focused(s, path, env), env, calls, around)
        elif kind == "pair":
            self.go(s[2], [*moves, "into"], path, env, calls, around)
            more = self.bound(s, path, env, calls)
            self.go(s[3], [*moves, "into", "next"], path, more, calls, around)
        elif kind == "comp":
            self.comprehension(s, moves, path, env, calls, around)
        elif kind == "opt":
            self.go(s[1], [*moves, "into"], path, env, calls, around)
        elif kind == "call" and s[1] in around:
            self.rows[-1] = self.rows[-1]._replace(note="again, as above")
        elif kind == "call":
            inner = self.called(s, env, calls)
            body: Any = next(it.body for it in calls.defs if it.name == s[1])
            deeper = model.Calls(calls.defs, calls.level + 1)
            self.go(body, [*moves, "into"], path, inner, deeper, around | {s[1]})

    def focused(self, s: Any, path: Path | None, env: Any) -> Path | None:
        """The path of a focus, if it is known."""
        if path is None or env is None and s[1][0] != "str":
            return None
        try:
            found: Path = model.focus_path(path, env or [], s[1])
            return found
        except (model.Stop, model.Fault):
            return None

    def bound(self, s: Any, path: Path | None, env: Any, calls: Any) -> Any:
        """The names that are bound in the second part of a pair."""
        if env is None or path is None or self.view is None:
            return None
        try:
            return [*env, (s[1], model.value(self.view, path, env, s[2], calls))]
        except model.NoValue:
            return None

    def called(self, s: Any, env: Any, calls: Any) -> Any:
        """The names that are bound in the body of a call."""
        try:
            return calls.called(env, s)[0] if env is not None else None
        except model.Fault:
            return None

    def comprehension(
        self,
        s: Any,
        moves: list[str],
        path: Path | None,
        env: Any,
        calls: Any,
        around: frozenset[str],
    ) -> None:
        """Goes into the first element of a comprehension, or into any."""
        texts: list[bytes] = []
        try:
            texts = sorted(model.texts_of(env, s[3])) if env is not None else []
        except model.Fault:
            pass  # then the elements are not known
        if not texts:
            self.go(s[1], [*moves, f"to({s[2]})"], path, None, calls, around)
            return
        some = ", ".join(map(model.printed, texts[:4])) + (", .." if len(texts) > 4 else "")
        self.rows[-1] = self.rows[-1]._replace(note=f"{s[2]}: {some}")
        step = f"to({model.printed(texts[0])})"
        self.go(s[1], [*moves, step], path, [*env, (s[2], texts[0])], calls, around)

    def lines(self) -> Iterator[str]:
        """The rows as a table."""
        told = [("moves", "path", "part"), *(row.cells() for row in self.rows)]
        width = [max(len(row[i]) for row in told) for i in (0, 1)]
        for row in told:
            yield f"{row[0]:{width[0]}}  {row[1]:{width[1]}}  {row[2]}".rstrip()


# ---- the command


def explained_scripts(files: list[str]) -> int:
    """Tells the mistakes of scripts alone."""
    texts: list[Text] = []
    before = 0
    for file in files:
        from .sources import read_text

        texts.append(Text(file, read_text(file), True, before))
        before += len(texts[-1].tree or [])
    if tell_mistakes([text for text in texts if text.mistake]):
        return Status.NOT_DONE
    out(*(f"{text.file}: {many(len(text.tree), 'transaction')}" for text in texts))
    return Status.DONE


def explained(given: Given, texts: Texts, folder: str | None) -> int:
    """Tells of a description, of a folder by it, and of a run on it."""
    wrong = tell_mistakes(texts.mistakes())
    if folder is not None:
        check_folder(folder)
    store = filestore_of(folder) if folder is not None else None
    if wrong or folder is not None and store is None:
        return Status.NOT_DONE
    spec = texts.spec
    if given.flag("walk"):
        out(*Walk(spec, store).lines())
        return Status.DONE
    if folder is None or store is None:
        shape = model.shape_text(model.spec_shape(spec.tree.root))
        out(f"{spec.file}: a description of shape {shape}")
        return Status.DONE
    if not texts.scripts:
        return Status.DONE if tell_value(spec, folder, store) else Status.NOT_DONE
    entries = report_of(given, texts, folder)
    odd = tell_ends(spec, texts.scripts, store, entries)
    total = sum(len(text.tree) for text in texts.scripts)
    out(f"{many(total - odd, 'transaction')} done, {odd} not done")
    return Status.NOT_DONE if odd else Status.DONE


def tool() -> int:
    """The command txforest-explain."""
    words = Words(ABOUT, USAGE, [("1", NOT_DONE)])
    words.operand("WORD", "SPEC [FOLDER [SCRIPT...]]", several=True)
    words.option("scripts", None, "all words are scripts")
    words.option("report", "FILE", "a report of these scripts on this folder; - is standard input")
    words.option("walk", None, "show the moves to each part")
    given = words.read(sys.argv[1:])
    if sum(map(given.flag, ("scripts", "report", "walk"))) > 1:
        words.refuse("--scripts, --report and --walk go one by one")
    if given.flag("scripts"):
        return explained_scripts(given.operands)
    spec, *more = given.operands
    folder, scripts = (more[0], more[1:]) if more else (None, [])
    if given.flag("walk") and scripts or given.flag("report") and not scripts:
        words.refuse("--walk takes SPEC and perhaps FOLDER; --report SPEC, FOLDER and the scripts")
    return explained(given, Texts(spec, scripts), folder)
