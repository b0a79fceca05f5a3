"""Tries the TextMate grammar of editors/textmate on the examples, and on a text of its own.

usage: editor.py            tries it
       editor.py --texts    prints the paths of the examples' descriptions and scripts

Every description and script of the examples is told apart by a small reader of such grammars. Each
token of the language has to have one scope from its first byte to its last: a kept word that of a
keyword, another word that of a variable, and so for numbers, texts, marks and comments. The reader
knows `match`, and `begin` with `end`, as these grammars use them; of two patterns the one that
matches first in the line is taken, and the earlier one if both do.
"""

from __future__ import annotations

import json
import os
import re
import sys
from collections.abc import Iterator
from typing import NamedTuple

from repository import TOP, model

GRAMMAR = os.path.join(TOP, "editors", "textmate")
KEYWORD = ("keyword.", "storage.", "constant.language.")
SCOPES = {
    "number": ("constant.numeric.",),
    "string": ("string.",),
    "mark": ("keyword.operator.", "punctuation."),
    "name": ("variable.",),
    "comment": ("comment.",),
}
EVERY_TOKEN = (
    b'def f(n : str) = <x : f("a\\"b\\\\\\n\\x0f"), pred((7 == 1))>  # "no text" 7 file\n'
    b'file_ fileX _in xfile def2 if(true, "#", ((a ++ b) - (1 + 2))) {dir | k in (d only "*")}\n'
)


class Pattern(NamedTuple):
    """A pattern of a grammar: its scope, what it matches, and where what it begins ends."""

    scope: str
    match: re.Pattern[str]
    end: re.Pattern[str] | None


def patterns() -> list[Pattern]:
    """The patterns of the grammar."""
    with open(os.path.join(GRAMMAR, "txforest.tmLanguage.json"), encoding="utf-8") as it:
        grammar = json.load(it)
    found = []
    for pattern in grammar["patterns"]:
        end = re.compile(pattern["end"]) if "end" in pattern else None
        inner = "|".join(f"(?:{it['match']})" for it in pattern.get("patterns", []))
        if end:
            end = re.compile(f"((?:{inner}|(?!{end.pattern}).)*)(?:{end.pattern})")
        begin = re.compile(pattern.get("match") or pattern["begin"])
        found.append(Pattern(pattern["name"], begin, end))
    return found


def scoped(line: str, known: list[Pattern]) -> Iterator[tuple[int, int, str]]:
    """The parts of a line that have a scope: first column, column behind the last, scope."""
    at = 0
    while at < len(line):
        found = [(it.match.search(line, at), it) for it in known]
        there = [(match.start(), i, match, it) for i, (match, it) in enumerate(found) if match]
        if not there:
            return
        start, _, match, pattern = min(there, key=lambda it: it[:2])
        end = match.end()
        if pattern.end:
            closed = pattern.end.match(line, end)
            assert closed is not None, "a text ends with its line at the latest"
            end = closed.end()
        yield start, end, pattern.scope
        at = max(end, at + 1)


def tokens_of(text: bytes) -> Iterator[tuple[int, int, str]]:
    """The tokens of a text, and its comments: first byte, byte behind the last, kind."""
    tokens = model.lex(text)
    for token, after in zip(tokens, tokens[1:]):
        gap = text[token.place : after.place]
        length = len(gap.rstrip())
        if token.kind == "string":
            length = model.string_at(text, token.place)[1] - token.place
        elif b"#" in gap:
            length = len(gap[: gap.index(b"#")].rstrip())
        is_kept = token.value in model.KEPT_OF_DESCRIPTIONS
        kind = "kept" if token.kind == "word" and is_kept else token.kind
        yield token.place, token.place + length, "name" if kind == "word" else kind
        yield from comments(text, token.place + length, after.place)
    yield from comments(text, 0, tokens[0].place)


def comments(text: bytes, start: int, end: int) -> Iterator[tuple[int, int, str]]:
    """The comments between two tokens."""
    for found in re.finditer(rb"#[^\n]*", text[start:end]):
        yield start + found.start(), start + found.end(), "comment"


def faults(text: bytes, known: list[Pattern]) -> Iterator[str]:
    """The tokens of a text that have not the scope of their kind."""
    decoded = text.decode("latin-1")
    found: dict[tuple[int, int], str] = {}
    first = 0
    for line in decoded.splitlines(keepends=True):
        for start, end, scope in scoped(line.rstrip("\n"), known):
            found[first + start, first + end] = scope
        first += len(line)
    for start, end, kind in tokens_of(text):
        scope = found.get((start, end), "no scope of its own")
        if not scope.startswith(SCOPES.get(kind, KEYWORD)):
            yield f"{decoded[start:end]!r} at byte {start}, a {kind}, has {scope}"


def is_text(text: bytes) -> bool:
    """Whether this is a description or a script."""
    for read in (model.parse_description, model.parse_script):
        try:
            read(text)
            return True
        except model.Refused:
            continue
    return False


def texts() -> Iterator[tuple[str, bytes]]:
    """The descriptions and scripts of the examples, by their paths."""
    examples = os.path.join(TOP, "examples")
    for example in sorted(it.name for it in os.scandir(examples) if it.is_dir()):
        for name in sorted(os.listdir(os.path.join(examples, example))):
            path = os.path.join(examples, example, name)
            if os.path.isfile(path):
                with open(path, "rb") as it:
                    text = it.read()
                if is_text(text):
                    yield f"examples/{example}/{name}", text


def main() -> None:
    """Tells the first text with a fault, or how many there are."""
    if sys.argv[1:] == ["--texts"]:
        print("\n".join(name for name, _ in texts()))
        return
    known = patterns()
    count = 0
    given = [("a text with every kind of token", EVERY_TOKEN), *texts()]
    for name, text in given:
        for fault in faults(text, known):
            sys.exit(f"{name}: {fault}")
        count += 1
    for changed in range(len(known)):
        others = known[:changed] + known[changed + 1 :]
        if not any(True for _, text in given for _ in faults(text, others)):
            sys.exit(f"no text has {known[changed].scope}")
    with open(os.path.join(GRAMMAR, "package.json"), encoding="utf-8") as it:
        version = json.load(it)["version"]
    with open(os.path.join(TOP, "VERSION"), encoding="utf-8") as it:
        if it.read().strip() != version:
            sys.exit(f"editors/textmate/package.json has version {version}, and VERSION another")
    print(f"{count} texts have the scopes of their tokens by the TextMate grammar")


if __name__ == "__main__":
    main()
