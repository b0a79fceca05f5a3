"""Texts of descriptions and scripts, with the places of their parts: where a mistake stands, and
what was expected there."""

from __future__ import annotations

from collections.abc import Callable, Iterator
from typing import Any

from . import model
from .sources import read_source
from .terminal import many

Token = model.Token
Tree = Any  # a part of a description or a script, as the model has it
TXNS_LIMIT = 100_000


class Placed(model.Parser):
    """A parser that keeps where each part of the tree stands: from the first byte of its first
    token to that of its last one."""

    def __init__(self, text: bytes, kept: set[str]) -> None:
        super().__init__(text, kept)
        self.spans: dict[int, tuple[int, int]] = {}
        self.trees: list[Tree] = []  # holds the trees, so that their identities stay their own

    def placed(self, read: Callable[..., Tree], *given: int) -> Tree:
        """Reads a part, and keeps where it stands."""
        start = self.tokens[self.i][2]
        tree = read(*given)
        self.spans[id(tree)] = (start, self.tokens[self.i - 1][2])
        self.trees.append(tree)
        return tree

    def expr(self, level: int) -> Tree:
        return self.placed(super().expr, level)

    def spec(self, level: int) -> Tree:
        return self.placed(super().spec, level)

    def command(self, level: int) -> Tree:
        return self.placed(super().command, level)

    def definition(self) -> Tree:
        return self.placed(super().definition)


def description(it: model.Parser) -> Tree:
    """The description that a parser's whole text is."""
    found = it.description()
    it.end()
    return found


def script(it: model.Parser) -> list[Tree]:
    """The transactions that a parser's whole text is."""
    found = []
    while it.tokens[it.i][0] != "end":
        it.form(1, lambda: it.tokens[it.i][0] == "word" and it.peek() == "txn")
        it.take("txn")
        found.append(it.block(2))
    return found


class Text:
    """A text with its tree and the places of its parts, or with its mistake.

    `tree` is a description, or a list of transactions; None if there is a mistake. `before` is how
    many transactions the scripts before this one have.
    """

    def __init__(self, file: str, text: bytes, is_script: bool, before: int = 0) -> None:
        self.file = file
        self.bytes = text
        self.is_script = is_script
        self.spans: dict[int, tuple[int, int]] = {}
        self.mistake: model.Refused | None = None
        self.tree: Any = None
        self.kept: set[str] = model.KEPT if is_script else model.KEPT_OF_DESCRIPTIONS
        try:
            it = Placed(text, self.kept)
            self.spans, self.trees = it.spans, it.trees
            self.tree = script(it) if is_script else description(it)
            if not is_script:
                model.check_description(self.tree)
            elif before + len(self.tree) > TXNS_LIMIT:
                raise model.Refused("TooMany")
            else:
                for txn in self.tree:
                    model.check_block([], txn)
        except model.Refused as refused:
            self.mistake = refused

    # ---- places

    def where(self, tree: Tree) -> int:
        """The first byte of a part of the tree."""
        return self.spans.get(id(tree), (0, 0))[0]

    def spelled(self, tree: Tree) -> str:
        """A part of the tree as the text has it, in one line and not too long."""
        start, last = self.spans.get(id(tree), (0, -1))
        ends = (place for _, _, place in model.lex(self.bytes) if place > last)
        return short(uncommented(self.bytes[start : next(ends, len(self.bytes))]))

    def line(self, byte: int) -> tuple[str, list[str]]:
        """A place as FILE:LINE:COLUMN, both from 1, and its line with a caret below."""
        start = self.bytes.rfind(b"\n", 0, byte) + 1
        end = self.bytes.find(b"\n", byte)
        row = self.bytes[start : end if end >= 0 else len(self.bytes)].decode(errors="replace")
        column = len(self.bytes[start:byte].decode(errors="replace"))
        cut = max(0, column - 70)
        row = "".join(c if c.isprintable() else " " if c in "\t\r" else "?" for c in row)
        piece = ("… " if cut else "") + row[cut : cut + 100]
        piece += " …" if len(row) > cut + 100 else ""
        head = f"{self.file}:{self.bytes.count(b'%c' % 10, 0, byte) + 1}:{byte - start + 1}"
        caret = " " * (column - cut + (2 if cut else 0)) + "^"
        return head, ["    " + piece, "    " + caret]

    # ---- mistakes

    def told(self) -> list[str]:
        """The mistake, with its line, its column and what was expected there."""
        cause, *more = str(self.mistake).split(" ")
        if cause == "TooLarge":
            most = many(model.TEXT_LIMIT, "byte")
            return [f"{self.file}: TooLarge: a text has at most {most}, and this one has more"]
        if cause == "TooMany":
            return [
                f"{self.file}: TooMany: with this script the scripts have more than"
                f" {TXNS_LIMIT:,} transactions"
            ]
        byte = int(more[0]) if more and more[0].isdigit() else self.place_of(cause, more)
        head, lines = self.line(byte)
        hints = ("  " + hint for hint in self.hints(cause, byte, more))
        return [f"{head}: {self.mistake}", *lines, *hints]

    def part(self) -> Any:
        """The part of the tree that a mistake of names or shapes means."""
        return self.mistake.at if self.mistake else None

    def place_of(self, cause: str, more: list[str]) -> int:
        """Where a mistake of names or shapes stands: at the part that is meant, or at the name
        that it binds."""
        at = self.part()
        if isinstance(at, model.Def):
            return self.head_of(at)[0]
        if at[0] == "param":
            place: int = at[2] + 1
            return self.head_of(at[1])[place]
        byte = self.where(at)
        if cause == "TypeDiffers" or at[0] in ("var", "call"):
            return byte
        names = [
            place
            for kind, value, place in model.lex(self.bytes)
            if place >= byte and kind == "word" and value == more[0]
        ]
        if at[0] == "comp":
            inside = self.spans[id(at[1])][1]
            names = [place for place in names if place > inside]
        return names[0] if names else byte

    def head_of(self, definition: Tree) -> list[int]:
        """The places of a definition's name and of its parameters."""
        byte = self.where(definition)
        return [
            place
            for kind, value, place in model.lex(self.bytes)
            if place >= byte and kind == "word" and value not in self.kept
        ]

    def hints(self, cause: str, byte: int, more: list[str]) -> Iterator[str]:
        """What helps with a mistake, a line each."""
        if cause == "Unexpected":
            yield from self.expected(byte)
        elif cause == "BadToken":
            yield bad_token(self.bytes[byte:])
        elif cause == "TooNested":
            yield "the form that begins here is the 65th in one another; forms nest at most 64 deep"
        elif cause == "Unknown":
            yield self.unknown(more[0])
        elif cause == "Repeated" and isinstance(self.part(), model.Def):
            yield f"{more[0]} is defined already; another name is needed"
        elif cause == "Repeated":
            yield f"{more[0]} is bound already around this place; another name is needed"
        else:
            expected, found = shapes(more)
            yield f"this is of shape {found}, and {expected} is expected here"

    def unknown(self, name: str) -> str:
        """Why a name is unknown."""
        at = self.part()
        if at[0] != "call":
            more = "; scripts do not see the names of the description" if self.is_script else ""
            return f"no name {name} is bound here{more}"
        found = model.definition_of(self.tree.defs, name)
        if not found:
            return f"the text has no definition of {name}"
        here = "is" if len(at[2]) == 1 else "are"
        return f"{name} takes {many(len(found.params), 'argument')}; here {here} {len(at[2])}"

    def expected(self, byte: int) -> Iterator[str]:
        """What could stand at a place, and what is often meant there."""
        tokens = model.lex(self.bytes)
        i = next(i for i, token in enumerate(tokens) if token[2] == byte)
        # Of a script the transactions before the last one are whole, and say nothing of it.
        begin = max((k for k in range(i) if tuple(tokens[k][:2]) == ("word", "txn")), default=0)
        more = [] if self.is_script else [("word", "def")]
        could = {
            token[1] if token[0] in ("word", "mark") else token[0]
            for token in [*CANDIDATES, *more]
            if self.begins(tokens[begin:i], token, byte)
        }
        found = str(tokens[i][1]) if tokens[i][0] in ("word", "mark") else None
        yield "expected " + listed(grouped(could))
        if "a_name" in could and found in self.kept:
            yield f"`{found}` is a word of the language, so it names nothing"
        if found in (*model.BINARY, "only") and not could & {"::", "a_name", found}:
            yield "each operation has brackets of its own: ((a ++ b) ++ c), if ((a == b)) { .. }"
        if found == ":" and "::" in could:
            yield "a focus has two colons: (path :: description)"
        if found == "=" and "==" in could:
            yield "equality is =="
        if could == {"else"}:
            yield "an `if` has an `else`, which may be empty: else { }"
        if i and tokens[i - 1][1] == "only" and could == {"string"}:
            yield '`only` takes a glob that stands in the text, as (names only "*.txt")'

    def begins(self, front: list[Token], token: tuple[str, Any], byte: int) -> bool:
        """Whether some tree begins with these tokens and this one."""
        it = model.Parser(b"", self.kept)
        if token[0] == "end":
            it.tokens = [*front, Token("end", None, byte)]
        else:
            it.tokens = [*front, Token(*token, byte), Token("end", None, byte + 1)]
        try:
            script(it) if self.is_script else description(it)
        except model.Refused as refused:
            return str(refused) != f"Unexpected {byte}"
        return True


CANDIDATES: list[tuple[str, Any]] = [
    *(("word", word) for word in sorted(model.KEPT)),
    *(("mark", mark) for mark in model.MARKS),
    ("word", "a_name"),
    ("number", 0),
    ("string", b""),
    ("end", None),
]
EXPRESSION = {
    *("string", "number", "a_name", "true", "false", "empty", "(", "if"),
    *model.UNARY,
}
DESCRIPTION = {"file", "dir", "link", "(", "<", "{", "opt", "pred", "a_name"}
SHAPE = {"str", "int", "bool", "names", "pair", "opt", "table"}
GROUPS: list[tuple[set[str], str]] = [
    (EXPRESSION, "an expression"),
    (DESCRIPTION, "a description"),
    (set(model.Parser.COMMANDS), "a command"),
    (SHAPE, "a shape"),
    ({*model.MOVES, "to", "store"}, "a move or an edit"),
    ({*model.BINARY, "only"}, "an operation"),
]
NAMED = {
    "a_name": "a name",
    "number": "a number",
    "string": "a text in quotes",
    "end": "the end of the text",
}


def grouped(could: set[str]) -> list[str]:
    """The words for what could stand at a place."""
    found, left = [], set(could)
    for group, word in GROUPS:
        if group <= left:
            found.append(word)
            left -= group
    return found + [NAMED.get(token, f"`{token}`") for token in sorted(left)]


def listed(words: list[str]) -> str:
    """Words with `or` before the last one."""
    if not words:
        return "nothing"
    return words[0] if len(words) == 1 else ", ".join(words[:-1]) + " or " + words[-1]


def shapes(words: list[str]) -> tuple[str, str]:
    """The two shapes of a cause."""
    text, depth = " ".join(words), 0
    for i, c in enumerate(text):
        depth += (c == "(") - (c == ")")
        if c == " " and not depth and text[i - 1] != ",":
            return text[:i], text[i + 1 :]
    return text, ""


def bad_token(text: bytes) -> str:
    """Why no token begins at the front of these bytes."""
    if text[:1] == b'"':
        return bad_string(text)
    if text[:1].isdigit():
        return "a number has no leading zero and is at most 9223372036854775807"
    if text[:1].isalpha() or text[:1] == b"_":
        return "a word has at most 64 bytes"
    if text[:1] == b"-":
        return "no token begins with this; a negative number is a difference, as (0 - 5)"
    return "no token begins with this byte"


def bad_string(text: bytes) -> str:
    """Why no string begins at the front of these bytes."""
    for i in range(1, len(text)):
        c, behind = text[i : i + 1], text[i + 1 : i + 2]
        if c == b"\\" and behind not in (b'"', b"\\", b"n", b"x"):
            told = behind.decode(errors="replace")
            return f'a text may hold \\", \\\\, \\n and \\xHH; it holds \\{told}'
        if c == b"\n":
            return "the text has no closing quote on its line; a line feed in it is \\n"
        if c < b" ":
            return f"a byte below 0x20 stands in a text as \\x{c[0]:02x}"
    return "the text that begins here has no closing quote, or a wrong \\xHH"


def uncommented(piece: bytes) -> str:
    """A piece of a text in one line, without its comments."""
    lines = [
        line.strip() if b'"' in line else line.split(b"#")[0].strip() for line in piece.split(b"\n")
    ]
    return b" ".join(lines).decode(errors="replace").strip()


def short(text: str, most: int = 72) -> str:
    """A text, cut behind its front if it is longer."""
    return text if len(text) <= most else text[: most - 2] + " …"


# ---- the texts of a tool's words


class Texts:
    """A description, and scripts behind it, each read once. `sources` are what the program reads,
    the description first."""

    def __init__(self, spec: str, scripts: list[str]) -> None:
        """Reads all of them. Fails with UNREAD, and the text's name, if one can't be read."""
        self.sources = [read_source(word) for word in [spec, *scripts]]
        self.spec = Text(spec, self.sources[0].text, False)
        self.scripts: list[Text] = []
        before = 0
        for source in self.sources[1:]:
            self.scripts.append(Text(source.word, source.text, True, before))
            before += len(self.scripts[-1].tree or [])

    def mistakes(self) -> list[Text]:
        """The texts that have mistakes, in their order."""
        return [text for text in [self.spec, *self.scripts] if text.mistake]
