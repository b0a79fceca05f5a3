"""The grammar: from tokens to the trees of descriptions and scripts.

Names and shapes are not checked yet.
"""

from __future__ import annotations

import sys
from typing import Any, Callable, Collection, TypeVar

from .tokens import KEPT, KEPT_OF_DESCRIPTIONS, lex
from .limits import LEVELS, RECURSION
from .refusals import Refused
from .trees import (
    Abort,
    Act,
    Ask,
    Assign,
    Bare,
    Binary,
    Call,
    Choice,
    Command,
    Comprehension,
    Constant,
    Def,
    Description,
    Do,
    Each,
    Empty,
    Expr,
    Focus,
    Given,
    If,
    InnerShape,
    Move,
    Only,
    Option,
    Pair,
    PairShape,
    Param,
    PlainShape,
    Predicate,
    Print,
    Shape,
    Spec,
    Try,
    Txn,
    Unary,
    Validate,
    Variable,
)

BINARY = ["++", "+", "-", "==", "<", "and", "or", "in", "union", "minus"]
UNARY = ["not", "one", "lines", "size", "int", "text", "first", "second", "keys", "present"]
MOVES = ["into", "next", "prev", "out", "down", "up", "top", "create", "remove"]
GIVEN = ["to", "store"]
SHAPES = ["str", "int", "bool", "names", "pair", "opt", "table"]
SPECS = ["file", "dir", "link", "(", "<", "{", "opt", "pred"]
EXPRS = ["true", "false", "empty", "(", "if", *UNARY]

Item = TypeVar("Item")


class Parser:
    """A walk over the tokens of a text.

    Each form takes its level, from 1 to 64, and leaves the parser behind its last token. A token
    with which the text so far begins nothing raises Refused, of Unexpected; a form at level 65
    raises it of TooNested.
    """

    COMMANDS = (
        "try",
        "let",
        "set",
        "fetch",
        "value",
        "validate",
        "print",
        "if",
        "each",
        "abort",
        *MOVES,
        *GIVEN,
    )

    def __init__(self, text: bytes, kept: Collection[str] = KEPT) -> None:
        # Whoever values what is read here goes deep.
        sys.setrecursionlimit(max(sys.getrecursionlimit(), RECURSION))
        self.tokens, self.i, self.kept = lex(text), 0, kept

    # ---- single tokens

    def peek(self) -> Any:
        """The spelling of a word or a mark; the kind of any other token."""
        kind, value, _ = self.tokens[self.i]
        return value if kind in ("word", "mark") else kind

    def unexpected(self) -> None:
        raise Refused(f"Unexpected {self.tokens[self.i][2]}")

    def sees(self, *wanted: str) -> bool:
        """Whether the token is one of these words and marks."""
        kind, value, _ = self.tokens[self.i]
        return kind in ("word", "mark") and value in wanted

    def take(self, *wanted: str) -> Any:
        """The spelling of the token, which has to be one of these words and marks."""
        if not self.sees(*wanted):
            self.unexpected()
        self.i += 1
        return self.tokens[self.i - 1][1]

    def kind(self, kind: str) -> Any:
        """The value of the token, which has to be of this kind."""
        if self.tokens[self.i][0] != kind:
            self.unexpected()
        self.i += 1
        return self.tokens[self.i - 1][1]

    def is_name(self) -> bool:
        kind, value, _ = self.tokens[self.i]
        return kind == "word" and value not in self.kept

    def name(self) -> str:
        if not self.is_name():
            self.unexpected()
        word: str = self.kind("word")
        return word

    def form(self, level: int, starts: Callable[[], bool]) -> None:
        """Checks the token that begins a form of this level: one of its starts, not too deep."""
        if not starts():
            self.unexpected()
        if level > LEVELS:
            raise Refused(f"TooNested {self.tokens[self.i][2]}")

    def end(self) -> None:
        if self.tokens[self.i][0] != "end":
            self.unexpected()

    def listed(self, item: Callable[[], Item]) -> list[Item]:
        """Items in brackets, with a comma between them; there may be none."""
        self.take("(")
        found: list[Item] = []
        while found and self.sees(",") or not found and not self.sees(")"):
            if found:
                self.take(",")
            found.append(item())
        self.take(")")
        return found

    # ---- expressions and shapes

    def begins_expr(self) -> bool:
        return self.tokens[self.i][0] in ("string", "number") or self.is_name() or self.sees(*EXPRS)

    def expr(self, level: int) -> Expr:
        kind, value, _ = self.tokens[self.i]
        self.form(level, self.begins_expr)
        self.i += 1
        if kind == "string" and isinstance(value, bytes):
            return Constant("str", value)
        if kind == "number" and isinstance(value, int):
            return Constant("int", value)
        word = str(value)
        if word in ("true", "false"):
            return Constant("bool", word == "true")
        if word == "empty":
            return Empty("empty")
        if word == "(":
            return self.operation(level)
        if word == "if":
            self.take("(")
            condition = self.expr(level + 1)
            self.take(",")
            then = self.expr(level + 1)
            self.take(",")
            otherwise = self.expr(level + 1)
            self.take(")")
            return If("if", condition, then, otherwise)
        if word in UNARY:
            return Unary("un", word, self.bracketed(level))
        return Variable("var", word)

    def operation(self, level: int) -> Expr:
        """An operation of two parts, behind its bracket."""
        left = self.expr(level + 1)
        word = self.take(*BINARY, "only")
        if word == "only":
            glob = self.kind("string")
            self.take(")")
            return Only("only", left, glob)
        right = self.expr(level + 1)
        self.take(")")
        return Binary("bin", word, left, right)

    def bracketed(self, level: int) -> Expr:
        """An expression in brackets, one level below."""
        self.take("(")
        found = self.expr(level + 1)
        self.take(")")
        return found

    def shape(self, level: int) -> Shape:
        self.form(level, lambda: self.tokens[self.i][0] == "word" and self.sees(*SHAPES))
        word = self.kind("word")
        if word in ("opt", "table"):
            self.take("(")
            of = self.shape(level + 1)
            self.take(")")
            return InnerShape(word, of)
        if word == "pair":
            self.take("(")
            first = self.shape(level + 1)
            self.take(",")
            second = self.shape(level + 1)
            self.take(")")
            return PairShape("pair", first, second)
        return PlainShape(word)

    # ---- descriptions

    def spec(self, level: int) -> Spec:
        named = self.is_name()
        self.form(level, lambda: named or self.sees(*SPECS))
        word = self.take(self.peek())
        if named:
            return Call("call", word, self.listed(lambda: self.expr(level + 1)))
        if word in ("file", "dir", "link"):
            return Bare(word)
        if word == "(":
            path = self.expr(level + 1)
            self.take("::")
            below = self.spec(level + 1)
            self.take(")")
            return Focus("focus", path, below)
        if word == "<":
            name = self.name()
            self.take(":")
            first = self.spec(level + 1)
            self.take(",")
            second = self.spec(level + 1)
            self.take(">")
            return Pair("pair", name, first, second)
        if word == "{":
            part = self.spec(level + 1)
            self.take("|")
            name = self.name()
            self.take("in")
            texts = self.expr(level + 1)
            self.take("}")
            return Comprehension("comp", part, name, texts)
        if word == "pred":
            return Predicate("pred", self.bracketed(level))
        self.take("(")
        part = self.spec(level + 1)
        self.take(")")
        return Option("opt", part)

    def param(self) -> Param:
        word = self.name()
        self.take(":")
        return Param(word, self.shape(2))

    def definition(self) -> Def:
        self.take("def")
        word = self.name()
        params = self.listed(self.param)
        self.take("=")
        return Def(word, params, self.spec(2))

    def description(self) -> Description:
        defs: list[Def] = []
        while self.sees("def"):
            defs.append(self.definition())
        return Description(defs, self.spec(1))

    # ---- scripts

    def act(self, level: int, begins: bool = True) -> Act:
        """A move or an edit.

        One that is a command, or that of a `try`, does not begin a form of its own.
        """
        starts = (*MOVES, *GIVEN)
        if begins:
            self.form(level, lambda: self.tokens[self.i][0] == "word" and self.sees(*starts))
        word = self.take(*starts)
        return Given(word, self.bracketed(level)) if word in GIVEN else Move(word)

    def block(self, level: int) -> Txn:
        self.take("{")
        found: list[Command] = []
        while not self.sees("}"):
            found.append(self.command(level))
        self.take("}")
        return found

    def command(self, level: int) -> Command:
        self.form(level, lambda: self.tokens[self.i][0] == "word" and self.sees(*self.COMMANDS))
        word = self.peek()
        if word in (*MOVES, *GIVEN):
            return Do("do", self.act(level, False))
        self.i += 1
        if word == "try":
            name = self.name()
            return Try("try", name, self.act(level, False))
        if word in ("let", "set"):
            name = self.name()
            self.take("=")
            return Assign(word, name, self.expr(level + 1))
        if word in ("fetch", "value"):
            name = self.name()
            self.take(":")
            return Ask(word, name, self.shape(level + 1))
        if word == "validate":
            return Validate("validate", self.name())
        if word == "print":
            return Print("print", self.bracketed(level))
        if word == "if":
            condition = self.bracketed(level)
            then = self.block(level + 1)
            self.take("else")
            return Choice("if", condition, then, self.block(level + 1))
        if word == "each":
            name = self.name()
            self.take("in")
            texts = self.bracketed(level)
            return Each("each", name, texts, self.block(level + 1))
        return Abort("abort")

    def script(self) -> list[Txn]:
        """All transactions, up to the end."""
        found: list[Txn] = []
        while self.tokens[self.i][0] != "end":
            self.form(1, lambda: self.tokens[self.i][0] == "word" and self.sees("txn"))
            self.take("txn")
            found.append(self.block(2))
        return found


def parse_description(text: bytes) -> Description:
    """The tree of a description; names and shapes are not checked."""
    parser = Parser(text, KEPT_OF_DESCRIPTIONS)
    found = parser.description()
    parser.end()
    return found


def parse_script(text: bytes) -> list[Txn]:
    """The transactions of a script; names and shapes are not checked."""
    return Parser(text).script()
