"""Values, and what expressions give.

The shapes of an expression's parts are checked before it is evaluated, so that no operation meets a
value of another shape.
"""

from __future__ import annotations

import re
from typing import Any, Callable, Literal, NamedTuple, Union

from .limits import FILE_LIMIT, INT, WEIGHT
from .refusals import Fault, faulted
from .trees import Binary, Expr


class PairValue(NamedTuple):
    """The value of a pair."""

    kind: Literal["pair"]
    first: Value
    second: Value


class SomeValue(NamedTuple):
    """The value of an option that is there; that of one that is not is None."""

    kind: Literal["some"]
    value: Value


Value = Union[bytes, bool, int, frozenset[bytes], PairValue, SomeValue, None, dict[bytes, "Value"]]
"""A text, a truth value, an integer, a set, a pair, an option or a table."""

Binding = tuple[str, Value]
Env = list[Binding]
"""The names that are bound, with their values, the last bound last."""

DIGITS = re.compile(rb"-?[0-9]+\n?")


def matches(glob: bytes, text: bytes) -> bool:
    """Whether a glob matches a text: `*` stands for any bytes, `?` for one."""
    if not glob:
        return not text
    if glob[:1] == b"*":
        return any(matches(glob[1:], text[i:]) for i in range(len(text) + 1))
    return bool(text) and (glob[:1] == b"?" or glob[:1] == text[:1]) and matches(glob[1:], text[1:])


def number(n: int) -> int:
    if n not in INT:
        raise Fault("Overflow")
    return n


def joined(a: bytes, b: bytes) -> bytes:
    if len(a) + len(b) > FILE_LIMIT:
        raise Fault("TooLong")
    return a + b


def union(a: frozenset[bytes], b: frozenset[bytes]) -> frozenset[bytes]:
    both = a | b
    if sum(len(t) + 1 for t in both) > WEIGHT:
        raise Fault("TooLong")
    return both


def number_of(text: bytes) -> int:
    if not DIGITS.fullmatch(text) or int(text) not in INT:
        raise Fault("NotNumber")
    return int(text)


def first_of(pair: PairValue) -> Value:
    return pair[1]


def second_of(pair: PairValue) -> Value:
    return pair[2]


OF_TWO: dict[str, Callable[[Any, Any], Value]] = {
    "++": joined,
    "+": lambda a, b: number(a + b),
    "-": lambda a, b: number(a - b),
    "==": lambda a, b: bool(a == b),
    "<": lambda a, b: bool(a < b),
    "in": lambda a, b: a in b,
    "union": union,
    "minus": lambda a, b: frozenset(a - b),
}
"""The operations of two parts, of which both are evaluated."""

OF_ONE: dict[str, Callable[[Any], Value]] = {
    "not": lambda a: not a,
    "one": lambda a: frozenset([a]),
    "lines": lambda a: frozenset(t for t in a.split(b"\n") if t),
    "size": len,
    "int": number_of,
    "text": lambda a: str(a).encode(),
    "first": first_of,
    "second": second_of,
    "keys": frozenset,
    "present": lambda a: a is not None,
}
"""The operations of one part."""


def evaluate(env: Env, e: Expr) -> Value:
    """The value of an expression, or raises Fault."""
    if e.kind == "var":
        return next(value for word, value in reversed(env) if word == e.name)
    if e.kind == "bin":
        return evaluate_binary(env, e)
    if e.kind == "un":
        return OF_ONE[e.operation](evaluate(env, e.of))
    if e.kind == "empty":
        return frozenset()
    if e.kind == "only":
        return frozenset(t for t in texts_of(env, e.texts) if matches(e.glob, t))
    if e.kind == "if":
        return evaluate(env, e.then if evaluate(env, e.condition) else e.otherwise)
    return e.value


def evaluate_binary(env: Env, e: Binary) -> Value:
    left = evaluate(env, e.left)
    if e.operation == "and":
        return evaluate(env, e.right) if left else False
    if e.operation == "or":
        return True if left else evaluate(env, e.right)
    return OF_TWO[e.operation](left, evaluate(env, e.right))


def text_of(env: Env, e: Expr) -> bytes:
    """The value of an expression that is a text."""
    value = evaluate(env, e)
    assert isinstance(value, bytes)
    return value


def texts_of(env: Env, e: Expr) -> frozenset[bytes]:
    """The value of an expression that is a set."""
    value = evaluate(env, e)
    assert isinstance(value, frozenset)
    return value


def guarded(env: Env, e: Expr) -> Value:
    """The value of an expression; a fault refuses the command, as Expr."""
    try:
        return evaluate(env, e)
    except Fault as fault:
        raise faulted(fault) from None


def guarded_texts(env: Env, e: Expr) -> frozenset[bytes]:
    """The value of an expression that is a set; a fault refuses the command, as Expr."""
    value = guarded(env, e)
    assert isinstance(value, frozenset)
    return value
