"""Names and shapes: which of the texts that the grammar takes are descriptions and scripts."""

from __future__ import annotations

from .grammar import parse_description, parse_script
from .limits import TXNS_LIMIT
from .refusals import Refused
from .trees import (
    BOOL,
    INTEGER,
    NAMES,
    STR,
    Act,
    Binary,
    Comprehension,
    Def,
    Description,
    Expr,
    InnerShape,
    Pair,
    PairShape,
    ParamAt,
    Shape,
    Spec,
    Tree,
    Txn,
    Unary,
    definition_of,
    shape_text,
)

Scope = list[tuple[str, Shape]]
"""The names that are bound, with their shapes, the last bound last."""

OPERATIONS: dict[str, tuple[Shape, Shape, Shape]] = {
    "++": (STR, STR, STR),
    "+": (INTEGER, INTEGER, INTEGER),
    "-": (INTEGER, INTEGER, INTEGER),
    "and": (BOOL, BOOL, BOOL),
    "or": (BOOL, BOOL, BOOL),
    "in": (STR, NAMES, BOOL),
    "union": (NAMES, NAMES, NAMES),
    "minus": (NAMES, NAMES, NAMES),
}
"""Of an operation of two parts their shapes, and that of what it gives."""

OPERATIONS_OF_ONE: dict[str, tuple[Shape, Shape]] = {
    "not": (BOOL, BOOL),
    "one": (STR, NAMES),
    "lines": (STR, NAMES),
    "int": (STR, INTEGER),
    "text": (INTEGER, STR),
}
"""Of an operation of one part its shape, and that of what it gives."""


def differs(expected: Shape, found: Shape, at: Tree) -> Refused:
    return Refused(f"TypeDiffers {shape_text(expected)} {shape_text(found)}", at)


def look_up(scope: Scope, name: str) -> Shape | None:
    """The shape of a bound name."""
    return next((shape for word, shape in reversed(scope) if word == name), None)


def need(expected: Shape, scope: Scope, e: Expr) -> None:
    """Refuses an expression of another shape."""
    found = shape_of(scope, e)
    if expected != found:
        raise differs(expected, found, e)


def free(scope: Scope, name: str, at: Tree) -> None:
    """Refuses a name that is bound already."""
    if look_up(scope, name) is not None:
        raise Refused(f"Repeated {name}", at)


def shape_of(scope: Scope, e: Expr) -> Shape:
    """The shape of an expression, or raises Refused."""
    if e.kind == "empty":
        return NAMES
    if e.kind == "var":
        shape = look_up(scope, e.name)
        if shape is None:
            raise Refused(f"Unknown {e.name}", e)
        return shape
    if e.kind == "only":
        need(NAMES, scope, e.texts)
        return NAMES
    if e.kind == "if":
        need(BOOL, scope, e.condition)
        shape = shape_of(scope, e.then)
        need(shape, scope, e.otherwise)
        return shape
    if e.kind == "bin":
        return shape_of_binary(scope, e)
    if e.kind == "un":
        return shape_of_unary(scope, e)
    return STR if e.kind == "str" else INTEGER if e.kind == "int" else BOOL


def shape_of_binary(scope: Scope, e: Binary) -> Shape:
    if e.operation in ("==", "<"):
        shape = shape_of(scope, e.left)
        if shape not in ((STR, INTEGER, BOOL, NAMES) if e.operation == "==" else (STR, INTEGER)):
            raise differs(STR, shape, e.left)
        need(shape, scope, e.right)
        return BOOL
    left, right, gives = OPERATIONS[e.operation]
    need(left, scope, e.left)
    need(right, scope, e.right)
    return gives


def shape_of_unary(scope: Scope, e: Unary) -> Shape:
    shape = shape_of(scope, e.of)
    if e.operation == "size":
        if shape not in (STR, NAMES):
            raise differs(STR, shape, e.of)
        return INTEGER
    if e.operation in ("first", "second"):
        if shape.kind != "pair":
            raise differs(PairShape("pair", STR, STR), shape, e.of)
        return shape.first if e.operation == "first" else shape.second
    if e.operation == "keys":
        if shape.kind != "table":
            raise differs(InnerShape("table", STR), shape, e.of)
        return NAMES
    if e.operation == "present":
        if shape.kind != "opt":
            raise differs(InnerShape("opt", STR), shape, e.of)
        return BOOL
    takes, gives = OPERATIONS_OF_ONE[e.operation]
    if shape != takes:
        raise differs(takes, shape, e.of)
    return gives


# ---- descriptions


def check_description(description: Description) -> None:
    """Checks the definitions in the order of the text, and then what stands behind them."""
    defs = description.defs
    for i, definition in enumerate(defs):
        if definition_of(defs[:i], definition.name):
            raise Refused(f"Repeated {definition.name}", definition)
        scope: Scope = []
        for place, (word, shape) in enumerate(definition.params):
            free(scope, word, ParamAt("param", definition, place))
            scope.append((word, shape))
        check_spec(scope, definition.body, defs)
    check_spec([], description.root, defs)


def check_spec(scope: Scope, s: Spec, defs: list[Def]) -> Shape:
    """The shape of a description's value, or raises Refused."""
    if s.kind == "focus":
        need(STR, scope, s.path)
        return check_spec(scope, s.below, defs)
    if s.kind == "pair":
        return check_pair(scope, s, defs)
    if s.kind == "comp":
        return check_comprehension(scope, s, defs)
    if s.kind == "opt":
        return InnerShape("opt", check_spec(scope, s.part, defs))
    if s.kind == "call":
        called = definition_of(defs, s.name)
        if called is None or len(called.params) != len(s.args):
            raise Refused(f"Unknown {s.name}", s)
        for (_, shape), e in zip(called.params, s.args):
            need(shape, scope, e)
        return BOOL
    if s.kind == "pred":
        need(BOOL, scope, s.condition)
        return BOOL
    return NAMES if s.kind == "dir" else STR


def check_pair(scope: Scope, s: Pair, defs: list[Def]) -> Shape:
    first = check_spec(scope, s.first, defs)
    free(scope, s.name, s)
    return PairShape("pair", first, check_spec([*scope, (s.name, first)], s.second, defs))


def check_comprehension(scope: Scope, s: Comprehension, defs: list[Def]) -> Shape:
    need(NAMES, scope, s.texts)
    free(scope, s.name, s)
    return InnerShape("table", check_spec([*scope, (s.name, STR)], s.part, defs))


def spec_shape(s: Spec) -> Shape:
    """The shape of a description's value, which does not depend on what is bound."""
    if s.kind == "focus":
        return spec_shape(s.below)
    if s.kind == "pair":
        return PairShape("pair", spec_shape(s.first), spec_shape(s.second))
    if s.kind == "comp":
        return InnerShape("table", spec_shape(s.part))
    if s.kind == "opt":
        return InnerShape("opt", spec_shape(s.part))
    if s.kind == "call" or s.kind == "pred":
        return BOOL
    return NAMES if s.kind == "dir" else STR


# ---- scripts


def check_act(scope: Scope, act: Act) -> None:
    if act.kind == "to":
        need(STR, scope, act.value)
    elif act.kind == "store":
        shape_of(scope, act.value)


def check_block(scope: Scope, commands: Txn) -> None:
    """Checks commands in order; what they bind ends with them."""
    scope = list(scope)
    for c in commands:
        if c.kind == "do":
            check_act(scope, c.act)
        elif c.kind == "try":
            check_act(scope, c.act)
            free(scope, c.name, c)
            scope.append((c.name, INTEGER))
        elif c.kind == "let":
            shape = shape_of(scope, c.value)
            free(scope, c.name, c)
            scope.append((c.name, shape))
        elif c.kind == "set":
            shape = shape_of(scope, c.value)
            bound = look_up(scope, c.name)
            if bound is None:
                raise Refused(f"Unknown {c.name}", c)
            if bound != shape:
                raise differs(bound, shape, c.value)
        elif c.kind == "fetch" or c.kind == "value":
            free(scope, c.name, c)
            scope.append((c.name, c.shape))
        elif c.kind == "validate":
            free(scope, c.name, c)
            scope.append((c.name, BOOL))
        elif c.kind == "print":
            shape_of(scope, c.value)
        elif c.kind == "if":
            need(BOOL, scope, c.condition)
            check_block(scope, c.then)
            check_block(scope, c.otherwise)
        elif c.kind == "each":
            need(NAMES, scope, c.texts)
            free(scope, c.name, c)
            check_block([*scope, (c.name, STR)], c.block)


# ---- texts


def read_description(text: bytes) -> Description:
    """A description, or raises Refused."""
    description = parse_description(text)
    check_description(description)
    return description


def read_script(text: bytes, before: int = 0) -> list[Txn]:
    """The transactions of a script, or raises Refused.

    `before` is the number of the transactions of earlier scripts.
    """
    txns = parse_script(text)
    if before + len(txns) > TXNS_LIMIT:
        raise Refused("TooMany")
    for txn in txns:
        check_block([], txn)
    return txns
