"""The trees of shapes, expressions, descriptions and scripts.

Each part is a named tuple whose first field, `kind`, is the word by which the forms are told apart.
A description has its definitions before its root; a script is the list of its transactions, and a
transaction that of its commands.
"""

from __future__ import annotations

from typing import Literal, NamedTuple

# ---- shapes


class PlainShape(NamedTuple):
    """The shape of a text, an integer, a truth value or a set."""

    kind: Literal["str", "int", "bool", "names"]


class PairShape(NamedTuple):
    """The shape of a pair."""

    kind: Literal["pair"]
    first: Shape
    second: Shape


class InnerShape(NamedTuple):
    """The shape of an option or a table: that of what is inside."""

    kind: Literal["opt", "table"]
    of: Shape


Shape = PlainShape | PairShape | InnerShape

STR = PlainShape("str")
INTEGER = PlainShape("int")
BOOL = PlainShape("bool")
NAMES = PlainShape("names")


def shape_text(shape: Shape) -> str:
    """A shape as the language spells it."""
    if len(shape) == 1:
        return shape[0]
    return f"{shape[0]}({', '.join(map(shape_text, shape[1:]))})"


# ---- expressions


class Constant(NamedTuple):
    """A text, a number or a truth value that stands in the text."""

    kind: Literal["str", "int", "bool"]
    value: bytes | int | bool


class Empty(NamedTuple):
    """The empty set."""

    kind: Literal["empty"]


class Variable(NamedTuple):
    """A bound name."""

    kind: Literal["var"]
    name: str


class Only(NamedTuple):
    """The texts of a set that a glob matches."""

    kind: Literal["only"]
    texts: Expr
    glob: bytes


class Binary(NamedTuple):
    """An operation of two parts."""

    kind: Literal["bin"]
    operation: str
    left: Expr
    right: Expr


class Unary(NamedTuple):
    """An operation of one part."""

    kind: Literal["un"]
    operation: str
    of: Expr


class If(NamedTuple):
    """A choice between two expressions."""

    kind: Literal["if"]
    condition: Expr
    then: Expr
    otherwise: Expr


Expr = Constant | Empty | Variable | Only | Binary | Unary | If

# ---- descriptions


class Bare(NamedTuple):
    """A file, a directory or a link."""

    kind: Literal["file", "dir", "link"]


class Focus(NamedTuple):
    """The part at a path below."""

    kind: Literal["focus"]
    path: Expr
    below: Spec


class Pair(NamedTuple):
    """Two parts at one path; in the second the name has the value of the first."""

    kind: Literal["pair"]
    name: str
    first: Spec
    second: Spec


class Comprehension(NamedTuple):
    """A part for each text of a set, in which the name has that text."""

    kind: Literal["comp"]
    part: Spec
    name: str
    texts: Expr


class Option(NamedTuple):
    """A part that may be absent."""

    kind: Literal["opt"]
    part: Spec


class Predicate(NamedTuple):
    """What has to be true."""

    kind: Literal["pred"]
    condition: Expr


class Call(NamedTuple):
    """The call of a definition."""

    kind: Literal["call"]
    name: str
    args: list[Expr]


Spec = Bare | Focus | Pair | Comprehension | Option | Predicate | Call


class Param(NamedTuple):
    """A parameter of a definition."""

    name: str
    shape: Shape


class Def(NamedTuple):
    """A definition."""

    name: str
    params: list[Param]
    body: Spec


class Description(NamedTuple):
    """A whole description."""

    defs: list[Def]
    root: Spec


def definition_of(defs: list[Def], name: str) -> Def | None:
    """The definition of a name; the first, if several have it."""
    return next((definition for definition in defs if definition.name == name), None)


# ---- scripts


class Move(NamedTuple):
    """A move or an edit without an expression."""

    kind: Literal["into", "next", "prev", "out", "down", "up", "top", "create", "remove"]


class Given(NamedTuple):
    """A move or an edit with the expression that it takes."""

    kind: Literal["to", "store"]
    value: Expr


Act = Move | Given


class Do(NamedTuple):
    """A move or an edit as a command."""

    kind: Literal["do"]
    act: Act


class Try(NamedTuple):
    """A move or an edit whose refusal is bound as a number."""

    kind: Literal["try"]
    name: str
    act: Act


class Assign(NamedTuple):
    """A name that is bound, or bound again."""

    kind: Literal["let", "set"]
    name: str
    value: Expr


class Ask(NamedTuple):
    """A question whose answer is of a shape."""

    kind: Literal["fetch", "value"]
    name: str
    shape: Shape


class Validate(NamedTuple):
    """The question whether there is a value."""

    kind: Literal["validate"]
    name: str


class Print(NamedTuple):
    """An answer."""

    kind: Literal["print"]
    value: Expr


class Choice(NamedTuple):
    """One of two blocks."""

    kind: Literal["if"]
    condition: Expr
    then: list[Command]
    otherwise: list[Command]


class Each(NamedTuple):
    """A block for each text of a set."""

    kind: Literal["each"]
    name: str
    texts: Expr
    block: list[Command]


class Abort(NamedTuple):
    """The end that changes nothing."""

    kind: Literal["abort"]


Command = Do | Try | Assign | Ask | Validate | Print | Choice | Each | Abort
Txn = list[Command]


def count(commands: Txn) -> int:
    """How many commands these are, nested ones included."""
    total = 0
    for command in commands:
        total += 1
        if command.kind == "if":
            total += count(command.then) + count(command.otherwise)
        elif command.kind == "each":
            total += count(command.block)
    return total


class ParamAt(NamedTuple):
    """A parameter by its place in its definition."""

    kind: Literal["param"]
    definition: Def
    place: int


Tree = Expr | Spec | Command | Def | ParamAt
"""A part that a mistake of names or shapes may mean."""
