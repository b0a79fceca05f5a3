"""What is refused, and what faults: of texts and folders, of expressions, and of commands."""

from __future__ import annotations

from typing import TYPE_CHECKING, NamedTuple

if TYPE_CHECKING:
    from .trees import Tree


class Refused(Exception):
    """A text or a folder that is refused.

    Its text is the cause, as the line on standard error has it. If the cause is one of names or
    shapes, `at` is the part of the tree that is meant.
    """

    def __init__(self, cause: str, at: Tree | None = None) -> None:
        super().__init__(cause)
        self.at = at


class Fault(Exception):
    """An expression without a value. Its text is TooLong, Overflow or NotNumber."""


class Stop(Exception):
    """A refused command: the refusal's number and name, and what is printed behind the name."""

    def __init__(self, number: int, name: str, more: str = "") -> None:
        super().__init__(name)
        self.number, self.name, self.more = number, name, more


class NoValue(Exception):
    """A part of the description has no value."""


class Refusal(NamedTuple):
    """A refusal without anything behind its name: `Stop(*refusal)` is the refused command."""

    number: int
    name: str


NO_STEP = Refusal(1, "NoStep")
NO_ELEMENT = Refusal(2, "NoElement")
NO_PLACE = Refusal(3, "NoPlace")
LACKS = Refusal(4, "Lacks")
WRONG_FORM = Refusal(5, "WrongForm")
TOO_DEEP = Refusal(7, "TooDeep")
BAD_NAME = Refusal(8, "BadName")
NO_DEFAULT = Refusal(9, "NoDefault")
ABSENT = Refusal(11, "Absent")
EXISTS = Refusal(12, "Exists")
TOO_UNFOLDED = Refusal(13, "TooUnfolded")

PLAIN_REFUSALS = (
    NO_STEP,
    NO_ELEMENT,
    NO_PLACE,
    LACKS,
    WRONG_FORM,
    TOO_DEEP,
    BAD_NAME,
    NO_DEFAULT,
    ABSENT,
    EXISTS,
    TOO_UNFOLDED,
)
"""All refusals but Blocked and Expr, which have more behind their names."""


def faulted(fault: Fault) -> Stop:
    """The refusal of a command whose expression faults."""
    return Stop(10, "Expr", f" {fault}")
