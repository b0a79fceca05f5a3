"""What a description says of a filestore: values, and the places to which addresses lead."""

from __future__ import annotations

from typing import Literal, NamedTuple

from .expr import Env, PairValue, SomeValue, Value, evaluate, text_of, texts_of
from .limits import LEVELS, UNFOLDED
from .refusals import BAD_NAME, NO_PLACE, TOO_DEEP, Fault, NoValue, Stop
from .spelling import Path
from .store import Sight, exists, found_at, is_name
from .trees import Call, Def, Description, Expr, Spec, definition_of


class Element(NamedTuple):
    """The step to the element of a comprehension for a text."""

    kind: Literal["elem"]
    text: bytes


Step = Literal["first", "second", "inside", "body", "down"] | Element
Address = tuple[Step, ...]
"""The steps by which a transaction came from the description's root."""


class Calls(NamedTuple):
    """The definitions that a part may call, and how many calls are around it."""

    defs: list[Def]
    level: int

    def called(self, env: Env, s: Call) -> tuple[Env, Spec, Calls]:
        """The bindings and the part to which a call leads, and the calls there; or raises Fault."""
        definition = definition_of(self.defs, s.name)
        assert definition is not None, "calls are checked"
        inner = [(word, evaluate(env, e)) for (word, _), e in zip(definition.params, s.args)]
        return inner, definition.body, Calls(self.defs, self.level + 1)


class Place(NamedTuple):
    """Where an address leads: a path, what is bound there, a part, and the calls around it."""

    path: Path
    env: Env
    part: Spec
    calls: Calls


def focus_path(path: Path, env: Env, e: Expr) -> Path:
    """The path of a focus, or raises Stop, of BadName or TooDeep, or Fault."""
    parts = text_of(env, e).split(b"/")
    if not all(map(is_name, parts)):
        raise Stop(*BAD_NAME)
    if len(path) + len(parts) > LEVELS:
        raise Stop(*TOO_DEEP)
    return (*path, *parts)


def top_value(view: Sight, description: Description) -> Value:
    """The value of a whole description, or raises NoValue."""
    return value(view, (), [], description.root, Calls(description.defs, 0))


def value(view: Sight, path: Path, env: Env, s: Spec, calls: Calls) -> Value:
    """The value of a part, or raises NoValue."""
    view.pay()
    if s.kind == "focus":
        try:
            below = focus_path(path, env, s.path)
        except (Fault, Stop):
            raise NoValue from None
        return value(view, below, env, s.below, calls)
    if s.kind == "pair":
        first = value(view, path, env, s.first, calls)
        return PairValue("pair", first, value(view, path, [*env, (s.name, first)], s.second, calls))
    if s.kind == "comp":
        try:
            texts = sorted(texts_of(env, s.texts))
        except Fault:
            raise NoValue from None
        return {t: value(view, path, [*env, (s.name, t)], s.part, calls) for t in texts}
    if s.kind == "opt":
        if not exists(view, path):
            return None
        return SomeValue("some", value(view, path, env, s.part, calls))
    if s.kind == "pred":
        try:
            is_true = evaluate(env, s.condition)
        except Fault:
            raise NoValue from None
        if not is_true:
            raise NoValue
        return True
    if s.kind == "call":
        if calls.level == UNFOLDED:
            raise NoValue
        try:
            inner, body, deeper = calls.called(env, s)
        except Fault:
            raise NoValue from None
        value(view, path, inner, body, deeper)
        return True
    found = found_at(view, path, s.kind)
    if found is None:
        raise NoValue
    return found[1]


def place(view: Sight, description: Description, address: Address) -> Place:
    """Where an address leads; or raises Stop, of NoPlace."""
    here = Place((), [], description.root, Calls(description.defs, 0))
    for step in address:
        try:
            here = stepped(view, here, step)
        except (NoValue, Fault, Stop):
            raise Stop(*NO_PLACE) from None
    return here


def stepped(view: Sight, here: Place, step: Step) -> Place:
    """Where a step leads, from a place that has it; or raises NoValue, Fault or Stop."""
    path, env, s, calls = here
    if s.kind == "pair" and step == "first":
        return Place(path, env, s.first, calls)
    if s.kind == "pair":
        first = value(view, path, env, s.first, calls)
        return Place(path, [*env, (s.name, first)], s.second, calls)
    if s.kind == "call":
        if calls.level == UNFOLDED:
            raise NoValue
        return Place(path, *calls.called(env, s))
    if s.kind == "opt":
        if not exists(view, path):
            raise NoValue
        return Place(path, env, s.part, calls)
    if s.kind == "focus":
        return Place(focus_path(path, env, s.path), env, s.below, calls)
    assert s.kind == "comp" and isinstance(step, Element), "an address is made of steps that exist"
    if step.text not in texts_of(env, s.texts):
        raise NoValue
    return Place(path, [*env, (s.name, step.text)], s.part, calls)
