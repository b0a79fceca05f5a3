"""Moves, and the questions about one place."""

from __future__ import annotations

from .expr import Env, Value, guarded, guarded_texts
from .limits import UNFOLDED
from .refusals import (
    LACKS,
    NO_ELEMENT,
    NO_STEP,
    TOO_UNFOLDED,
    WRONG_FORM,
    Fault,
    NoValue,
    Stop,
    faulted,
)
from .store import File, Quiet, View, exists, found_at
from .trees import BOOL, NAMES, STR, Act, Description, Shape, Spec
from .values import Address, Element, Place, focus_path, place, value


def move(view: View, root: Description, address: Address, act: Act, variables: Env) -> Address:
    """The address to which a move leads; or raises Stop."""
    last = address[-1] if address else None
    if act.kind == "top":
        return ()
    if act.kind == "out":
        if last is None or last == "down":
            raise Stop(*NO_STEP)
        return address[:-1]
    if act.kind == "up":
        if last != "down":
            raise Stop(*NO_STEP)
        return address[:-1]
    text = guarded(variables, act.value) if act.kind == "to" else None
    here = place(view, root, address)
    if act.kind == "into":
        return into(view, address, here)
    if act.kind == "to":
        if here.part.kind != "comp":
            raise Stop(*NO_STEP)
        texts = guarded_texts(here.env, here.part.texts)
        if not isinstance(text, bytes) or text not in texts:
            raise Stop(*NO_ELEMENT)
        return (*address, Element("elem", text))
    if act.kind == "down":
        if here.part.kind != "focus":
            raise Stop(*NO_STEP)
        try:
            focus_path(here.path, here.env, here.part.path)
        except Fault as fault:
            raise faulted(fault) from None
        return (*address, "down")
    return beside(view, root, address, act.kind == "next", here)


def into(view: View, address: Address, here: Place) -> Address:
    """The first step into a part."""
    path, env, s, _ = here
    if s.kind == "pair":
        return (*address, "first")
    if s.kind == "comp":
        texts = sorted(guarded_texts(env, s.texts))
        if not texts:
            raise Stop(*NO_ELEMENT)
        return (*address, Element("elem", texts[0]))
    if s.kind == "opt":
        if not exists(view, path):
            raise Stop(*LACKS)
        return (*address, "inside")
    if s.kind == "call":
        for e in s.args:
            guarded(env, e)
        if address.count("body") == UNFOLDED:
            raise Stop(*TOO_UNFOLDED)
        return (*address, "body")
    raise Stop(*NO_STEP)


def beside(view: View, root: Description, address: Address, is_next: bool, here: Place) -> Address:
    """The step from a part or an element to the next one, or to the one before."""
    last = address[-1] if address else None
    if is_next and last == "first":
        try:
            value(view, *here)
        except NoValue:
            raise Stop(*LACKS) from None
        return (*address[:-1], "second")
    if not is_next and last == "second":
        return (*address[:-1], "first")
    if not isinstance(last, Element):
        raise Stop(*NO_STEP)
    above = place(Quiet(view), root, address[:-1])
    assert above.part.kind == "comp", "an element is a comprehension's"
    texts = guarded_texts(above.env, above.part.texts)
    others = [t for t in texts if (t > last.text if is_next else t < last.text)]
    if not others:
        raise Stop(*NO_ELEMENT)
    return (*address[:-1], Element("elem", min(others) if is_next else max(others)))


def fetched_shape(s: Spec) -> Shape | None:
    """The shape of what `fetch` gives of a part, or None; of a file that of its bytes."""
    if s.kind in ("file", "link", "focus"):
        return STR
    if s.kind in ("dir", "comp"):
        return NAMES
    return BOOL if s.kind in ("opt", "pred") else None


def fetch(view: View, root: Description, address: Address, shape: Shape) -> Value:
    """What is at a place; or raises Stop."""
    path, env, s, _ = place(view, root, address)
    of_flag = s.kind == "file" and shape == BOOL
    if fetched_shape(s) != shape and not of_flag:
        raise Stop(*WRONG_FORM)
    if s.kind == "opt":
        return exists(view, path)
    if s.kind == "comp":
        return guarded(env, s.texts)
    if s.kind == "focus":
        return guarded(env, s.path)
    if s.kind == "pred":
        return guarded(env, s.condition)
    found = found_at(view, path, s.kind)
    if found is None:
        raise Stop(*LACKS)
    return found.executable if of_flag and isinstance(found, File) else found[1]
