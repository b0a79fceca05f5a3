"""Why a description has no value, and what a refused command met: in words, over a filestore of
the model."""

from __future__ import annotations

from typing import Any

from . import model
from .terminal import below, many, shown
from .texts import short

Path = tuple[bytes, ...]
Env = list[tuple[str, Any]]  # the names that are bound, with their values
Part = Any  # a part of a description or an expression, as the model has it
Sight = Any  # a view of the model: what a transaction sees

FORMS = {"file": "a file", "dir": "a directory", "link": "a link"}


def worth(value: Any) -> str:
    """A value as it is printed, cut if it is long."""
    return short(model.printed(value), 60)


def bindings(env: Env) -> str:
    """The names that are bound, with their values."""
    return ", ".join(f"{name} = {worth(value)}" for name, value in env) or "none"


def stands(view: Sight, path: Path) -> str:
    """What stands at a path itself."""
    node = view.get(path)
    if node is None:
        return "nothing"
    return f"a link to {shown(node[1])}" if node[0] == "link" else FORMS[node[0]]


def landed(view: Sight, path: Path, follow: bool) -> str:
    """Where a path lands, in words."""
    landing = model.resolve(view.get, path, follow)
    if landing[0] == "at":
        through = "" if landing[1] == path else f", to which {below(path)} leads,"
        return f"{stands(view, landing[1])} stands at {below(landing[1])}{through}"
    if landing[0] == "absent":
        return f"{below(landing[1])} has no entry {shown(landing[2][0])}"
    if landing[0] == "links":
        return f"{below(path)} leads through more than 40 links"
    node = view.get(landing[1])
    if node and node[0] == "file":
        return f"the file {below(landing[1])} stands in the way of {below(path)}"
    lacks = f"a name that {below(landing[1])} has not"
    return f"the link on the way of {below(path)} goes on from {lacks}"


class Why(Exception):
    """The first part without a value: its path, its names, the part of the description, and the
    reason; of a place also the calls around it."""

    def __init__(self, path: Path, env: Env, part: Part, reason: str, calls: Any = None) -> None:
        super().__init__(reason)
        self.path, self.env, self.part, self.reason, self.calls = path, env, part, reason, calls


# ---- expressions

PARTS = {"only": (1,), "if": (1,), "bin": (2, 3), "un": (2,)}


def faulty(env: Env, e: Part) -> tuple[Part, str] | None:
    """The part of an expression that faults first, and why; None if none does."""
    for i in PARTS.get(e[0], ()):
        found = faulty(env, e[i])
        if found:
            return found
        if e[0] == "bin" and i == 2 and decides(e[1], model.evaluate(env, e[2])):
            return None
    if e[0] == "if":
        return faulty(env, e[2 if model.evaluate(env, e[1]) else 3])
    try:
        model.evaluate(env, e)
    except model.Fault as fault:
        return e, f"{fault}: {fault_words(env, e, str(fault))}"
    return None


def decides(operation: str, left: Any) -> bool:
    """Whether the left part of an operation decides it alone."""
    return (operation, left) in (("and", False), ("or", True))


def fault_words(env: Env, e: Part, fault: str) -> str:
    """Why an expression faults whose parts do not."""
    if fault == "NotNumber":
        value = worth(model.evaluate(env, e[2]))
        return f"{value} is no number: an optional -, digits, one line feed at most, 64 bits"
    if fault == "Overflow":
        left, right = model.evaluate(env, e[2]), model.evaluate(env, e[3])
        return f"{worth(left)} {e[1]} {worth(right)} is outside 64 bits"
    if e[1] == "++":
        return f"a text has at most {many(model.FILE_LIMIT, 'byte')}"
    return "the set is too large"


def untrue(env: Env, e: Part) -> str:
    """Why an expression is false: the parts that make it so, with their values."""
    if e[0] == "bin" and e[1] == "and":
        return untrue(env, e[2] if not model.evaluate(env, e[2]) else e[3])
    if e[0] == "bin" and e[1] in ("==", "<", "in"):
        word = {"==": "is not", "<": "is not below", "in": "is not in"}[e[1]]
        return f"{worth(model.evaluate(env, e[2]))} {word} {worth(model.evaluate(env, e[3]))}"
    return "it is false"


# ---- values and addresses


def into_call(path: Path, env: Env, s: Part, calls: Any) -> Any:
    """What a call leads to. Raises Why if it leads nowhere."""
    for e in s[2]:
        fault = faulty(env, e)
        if fault:
            raise Why(path, env, *fault)
    if calls.level == model.UNFOLDED:
        reason = f"the call is inside {model.UNFOLDED} others, and is not unfolded any more"
        raise Why(path, env, s, reason)
    return calls.called(env, s)


def valued(view: Sight, path: Path, env: Env, s: Part, calls: Any) -> Any:
    """The value of a part. Raises Why if there is none."""
    kind = s[0]
    if kind in model.KINDS:
        found = model.found_at(view, path, kind)
        if found is None:
            there = landed(view, path, model.KINDS[kind][1])
            raise Why(path, env, s, f"no {kind} stands there: {there}")
        return found[1]
    e = s[3] if kind == "comp" else s[1] if kind in ("focus", "pred") else None
    fault = faulty(env, e) if e else None
    if fault:
        raise Why(path, env, *fault)
    if kind == "focus":
        return valued(view, focused(path, env, s), env, s[2], calls)
    if kind == "pair":
        a = valued(view, path, env, s[2], calls)
        return ("pair", a, valued(view, path, [*env, (s[1], a)], s[3], calls))
    if kind == "comp":
        texts = sorted(model.texts_of(env, e))
        return {t: valued(view, path, [*env, (s[2], t)], s[1], calls) for t in texts}
    if kind == "call":
        valued(view, path, *into_call(path, env, s, calls))
        return True
    if kind == "pred":
        if not model.evaluate(env, e):
            raise Why(path, env, s, f"the predicate is not true: {untrue(env, e)}")
        return True
    if not model.exists(view, path):
        return None
    return ("some", valued(view, path, env, s[1], calls))


def focused(path: Path, env: Env, s: Part) -> Path:
    """The path of a focus whose expression has no fault. Raises Why if its text is that of none."""
    text = model.evaluate(env, s[1])
    try:
        found: Path = model.focus_path(path, env, s[1])
        return found
    except model.Stop as stop:
        if stop.name == "TooDeep":
            raise Why(path, env, s, "the path has more than 64 names") from None
        reason = "is no path below: names with one / between them, without . and .."
        raise Why(path, env, s, f"{worth(text)} {reason}") from None


def lost(view: Sight, description: Any, address: tuple[Any, ...]) -> Why:
    """Where an address leaves the tree, and why: the first step that leads nowhere. If it leads
    to a place, that place, with no reason."""
    path: Path = ()
    env: Env = []
    s, calls = description.root, model.Calls(description.defs, 0)
    for step in address:
        try:
            path, env, s, calls = stepped(view, path, env, s, calls, step)
        except Why as why:
            return why
    return Why(path, env, s, "", calls)


def stepped(view: Sight, path: Path, env: Env, s: Part, calls: Any, step: Any) -> Any:
    """Where a step leads from a place. Raises Why if it leads nowhere."""
    if step == "first":
        return path, env, s[2], calls
    if step == "second":
        try:
            return path, [*env, (s[1], valued(view, path, env, s[2], calls))], s[3], calls
        except Why as why:
            reason = f"the second part of a pair needs the value of the first: {why.reason}"
            raise Why(why.path, why.env, why.part, reason) from None
    if step == "inside":
        if not model.exists(view, path):
            there = landed(view, path, False)
            raise Why(path, env, s, f"the option's entry is not there: {there}")
        return path, env, s[1], calls
    if step == "body":
        return path, *into_call(path, env, s, calls)
    e = s[1] if step == "down" else s[3]
    fault = faulty(env, e)
    if fault:
        raise Why(path, env, *fault)
    if step == "down":
        return focused(path, env, s), env, s[2], calls
    texts = model.texts_of(env, e)
    if step[1] not in texts:
        raise Why(path, env, s, f"the set has no {worth(step[1])}: {worth(texts)}")
    return path, [*env, (s[2], step[1])], s[1], calls


# ---- refused commands

FETCHED = {
    "file": "str or bool",
    "link": "str",
    "focus": "str",
    "dir": "names",
    "comp": "names",
    "opt": "bool",
    "pred": "bool",
}
STEPS = {
    "first": "to the first part of a pair",
    "second": "to the second part of a pair",
    "inside": "into an option",
    "body": "into a call",
    "down": "down a focus",
    None: "none: it stands at the root",
}
PART_FORMS = {
    "focus": "a focus",
    "pair": "a pair",
    "comp": "a comprehension",
    "opt": "an option",
    "pred": "a predicate",
    "call": "a call",
}
OUT = "a part, to an element, into an option or into a call"
TAKES = {"file": "a text, or a truth value for its flag", "link": "a text", "dir": "a set"}
TEXTS = {
    "link": "is no text of a link: `/`, or names, `.` and `..` with one / between them",
    "dir": "has an element that is no name",
}
# Where the expression of a command stands among its parts.
GIVEN = {"to": 1, "store": 1, "let": 2, "set": 2, "print": 1, "if": 1, "each": 2}


def form(s: Part) -> str:
    """What form a part of a description has."""
    return PART_FORMS.get(s[0], f"`{s[0]}`")


class Met:
    """What a refused command met; `it` is the transaction at the moment of the refusal."""

    def __init__(self, it: Any, command: Part, stop: Any) -> None:
        self.view = model.Quiet(it.view)
        self.root, self.address, self.variables = it.root, it.address, it.variables
        word = command[0]
        self.act = command[1] if word == "do" else command[2] if word == "try" else command
        self.stop = stop
        self.last = self.address[-1] if self.address else None
        self.here = lost(self.view, self.root, self.address)

    def lines(self) -> list[str]:
        """What it met, a line each."""
        e = GIVEN.get(self.act[0])
        if e is not None and self.stop.number == 10:
            fault = faulty(self.variables, self.act[e])
            if fault:
                return [fault[1], f"names: {bindings(self.variables)}"]
        here = self.here
        if self.stop.name == "NoPlace":
            where = f"at {below(here.path)}: {here.reason}"
            return [f"the address leads to no place any more: {where}"]
        return [f"it stood at {below(here.path)}, at {form(here.part)}", *self.more()]

    def more(self) -> list[str]:
        """What it met there."""
        name = self.stop.name
        act = self.act[0]
        if name == "NoStep":
            return [self.no_step()]
        if name == "NoElement":
            return [self.no_element()]
        if name == "Lacks":
            return self.lacks()
        if name == "WrongForm":
            return self.wrong_form()
        if name in ("Blocked", "Exists", "Absent"):
            if act == "remove" and not self.here.path:
                return ["the root is not removed"]
            follow = act == "store" and self.here.part[0] in ("file", "dir")
            return [landed(self.view, self.here.path, follow)]
        if name == "BadName":
            return [self.bad_name()]
        if name == "TooDeep":
            return ["a path has at most 64 names, and a link's text as many components"]
        if name == "NoDefault":
            return [f"`create` makes a file or a directory; here is {form(self.here.part)}"]
        if name == "TooUnfolded":
            return [f"the address has gone into {model.UNFOLDED} calls, and goes into no more"]
        return self.fault_of_part() if name == "Expr" else []

    def no_step(self) -> str:
        act, here = self.act[0], form(self.here.part)
        step = "to an element" if isinstance(self.last, tuple) else STEPS[self.last]
        if act == "into":
            return f"`into` leads into a pair, a comprehension, an option or a call; here is {here}"
        if act == "to":
            return f"`to` leads to an element of a comprehension; here is {here}"
        if act == "down":
            return f"`down` leads down a focus; here is {here}"
        if act == "up":
            return f"`up` takes back a `down`; the last step is {step}"
        if act == "out":
            return f"`out` takes back a step to {OUT}; the last step is {step}"
        return f"`{act}` goes on from a part of a pair or an element; the last step is {step}"

    def no_element(self) -> str:
        act, comp = self.act[0], self.here
        if act in ("next", "prev"):
            comp = lost(self.view, self.root, self.address[:-1])
        texts = worth(model.evaluate(comp.env, comp.part[3]))
        if act == "to":
            asked = worth(model.evaluate(self.variables, self.act[1]))
            return f"no {asked} is in the set {texts}"
        if act == "into":
            return f"nothing is in the set {texts}"
        than = "greater" if act == "next" else "less"
        return f"nothing is {than} than {worth(self.last[1])} in the set {texts}"

    def lacks(self) -> list[str]:
        here = self.here
        if self.act[0] in ("fetch", "into"):
            follow = model.KINDS.get(here.part[0], ("", False))[1]
            return [landed(self.view, here.path, follow)]
        try:
            valued(self.view, here.path, here.env, here.part, here.calls)
        except Why as why:
            return [f"at {below(why.path)}: {why.reason}", f"names: {bindings(why.env)}"]
        return []

    def wrong_form(self) -> list[str]:
        s = self.here.part
        if self.act[0] == "store":
            takes = f"{form(s)} takes {TAKES[s[0]]}" if s[0] in TAKES else None
            stored = worth(model.evaluate(self.variables, self.act[1]))
            other = f"`store` is for file, dir and link; here is {form(s)}"
            return [takes or other, f"stored: {stored}"]
        of = model.shape_text(model.spec_shape(s))
        if self.act[0] == "fetch":
            of = FETCHED.get(s[0], "nothing: `value` takes it whole")
        return [f"{form(s)} gives {of}; the command asks for {model.shape_text(self.act[2])}"]

    def bad_name(self) -> str:
        s = self.here.part
        if self.act[0] == "down":
            text = worth(model.evaluate(self.here.env, s[1]))
            return f"{text} is no path below: names with one / between them"
        text = worth(model.evaluate(self.variables, self.act[1]))
        return f"{text} {TEXTS.get(s[0], 'is no name')}"

    def fault_of_part(self) -> list[str]:
        """The fault of an expression of the part at which the command stood."""
        s, env = self.here.part, self.here.env
        if self.act[0] not in ("down", "into", "to", "fetch"):
            return []
        asked = s[2] if s[0] == "call" else [s[3] if s[0] == "comp" else s[1]]
        for e in asked:
            fault = faulty(env, e)
            if fault:
                return [fault[1], f"names: {bindings(env)}"]
        return []


def met(it: Any, command: Part, stop: Any) -> list[str]:
    """What a refused command met, in lines; `it` is the transaction, at the moment it was."""
    return Met(it, command, stop).lines()
