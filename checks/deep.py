"""The deepest descriptions: 64 calls around one another, each in as many forms as nest."""

from collections.abc import Sequence

# A form around a part: what stands before it and behind it, and the moves from it to the part. N is
# a number of its own.
FORMS = {
    "option": ("opt(", ")", "into "),
    "first part": ("<xN : ", ", dir>", "into "),
    "second part": ("<xN : dir, ", ">", "into next "),
    "table": ("{", ' | kN in one("a")}', "into "),
    "focus": ('("d" :: ', ")", "down "),
}
# Around a call with an argument more forms do not nest.
AROUND = 60
CALLS = 64
MIXED = ["focus", *(["option", "first part", "second part", "table"] * 15)][:AROUND]
BODIES = {name: [name] * AROUND for name in FORMS if name != "focus"} | {"all": MIXED}
WALKED = "validate whole print(whole) %s validate there print(there) try on into print(on)"


def deep(forms: Sequence[str], calls: int) -> tuple[str, str]:
    """Two definitions that call each other inside these forms, and the moves through all calls."""
    last = "{", ' | k in if((n < %d), one("a"), empty)}' % calls, "into "
    before, behind, moves = zip(*(FORMS[form] for form in forms[:-1]), last)
    front = "".join(text.replace("N", f"{i}") for i, text in enumerate(before))
    numbered = reversed(list(enumerate(behind)))
    back = "".join(text.replace("N", f"{i}") for i, text in numbered)
    names = (("f", "g"), ("g", "f"))
    definitions = (f"def {a}(n : int) = {front}{b}((n + 1)){back}" for a, b in names)
    return " ".join([*definitions, "f(1)"]), f"into {''.join(moves)}" * (calls - 1)
