"""Jobs that change contents alone, under a description that no content decides.

Then each state of their run has a value if the last one has: so no state between needs a look.
Whether that is so is told from the texts, and from what the result changes; whatever is not seen to
be so counts as not so.
"""

from __future__ import annotations

from . import model

TYPE_CHECKING = False
if TYPE_CHECKING:
    from collections.abc import Sequence
    from typing import Any

    from .differences import Change
    from .survey import Survey

# A script without these words makes no set, so it stores none; and it makes and removes nothing but
# by storing a text or a flag, which may make a file where none is, and never takes one away.
SHAPING = frozenset(
    (
        "remove",
        "create",
        "empty",
        "one",
        "lines",
        "union",
        "minus",
        "only",
        "keys",
        "names",
        "value",
    )
)


def keeps_shape(script: bytes) -> bool:
    """Whether a script has no word by which entries can go, or come other than by a stored text."""
    return all(token[0] != "word" or token[1] not in SHAPING for token in model.lex(script))


def is_of_shape(spec: bytes) -> bool:
    """Whether it is the kinds and names of entries alone that decide if there is a value.

    So it is if no name is bound to a value with a file's or a link's content in it, and if there is
    no part for links, by which their texts could be stored.
    """
    description = model.read_description(spec)
    parts = [description.root, *(it.body for it in description.defs)]
    return all(map(without_content, parts))


def without_content(part: Any) -> bool:
    """Whether no name of a part is bound to a content, and no part of it is for links."""
    kind = part[0]
    if kind == "link":
        return False
    if kind == "pair":
        return not has_content(part[2]) and without_content(part[2]) and without_content(part[3])
    inner = {"focus": 2, "comp": 1, "opt": 1}.get(kind)
    return inner is None or without_content(part[inner])


def has_content(part: Any) -> bool:
    """Whether the value of a part has a content in it. That of a call is a truth value."""
    kind = part[0]
    if kind == "pair":
        return has_content(part[2]) or has_content(part[3])
    inner = {"focus": 2, "comp": 1, "opt": 1}.get(kind)
    return kind in ("file", "link") if inner is None else has_content(part[inner])


def are_blind(spec: bytes, scripts: Sequence[bytes]) -> bool:
    """Whether texts are such that only shapes decide, and no shape is lost again on the way."""
    try:
        return is_of_shape(spec) and all(map(keeps_shape, scripts))
    except model.Refused:
        return False


def keep_all(changes: Sequence[Change], found: Survey) -> bool:
    """Whether changes are of contents and modes of files that were there, alone."""
    return all(
        change.kind in ("store", "mode") and change.path in found.taken for change in changes
    ) and all(found.taken[change.path].st_mode & 0o170000 == 0o100000 for change in changes)
