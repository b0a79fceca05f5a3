"""Cuts a source file into types, constants, traits, models and public functions with their clauses.

Of a function the item has the comment, the head and the clauses, and not the body.
"""

from __future__ import annotations

import re
from typing import NamedTuple, Optional

from believe.items import Import, Item

_ITEM = re.compile(r"^(?:pub(?:\([^)]*\))? )?(struct|enum|trait|const|type) (\w+)")
_MODEL = re.compile(r"^impl(?:<.*?>)? Model for (\w+)")
_FUNCTION = re.compile(r"^(\s*)pub fn (\w+)")
_OWNER = re.compile(r"^impl(?:<[^{]*?>)? (?:(\w+)(?:<.*>)? for )?(\w+)")
_USE = re.compile(r"^\s*(pub )?(ghost )?use ")


class Source(NamedTuple):
    """A source file: its module, what its `use` and `ghost use` lines bind, and its items."""

    module: str
    uses: dict[str, Import]
    ghosts: dict[str, Import]
    items: list[Item]


def cut_source(crate: str, rel: str, text: str) -> Source:
    """The items of a file. `rel` is its path within the crate, as `src/lib.rt`."""
    lines = text.split("\n")
    source = Source(rel[len("src/") : -len(".rt")].replace("/", "."), {}, {}, [])

    def add(name: str, kind: str, first: int, end: int, short: str) -> None:
        source.items.append(
            Item(
                key=f"{crate}::{source.module}::{name}",
                kind=kind,
                crate=crate,
                module=source.module,
                path=f"crates/{crate}/{rel}",
                line=first + 1,
                end=end,
                text="\n".join(lines[first:end]),
                names=[short],
            )
        )

    k = 0
    while k < len(lines):
        line = lines[k]
        item, model, function = _ITEM.match(line), _MODEL.match(line), _FUNCTION.match(line)
        if _USE.match(line):
            whole = line
            while ";" not in whole and k + 1 < len(lines):
                k += 1
                whole += " " + lines[k].strip()
            _bind(whole, source)
            end = k + 1
        elif item:
            end = _end_of_item(lines, k, item.group(1))
            add(item.group(2), item.group(1), _above(lines, k), end, item.group(2))
        elif model:
            end = _end_of_braces(lines, k)
            add(f"Model for {model.group(1)}", "model", k, end, model.group(1))
            for inner in lines[k:end]:
                if "ghost use" in inner:
                    _bind(inner, source)
        elif function:
            stop = _end_of_clauses(lines, k, function.group(1))
            owner = _owner(lines, k) if function.group(1) else None
            name = f"{owner}::{function.group(2)}" if owner else function.group(2)
            add(name, "fn", _above(lines, k), stop, function.group(2))
            end = stop + 1
        else:
            end = k + 1
        k = end
    return source


def _bind(whole: str, source: Source) -> None:
    """Binds the names of one `use` line."""
    found = re.match(r"^\s*(?:pub )?(?:ghost )?use (.*);", whole)
    if not found:
        return
    is_ghost = "ghost use" in whole
    mark, table = (".", source.ghosts) if is_ghost else ("::", source.uses)
    several = re.match(r"^(.*?)%s\{(.*)\}$" % re.escape(mark), found.group(1))
    if several:
        for part in several.group(2).split(","):
            name, _, alias = part.strip().partition(" as ")
            if name:
                table[(alias or name).strip()] = Import(several.group(1), name.strip())
        return
    name, _, alias = found.group(1).partition(" as ")
    head, _, last = name.rpartition(mark)
    bound = (alias or last).strip()
    table[bound] = Import(name.strip(), None) if is_ghost else Import(head, last.strip())


def _above(lines: list[str], head: int) -> int:
    """The first line of the doc comment and the attributes above a head."""
    first = head
    while first > 0 and re.match(r"^\s*(///|#\[)", lines[first - 1]):
        first -= 1
    return first


def _end_of_item(lines: list[str], head: int, kind: str) -> int:
    """The line behind a type, constant or trait."""
    if kind in ("const", "type"):
        end = head
        while ";" not in lines[end]:
            end += 1
        return end + 1
    depth, seen = 0, ""
    for k in range(head, len(lines)):
        depth += lines[k].count("{") - lines[k].count("}")
        seen += lines[k]
        if depth <= 0 and ("{" in seen or ";" in lines[k]):
            return k + 1
    return len(lines)


def _end_of_braces(lines: list[str], head: int) -> int:
    """The line behind the block that a line opens."""
    depth = 0
    for k in range(head, len(lines)):
        depth += lines[k].count("{") - lines[k].count("}")
        if depth <= 0:
            return k + 1
    return len(lines)


def _end_of_clauses(lines: list[str], head: int, indent: str) -> int:
    """The line of a function's body, or of its last clause's end where it has none."""
    for k in range(head, len(lines)):
        line, bare = lines[k], lines[k].rstrip()
        if (
            line.startswith(indent + "{")
            or (k == head and bare.endswith("{"))
            or (bare.endswith("{}") and not line.lstrip().startswith("ensures"))
            or (line.startswith(indent + ")") and bare.endswith("{"))
            or bare.endswith(";")
        ):
            return k
    return len(lines)


def _owner(lines: list[str], head: int) -> Optional[str]:
    """The type whose `impl` a method stands in."""
    for k in range(head, -1, -1):
        found = _OWNER.match(lines[k])
        if found:
            return found.group(2)
    return None
