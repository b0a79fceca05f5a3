"""Cuts a file of specs into items: definitions, each with its comment, its names and its lines.

The cut is textual. An item begins at a line that starts a definition, and ends where the next one
begins. The comment right above it belongs to it.
"""

from __future__ import annotations

import re
from dataclasses import dataclass, field
from typing import NamedTuple, Optional

# a name of specs, or an operator; what separates them are blanks, brackets and quotes
TOKEN = re.compile(r"[^\s(){}\[\];,\"`@]+")
_START = re.compile(
    r"^(?:(?:abbrev|unfoldable|pub|record|data|mutual|module|infixl|infixr|syntax)\b|\S+ : )"
)
_NAME = re.compile(r"^(?:abbrev |unfoldable )?(?:pub )?(?:record |data )?(\S+)")
_MUTUAL = re.compile(r"^(abbrev |unfoldable )?(pub )?mutual\b")
_USE = re.compile(r"^(?:unfoldable )?(pub )?use ")


class Import(NamedTuple):
    """What a `use` line binds a name to: a module, and the name there, or None for the module."""

    module: str
    name: Optional[str]


@dataclass
class Item:
    """A definition of specs, or a type, constant, trait, model or function of a source file.

    `key` is `crate.Module.name` of specs and `crate::module::name` of sources. `line` and `end`
    count from 1 and take the comment above in. `telescope` is the head of the module that it
    stands in. `cited` has the keys of what it cites, once names are resolved. An `opaque` type is
    seen by clauses through its model alone.
    """

    key: str
    kind: str
    crate: str
    module: str
    path: str
    line: int
    end: int
    text: str
    names: list[str]
    telescope: str = ""
    constructors: set[str] = field(default_factory=set)
    fields: set[str] = field(default_factory=set)
    cited: set[str] = field(default_factory=set)
    opaque: bool = False

    @property
    def is_spec(self) -> bool:
        """Whether it stands in a file of specs."""
        return self.path.endswith(".antt")

    @property
    def lines(self) -> int:
        """The lines to read: neither empty nor a comment; of an opaque type or a model just one."""
        if self.opaque or self.kind == "model":
            return 1
        texts = (line.strip() for line in self.text.split("\n"))
        return sum(1 for line in texts if line and not line.startswith(("--", "//")))

    @property
    def comment(self) -> str:
        """The comment above it as one line, or the empty text."""
        told = []
        for line in self.text.split("\n"):
            found = re.match(r"^(?:--|///)\s?(.*)", line.strip())
            if found:
                told.append(found.group(1))
            elif line.strip() and not line.strip().startswith("#["):
                break
        return " ".join(told)


class Specs(NamedTuple):
    """A file of specs: its module within the crate, its imports by name, and its items."""

    module: str
    imports: dict[str, Import]
    items: list[Item]


class _Piece(NamedTuple):
    """An item's lines, counted from 0: of its comment, of its head and behind its end."""

    first: int
    head: int
    end: int
    names: list[str]
    kind: str
    telescope: str


def pieces(name: str) -> list[str]:
    """The tokens by which a name is written: of an operator what stands between its places."""
    return [piece for piece in name.split("◌") if piece] if "◌" in name else [name]


def without_comment(line: str) -> str:
    """The line without its comment, which begins at its start or behind a blank."""
    return "" if line.lstrip().startswith("--") else re.sub(r"\s--\s.*$", "", line)


def imports_of(lines: list[str]) -> dict[str, Import]:
    """What the `use` lines of a file of specs bind, by name. A `use` may go over several lines."""
    found: dict[str, Import] = {}
    k = 0
    while k < len(lines):
        whole = lines[k]
        k += 1
        if not _USE.match(whole):
            continue
        while whole.count("{") > whole.count("}") and k < len(lines):
            whole += " " + lines[k].strip()
            k += 1
        several = re.match(r"^(?:unfoldable )?(?:pub )?use (\S+?)\.\{(.*)\}", whole)
        one = re.match(r"^(?:pub )?use (\S+)(?: as (\S+))?", whole)
        if several:
            for part in filter(None, (part.strip() for part in several.group(2).split(","))):
                name, _, alias = part.partition(" as ")
                found[(alias or name).strip()] = Import(several.group(1), name.strip())
        elif one:
            found[one.group(2) or one.group(1).split(".")[-1]] = Import(one.group(1), None)
    return found


def cut_specs(crate: str, rel: str, text: str) -> Specs:
    """The items of a file. `rel` is its path within the crate, as `specs/Order.antt`."""
    module = rel.partition("/")[2][: -len(".antt")].replace("/", ".")
    lines = text.split("\n")
    items = []
    for piece in _cut(lines, 0, len(lines), 0, ""):
        name = piece.names[0] if piece.names else "?"
        item = Item(
            key=f"{crate}.{module}.{name}",
            kind=piece.kind,
            crate=crate,
            module=module,
            path=f"crates/{crate}/{rel}",
            line=piece.first + 1,
            end=piece.end,
            text="\n".join(lines[piece.first : piece.end]),
            names=list(piece.names),
            telescope=piece.telescope,
        )
        inside = [without_comment(line) for line in lines[piece.head + 1 : piece.end]]
        if piece.kind in ("data", "mutual"):
            item.constructors = _constructors(inside, piece.kind == "data")
        if piece.kind in ("record", "mutual"):
            found = (re.match(r"^\s+pub (\S+) :", line) for line in inside)
            item.fields = {match.group(1) for match in found if match}
        items.append(item)
    return Specs(module, imports_of(lines), items)


def _cut(lines: list[str], first: int, last: int, indent: int, telescope: str) -> list[_Piece]:
    """The pieces of lines[first:last] whose heads stand at an indentation."""
    found: list[_Piece] = []
    comment: Optional[int] = None
    open_piece = False
    k = first
    while k < last:
        line = lines[k]
        body = line[indent:] if line.startswith(" " * indent) else line
        is_head = len(line) - len(line.lstrip()) == indent
        if not line.strip():
            k += 1
        elif is_head and body.startswith("--"):
            comment = k if comment is None else comment
            k += 1
        elif is_head and re.match(r"^(unfoldable )?(pub )?(use|mod) ", body):
            comment = None
            depth = line.count("{") - line.count("}")
            k += 1
            while depth > 0 and k < last:
                depth += lines[k].count("{") - lines[k].count("}")
                k += 1
        elif is_head and re.match(r"^infix[lr] ", body):
            k += 1
        elif is_head and body.startswith("module "):
            end = _end_of_block(lines, k, last, indent + 2)
            found += _cut(lines, k + 1, end, indent + 2, body)
            k, comment, open_piece = end, None, False
        elif is_head and _START.match(body):
            above = k if comment is None else comment
            comment = None
            if _MUTUAL.match(body):
                end = _end_of_block(lines, k, last, indent + 2)
                names = _mutual_names(lines[k + 1 : end], indent + 2)
                found.append(_Piece(above, k, end, names, "mutual", telescope))
                k, open_piece = end, False
            else:
                name = _NAME.match(body)
                found.append(
                    _Piece(above, k, k + 1, [name.group(1)] if name else [], _kind(body), telescope)
                )
                open_piece = True
                k += 1
        else:
            if open_piece:
                found[-1] = found[-1]._replace(end=k + 1)
            comment = None
            k += 1
    return found


def _kind(head: str) -> str:
    """What a head defines."""
    words = head.split(":")[0].split()[:4]
    return "data" if "data" in words else "record" if "record" in words else "def"


def _end_of_block(lines: list[str], head: int, last: int, indent: int) -> int:
    """The line behind a block whose lines stand at an indentation at least."""
    end = head + 1
    while end < last and (not lines[end].strip() or lines[end].startswith(" " * indent)):
        end += 1
    return end


def _mutual_names(lines: list[str], indent: int) -> list[str]:
    """The names that a mutual block defines."""
    head = re.compile(r"^ {%d}(?:pub )?(?:record |data )?(\S+)(?: \(.*\)| \{.*\})* :( |$)" % indent)
    found = (head.match(line) for line in lines if not line.strip().startswith("--"))
    return [match.group(1) for match in found if match]


def _constructors(lines: list[str], is_data: bool) -> set[str]:
    """The constructors among a definition's lines, of which each comment is taken away."""
    found: set[str] = set()
    inside = is_data
    for line in (line.strip() for line in lines):
        if not is_data and re.search(r"\bdata\b", line):
            inside = True
            continue
        if not is_data and re.match(r"^pub (record )?\S+ .*:.*(where)?$", line):
            inside = False
        names = re.match(r"^((?:[^\s:()]+ )+):", line)
        if names and inside:
            found.update(names.group(1).split())
    return found
