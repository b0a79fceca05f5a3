"""Resolves what each definition of a repository cites.

A name of specs is resolved by the file's own items and its `use` lines; types, constants and
traits of sources by the `declared` names. A bound variable is no citation. Where the cut does not
see that a name is bound, it counts as cited: what is found may be too much, and not too little.
"""

from __future__ import annotations

import re
from pathlib import Path
from typing import Iterable, NamedTuple, Optional

from believe.items import TOKEN, Import, Item, Specs, cut_specs, pieces, without_comment
from believe.sources import Source, cut_source

RESERVED = frozenset(
    "use pub abbrev unfoldable record data mutual module where let in as if then else match case of"
    " mod forall ∀ λ → × : = . _ | ◌ Type Unit infixl infixr".split()
)
MISSING = "?"  # begins the key of a name that a `use` line binds and that no file has
_OWN_CRATE = ("crate", "super", "self")


class Failed(Exception):
    """What the page can't be made for, in words for the reader."""


class Names(NamedTuple):
    """A module of specs: its imports, and the keys of its definitions and constructors by name."""

    imports: dict[str, Import]
    defined: dict[str, str]
    constructors: dict[str, str]


class Types(NamedTuple):
    """A module of sources: what it binds, and the keys of its types and of their models by name."""

    uses: dict[str, Import]
    ghosts: dict[str, Import]
    types: dict[str, str]
    models: dict[str, str]


class World:
    """All definitions of the crates of a repository, each with what it cites.

    `items` is by key. `repo` is the folder that has `crates`.
    """

    def __init__(self, repo: Path) -> None:
        self.repo = repo
        self.items: dict[str, Item] = {}
        self._modules: dict[str, Names] = {}
        self._sources: dict[tuple[str, str], Types] = {}
        self._types: dict[tuple[str, str], list[str]] = {}
        crates = repo / "crates"
        if not crates.is_dir():
            raise Failed(f"{repo} has no folder crates")
        for crate in sorted(path for path in crates.iterdir() if path.is_dir()):
            for rel, text in _files(crate, "specs", ".antt"):
                self._add_specs(crate.name, cut_specs(crate.name, rel, text))
            for rel, text in _files(crate, "src", ".rt"):
                self._add_source(crate.name, cut_source(crate.name, rel, text))
        for item in self.items.values():
            item.cited = self._cited_by_spec(item) if item.is_spec else self._cited_by_source(item)

    def function(self, crate: str, name: str) -> str:
        """The key of a public function of a crate."""
        for key, item in self.items.items():
            if item.kind == "fn" and item.crate == crate and item.names == [name]:
                return key
        raise Failed(f"the crate {crate} has no function {name}")

    def item(self, key: str) -> Item:
        """The item of a key."""
        if key not in self.items:
            raise Failed(f"no definition is named {key}")
        return self.items[key]

    # ------------------------------------------------------------------------------------ filling

    def _add_specs(self, crate: str, specs: Specs) -> None:
        names = Names(specs.imports, {}, {})
        for item in specs.items:
            self.items[item.key] = item
            for name in item.names:
                for piece in [*pieces(name), name]:
                    names.defined[piece] = item.key
            for name in item.constructors:
                names.constructors[name] = item.key
        self._modules[f"Rattle.{crate}.specs.{specs.module}"] = names

    def _add_source(self, crate: str, source: Source) -> None:
        table = Types(source.uses, source.ghosts, {}, {})
        for item in source.items:
            plain, n = item.key, 2
            while item.key in self.items:
                item.key, n = f"{plain}#{n}", n + 1
            self.items[item.key] = item
            if item.kind == "model":
                table.models[item.names[0]] = item.key
            elif item.kind != "fn":
                table.types[item.names[0]] = item.key
        self._sources[(crate, source.module)] = table
        for name, key in table.types.items():
            self._types.setdefault((crate, name), []).append(key)

    # ------------------------------------------------------------------------------------ look-up

    def _find(self, module: str, name: str) -> Optional[str]:
        """The key of a name of a module; None where the module is the kit's."""
        if not module.startswith(("Rattle.fx_", "Rattle.test_")):
            return None
        for mark in (".specs.declared.", ".specs.contracts."):
            if mark in module:
                return self._declared(module.split(".")[1], module.split(mark)[1].split("."), name)
        if module in self._modules:
            names = self._modules[module]
            for piece in pieces(name):
                key = names.defined.get(piece) or names.constructors.get(piece)
                if key:
                    return key
            if name in names.imports:
                bound = names.imports[name]
                return self._find(bound.module, bound.name or name)
        head, _, last = module.rpartition(".")
        if head in self._modules and last in self._modules[head].defined:
            return self._modules[head].defined[last]
        return f"{MISSING} {module}.{name}"

    def _declared(self, crate: str, tail: list[str], name: str) -> str:
        """The key of a type, variant or constant of a source file."""
        stem = [part for part in tail if not part.startswith("The")]
        wanted = [name] if name else []
        for cut in range(len(stem), 0, -1):
            table = self._sources.get((crate, ".".join(stem[:cut])))
            for part in [*stem[cut:], *wanted] if table else []:
                if table and part in table.types:
                    return table.types[part]
        for part in [*reversed(stem), *wanted]:
            if (crate, part) in self._types:
                return self._types[(crate, part)][0]
        return f"{MISSING} {crate}.{'.'.join(tail)}.{name}"

    def _resolve(self, item: Item, token: str) -> Optional[str]:
        """The key of what a token of an item names; None for the kit's names and for none."""
        names = self._modules[f"Rattle.{item.crate}.specs.{item.module}"]
        own = names.defined.get(token) or names.constructors.get(token)
        if own:
            return own
        if token in names.imports:
            bound = names.imports[token]
            return self._find(bound.module, bound.name) if bound.name else None
        for name, bound in names.imports.items():
            if "◌" in name and token in pieces(name):
                return self._find(bound.module, bound.name or name)
        head, dot, rest = token.partition(".")
        if dot and head in names.imports:
            bound = names.imports[head]
            return self._find(bound.module, bound.name or rest.split(".")[0])
        if dot:
            return names.defined.get(head) or names.constructors.get(head)
        return None

    def _is_constructor(self, item: Item, token: str) -> bool:
        """Whether a token of a pattern is a constructor of the crates, and so binds nothing."""
        names = self._modules[f"Rattle.{item.crate}.specs.{item.module}"]
        if token in names.constructors:
            return True
        bound = names.imports.get(token)
        if bound is None or bound.name is None:
            return False
        if bound.module in self._modules:
            return bound.name in self._modules[bound.module].constructors
        of_source = ".TheVariants" in bound.module or bound.module.endswith("TheConstants")
        return of_source or bound.module.rpartition(".")[0] in self._modules

    # -------------------------------------------------------------------------------------- specs

    def _cited_by_spec(self, item: Item) -> set[str]:
        """The keys that a definition of specs cites."""
        body = [line for line in map(without_comment, item.text.split("\n")) if line.strip()]
        whole = "\n".join(body)
        if item.kind == "record":
            whole = re.sub(r"(?m)^(\s+pub )(\S+)( :)", r"\1_\3", whole)
        bound = _bound(whole) | _bound(item.telescope)
        if item.kind == "record":
            bound |= item.fields
        own = {piece for name in item.names for piece in [*pieces(name), name]}
        cited: set[Optional[str]] = set()
        for left, right in _clauses(item, body):
            patterns: set[str] = set()
            for token in TOKEN.findall(left):
                if token in own:
                    continue
                if "." in token[:-1] or self._is_constructor(item, token):
                    cited.add(self._resolve(item, token))
                else:
                    patterns.add(token)
            for token in _tokens(right):
                if token in RESERVED or token in item.names:
                    continue
                base = token if token.startswith(".") else token.split(".")[0]
                if base not in patterns and base not in bound:
                    cited.add(self._resolve(item, token))
        return {key for key in cited if key}

    # ------------------------------------------------------------------------------------ sources

    def _cited_by_source(self, item: Item) -> set[str]:
        """The keys that clauses see of an item of a source file."""
        table = self._sources[(item.crate, item.module)]
        if item.kind in ("struct", "enum") and item.names[0] in table.models:
            item.opaque = True
            return {table.models[item.names[0]]}
        ghost, plain = _ghost_and_plain(item)
        bound = _bound(ghost)
        cited: set[Optional[str]] = set()
        for token in _tokens(ghost):
            base, _, rest = token.partition(".")
            for name, target in table.ghosts.items() if base not in bound else ():
                if token in pieces(name) or base == name:
                    wanted = target.name or (rest.split(".")[0] if rest else name)
                    cited.add(self._find(target.module, wanted))
        seen = f"{plain} {ghost}" if item.kind == "model" else plain
        for token in set(re.findall(r"\b[A-Z]\w*\b", seen)):
            if table.types.get(token, item.key) != item.key:
                cited.add(table.types[token])
            elif token not in table.types and token in table.uses:
                target = table.uses[token]
                own = target.module.startswith(_OWN_CRATE)
                crate = item.crate if own else target.module.split("::")[0]
                cited.update(self._types.get((crate, target.name or token), []))
        return {key for key in cited if key}


def _files(crate: Path, folder: str, suffix: str) -> Iterable[tuple[str, str]]:
    """The files of a folder of a crate, of any depth: paths within the crate, and texts."""
    for path in sorted((crate / folder).rglob("*" + suffix)):
        yield path.relative_to(crate).as_posix(), path.read_text(encoding="utf-8")


def _bound(text: str) -> set[str]:
    """The names that telescopes, lambdas and `let` bind in a text."""
    found: set[str] = set()
    for names in re.findall(r"[({]([^(){}:=]+?) : ", text):
        found.update(names.split())
    for names in re.findall(r"λ ([^.]*?)\.(?=\s|$)", text):
        found.update(re.findall(r"[^\s(){}]+", names))
    found.update(re.findall(r"\blet (\S+)", text))
    return found


def _tokens(text: str) -> list[str]:
    """The names of a text, without text literals and without fields that a record term sets."""
    bare = re.sub(r"([{;]\s*)(\w+)(\s*=)", r"\1_\3", re.sub(r'"[^"]*"', " ", text))
    return [token for token in (token.rstrip(".") for token in TOKEN.findall(bare)) if token]


def _clauses(item: Item, body: list[str]) -> list[tuple[str, str]]:
    """A definition's clauses: the patterns on the left, and what stands on the right."""
    operators = {p for name in item.names for p in pieces(name) if not re.match(r"^\w+$", p)}
    found: list[tuple[str, str]] = []
    inside = False
    for line in body:
        bare = line.strip()
        left = re.split(r" =(?: |$)", bare, maxsplit=1)[0]
        is_clause = (
            left != bare
            and item.kind in ("def", "mutual")
            and not re.match(r"^(abbrev|unfoldable|pub|let|in|record|cond)\b", bare)
            and (bare.split()[0] in item.names or operators.intersection(left.split()))
        )
        if is_clause:
            found.append((left, bare[len(left) :]))
            inside = True
        elif inside:
            found[-1] = (found[-1][0], found[-1][1] + "\n" + line)
        else:
            found.append(("", line))
    return found


def _ghost_and_plain(item: Item) -> tuple[str, str]:
    """The clauses and ghost members of an item, and the rest, without comments and literals."""
    bare = "\n".join(re.sub(r"//.*$", "", line) for line in item.text.split("\n"))
    ghost: list[str] = []
    plain: list[str] = []
    depth = 0
    for line in re.sub(r'"[^"]*"', " ", bare).split("\n"):
        if "ghost use" in line:
            continue
        if depth > 0 or re.match(r"^\s*(requires|ensures|ghost)\b", line):
            ghost.append(line)
            depth = max(depth + line.count("{") - line.count("}"), 0)
        else:
            plain.append(line)
    if item.kind == "model":
        values = (re.match(r"^\s*ghost Value\b(.*)", line) for line in ghost)
        return "\n".join(value.group(1) for value in values if value), ""
    if item.kind == "enum":
        plain = [re.sub(r"^\s+[A-Z]\w*", "", line) for line in plain]
    return "\n".join(ghost), "\n".join(plain)
