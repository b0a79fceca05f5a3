#!/usr/bin/env python3
"""What stands twice in the pages of definitions and lemmas, and which lemmas nobody cites.

once.py    tells each of them, and ends with 1 if there is one

A definition stands twice if another one says it by the same names, in its crate or in one that
stands on it. A lemma is cited if its page, a page that takes it in, or an attribute of a source
file names it. The cut is textual, and a page that is taken in whole counts as cited. So what is
told may be too little, and not too much. `--repo FOLDER` takes another clone. Status 2: the words
are wrong.
"""

from __future__ import annotations

import argparse
import re
import sys
from collections import Counter, defaultdict
from functools import cached_property
from pathlib import Path
from typing import Iterator, NamedTuple, Optional

from believe.items import TOKEN, Item, cut_specs, pieces, without_comment

# Shorter definitions are abbreviations, which are no second copy of each other.
SHORTEST = 60
# Their definitions answer to names that the prover gives.
ASKED = ("Answers", "Invariants", "Lib")
LAWS = "proofs/laws/"
_USE = re.compile(r"^(?:unfoldable )?(pub )?use (\S+?)(?:\.\{(.*)\}| as (\S+))?$")
_GHOST = re.compile(r"ghost use (Rattle\.[^\s{;]+?)(?:\.\{([^}]*)\}| as \S+)?;")
_USING = re.compile(r"(\w+)::proofs::(\w+(?:::\w+)*)::([^\s:,)\]]+)")
# Modules of the repository, and of the kit's crates, begin so.
_OWN = "Rattle."


class Name(NamedTuple):
    """A name of a page, by the page's module; None for the page as a whole."""

    module: str
    name: Optional[str]


class Page:
    """A page: what it takes in, by the name that it has here; what it passes on; its items."""

    def __init__(self, crate: str, rel: str, text: str) -> None:
        self.crate = crate
        self.rel = rel
        self.module = _OWN + f"{crate}/{rel}"[: -len(".antt")].replace("/", ".")
        self.taken: dict[str, Name] = {}
        self.passed: set[Name] = set()
        self.items: list[Item] = cut_specs(crate, rel, text).items
        self.lines = [_without_use(line) for line in text.split("\n")]
        for line in text.split("\n"):
            self._take(line)

    def _take(self, line: str) -> None:
        found = _USE.match(line)
        if not found:
            return
        passes, module, several, alias = found.groups()
        if several is None:
            self.taken[alias or module.split(".")[-1]] = Name(module, None)
            return
        for part in filter(None, (part.strip() for part in several.split(","))):
            name, _, other = part.partition(" as ")
            self.taken[other or name] = Name(module, name)
            if passes:
                self.passed.add(Name(module, name))

    @cached_property
    def names(self) -> set[str]:
        """What the page defines."""
        return {name for item in self.items for name in item.names}

    @cached_property
    def tokens(self) -> Counter[str]:
        """How often the page has each token."""
        return _tokens(self.lines)

    def has_beside(self, item: Item, name: str) -> bool:
        """Whether the page names what an item defines, beside that item."""
        own = _tokens(self.lines[item.line - 1 : item.end])
        return all(self.tokens[piece] > own[piece] for piece in pieces(name))


class Pages:
    """All pages of a clone, and what its source files cite of them."""

    def __init__(self, repo: Path) -> None:
        self.pages: dict[str, Page] = {}
        self.cited: set[Name] = set()
        self.below = _below((repo / "crates.txt").read_text(encoding="utf-8"))
        for path in sorted((repo / "crates").glob("*/src/**/*.rt")):
            crate = path.relative_to(repo / "crates").parts[0]
            self._add_source(crate, path.read_text(encoding="utf-8"))
        for part in ("specs", "proofs"):
            for path in sorted((repo / "crates").glob(f"*/{part}/**/*.antt")):
                crate, *rest = path.relative_to(repo / "crates").parts
                page = Page(crate, "/".join(rest), path.read_text(encoding="utf-8"))
                self.pages[page.module] = page
        for page in self.pages.values():
            self.cited.update(name for name in page.taken.values() if name not in page.passed)
        self._pass_on()

    def _add_source(self, crate: str, text: str) -> None:
        for module, several in _GHOST.findall(text):
            names = (name.strip().split(" as ")[0] for name in several.split(",") if name)
            self.cited.update(Name(module, name) for name in names)
            if not several:
                self.cited.add(Name(module, None))
        for of, module, name in _USING.findall(text):
            owner = crate if of in ("crate", "self") else of
            self.cited.add(Name(f"{_OWN}{owner}.proofs.{module.replace('::', '.')}", name))

    def _pass_on(self) -> None:
        """What is cited of a page that passes it on is cited where it stands."""
        more = True
        while more:
            found = {
                name
                for page in self.pages.values()
                for name in page.passed
                if {Name(page.module, name.name), Name(page.module, None)} & self.cited
            }
            more = not found <= self.cited
            self.cited |= found

    def origin(self, name: Name) -> Name:
        """Where a name stands that a page may only pass on."""
        page = self.pages.get(name.module)
        if page is None or name.name is None or name.name in page.names:
            return name
        found = page.taken.get(name.name)
        return self.origin(found) if found and found in page.passed else name


def _tokens(lines: list[str]) -> Counter[str]:
    """How often each token stands in lines. What a field is asked of counts as one too."""
    found = Counter(token for line in lines for token in TOKEN.findall(line))
    for token in list(found):
        whole, point, _ = token.partition(".")
        if point:
            found[whole] += found[token]
    return found


def _without_use(line: str) -> str:
    """The line without its comment; nothing of a line that takes names in."""
    return "" if _USE.match(line) else without_comment(line)


def _below(text: str) -> dict[str, set[str]]:
    """The crates on which each stands, by `crates.txt`, where those below come first or later."""
    direct: dict[str, set[str]] = {}
    for line in text.split("\n"):
        head, colon, rest = line.partition(":")
        if colon and not line.startswith("#"):
            direct[head.split()[0]] = set(rest.split())
    found: dict[str, set[str]] = {}

    def whole(crate: str) -> set[str]:
        if crate not in found:
            found[crate] = set()
            for low in direct.get(crate, ()):
                found[crate] |= {low} | whole(low)
        return found[crate]

    for crate in direct:
        whole(crate)
    return found


def uncited(pages: Pages) -> Iterator[str]:
    """The lemmas that nobody cites."""
    for page in pages.pages.values():
        last = page.rel.split("/")[-1][: -len(".antt")]
        if not page.rel.startswith("proofs/") or page.rel.startswith(LAWS) or last in ASKED:
            continue
        for item in page.items:
            if not any(_is_cited(pages, page, item)):
                yield f"crates/{page.crate}/{page.rel}:{item.line}: nobody cites {item.names[0]}"


def _is_cited(pages: Pages, page: Page, item: Item) -> Iterator[bool]:
    """Whether each name of an item is cited: beside it in its page, or by another one."""
    for name in item.names:
        yield page.has_beside(item, name)
        yield bool({Name(page.module, name), Name(page.module, None)} & pages.cited)


def twice(pages: Pages) -> Iterator[str]:
    """The definitions that another one says, in the same crate or in one that it stands on."""
    found: dict[str, list[tuple[Page, Item]]] = defaultdict(list)
    for page in pages.pages.values():
        if page.rel.split("/")[-1][: -len(".antt")] not in ASKED:
            for item in page.items:
                text = said(pages, page, item)
                if len(text) >= SHORTEST:
                    found[text].append((page, item))
    for copies in found.values():
        for k, (page, item) in enumerate(copies):
            for other, first in copies[:k]:
                low, high = sorted((page, other), key=lambda p: len(pages.below.get(p.crate, ())))
                if low.crate == high.crate or low.crate in pages.below.get(high.crate, ()):
                    at = f"crates/{page.crate}/{page.rel}:{item.line}"
                    yield f"{at}: {item.names[0]} is {other.module}.{first.names[0]}"
                    break


def said(pages: Pages, page: Page, item: Item) -> str:
    """What an item says: its words, each name as that of the page where it stands."""
    own = page.names

    def whole(token: str) -> str:
        if token in item.names:
            return "THIS"
        if token in page.taken:
            name = pages.origin(page.taken[token])
            return f"{name.module}.{name.name}"
        return f"{page.module}.{token}" if token in own else token

    lines = [without_comment(line) for line in item.text.split("\n")]
    body = re.sub(r"^(abbrev |unfoldable )?(pub )?", "", " ".join(" ".join(lines).split()))
    if len(body) < SHORTEST:
        return ""
    return item.telescope.strip() + " " + TOKEN.sub(lambda found: whole(found.group()), body)


def main() -> int:
    """Runs the program by its words."""
    parser = argparse.ArgumentParser(description=__doc__.split("\n", maxsplit=1)[0])
    here = Path(__file__).resolve().parent.parent
    parser.add_argument("--repo", type=Path, default=here, help="the clone whose pages are read")
    pages = Pages(parser.parse_args().repo)
    told = [*uncited(pages), *twice(pages)]
    print(*told, sep="\n", end="\n" if told else "")
    return 1 if told else 0


if __name__ == "__main__":
    sys.exit(main())
