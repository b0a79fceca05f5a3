"""Lays out the page: sections of definitions and laws, made from the sources by a plan."""

from __future__ import annotations

import difflib
import re
from pathlib import Path
from typing import NamedTuple

from believe.closure import closure, laws, size
from believe.items import Item
from believe.names import Failed, World
from believe.plan import Plan

PAGE = "docs/BELIEVE.md"
MAKE = "python3 -B checks/believe.py > " + PAGE
_FOLD, _UNFOLD = "<details>", "</details>"
_DIFFERENCES = 12


class Words(NamedTuple):
    """The words of a page outside its folded tables: of the sections to be read first, of all."""

    first: int
    all: int


def places(world: World, plan: Plan) -> dict[str, int]:
    """The section of each definition that the contract of `plan.top` rests on, by key.

    Raises Failed where a name of the plan is gone, or where the sections together are not the
    closure of the contract.
    """
    cuts = set(plan.cuts)
    found = {key: 0 for key in plan.sections[0].spine}
    for number, section in enumerate(plan.sections):
        cuts -= set(section.roots)
        for key in closure(world, section.roots, cuts) - cuts:
            found.setdefault(key, number)
    whole = closure(world, [world.function(*plan.top)])
    left, added = sorted(whole - set(found)), sorted(set(found) - whole)
    if left:
        raise Failed(f"no section has {', '.join(left[:5])}: give a section its root")
    if added:
        raise Failed(f"the contract does not rest on {', '.join(added[:5])}: drop it from the plan")
    for number, section in enumerate(plan.sections):
        for key in section.spine:
            if found.get(key) != number:
                raise Failed(f"{key} is shown in section {number}, and is not one of its own")
    return found


def law_places(world: World, plan: Plan, placed: dict[str, int]) -> dict[str, int]:
    """The section of each law of the definitions, by key.

    A law stands at the last section that its statement cites, or where the plan says. One that
    speaks of code besides stands nowhere: it cites definitions of another crate that has none that
    are believed, and that has functions besides laws.
    """
    proved = laws(world)
    titles = [section.title for section in plan.sections]
    for key, title in plan.laws_at.items():
        if key not in proved or title not in titles:
            raise Failed(f"the plan has the law {key} at {title}: there is no such law or section")
    modules = {key.rpartition("::")[0] for key in proved}
    for key in plan.examples:
        if key not in proved and key not in modules:
            raise Failed(f"the plan has the example {key}: there is no such law")
    believed = {world.item(key).crate for key in placed}
    calls = {
        item.crate for key, item in world.items.items() if item.kind == "fn" and key not in proved
    }
    found = {}
    for key in proved:
        law = world.item(key)
        above = [world.item(other) for other in closure(world, [key]) if other not in placed]
        others = {item.crate for item in above if item.is_spec} - {law.crate}
        direct = {cited for item in above for cited in item.cited if cited in placed}
        if key in plan.laws_at:
            found[key] = titles.index(plan.laws_at[key])
        elif direct and not others & (calls - believed):
            found[key] = max(placed[cited] for cited in direct)
    return found


def last_first(plan: Plan) -> int:
    """The number of the last section of those that are read first."""
    for number, section in enumerate(plan.sections):
        if plan.headline in section.roots:
            return number
    raise Failed(f"no section has the root {plan.headline}")


def page(world: World, plan: Plan) -> str:
    """The whole page, in Markdown."""
    placed = places(world, plan)
    ruled = law_places(world, plan, placed)
    told = [
        "# All that you must believe",
        "",
        f"`checks/believe.py` makes this page from the sources, by `{MAKE}`. Don't edit it.",
        "",
        "A proof is worth what its statement says. Here stands every definition that the contract"
        f" of `{world.function(*plan.top)}` rests on, in exactly one section, in reading order.",
        f"Sections 0 to {last_first(plan)} are what status 0 of `run` rests on. The others are what"
        " the rest of the contract adds. Each section shows its main definitions, and folds the"
        " others.",
        "The laws under a section are proved by the gate, and need no belief. They say in the"
        " subject's words what follows from the definitions. Words that no section has, as those of"
        " lists, options and finite maps, are the kit's library.",
        "Lines are those of definitions, without comments. [MEANING](MEANING.md) explains the"
        " words. [PROOF](PROOF.md) says what else is trusted: the prover, the compiler and the"
        " system.",
        "",
        "| | Section | Lines | So far | Laws |",
        "|---|---|---|---|---|",
    ]
    so_far = 0
    for number, section in enumerate(plan.sections):
        read = size(world, [key for key in placed if placed[key] == number])
        so_far += read.lines
        count = sum(1 for at in ruled.values() if at == number)
        told.append(f"| {number} | {section.title} | {read.lines} | {so_far} | {count} |")
    told.append("")
    for number in range(len(plan.sections)):
        told += _section(world, plan, number, placed, ruled)
    return "\n".join(told)


def words(text: str, last: int) -> Words:
    """The words of a page outside its folds: up to the section of number `last`, and in all.

    A word is what stands between blanks and has a letter or a digit.
    """
    bare = re.sub(f"(?s){_FOLD}.*?{_UNFOLD}", "", text)
    first = re.split(rf"(?m)^## {last + 1}\. ", bare)[0]
    return Words(*(sum(1 for word in t.split() if re.search(r"\w", word)) for t in (first, bare)))


def stale(repo: Path, text: str) -> list[str]:
    """Why the page of a repository is not `text`, with the first lines that differ; else nothing.

    Each differing line stands behind the heading of its section. What stands above the sections is
    told only if nothing else differs: its table sums them up.
    """
    place = repo / PAGE
    if not place.is_file():
        return [f"{PAGE} is not there. Make it: {MAKE}"]
    was, now = place.read_text(encoding="utf-8").split("\n"), text.split("\n")
    head: list[str] = []
    told: list[str] = []
    heading = ""
    for tag, a, b, c, d in difflib.SequenceMatcher(None, was, now, autojunk=False).get_opcodes():
        if tag == "equal":
            continue
        above = [line for line in now[: c + 1] if line.startswith("## ")]
        if above and above[-1] != heading:
            heading = above[-1]
            told.append(heading)
        room = told if above else head
        room += [f"  is: {line}" for line in was[a:b]]
        room += [f"  has to be: {line}" for line in now[c:d]]
    told = told or head
    if not told:
        return []
    left = len(told) - _DIFFERENCES
    rest = [f"and {left} lines more"] if left > 0 else []
    return [f"{PAGE} is stale:", *told[:_DIFFERENCES], *rest, f"Make it anew: {MAKE}"]


def _section(
    world: World, plan: Plan, number: int, placed: dict[str, int], ruled: dict[str, int]
) -> list[str]:
    """The lines of one section."""
    section = plan.sections[number]
    told = [f"## {number}. {section.title}", "", section.told, ""]
    for key in section.spine:
        item = world.item(key)
        body = item.text.rstrip().split("\n")
        told += [f"[`{item.path}:{item.line}`]({_link(item)})", "", "```text", *body, "```", ""]
    mine = [world.item(key) for key in placed if placed[key] == number]
    rest = [item for item in mine if item.kind != "fn" and item.key not in section.spine]
    if rest:
        table = ["| Definition | Lines | Says |", "|---|---|---|"]
        for item in sorted(rest, key=_order):
            says = item.comment.replace("|", "\\|")
            table.append(f"| {_named(item)} | {item.lines} | {says} |")
        told += _folded(f"More definitions: {len(rest)}", table)
    proved = sorted((world.item(key) for key in ruled if ruled[key] == number), key=_order)
    examples = [law for law in proved if _is_example(plan, law)]
    others = [f"- {law.comment} {_named(law)}" for law in proved if law not in examples]
    if others and section.folds_laws:
        told += _folded(f"Laws: {len(others)}", others)
    elif others:
        told += ["Laws:", "", *others, ""]
    if examples:
        shown = [f"- {law.comment} {_named(law)}" for law in examples]
        told += _folded(f"Worked examples, proved too: {len(examples)}", shown)
    return told


def _folded(summary: str, lines: list[str]) -> list[str]:
    """Lines that a reader sees once the fold is opened."""
    return [f"{_FOLD}<summary>{summary}</summary>", "", *lines, "", _UNFOLD, ""]


def _is_example(plan: Plan, law: Item) -> bool:
    """Whether the plan says that a law, or its module, shows single cases."""
    return law.key in plan.examples or law.key.rpartition("::")[0] in plan.examples


def _order(item: Item) -> tuple[str, int]:
    """The order of definitions within a section: by file, then by line."""
    return item.path, item.line


def _link(item: Item) -> str:
    """Where an item stands, from the folder of the page on."""
    return f"../{item.path}#L{item.line}"


def _named(item: Item) -> str:
    """An item's name, which leads to its place."""
    return f"[`{item.names[0] if item.names else item.key}`]({_link(item)})"
