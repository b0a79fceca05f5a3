"""The page of all that must be believed, made from small specs."""

from __future__ import annotations

import re
import subprocess
import sys
import tempfile
import unittest
from pathlib import Path

from believe.closure import closure, laws, size
from believe.items import Item, cut_specs
from believe.names import Failed, World
from believe.page import PAGE, page, places, stale, words
from believe.plan import PLAN, Plan, Section
from believe.sources import cut_source

NAMES = """-- What a name is.
use Rattle.std.specs.Prelude.{◌≡◌, ◌≤◌, ℕ, List, length}
use Rattle.fx_low.specs.declared.limits.TheConstants.{MOST}

-- a name is
-- short
abbrev pub IsName : List ℕ → Type 0
IsName name = is_short name ≡ true

-- it has few letters
abbrev pub is_short : List ℕ → Bool
is_short name = length name ≤ MOST

-- nobody cites this
abbrev pub is_long : List ℕ → Bool
is_long name = not (is_short name)
"""
LIMITS = """//! Limits.

/// The most letters of a name.
pub const MOST: usize = 7;
"""
ROWS = """-- What the call says.
use Rattle.std.specs.Prelude.{◌≡◌, ℕ, List}
use Rattle.fx_low.specs.Names as names
use Rattle.fx_top.specs.declared.status.Status.{Status}
use Rattle.fx_top.specs.declared.status.Status.TheVariants as status

-- it is done
pub record IsDone (words : List ℕ) : Type 0 where
  pub named : names.IsName words

-- the table
abbrev pub Row : List ℕ → Status → Type 0
Row words status.Done = IsDone words
Row words status.Wrong = Unit
"""
STATUS = """//! How it ends.

/// How the call ends.
pub enum Status { Done, Wrong }
"""
CALL = """//! The call.
ghost use Rattle.fx_top.specs.Rows.{Row};

/// The whole program.
pub fn top(words: &[u8]) -> Status
    ensures { Row words result }
{
    Status::Done
}
"""
LAWS = """-- Laws.
use Rattle.std.specs.Prelude.{ℕ, List}
use Rattle.fx_low.specs.Names.{IsName}

abbrev pub NamesStay : Type 0
NamesStay = (name : List ℕ) → IsName name → IsName name
"""
LAW = """//! Laws.
ghost use Rattle.fx_laws.specs.Laws.{NamesStay};

/// A name stays one.
pub fn names_stay()
    ensures { NamesStay }
{}
"""
TREE = {
    "crates/fx_low/specs/Names.antt": NAMES,
    "crates/fx_low/src/limits.rt": LIMITS,
    "crates/fx_top/specs/Rows.antt": ROWS,
    "crates/fx_top/src/status.rt": STATUS,
    "crates/fx_top/src/call.rt": CALL,
}
DONE = "fx_top.Rows.IsDone"
SECTIONS = (
    Section("The claim", "It is done.", (), (DONE,)),
    Section("Names", "A name is short.", ("fx_low.Names.IsName",), ("fx_low.Names.IsName",)),
    Section("The rest", "And this.", (DONE,)),
    Section("The call", "And all.", ("fx_top::call::top",)),
)
SMALL = Plan(("fx_top", "top"), DONE, SECTIONS)


class Room(unittest.TestCase):
    """A repository of small specs, in a folder that goes with the test."""

    def setUp(self) -> None:
        """Writes the specs."""
        room = tempfile.TemporaryDirectory()
        self.addCleanup(room.cleanup)
        self.repo = Path(room.name)
        for path, text in TREE.items():
            self.write(path, text)

    def write(self, path: str, text: str) -> None:
        """Writes a file of the repository."""
        place = self.repo / path
        place.parent.mkdir(parents=True, exist_ok=True)
        place.write_text(text, encoding="utf-8")

    def change(self, path: str, old: str, new: str) -> None:
        """Puts a text in another's place, wherever it stands in a file."""
        text = (self.repo / path).read_text(encoding="utf-8")
        self.assertIn(old, text)
        self.write(path, text.replace(old, new))

    def page(self, plan: Plan = SMALL) -> str:
        """The page of the repository as it is now."""
        return page(World(self.repo), plan)

    def keep(self) -> None:
        """Makes the page, and keeps it where the check looks for it."""
        self.write(PAGE, self.page())


class Cutting(unittest.TestCase):
    """Files, cut into items."""

    def items(self, text: str) -> dict[str, Item]:
        """The items of a file of specs, by their first names."""
        return {item.names[0]: item for item in cut_specs("fx_a", "specs/B.antt", text).items}

    def test_comment_belongs_to_the_definition_below(self) -> None:
        item = self.items(NAMES)["IsName"]
        self.assertEqual(item.comment, "a name is short")
        self.assertEqual((item.line, item.end, item.lines), (5, 8, 2))
        self.assertEqual(item.key, "fx_a.B.IsName")

    def test_private_definition_is_an_item(self) -> None:
        items = self.items("pub one : ℕ\none = two\n\ntwo : ℕ\ntwo = 2\n")
        self.assertEqual(
            [item.text.strip() for item in items.values()][0], "pub one : ℕ\none = two"
        )
        self.assertIn("two", items)

    def test_constructors_and_fields(self) -> None:
        items = self.items(
            "pub data Tree : Type 0 where\n  leaf twig : Tree\n  node : Tree → Tree\n\n"
            "pub record Pair : Type 0 where\n  pub left : Tree\n  pub right : Tree\n"
        )
        self.assertEqual(items["Tree"].constructors, {"leaf", "twig", "node"})
        self.assertEqual(items["Pair"].fields, {"left", "right"})

    def test_mutual_definitions_are_one_item(self) -> None:
        items = self.items(
            "abbrev mutual\n  pub even : ℕ → Bool\n  even (suc n) = odd n\n\n"
            "  pub odd : ℕ → Bool\n  odd (suc n) = even n\n\nabbrev pub rest : ℕ\nrest = 1\n"
        )
        self.assertEqual(items["even"].names, ["even", "odd"])
        self.assertEqual(items["rest"].lines, 2)

    def test_use_over_several_lines(self) -> None:
        specs = cut_specs(
            "fx_a", "specs/B.antt", "use Rattle.fx_b.specs.C.{\n  one,\n  two as deux\n}\n"
        )
        self.assertEqual(specs.imports["deux"], ("Rattle.fx_b.specs.C", "two"))
        self.assertEqual(specs.items, [])

    def test_function_ends_before_its_body(self) -> None:
        (item,) = cut_source("fx_a", "src/call.rt", CALL).items
        self.assertEqual(item.key, "fx_a::call::top")
        self.assertTrue(item.text.endswith("ensures { Row words result }"))
        self.assertEqual(item.comment, "The whole program.")


class Walking(Room):
    """What rests on what."""

    def test_closure_of_the_call(self) -> None:
        world = World(self.repo)
        found = closure(world, [world.function("fx_top", "top")])
        names = ["IsName", "is_short"]
        self.assertEqual(
            found,
            {"fx_top::call::top", "fx_top.Rows.Row", DONE, "fx_top::status::Status"}
            | {f"fx_low.Names.{name}" for name in names}
            | {"fx_low::limits::MOST"},
        )
        self.assertEqual(size(world, found), (6, 9, 2))

    def test_bound_name_is_no_citation(self) -> None:
        self.change("crates/fx_low/specs/Names.antt", "name ≡ true", "name ≡ λ is_long. is_long")
        found = closure(World(self.repo), ["fx_low.Names.IsName"])
        self.assertNotIn("fx_low.Names.is_long", found)

    def test_operator_is_cited_by_its_pieces(self) -> None:
        self.write(
            "crates/fx_low/specs/Joined.antt",
            "abbrev pub ◌<+>◌ : ℕ → ℕ → ℕ\na <+> b = a\n\nabbrev pub three : ℕ\nthree = 1 <+> 2\n",
        )
        found = closure(World(self.repo), ["fx_low.Joined.three"])
        self.assertIn("fx_low.Joined.◌<+>◌", found)

    def test_name_that_no_file_has_fails(self) -> None:
        self.change("crates/fx_top/specs/Rows.antt", "names.IsName", "names.IsNoName")
        with self.assertRaisesRegex(Failed, "IsNoName"):
            closure(World(self.repo), [DONE])

    def test_type_with_a_model_is_seen_through_it(self) -> None:
        self.write(
            "crates/fx_low/src/word.rt",
            "ghost use Rattle.fx_low.specs.Names.{IsName};\n\n"
            "pub struct Word { bytes: Vec<u8> }\n\n"
            "impl Model for Word {\n    ghost Value = { IsName };\n}\n",
        )
        world = World(self.repo)
        found = closure(world, ["fx_low::word::Word"])
        self.assertIn("fx_low.Names.IsName", found)
        self.assertEqual(world.items["fx_low::word::Word"].lines, 1)

    def test_variant_and_value_of_a_model_are_no_types(self) -> None:
        self.write(
            "crates/fx_low/src/kind.rt",
            "pub struct Value { at: u8 }\n\npub struct Text { at: u8 }\n\n"
            "pub enum Kind {\n    Text,\n    Other(u8),\n}\n\n"
            "pub struct List { kinds: Vec<Kind> }\n\n"
            "impl Model for List {\n    ghost Value = { Kind };\n}\n",
        )
        found = closure(World(self.repo), ["fx_low::kind::List"])
        self.assertIn("fx_low::kind::Kind", found)
        self.assertNotIn("fx_low::kind::Text", found)
        self.assertNotIn("fx_low::kind::Value", found)

    def test_law_is_a_function_that_does_nothing(self) -> None:
        self.write("crates/fx_laws/specs/Laws.antt", LAWS)
        self.write("crates/fx_laws/src/lib.rt", LAW)
        self.assertEqual(laws(World(self.repo)), {"fx_laws::lib::names_stay"})


class Placing(Room):
    """Definitions and laws, in sections."""

    def test_sections_are_the_closure_and_meet_nowhere(self) -> None:
        world = World(self.repo)
        placed = places(world, SMALL)
        self.assertEqual(set(placed), closure(world, [world.function("fx_top", "top")]))
        text = self.page()
        for key in placed:
            item = world.items[key]
            if item.kind != "fn":
                self.assertEqual(
                    len(re.findall(f"{re.escape(item.path)}#L{item.line}\\)", text)), 1
                )

    def test_definition_stands_in_the_first_section_that_rests_on_it(self) -> None:
        placed = places(World(self.repo), SMALL)
        self.assertEqual(placed[DONE], 0)
        self.assertEqual(placed["fx_low::limits::MOST"], 1)
        self.assertEqual(placed["fx_top::status::Status"], 3)

    def test_definition_of_no_section_fails(self) -> None:
        with self.assertRaisesRegex(Failed, "no section has fx_top.Rows.Row"):
            self.page(SMALL._replace(sections=SECTIONS[:3]))

    def test_root_that_the_contract_does_not_rest_on_fails(self) -> None:
        further = Section("More", "And more.", ("fx_low.Names.is_long",))
        with self.assertRaisesRegex(Failed, "does not rest on fx_low.Names.is_long"):
            self.page(SMALL._replace(sections=(*SECTIONS, further)))

    def test_root_that_is_gone_fails(self) -> None:
        self.change("crates/fx_low/specs/Names.antt", "IsName", "IsWord")
        self.change("crates/fx_top/specs/Rows.antt", "IsName", "IsWord")
        with self.assertRaisesRegex(Failed, "fx_low.Names.IsName"):
            self.page()

    def test_cut_is_walked_in_its_own_section(self) -> None:
        own = Section("Shortness", "Few letters.", ("fx_low.Names.is_short",))
        sections = (*SECTIONS[:2], own, *SECTIONS[2:])
        plan = SMALL._replace(sections=sections, cuts=("fx_low.Names.is_short",))
        placed = places(World(self.repo), plan)
        self.assertEqual(placed["fx_low.Names.IsName"], 1)
        self.assertEqual(placed["fx_low::limits::MOST"], 2)

    def test_law_of_a_new_crate_stands_where_it_speaks(self) -> None:
        self.write("crates/fx_new_laws/specs/Laws.antt", LAWS)
        self.write("crates/fx_new_laws/src/lib.rt", LAW.replace("fx_laws", "fx_new_laws"))
        section = self.page().split("## ")[2]
        self.assertTrue(section.startswith("1. Names"))
        self.assertIn("- A name stays one. [`names_stay`]", section)

    def test_law_of_code_is_left_out(self) -> None:
        self.write("crates/fx_code/specs/Own.antt", "abbrev pub Own : ℕ\nOwn = 1\n")
        self.write("crates/fx_code/src/lib.rt", "pub fn work()\n{\n    work()\n}\n")
        text = LAWS.replace("→ IsName name\n", "→ Own\n")
        use = "use Rattle.fx_code.specs.Own.{Own}\n"
        self.write("crates/fx_laws/specs/Laws.antt", use + text)
        self.write("crates/fx_laws/src/lib.rt", LAW)
        self.assertNotIn("names_stay", self.page())

    def test_law_that_the_plan_moves_and_one_that_is_gone(self) -> None:
        self.write("crates/fx_laws/specs/Laws.antt", LAWS)
        self.write("crates/fx_laws/src/lib.rt", LAW)
        plan = SMALL._replace(laws_at={"fx_laws::lib::names_stay": "The call"})
        self.assertIn("names_stay", self.page(plan).split("## 3. The call")[1])
        with self.assertRaisesRegex(Failed, "the law fx_laws::gone at The call"):
            self.page(SMALL._replace(laws_at={"fx_laws::gone": "The call"}))

    def test_example_is_folded(self) -> None:
        self.write("crates/fx_laws/specs/Laws.antt", LAWS)
        self.write("crates/fx_laws/src/lib.rt", LAW)
        text = self.page(SMALL._replace(examples=("fx_laws::lib",)))
        fold = text.split("<summary>Worked examples, proved too: 1</summary>")[1]
        self.assertIn("names_stay", fold.split("</details>")[0])
        self.assertNotIn("\nLaws:", text)

    def test_example_that_is_gone_fails(self) -> None:
        with self.assertRaisesRegex(Failed, "fx_laws::gone"):
            self.page(SMALL._replace(examples=("fx_laws::gone",)))

    def test_lines_are_told_per_section_and_so_far(self) -> None:
        text = self.page()
        self.assertIn("| 0 | The claim | 2 | 2 | 0 |\n| 1 | Names | 5 | 7 | 0 |\n", text)
        self.assertIn("| 3 | The call | 4 | 11 | 0 |\n", text)


class Checking(Room):
    """A page that is stale."""

    def test_page_as_made_is_not_stale(self) -> None:
        self.keep()
        self.assertEqual(stale(self.repo, self.page()), [])

    def test_page_that_is_not_there_is_told(self) -> None:
        self.assertIn("is not there", stale(self.repo, self.page())[0])

    def test_new_definition_shows_up(self) -> None:
        self.keep()
        path = "crates/fx_low/specs/Names.antt"
        self.change(path, "is_short name ≡ true", "is_short name ≡ is_long name")
        told = "\n".join(stale(self.repo, self.page()))
        self.assertIn("docs/BELIEVE.md is stale:", told)
        self.assertIn("## 1. Names", told)
        self.assertIn("has to be: | [`is_long`]", told)

    def test_renamed_definition_is_told(self) -> None:
        self.keep()
        self.change("crates/fx_low/specs/Names.antt", "is_short", "is_brief")
        told = "\n".join(stale(self.repo, self.page()))
        self.assertIn("is: | [`is_short`]", told)
        self.assertIn("has to be: | [`is_brief`]", told)

    def test_changed_body_of_the_spine_is_told(self) -> None:
        self.keep()
        self.change("crates/fx_low/specs/Names.antt", "≡ true", "≡ false")
        self.assertIn(
            "  has to be: IsName name = is_short name ≡ false", stale(self.repo, self.page())
        )

    def test_table_of_lines_is_told_only_if_no_section_differs(self) -> None:
        self.keep()
        self.change(PAGE, "| 1 | Names | 5 |", "| 1 | Names | 6 |")
        self.assertIn("  is: | 1 | Names | 6 | 7 | 0 |", stale(self.repo, self.page()))
        self.change(PAGE, "it is done", "it is over")
        told = stale(self.repo, self.page())
        self.assertEqual(told[1], "## 0. The claim")
        self.assertNotIn("  is: | 1 | Names | 6 | 7 | 0 |", told)

    def test_long_list_of_differences_is_cut(self) -> None:
        self.write(PAGE, "\n".join(f"line {n}" for n in range(50)))
        told = stale(self.repo, self.page())
        self.assertLess(len(told), 20)
        self.assertRegex(told[-2], r"^and \d+ lines more$")


class Counting(unittest.TestCase):
    """Words, and the plan's sentences."""

    def test_folds_and_signs_are_no_words(self) -> None:
        text = "# One two\n\n<details><summary>no</summary>\nno no\n</details>\n\n## 1. a ≡ b\n"
        self.assertEqual(words(text, 0), (2, 5))

    def test_sentences_of_the_plan_are_short(self) -> None:
        for section in PLAN.sections:
            for sentence in re.split(r"(?<=[.])\s", section.told):
                self.assertLessEqual(len(sentence.split()), 30, sentence)

    def test_titles_and_spines_are_named_once(self) -> None:
        titles = [section.title for section in PLAN.sections]
        spines = [key for section in PLAN.sections for key in section.spine]
        self.assertEqual(len(titles), len(set(titles)))
        self.assertEqual(len(spines), len(set(spines)))

    def test_program_tells_a_folder_without_crates(self) -> None:
        program = Path(__file__).resolve().parent.parent / "believe.py"
        with tempfile.TemporaryDirectory() as empty:
            ended = subprocess.run(
                [sys.executable, "-B", program, "--check", "--repo", empty],
                capture_output=True,
                text=True,
                check=False,
            )
        self.assertEqual(ended.returncode, 1)
        self.assertIn("has no folder crates", ended.stderr)


if __name__ == "__main__":
    unittest.main()
