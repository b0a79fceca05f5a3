"""What stands twice and what nobody cites: small clones, and this one."""

from __future__ import annotations

import tempfile
import unittest
from pathlib import Path

from once import Pages, twice, uncited

CRATES = """# names, then what stands on them
fx_low:
fx_high: fx_low
fx_beside:
"""
LOW = """-- Lengths.
use Rattle.std.specs.Prelude.{ℕ, List, length, ◌==◌, ◌&&◌, Bool}

-- whether both lists have so many
abbrev pub have : ℕ → List ℕ → List ℕ → Bool
have n xs ys = (length xs == n) && (length ys == n)
"""
LEMMAS = """-- On lengths.
use Rattle.std.proofs.Common.{◌≡◌, refl, ℕ}

helper : (n : ℕ) → n ≡ n
helper n = refl

pub same : (n : ℕ) → n ≡ n
same n = helper n
"""


class Clone(unittest.TestCase):
    """A clone of few pages."""

    def setUp(self) -> None:
        folder = tempfile.TemporaryDirectory()
        self.addCleanup(folder.cleanup)
        self.repo = Path(folder.name)
        self.write("crates.txt", CRATES)

    def write(self, path: str, text: str) -> None:
        """A file of the clone."""
        whole = self.repo / path
        whole.parent.mkdir(parents=True, exist_ok=True)
        whole.write_text(text, encoding="utf-8")

    def uncited(self) -> list[str]:
        """The names that nobody cites."""
        return [line.rsplit(" ", 1)[1] for line in uncited(Pages(self.repo))]

    def twice(self) -> list[str]:
        """What stands twice, as the program tells it behind the place."""
        return [line.split(": ", 1)[1] for line in twice(Pages(self.repo))]


class Twice(Clone):
    """Definitions with the same words."""

    def setUp(self) -> None:
        super().setUp()
        self.write("crates/fx_low/specs/Lengths.antt", LOW)

    def test_one_is_no_copy(self) -> None:
        self.assertEqual(self.twice(), [])

    def test_by_another_name_in_a_crate_above(self) -> None:
        self.write("crates/fx_high/specs/Sizes.antt", LOW.replace("have", "hold"))
        self.assertEqual(self.twice(), ["have is Rattle.fx_high.specs.Sizes.hold"])

    def test_in_crates_that_do_not_stand_on_each_other(self) -> None:
        self.write("crates/fx_beside/specs/Sizes.antt", LOW)
        self.assertEqual(self.twice(), [])

    def test_in_another_page_of_the_crate(self) -> None:
        self.write("crates/fx_low/proofs/Sizes.antt", LOW)
        self.assertEqual(len(self.twice()), 1)

    def test_with_names_of_its_own(self) -> None:
        own = LOW.replace(", length", "") + "\nlength : List ℕ → ℕ\nlength xs = 0\n"
        self.write("crates/fx_high/specs/Sizes.antt", own)
        self.assertEqual(self.twice(), [])

    def test_with_names_that_another_page_passes_on(self) -> None:
        passed = "pub use Rattle.std.specs.Prelude.{ℕ, List, length, ◌==◌, ◌&&◌, Bool}\n"
        self.write("crates/fx_high/proofs/Prelude.antt", passed)
        own = LOW.replace("std.specs.Prelude", "fx_high.proofs.Prelude")
        self.write("crates/fx_high/proofs/Sizes.antt", own)
        self.assertEqual(len(self.twice()), 1)

    def test_a_short_one(self) -> None:
        short = "abbrev pub two : ℕ\ntwo = 2\n"
        self.write("crates/fx_low/specs/Two.antt", short)
        self.write("crates/fx_high/specs/Two.antt", short)
        self.assertEqual(self.twice(), [])


class Uncited(Clone):
    """Lemmas, and who cites them."""

    def setUp(self) -> None:
        super().setUp()
        self.write("crates/fx_low/proofs/Lengths.antt", LEMMAS)

    def test_nobody(self) -> None:
        self.assertEqual(self.uncited(), ["same"])

    def test_a_page_above(self) -> None:
        use = "use Rattle.fx_low.proofs.Lengths.{same}\n"
        self.write("crates/fx_high/proofs/what/call/Answers.antt", use)
        self.assertEqual(self.uncited(), [])

    def test_a_folder_whose_name_begins_as_one_of_builds(self) -> None:
        use = "use Rattle.fx_low.proofs.Lengths.{same}\n"
        self.write("crates/fx_high/proofs/output_of/Answers.antt", use)
        self.assertEqual(self.uncited(), [])

    def test_what_was_built_is_no_page(self) -> None:
        use = "use Rattle.fx_low.proofs.Lengths.{same}\n"
        self.write("crates/fx_high/out/proofs/Answers.antt", use)
        self.assertEqual(self.uncited(), ["same"])

    def test_by_another_name(self) -> None:
        use = "use Rattle.fx_low.proofs.Lengths.{same as equal}\n"
        self.write("crates/fx_high/proofs/Uses.antt", use)
        self.assertEqual(self.uncited(), [])

    def test_a_page_as_a_whole(self) -> None:
        self.write("crates/fx_high/proofs/Uses.antt", "use Rattle.fx_low.proofs.Lengths as low\n")
        self.assertEqual(self.uncited(), [])

    def test_a_prelude_that_is_cited_itself(self) -> None:
        passed = "pub use Rattle.fx_low.proofs.Lengths.{same}\n"
        self.write("crates/fx_high/proofs/Prelude.antt", passed)
        self.assertEqual(self.uncited(), ["same"])
        use = "use Rattle.fx_high.proofs.Prelude.{same}\n"
        self.write("crates/fx_high/proofs/Uses.antt", use)
        self.assertEqual(self.uncited(), [])

    def test_an_attribute(self) -> None:
        source = "#[tactic(auto, using(crate::proofs::Lengths::same))]\nfn call() {}\n"
        self.write("crates/fx_low/src/call.rt", source)
        self.assertEqual(self.uncited(), [])

    def test_a_projection_in_its_page(self) -> None:
        more = LEMMAS + "\npub pair : ℕ × ℕ\npair = (1, 2)\n\npub one : ℕ\none = pair.0\n"
        self.write("crates/fx_low/proofs/Lengths.antt", more)
        self.assertEqual(self.uncited(), ["same", "one"])

    def test_a_comment_is_no_citation(self) -> None:
        self.write("crates/fx_low/proofs/Lengths.antt", LEMMAS + "\n-- see same\n")
        self.assertEqual(self.uncited(), ["same"])

    def test_answers_and_laws_are_asked_for(self) -> None:
        self.write("crates/fx_low/proofs/call/Answers.antt", LEMMAS)
        self.write("crates/fx_low/proofs/laws/says/Answers.antt", LEMMAS)
        self.assertEqual(self.uncited(), ["same"])


class Here(unittest.TestCase):
    """This clone."""

    def test_nothing_stands_twice_and_each_lemma_is_cited(self) -> None:
        pages = Pages(Path(__file__).resolve().parent.parent.parent)
        self.assertEqual([*uncited(pages), *twice(pages)], [])


if __name__ == "__main__":
    unittest.main()
