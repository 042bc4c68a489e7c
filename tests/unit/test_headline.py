"""The maker of docs/HEADLINE.md: what the headline reaches, and in which order it is shown."""

import unittest

from dev.reference import headline
from unit.common import InFolder
from vmatools.running.program import TOP

RUN = """ghost use Rattle.std.specs.Prelude.{ℕ};
ghost use Rattle.vma_replay.specs.Giving.{GivesAll};

/// Replays.
pub fn replay(words: &[String]) -> Replayed
    ensures output { GivesAll words.now result.text }
{
}
"""
GIVING = """-- What is given.
use Rattle.std.specs.Prelude.{ℕ}
use Rattle.farm.specs.Flocks.{IsFlock, step}
use Rattle.farm.specs.declared.flock.Kind.TheVariants as kinds

-- nothing that the headline names
abbrev pub unused : ℕ → ℕ
unused number = number

-- the text of a flock
abbrev pub GivesAll : ℕ → ℕ → Type 0
GivesAll words text = IsFlock words × GivesRuns text

-- what runs give
abbrev pub GivesRuns : ℕ → Type 0
GivesRuns step = (step ≡ 0) × IsKind kinds.Sheep

-- of this kind
abbrev pub IsKind : Kind → Type 0
IsKind kind = kind ≡ kind
"""
FLOCKS = """-- Flocks.

-- a flock of so many
pub record IsFlock (sheep : ℕ) : Type 0 where
  pub step : 0 < sheep

-- one more
unfoldable pub step : ℕ → ℕ
step sheep = sheep + 1
"""
FLOCK = """//! Flocks.

/// A kind of animal. There is one.
pub enum Kind {
    Sheep,
}
"""


class Toy(InFolder):
    def setUp(self) -> None:
        super().setUp()
        for name, text in (
            ("vma_replay/src/lib.rt", "//! Replays.\n\npub use run::replay;\n"),
            ("vma_replay/src/run.rt", RUN),
            ("vma_replay/specs/Giving.antt", GIVING),
            ("farm/specs/Flocks.antt", FLOCKS),
            ("farm/src/flock.rt", FLOCK),
        ):
            self.put(f"crates/{name}", text)

    def test_what_is_named_is_reached_and_nothing_else(self) -> None:
        nodes, code = headline.reached(self.top)
        self.assertEqual({node.place.name for node in nodes}, {"GivesAll", "IsFlock", "GivesRuns", "IsKind"})
        self.assertEqual([place.name for place in code], ["Kind"])

    def test_a_variable_or_a_field_hides_a_definition_of_its_name(self) -> None:
        self.assertNotIn("step", {node.place.name for node in headline.reached(self.top)[0]})

    def test_parts_begin_at_their_roots(self) -> None:
        parts = headline.in_parts(headline.reached(self.top)[0], headline.clause(self.top).names)
        names = [[node.place.name for node in part] for part in parts[:2]]
        self.assertEqual(names, [["GivesAll", "IsFlock"], ["GivesRuns", "IsKind"]])

    def test_the_page_has_each_in_words_and_counted(self) -> None:
        made = headline.page(self.top)
        self.assertIn("It reaches **4 definitions of 8 lines**, and 1 types", made)
        self.assertIn("- [`IsFlock`](../crates/farm/specs/Flocks.antt#L4): a flock of so many", made)
        self.assertIn("- [`Kind`](../crates/farm/src/flock.rt#L4) of farm: A kind of animal.", made)

    def test_a_definition_without_words_is_named(self) -> None:
        self.put("crates/farm/specs/Flocks.antt", FLOCKS.replace("-- a flock of so many\n", ""))
        self.assertEqual(headline.without_words(self.top), ["crates/farm/specs/Flocks.antt:3: IsFlock has no comment"])

    def test_a_name_that_is_nowhere_is_an_error(self) -> None:
        self.put("crates/vma_replay/src/run.rt", RUN.replace("GivesAll", "GivesMore"))
        with self.assertRaisesRegex(ValueError, "vma_replay/specs/Giving.antt defines no GivesMore"):
            headline.reached(self.top)


class Whole(unittest.TestCase):
    def test_what_a_definition_names_stands_below_it_or_in_a_part_above(self) -> None:
        nodes, _ = headline.reached(TOP)
        parts = headline.in_parts(nodes, headline.clause(TOP).names)
        place_of = {}
        for number, part in enumerate(parts):
            shown = [node for file in headline.by_file(part) for node in file]
            place_of.update({node.place: (number, at) for at, node in enumerate(shown)})
        for node in nodes:
            own = place_of[node.place]
            for named in node.names:
                if not named.is_of_code:
                    self.assertTrue(place_of[named] > own or place_of[named][0] < own[0], f"{node.place.name}, {named.name}")
