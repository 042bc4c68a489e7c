"""The maker of the reference: what it reads of a source, and what it writes of it."""

from dev.reference import definitions, pages, sources
from unit.common import InFolder

LIB = """//! Counts sheep.
//! Slowly.
#![tactic(auto)]

mod flock;

pub use flock::{Flock, count};
"""
FLOCK = """//! A flock.
ghost use Rattle.std.specs.Prelude.{length};

/// Sheep, by their names.
#[derive(Drop)]
pub struct Flock {
    /// Who leads.
    pub leader: u32,
    names: Vec<u32>,
}

impl Model for Flock {
    ghost Value = { List ℕ };
}

impl Flock {
    /// Adds one.
    pub fn add(&mut self, name: u32) -> Result<(), NoMemory>
        requires room { length self.old < 9 }
        // it comes last
        ensures added { IfOk result (λ _.
            self.new ≡ self.old ++ [ name ]) }
    {
        self.names.push(name)
    }

    fn hidden(&self) {}
}

/// How many there are.
pub fn count(flock: &Flock) -> u64
    ensures { result ≡ length flock.now }
{
    flock.names.len()
}

pub fn not_handed_out() -> u64 {
    0
}
"""
SPECS = """-- What a flock is.
use Rattle.std.specs.Prelude.{ℕ}

-- as many as there are
abbrev pub many : ℕ → ℕ
many sheep = sheep

pub record IsFlock (sheep : ℕ) : Type 0 where
  pub some : 0 < sheep
"""


class Reading(InFolder):
    def setUp(self) -> None:
        super().setUp()
        self.put("crates.txt", "# farm\nsheep: arrayvec\n")
        self.put("crates/sheep/src/lib.rt", LIB)
        self.put("crates/sheep/src/flock.rt", FLOCK)
        self.put("crates/sheep/specs/Flocks.antt", SPECS)
        self.put("crates/sheep/must-fail/one_sheep_is_lost.edit", "file: src/flock.rt\n")

    def test_items_are_those_that_the_crate_hands_out(self) -> None:
        docs, items = sources.read_items(self.top / "crates/sheep")
        self.assertEqual(docs, "Counts sheep.\nSlowly.")
        self.assertEqual([item.name for item in items], ["Flock", "Flock::add", "count"])

    def test_a_type_shows_its_public_fields_and_its_model(self) -> None:
        flock = sources.read_items(self.top / "crates/sheep")[1][0]
        self.assertEqual(flock.docs, "Sheep, by their names.")
        self.assertEqual(flock.seen_as, "List ℕ")
        self.assertIn("pub leader: u32,", flock.declaration)
        self.assertNotIn("names", flock.declaration)

    def test_clauses_have_their_name_text_and_note(self) -> None:
        add = sources.read_items(self.top / "crates/sheep")[1][1]
        self.assertEqual(add.declaration, "pub fn add(&mut self, name: u32) -> Result<(), NoMemory>")
        self.assertEqual(
            [(clause.kind, clause.name, clause.note) for clause in add.clauses],
            [("requires", "room", ""), ("ensures", "added", "it comes last")],
        )
        self.assertEqual(add.clauses[1].text, "IfOk result (λ _.\n    self.new ≡ self.old ++ [ name ])")

    def test_definitions_have_the_comment_above_them(self) -> None:
        topic = definitions.read_topics(self.top / "crates/sheep")[0]
        self.assertEqual(topic.comment, "What a flock is.")
        self.assertEqual(
            [(each.name, each.comment) for each in topic.definitions],
            [("many", "as many as there are"), ("IsFlock", "")],
        )
        self.assertEqual(topic.definitions[0].text, "abbrev pub many : ℕ → ℕ\nmany sheep = sheep")

    def test_a_page_links_to_the_lines(self) -> None:
        made = pages.pages(self.top, self.top / "made/reference")
        self.assertIn("[src/flock.rt:18](../../crates/sheep/src/flock.rt#L18)", made["sheep.md"])
        self.assertIn("[one sheep is lost](../../crates/sheep/must-fail/one_sheep_is_lost.edit)", made["sheep.md"])
        self.assertIn("- [sheep](sheep.md): Counts sheep.", made["README.md"])
        self.assertIn("## Farm", made["README.md"])
        self.assertIn("](../docs/PROOF.md#", pages.pages(self.top, self.top / "made")["README.md"])

    def test_what_has_no_comment_is_listed(self) -> None:
        self.assertEqual(pages.faults(self.top), ["crates/sheep/specs/Flocks.antt:8: IsFlock has no comment"])
        self.put("crates.txt", f"# {pages.TESTS}\nsheep: arrayvec\n")
        self.assertEqual(pages.faults(self.top), [])
