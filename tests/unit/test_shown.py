"""What the check of tests/shown.txt finds."""

import shown

from unit.common import InFolder

LIBRARY = """
pub use one::{first, Holder};
"""
SOURCE = """
/// Says `pub fn commented() -> Result<u8, NoMemory>`.
pub enum Refused {
    Full,
    NoMemory,
}

pub fn first<T>(alloc: Global) -> Result<T, NoMemory>
    requires { true }
{
}

pub fn hidden() -> Result<u8, NoMemory> {
}

impl<'a, T: Named<N>> Holder<'a, T> {
    pub(crate) fn inner(&self) -> Result<u8, NoMemory> {
    }

    pub fn second(&self) -> Result<(), Refused> {
    }

    pub fn third(&self) -> Result<u8, Other> {
    }
}

#[test]
fn tried(rt: HostRuntime) {
}
"""
TABLE = """# a comment

An edit is refused | edit | low/breaks
A row | row | the row
A case | case | calls/mmap
`low::first` and `low::Holder::second` | test | low::tried
A program | program | rows
"""


class Table(InFolder):
    def setUp(self) -> None:
        super().setUp()
        self.put("crates/low/src/lib.rt", LIBRARY)
        self.put("crates/low/src/one.rt", SOURCE)
        self.put("crates/low/must-fail/breaks.edit", "")
        self.put("crates/rows/stdin", "row the row\nrun: serial\n\nrow another row\nrun: serial\n")
        self.put("crates/rows/stdout", "")
        self.put("suite/calls/mmap.trace", "")
        self.put("tests/shown.txt", TABLE)

    def refused(self, what: str) -> None:
        with self.assertRaisesRegex(shown.Wrong, what):
            shown.check(self.top)

    def test_what_is_there_passes(self) -> None:
        self.assertEqual(shown.check(self.top), [])

    def test_what_nothing_shows_is_handed_back(self) -> None:
        self.put("tests/shown.txt", TABLE.replace("and `low::Holder::second`", "") + "`low::Holder::second` | none | no test\n")
        self.assertEqual(shown.check(self.top), [shown.Line(8, "`low::Holder::second`", "none", "no test")])

    def test_what_is_gone_is_named(self) -> None:
        for name, line, kind in (
            ("edit | low/breaks", 3, "edit low/other"),
            ("row | the row", 4, "row other"),
            ("case | calls/mmap", 5, "case calls/other"),
            ("test | low::tried", 6, "test low::other"),
            ("program | rows", 7, "program other"),
        ):
            self.put("tests/shown.txt", TABLE.replace(name, kind.replace(" ", " | ")))
            self.refused(f"line {line}: there is no {kind}")

    def test_a_call_that_nothing_makes_is_named(self) -> None:
        self.put("tests/shown.txt", TABLE.replace(" and `low::Holder::second`", ""))
        self.refused("no line is about low::Holder::second")

    def test_a_call_that_is_gone_is_named(self) -> None:
        self.put("tests/shown.txt", TABLE.replace("`low::first`", "`low::first` and `low::fourth`"))
        self.refused("there is no low::fourth")

    def test_only_public_calls_that_can_find_no_memory(self) -> None:
        self.assertEqual(shown.calls(self.top), {"low::first", "low::Holder::second"})

    def test_lines_of_another_form(self) -> None:
        for line in ("A promise | row", "A promise | row | ", "A promise | row | the row | more"):
            self.put("tests/shown.txt", f"{line}\n")
            self.refused("line 1 has not the form PROMISE")
        self.put("tests/shown.txt", "A promise | proof | the row\n")
        self.refused("line 1: 'proof' is none of edit, row, case, test, program, none")

    def test_rows_of_one_name(self) -> None:
        self.put("crates/rows/stdin", "row the row\nrow the row\n")
        self.refused("two rows of crates/rows/stdin have the name 'the row'")
