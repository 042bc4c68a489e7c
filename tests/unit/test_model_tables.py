"""The check of the documents' tables: what it reads of a page and of the sources."""

import shutil
from pathlib import Path

import model_tables

from dev.reference import call_tables
from unit.common import InFolder
from vmatools.running.program import TOP


class Tables(InFolder):
    def setUp(self) -> None:
        super().setUp()
        (self.top / "docs").mkdir()
        for page in (call_tables.PAGE, model_tables.FLAGS):
            shutil.copy(TOP / page, self.top / page)
        for part in ("mm_types/src", "area_rules/src", "area_rules/specs"):
            shutil.copytree(TOP / "crates" / part, self.top / "crates" / part)

    def faults_after(self, path: Path, old: str, new: str) -> list[str]:
        text = (self.top / path).read_text(encoding="utf-8")
        self.assertEqual(text.count(old), 1)
        (self.top / path).write_text(text.replace(old, new), encoding="utf-8")
        return list(model_tables.faults(self.top))

    def test_the_tables_are_those_of_the_sources(self) -> None:
        self.assertEqual(list(model_tables.faults(self.top)), [])

    def test_another_table_is_found(self) -> None:
        found = self.faults_after(call_tables.PAGE, "| `lacks_file` | EBADF |", "| `lacks_file` | EINVAL |")
        self.assertEqual(len(found), 1)
        self.assertIn("the tables of the calls are not what the sources say now: run dev/model-tables", found[0])

    def test_another_answer_of_the_definition_is_found(self) -> None:
        rows = "(nat_eq len 0, Einval)\n    ∷ (nat_lt config.limit"
        found = self.faults_after(call_tables.RULES / "Munmap.antt", rows, rows.replace("Einval", "Enomem"))
        self.assertEqual(len(found), 1)
        self.assertIn("| 2 | empty length | `len = 0` | ENOMEM |", call_tables.table("munmap", self.top))

    def test_a_comment_that_names_another_number_of_rows_is_found(self) -> None:
        found = self.faults_after(call_tables.RULES / "Munmap.antt", "not aligned, empty length, past", "not aligned, past")
        self.assertIn("the comment of munmap_rows doesn't name its 4 rows", found[0])

    def test_a_definition_that_is_gone_is_named(self) -> None:
        found = self.faults_after(call_tables.RULES / "Munmap.antt", "munmap_seal_rows : List", "munmap_other_rows : List")
        self.assertEqual(found, ["docs/MODEL.md: dev/model-tables makes no tables: 'munmap_seal_rows'"])

    def test_a_page_without_the_marks_is_found(self) -> None:
        found = self.faults_after(call_tables.PAGE, "<!-- end of brk -->", "")
        self.assertIn("has not the two marks of brk", found[0])

    def test_rows_of_other_definitions_stand_at_their_places(self) -> None:
        lines = call_tables.table("mremap", self.top)
        row = "| 10 | old range: its first page is not mapped | `is_none (area_at (page_of old))` | EFAULT |"
        self.assertEqual(lines[11], row)
        self.assertIn("| 13 | no place or no MREMAP_MAYMOVE | `mremap_changed` | ENOMEM |", lines)

    def test_tests_have_signs_for_comparisons(self) -> None:
        self.assertEqual(
            call_tables.shown("nat_lt (pages_of addr) (pages_of brk) && (has_sealed (x) || nat_eq heap 0)"),
            "pages_of addr < pages_of brk and (has_sealed x or heap = 0)",
        )

    def test_another_number_is_found(self) -> None:
        found = self.faults_after(call_tables.PAGE, "| `MOST_AREAS` | 65,530 |", "| `MOST_AREAS` | 65,536 |")
        self.assertEqual(found, ["docs/MODEL.md or docs/TRACE.md: MOST_AREAS is 65530 and not 65,536"])

    def test_another_flag_is_found(self) -> None:
        found = self.faults_after(model_tables.FLAGS, "`MAP_STACK` 0x20000", "`MAP_STACK` 0x2000")
        self.assertEqual(found, ["docs/MODEL.md or docs/TRACE.md: MAP_STACK is 0x2_0000 and not 0x2000"])
