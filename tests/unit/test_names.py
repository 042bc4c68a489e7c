"""Which public names of the definitions stand twice."""

import names

from unit.common import InFolder


class Names(InFolder):
    def test_a_name_that_stands_twice(self) -> None:
        self.put("crates/high/specs/Lines.antt", "pub mod Lines\nabbrev pub end_of : ℕ\nend_of = 1\n")
        record = "pub record end_of (a : ℕ) : Type 0 where\n  pub end : ℕ\n"
        self.put("crates/low/specs/Internal/Items.antt", f"{record}unfoldable pub end : ℕ\n")
        found = "`end_of` stands in high: Lines.antt, low: Internal/Items.antt"
        self.assertEqual(list(names.repeated(self.top)), [found])

    def test_private_names_and_fields_may_repeat(self) -> None:
        self.put("crates/high/specs/Lines.antt", "abbrev end : ℕ\npub record Line : Type 0 where\n  pub end : ℕ\n")
        self.put("crates/low/specs/Items.antt", "pub end : ℕ\n")
        self.assertEqual(list(names.repeated(self.top)), [])

    def test_the_kernel_has_names_of_the_profile_for_the_same(self) -> None:
        self.put("crates/area_rules/specs/Mmap.antt", "unfoldable pub mmap : ℕ\nabbrev pub step : ℕ\n")
        self.put("crates/linux_rules/specs/Mmap.antt", "unfoldable pub mmap : ℕ\nabbrev pub step : ℕ\n")
        self.assertEqual(list(names.repeated(self.top)), ["`step` stands in area_rules: Mmap.antt, linux_rules: Mmap.antt"])
        self.put("crates/low/specs/Calls.antt", "abbrev pub mmap : ℕ\n")
        self.assertEqual(len(list(names.repeated(self.top))), 2)

    def test_statements_of_versions_repeat(self) -> None:
        for version in ("6_1", "6_18_15"):
            self.put(f"crates/linux_rules/specs/Linux_{version}.antt", "pub hard_3 : Type 0\n")
        self.assertEqual(list(names.repeated(self.top)), [])

    def test_internal_is_the_crate_s_own(self) -> None:
        self.put("crates/low/proofs/Own.antt", "use Rattle.low.specs.Internal.Items.{end}\n")
        self.put("crates/low/src/lib.rt", "#[tactic(auto, unfolding(crate::specs::Internal::Items::end))]\n")
        self.assertEqual(list(names.trespasses(self.top)), [])
        self.put("crates/high/proofs/End.antt", "use Rattle.low.specs.Internal.Items.{end}\n")
        self.put("crates/high/src/lib.rt", "#[tactic(auto, unfolding(low::specs::Internal::Items::end))]\n")
        found = [f"crates/high/{path} cites Internal of low" for path in ("proofs/End.antt", "src/lib.rt")]
        self.assertEqual(list(names.trespasses(self.top)), found)

    def test_code_waits_where_it_is_known_to(self) -> None:
        self.put("crates/mm_state/src/spans.rt", "    // yield_now() is said here\n    thread::yield_now();\n")
        self.put("crates/mm_state/src/store.rt", "thread::yield_now();\nstd::thread::yield_now();\n")
        self.put("crates/mm_space/src/space.rt", "std::mem::forget(guard); ManuallyDrop::new(view);\n")
        self.put("crates/tree_tests/src/lib.rt", "thread::yield_now();\n")
        twice = "mm_state/src/store.rt has yield_now, yield_now, and not yield_now"
        kept = "mm_space/src/space.rt has forget, ManuallyDrop, and not nothing"
        self.assertEqual(list(names.waits(self.top)), [kept, twice])
