"""Tests of dev/linux_rules: terms of recorded traces, the rules of versions, resolved switches, and the evaluation."""

import unittest
from dataclasses import replace
from typing import Any

from dev.linux_rules import choosing, evaluating, plant, planted, planting, recordings, resolving, statements, terms, versions
from dev.linux_rules.planted import PLANTED
from unit.common import InFolder
from vmatools.linux.kernel import Settings
from vmatools.running.program import TOP
from vmatools.traces import read_trace

TRACE = b"""vmatrace 1
heap 0x200000
file 3 r 8192 8:1 77 /lib/demo
0 mmap 0x100000 4096 PROT_READ MAP_PRIVATE|MAP_FIXED 3 0
0 maps
0 fault 0x100000 w
0 fork 1
1 munmap 0x100000 4096
"""
OUTPUT = """L4 t0 v1 = 0x100000
L5 t0 v1 = maps 1
00100000-00101000 r--p 00000000 08:01 77                                 /lib/demo
L6 t0 v1 = SIGSEGV SEGV_ACCERR
L7 t0 v1 = child 1 areas 1
maps 1
00100000-00101000 r--p 00000000 08:01 77                                 /lib/demo
child 1 of L7 v1
L8 t1 v1 = 0
maps 0
"""
RULES = {"replaces_last": True, "merges_unfaulted": False, "has_mseal": False}


class TestTerms(unittest.TestCase):
    def test_operations_and_answers(self) -> None:
        self.assertEqual(terms.answer("-1 EPERM"), "Err 1")
        self.assertEqual(terms.answer("-1 E4095"), "Err 4095")
        self.assertEqual(terms.answer("0x1000"), "Ok (Returned 4096)")
        self.assertEqual(terms.answer("served 00100000-00102000 r-xs page 3"), "Ok (Serves 256 258 rx true 3)")
        self.assertEqual(terms.answer("SIGSEGV SI_KERNEL"), "Ok (Signal NotCanonical)")
        with self.assertRaises(terms.Unsayable):
            terms.answer("hung")

    def test_a_list_belongs_to_the_step_before_it(self) -> None:
        trace = read_trace(TRACE)
        steps = recordings.steps_of(trace, OUTPUT)
        self.assertEqual([step.place for step in steps], [0, 0, 0, 1])
        self.assertEqual([len(step.maps) if step.maps is not None else None for step in steps], [1, None, 1, 0])
        mapped = "Map 1048576 4096 r 18 (pos 3) 0"
        self.assertEqual(
            steps[0].term(trace),
            f"kernel_step 0 ({mapped}) (Ok (Returned 1048576)) (Some (filed 256 257 r false 0 1 ∷ []))",
        )
        self.assertEqual(steps[2].term(trace).split(" (Some")[0], "kernel_step 0 (Fork 1) (Ok (Returned 0))")

    def test_a_line_that_names_no_file_is_no_term(self) -> None:
        with self.assertRaises(terms.Unsayable):
            terms.maps_line(read_trace(TRACE), "00100000-00101000 r--p 00000000 08:01 78   /lib/other")


class TestModules(InFolder):
    def test_what_is_made_has_its_line(self) -> None:
        made = ("pub mod Sides\npub mod Rows1\npub mod Rows3\npub mod Faulting\n", "mod Rows1\nmod Rows3\n")
        for text, wanted in (
            ("pub mod Sides\npub mod Rows1\npub mod Rows2\npub mod Faulting\n", made[0]),
            ("pub mod Sides\npub mod Faulting\n", "pub mod Sides\npub mod Faulting\npub mod Rows1\npub mod Rows3\n"),
        ):
            self.assertEqual(statements.modules(self.put("specs/Lib.antt", text), ["Rows1", "Rows3"]), wanted)
        self.assertEqual(statements.modules(self.put("proofs/Lib.antt", "mod Rows1\n"), ["Rows1", "Rows3"]), made[1])


class TestVersions(unittest.TestCase):
    def test_the_definitions_have_the_table(self) -> None:
        self.assertEqual(versions.compare(TOP), [])

    def test_each_kind_of_difference_is_named(self) -> None:
        text = "linux_6_1 = record { a = true; b = false }\nlinux_6_12 = record linux_6_1 { b = true }\nlinux_9_9 = linux_6_1\n"
        wanted = {"6.1.192": {"a": True, "b": True}, "6.12.117": {"a": True, "b": True}, "7.2.12": {"a": True}}
        found = [line.split("antt: ")[1] for line in versions.differences(text, wanted)]
        table = versions.TABLE
        self.assertEqual(
            found,
            [
                f"linux_9_9 is no column of {table}",
                f"linux_6_1 has b = False; {table} has True for 6.1.192",
                f"there is no linux_7_2, for the column 7.2.12 of {table}",
            ],
        )


class TestResolving(unittest.TestCase):
    def same(self, text: str, wanted: str) -> None:
        self.assertEqual(resolving.resolved(text, RULES), wanted)

    def test_a_choice_is_its_branch(self) -> None:
        self.same("f a b = if kernel.rules.replaces_last then a else g b", "f a b = a")
        self.same("f a b = if rules.merges_unfaulted then a\n    else g b", "f a b = g b")
        self.same("f a = h (if kernel.rules.replaces_last then a - 1 else a) b", "f a = h (a - 1) b")
        self.same("f = if g then kernel.rules.replaces_last else c", "f = if g then true else c")

    def test_operands_go_or_decide(self) -> None:
        self.same("f a b = a && (kernel.rules.replaces_last && g b)", "f a b = a && (g b)")
        self.same("f a b = a && (b || not (kernel.rules.merges_unfaulted && c))", "f a b = a")
        self.same("  x = a && rules.merges_unfaulted;", "  x = false;")

    def test_a_step_that_does_nothing_goes(self) -> None:
        text = "f = do\n  if kernel.rules.replaces_last then done tt else remove gone\n  g"
        self.same(text, "f = do\n  g")
        self.same("f = do\n  refuse_if (not kernel.rules.has_mseal) E\n  g", "f = do\n  refuse E")


class TestEvaluating(unittest.TestCase):
    def test_equations_choices_and_lists(self) -> None:
        names: dict[str, Any] = {"Function": evaluating.Function, "bound": evaluating.bound, **evaluating.native()}
        text = "sizes [] = 0\nsizes (x ∷ xs) = let y = x + 1 in if nat_lt y 3 then y else y + sizes xs\n"
        exec(evaluating.python_of(text), names)
        self.assertEqual(names["v_sizes"]((5, 1, 9)), 8)

    def test_an_error_ends_a_do_and_keeps_what_was_done(self) -> None:
        definitions = evaluating.Definitions(TOP)
        settings = Settings()
        recording = recordings.Recording("r", "6.18.44", settings, read_trace(TRACE), OUTPUT)
        self.assertFalse(planting.is_noticed(definitions, recording))
        wrong = recording.output.replace("maps 0", "maps 1\n00100000-00101000 r--p 00000000 08:01 77 /lib/demo")
        self.assertTrue(planting.is_noticed(definitions, replace(recording, output=wrong)))

    def test_each_planted_rule_is_in_the_definitions_once(self) -> None:
        for rule in PLANTED:
            with self.subTest(rule.rule):
                self.assertEqual(len(planting.changed(TOP, rule)), 1)


class TestChoosing(unittest.TestCase):
    def test_what_few_tell_counts_most(self) -> None:
        told: dict[str, set[object]] = {f"same-{number}": {"a", "b"} for number in range(50)}
        told["other"] = {"c"}
        self.assertIn("other", choosing.best(told))
        self.assertEqual(len(choosing.best(told)), choosing.MOST)

    def test_each_rule_that_is_noticed_has_a_trace(self) -> None:
        rules: dict[str, list[str]] = {"one": ["short", "long"], "two": ["b"], "three": []}
        self.assertEqual(choosing.completed(["a", "b"], rules), ["a", "b", "short"])


class TestPlanted(unittest.TestCase):
    planted = planted.read("== Mmap 6.18.44: a rule\n- old\n+ new\n= no list has it\n")[0]

    def test_a_rule_says_why_it_changes_nothing(self) -> None:
        self.assertEqual(self.planted, planted.Planted("a rule", "Mmap", "old", "new", "6.18.44", "no list has it"))
        self.assertIn("a rule: changes nothing: no list has it", plant.said(self.planted, [], []))

    def test_the_shortest_that_notices_is_named(self) -> None:
        short = recordings.Recording("short", "6.18.44", Settings(), read_trace(TRACE), OUTPUT)
        long = replace(short, name="long", trace=read_trace(TRACE + b"0 brk 0\n"))
        self.assertIn("1 traces  1 rows", plant.said(self.planted, [long], [short]))
        self.assertTrue(plant.said(self.planted, [long], [short]).endswith("a rule: short"))
        self.assertTrue(plant.said(self.planted._replace(reason=""), [], []).endswith("a rule: nothing notices it"))
