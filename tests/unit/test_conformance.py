"""The conformance suite: its cases are read, a run over one is judged, and what came of all is told in each form."""

import argparse
import contextlib
import io
import json
import os
import subprocess
import sys
import unittest
import xml.etree.ElementTree as ElementTree
from dataclasses import replace
from unittest import mock

from unit.common import InFolder, vma
from vmatools.commands import conform
from vmatools.comparing import conformance
from vmatools.comparing.conformance import Case, Verdict
from vmatools.console import Failure
from vmatools.linux.kernel import kernel_of
from vmatools.oracles import oracle_of
from vmatools.running.program import TOP, Ran
from vmatools.traces import read_trace

TRACE = "vmatrace 1\n# It maps a page: mmap(2).\n0 mmap 0 4096 PROT_READ MAP_PRIVATE|MAP_ANONYMOUS -1 0\n"
CASE = Case("mmap", "page", "It maps a page: mmap(2).", TRACE, ("a\nb\n",))


class Cases(InFolder):
    def setUp(self) -> None:
        super().setUp()
        self.put("mmap/page.trace", TRACE)
        self.put("mmap/page.out", "a\nb\n")

    def test_a_case_has_its_sentence_and_its_output(self) -> None:
        self.assertEqual(conformance.read_suite(self.top), [CASE])

    def test_cases_are_taken_by_group_and_by_name(self) -> None:
        self.assertEqual(len(conformance.read_suite(self.top, ["mmap"])), 1)
        self.assertEqual(len(conformance.read_suite(self.top, ["mmap/page"])), 1)

    def test_a_name_without_a_case_is_refused(self) -> None:
        for name, hint in (("brk", r"`tools/vma conform --list` has them"), ("mmap/pgae", r"did you mean mmap/page\?")):
            with self.assertRaisesRegex(Failure, f"^no case and no group has the name {name}; {hint}$"):
                conformance.read_suite(self.top, ["mmap", name])

    def test_as_linux_the_right_output_is_computed(self) -> None:
        (case,) = conformance.read_suite(self.top, oracle=oracle_of("linux-6.18"))
        self.assertEqual(case.right[0].splitlines()[:2], ["L3 t0 v1 = 0x7ffff7ffe000", "maps 1"])
        self.assertEqual(conformance.read_suite(self.top)[0].right, ("a\nb\n",))

    def test_what_is_not_modelled_is_left_out(self) -> None:
        self.put("mmap/page.trace", "vmatrace 1\n0 brk 0x100000\n")
        case = conformance.read_suite(self.top, oracle=oracle_of("linux-6.18"))[0]
        result = conformance.judged(case, Ran("x\n", None, ""))
        self.assertIs(result.verdict, Verdict.LEFT_OUT)
        self.assertIn("line 2: every process has a break", result.why)

    def test_with_threads_each_legal_output_is_right(self) -> None:
        self.put("mmap/page.legal", "a\nb\n==\nb\na\n")
        self.assertEqual(conformance.read_suite(self.top)[0].right, ("a\nb\n", "b\na\n"))

    def test_what_a_kernel_was_recorded_to_answer_is_right_for_it(self) -> None:
        """And for no other version, and for no other settings."""
        self.put("mmap/page.legal", "a\nb\n==\nb\na\n")
        self.put("mmap/page.linux", f"# a-row of docs/KERNEL.md\n# {kernel_of('6.18').words()}\nc\n")
        self.assertEqual(conformance.read_suite(self.top)[0].right, ("a\nb\n", "b\na\n"))
        for name, is_recorded in (("linux-6.18", True), ("linux-6.12", False), ("linux-6.18,keys=0", False)):
            right = "c\n" if is_recorded else oracle_of(name).output(read_trace(TRACE.encode()))
            self.assertEqual(conformance.read_suite(self.top, oracle=oracle_of(name))[0].right, (right,))

    def test_a_record_that_is_none_is_named(self) -> None:
        self.put("mmap/page.linux", "c\n")
        with self.assertRaisesRegex(Failure, "page.linux: part 1 begins with no `# ROW of docs/KERNEL.md`"):
            conformance.read_suite(self.top, oracle=oracle_of("linux-6.18"))


class Judging(unittest.TestCase):
    def verdict(self, output: str, fault: str | None = None) -> Verdict:
        return conformance.judged(CASE, Ran(output, fault, "")).verdict

    def test_what_is_right_passes(self) -> None:
        self.assertIs(self.verdict("a\nb\n"), Verdict.PASSED)

    def test_what_is_not_fails_at_its_first_line(self) -> None:
        result = conformance.judged(CASE, Ran("a\nc\n", None, ""))
        self.assertEqual((result.verdict, result.line, result.found, result.wanted), (Verdict.FAILED, 2, "c", "b"))

    def test_what_is_missing_fails_behind_its_last_line(self) -> None:
        self.assertEqual(conformance.judged(CASE, Ran("a\n", None, "")).found, "(nothing)")

    def test_a_crash_and_a_hang_are_told_apart(self) -> None:
        self.assertIs(self.verdict("", "ends by signal SIGSEGV"), Verdict.CRASHED)
        self.assertIs(self.verdict("", "does not end"), Verdict.HUNG)

    def test_what_the_adapter_cannot_run_is_left_out(self) -> None:
        self.assertIs(self.verdict("", "ends with status 4"), Verdict.LEFT_OUT)


class Forms(unittest.TestCase):
    def setUp(self) -> None:
        self.results = [conformance.judged(CASE, Ran(output, None, "")) for output in ("a\nb\n", "x\x01\n")]

    def test_the_table_counts_by_group(self) -> None:
        self.assertEqual(
            [line.split() for line in conformance.table(self.results)][1], ["mmap", "2", "1", "1", "0", "0", "0"]
        )

    def test_tap(self) -> None:
        lines = list(conformance.as_tap(self.results))
        self.assertEqual(lines[1:4], ["1..2", "ok 1 - mmap/page", "not ok 2 - mmap/page"])

    def test_what_is_left_out_has_its_reason(self) -> None:
        one, two = (
            conformance.judged(CASE, Ran("", conformance.CANNOT_RUN, f"line {n}: it leaves the window")) for n in (3, 4)
        )
        self.assertEqual(conformance.left_out([one, two, *self.results]), ["left out: 2: it leaves the window"])
        self.assertIn("ok 1 - mmap/page # SKIP line 3: it leaves the window", conformance.as_tap([one]))
        self.assertIn('<skipped message="line 3: it leaves the window" />', "".join(conformance.as_junit([one])))

    def test_what_hangs_on_a_busy_machine_may_be_slow_alone(self) -> None:
        given = argparse.Namespace(oracle=None, seconds=10, batch=True, system=None, live=None, command=["x"])
        for load, told in ((100.4, "1 case hung, and this machine is busy (load average 100, processors: 4)"), (3.9, "")):
            with (
                mock.patch.multiple(os, getloadavg=lambda: (load, 0.0, 0.0), cpu_count=lambda: 4),
                contextlib.redirect_stdout(io.StringIO()),
                contextlib.redirect_stderr(io.StringIO()) as said,
            ):
                conform.report([conformance.judged(CASE, Ran("", "does not end", "")), *self.results], given)
            self.assertIn(told, said.getvalue())
            self.assertEqual("busy" in said.getvalue(), bool(told))

    def test_json_has_a_line_a_case(self) -> None:
        self.assertEqual(
            [json.loads(line)["verdict"] for line in conformance.as_json(self.results)], ["passed", "failed"]
        )

    def test_junit_is_xml_whatever_a_system_writes(self) -> None:
        root = ElementTree.fromstring("".join(conformance.as_junit(self.results)))
        self.assertEqual((root.get("tests"), root.get("failures")), ("2", "1"))


class Systems(unittest.TestCase):
    """A system that doesn't run at all, and the tools' own adapter."""

    def test_where_it_does_not_begin_no_case_is_judged(self) -> None:
        adapter = "while read w n s; do [ $w = end ] && echo end $n 5 no such system; done"
        done = vma("conform", "--only", "munmap/whole", "--only", "munmap/again", "--batch", "--", "sh", "-c", adapter)
        self.assertEqual((done.returncode, done.stdout, done.stderr), (2, "", "vma conform: no such system\n"))

    def test_where_it_runs_no_case_nothing_has_passed(self) -> None:
        adapter = "while read w n s; do [ $w = end ] && echo end $n 4 not here; done"
        done = vma("conform", "--only", "munmap/whole", "--only", "munmap/again", "--batch", "--", "sh", "-c", adapter)
        self.assertEqual((done.returncode, done.stderr), (2, "vma conform: the system ran none of the cases\n"))
        self.assertIn("left out: 2: not here\n", done.stdout)

    def test_a_place_that_is_searched_is_no_case_for_a_window(self) -> None:
        for right, line in (("L3 t0 v1 = 0x7ffff7ffe000\nmaps 0\n", 3), ("L3 t0 v1 = -1 ENOMEM\nmaps 0\n", None)):
            self.assertEqual(conform.searched_place(replace(CASE, right=(right,))), line)


def conform_options(*words: str) -> argparse.Namespace:
    parser = argparse.ArgumentParser()
    conform.add_arguments(parser)
    return parser.parse_args(words)


class Reports(InFolder):
    """What a user reads of the cases that aren't as they should be."""

    def conform(self, answers: str, *only: str) -> subprocess.CompletedProcess[str]:
        """Cases on an adapter that writes these answers, whatever it is asked."""
        words = [word for name in only for word in ("--only", name)]
        return vma("conform", *words, "--", str(self.put_program("adapter", f"{answers}\n")))

    def test_a_failed_case_has_its_trace_both_answers_and_its_command(self) -> None:
        done = self.conform("echo 'L3 t0 v1 = -1 EINVAL'", "munmap/again")
        case = conformance.read_suite(names=["munmap/again"])[0]
        shown = "\n".join(f"    {line}" for line in case.trace.splitlines())
        right = case.right[0].splitlines()[0]
        self.assertIn(f"failed: munmap/again: {case.says}\n  the trace:\n{shown}\n", done.stdout)
        self.assertIn(f"  right:\n    {right}\n  yours:\n    L3 t0 v1 = -1 EINVAL\n  again: ", done.stdout)
        self.assertRegex(done.stdout, "  again: .*vma conform --only munmap/again -- .*/adapter\n")

    def test_a_call_that_is_not_there_is_told_once(self) -> None:
        answers = "n=0; while read t w r; do n=$((n+1)); case $t in 0) echo \"L$n t0 v1 = -1 ENOSYS\";; esac; done"
        done = self.conform(answers, "munmap/again", "munmap/whole")
        self.assertEqual(done.returncode, 1)
        self.assertEqual(done.stdout.count("failed: mmap: not there, as each answer is -1 ENOSYS: 2 cases"), 1)
        self.assertNotIn("munmap/again", done.stdout)

    def test_an_adapter_that_writes_nothing_is_told_so_once(self) -> None:
        done = self.conform("cat > /dev/null")
        self.assertEqual((done.returncode, done.stdout), (1, ""))
        self.assertRegex(done.stderr, "^vma conform: COMMAND writes nothing, not even the list at the end: .*\n$")

    def test_what_ends_a_run_is_the_error_of_each_case_that_was_not_run(self) -> None:
        refuses = "while read w n s; do [ $w = end ] && echo end $n 5 no such system; done"
        for words, status, why in (
            (["--", "sh", "-c", "cat > /dev/null"], 1, "COMMAND writes nothing"),
            (["--batch", "--", "sh", "-c", "exit 3"], 2, "the adapter ends with status 3"),
            (["--batch", "--", "sh", "-c", refuses], 2, "no such system"),
        ):
            path = self.put("report.xml", "an older one")
            only = ("--only", "munmap/again", "--only", "munmap/whole")
            done = vma("conform", *only, "--junit", str(path), "--tap", f"{self.top}/tap", *words)
            self.assertEqual((done.returncode, done.stdout), (status, ""))
            self.assertIn(why, done.stderr)
            root = ElementTree.fromstring(path.read_text(encoding="utf-8").split("\n", 1)[1])
            self.assertEqual([root.get(name) for name in ("tests", "errors", "failures")], ["2", "2", "0"])
            errors = {case.get("name"): case[0].get("message") or "" for case in root}
            self.assertEqual(sorted(errors), ["again", "whole"])
            self.assertTrue(all(message.startswith(f"not run: {why}") for message in errors.values()), errors)
            self.assertEqual((self.top / "tap").read_text(encoding="utf-8").count("\nnot ok "), 2)

    def test_a_report_that_is_not_written_is_not_there(self) -> None:
        with mock.patch.object(conform, "run_all", side_effect=ValueError), self.assertRaises(ValueError):
            conform.run(conform_options("--junit", f"{self.top}/report.xml", "--", "true"))
        self.assertEqual(list(self.top.iterdir()), [])

    def test_what_counts_most_stands_first(self) -> None:
        def result(output: str, fault: str | None = None) -> conformance.Result:
            return conformance.judged(replace(CASE, trace=trace, right=("L2 t0 v1 = 0x1000\nmaps 0\n",)), Ran(output, fault, ""))

        trace = "vmatrace 1\n0 mmap 0x1000 4096 PROT_READ MAP_PRIVATE|MAP_ANONYMOUS -1 0\n"
        place, reply = result("L2 t0 v1 = 0x2000\nmaps 0\n"), result("L2 t0 v1 = -1 EINVAL\nmaps 0\n")
        mapped = result("L2 t0 v1 = 0x1000\nmaps 1\n00001000-00002000 r--p 00000000 00:00 0 \n")
        crash, hang = result("", "ends by signal SIGSEGV"), result("", "does not end")
        shown = conformance.wrong_ones([place, reply, mapped, crash, hang])
        self.assertEqual(shown, [hang, crash, mapped, reply, place])


class PageTable(unittest.TestCase):
    def test_lengths_that_no_dictionary_holds_are_refused_at_once(self) -> None:
        for length in (1 << 47, 0x7FFFFFFEF000, (1 << 63) - 4096, 1 << 63):
            for flags in ("MAP_PRIVATE|MAP_ANONYMOUS", "MAP_PRIVATE|MAP_ANONYMOUS|MAP_FIXED"):
                lines = [f"0 mmap 0x10000 {length} PROT_READ {flags} -1 0", f"0 mprotect 0x10000 {length} PROT_READ"]
                trace = "\n".join(["vmatrace 1", *lines, f"0 munmap 0x10000 {length}", ""])
                done = subprocess.run(
                    [sys.executable, str(TOP / "examples/page-table")], input=trace, capture_output=True, text=True, timeout=60
                )
                self.assertTrue(done.stdout.startswith("L2 t0 v1 = -1 ENOMEM\nL3 t0 v2 = -1 ENOMEM\n"), done.stdout)
