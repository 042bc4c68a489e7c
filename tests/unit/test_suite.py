"""The conformance suite's own checks: what is wrong with cases is told, and what is missing where cases are taken away."""

import inspect
import subprocess
import sys
import unittest
from unittest import mock

import suite as check
from models import cases, drawn, mutations
from unit.common import InFolder
from vmatools import model
from vmatools.comparing import conformance
from vmatools.console import Failure
from vmatools.linux import recorded
from vmatools.linux.kernel import Settings, kernel_of
from vmatools.linux.recorded import PART
from vmatools.profile import coverage
from vmatools.profile.serial import serial_output
from vmatools.running.program import TOP
from vmatools.traces import read_trace

TEXTS = {cases.where(path): path.read_text(encoding="utf-8") for path in conformance.SUITE.glob("*/*.trace")}
TRACES = {name: read_trace(text.encode()) for name, text in TEXTS.items()}
SAYS = "vmatrace 1\n# A page is cut out: munmap(2).\n"
ONE = SAYS + "0 munmap 0x10000 4096\n"


class Faults(unittest.TestCase):
    def faults(self, **texts: str) -> list[str]:
        return list(cases.faults_of(texts))

    def test_the_cases_have_none(self) -> None:
        self.assertEqual(list(cases.faults_of(TEXTS)), [])

    def test_a_sentence_that_goes_on_from_another_or_has_no_page(self) -> None:
        for says in ("# Nor here: munmap(2).", "# A page is cut out", "0 maps"):
            told = f"a: line 2, `{says}`, is no `# SENTENCE: PAGE.` that can be read alone"
            self.assertEqual(self.faults(a=f"vmatrace 1\n{says}\n"), [told])
        self.assertEqual(len(self.faults(a="")), 1)

    def test_a_sentence_twice(self) -> None:
        self.assertEqual(self.faults(a=ONE, b=SAYS + "0 maps\n"), ["b: says what a does"])

    def test_a_trace_twice(self) -> None:
        self.assertEqual(self.faults(a=ONE, b=ONE.replace("A page", "One page")), ["b: repeats a"])

    def test_too_many_lines(self) -> None:
        self.assertEqual(self.faults(a=SAYS + "0 maps\n" * 11), ["a: has 13 lines, and not 12 at most"])


class Beside(InFolder):
    """What has to be beside a trace."""

    def setUp(self) -> None:
        super().setUp()
        self.program = self.put_program("program", "wc -l\n")

    def test_the_output_and_each_legal_one(self) -> None:
        trace = self.put("threads/new.trace", SAYS + "0 brk 0\n1 brk 0\n")
        command = [sys.executable, str(TOP / "dev/suite-case"), "--program", str(self.program), str(trace)]
        done = subprocess.run(command, capture_output=True, text=True)
        self.assertEqual((done.returncode, done.stderr), (0, ""))
        self.assertEqual(trace.with_suffix(".out").read_text(), "4\n")
        legal = trace.with_suffix(".legal").read_text().split(PART)
        self.assertEqual(legal[0], serial_output(read_trace(trace.read_bytes())))
        self.assertEqual([text.splitlines()[0] for text in legal], ["L3 t0 v1 = 0x0", "L4 t1 v1 = 0x0"])
        done = subprocess.run(command, capture_output=True, text=True)
        self.assertEqual((done.returncode, done.stdout), (0, ""))  # nothing is new

    def test_a_bad_trace_and_a_program_that_fails(self) -> None:
        for text, told in (("vmatrace 1\n0 touch\n", "line 2 cause 3 Word"), (ONE, "the program ends with status 3")):
            trace, program = self.put("new.trace", text), self.put_program("program", "exit 3\n")
            with self.assertRaisesRegex(Failure, f"new.trace: {told}"):
                cases.beside(str(program), trace)


class AsLinux(InFolder):
    OLD, NEW = (f"# {kernel_of(version).words()}\n" for version in ("6.1", "6.18"))
    HEAD = "# brk-limit of docs/KERNEL.md\n"

    def check(self, text: str) -> list[str]:
        self.put("brk/a.out", "a\n")
        self.put("brk/a.linux", text)
        return [line.removeprefix(f"{self.top}/brk/") for line in check.check_linux(self.top)]

    def test_a_row_that_is_not_there_and_an_answer_that_is_the_programs(self) -> None:
        self.assertEqual(self.check(self.HEAD + self.OLD + "b\n"), [])
        told = "a.linux: no version answers otherwise than the program"
        self.assertEqual(self.check(self.HEAD + self.OLD + "a\n"), [told])
        told = "a.linux: each part has to name one row of docs/KERNEL.md, and has brk-other"
        self.assertEqual(self.check(self.HEAD.replace("limit", "other") + self.OLD + "b\n"), [told])

    def test_an_answer_without_version_and_settings(self) -> None:
        told = "a.linux: part 1 begins with no `# ROW of docs/KERNEL.md` and `# linux-VERSION SETTINGS`"
        for text in ("b\n", self.HEAD + "b\n", self.OLD + "b\n"):
            self.assertEqual(self.check(text), [told])
        for words, told in (("linux-6.1", "has not all settings"), ("linux-6.1.192 key=0", "key=0 is no setting")):
            self.assertIn(told, self.check(f"{self.HEAD}# {words}\nb\n")[0])

    def test_each_version_stands_once_and_the_newest_first(self) -> None:
        told = ["a.linux: is not as dev/suite-case writes it, each version once and the newest first"]
        new, old = self.HEAD + self.NEW + "b\n", self.HEAD + self.OLD + "c\n"
        self.assertEqual(self.check(new + PART + old), [])
        self.assertEqual(self.check(old + PART + new), told)
        self.assertEqual(self.check(new + PART + self.HEAD + self.OLD + self.NEW + "c\n"), told)

    def test_a_version_that_is_asked_again_gives_one_answer(self) -> None:
        old, new, other = kernel_of("6.1"), kernel_of("6.18"), kernel_of("6.18", Settings(keys=0))
        parts = recorded.with_answer(recorded.with_answer([], "a", old, "1\n"), "a", new, "1\n")
        self.assertEqual(parts, [recorded.Part("a", (old, new), "1\n")])
        parts = recorded.with_answer(parts, "a", other, "2\n")
        self.assertEqual(recorded.parts_of(recorded.written(parts)), parts[::-1])
        self.assertEqual([recorded.answer_of(parts, one) for one in (old, other, new)], ["1\n", "2\n", None])


class Missing(unittest.TestCase):
    """Each row, each boundary and each order needs its cases."""

    def test_a_row_that_one_case_alone_decides(self) -> None:
        row = "mremap/object-overflows"
        deciding = [trace for trace in TRACES.values() if row in coverage.rows_of(trace)]
        left = [trace for trace in TRACES.values() if trace not in deciding[1:]]
        self.assertEqual(
            list(check.check_coverage(left)), [f"docs/MODEL.md: the row {row} decides 1 cases, and not {check.LEAST}"]
        )

    def test_a_change_that_one_case_alone_notices(self) -> None:
        by_where = {change.where: change for change in mutations.changes(inspect.getsource(model))}
        pairs = {name: (trace, serial_output(trace)) for name, trace in TRACES.items()}
        for where, name in (
            ("brk: without the test `new == old`", "brk/raise-within-a-page-beside-a-mapping"),  # a test
            ("mprotect: `end * PAGE >= 2 ** 64` as `end * PAGE > 2 ** 64`", "mprotect/wraps-from-a-mapping"),  # a boundary
            (
                "mremap_refusal: the test `old_end > self.limit` before `old_length == 0`",  # an order
                "order/mremap-empty-old-length-before-old-range-past-user-memory",
            ),
        ):
            left = [pair for case, pair in pairs.items() if case != name]
            self.assertTrue(mutations.is_noticed(by_where[where], [*pairs.values()]), where)
            self.assertFalse(mutations.is_noticed(by_where[where], left), where)

    def test_a_change_said_to_change_no_answer_that_a_random_trace_notices(self) -> None:
        where = "mprotect: `end * PAGE >= 2 ** 64` as `end * PAGE > 2 ** 64`"
        self.addCleanup(mutations.changes_alike.cache_clear)
        with mock.patch.object(mutations, "ALIKE", {where}):
            mutations.changes_alike.cache_clear()
            self.assertEqual(mutations.noticed_at_random(range(1, 41)), [f"{where}: a random trace notices it"])


class Drawn(unittest.TestCase):
    """The random traces."""

    def test_each_is_a_trace_that_its_seed_gives_again(self) -> None:
        for trace, again in zip(drawn.traces_of(range(1, 30)), drawn.traces_of(range(1, 30))):
            self.assertEqual(read_trace(trace.text().encode()).text(), again.text())

    def test_they_reach_most_rows(self) -> None:
        rows = {row for trace in drawn.traces_of(range(1, 150)) for row in coverage.rows_of(trace)}
        self.assertGreater(len(rows), 0.9 * len(coverage.ROWS))
