"""What `vma compare` finds, what it sets aside, and what it writes."""

import io
import json
import random
import re
import sys
import tempfile
import time
import unittest
from collections import Counter
from dataclasses import replace
from pathlib import Path
from typing import Any
from xml.etree import ElementTree

sys.path[:0] = [str(Path(__file__).resolve().parents[2] / name) for name in ("tools", "tests")]
from models import mutants
from vmatools import cli, console, oracles
from vmatools.commands import compare
from vmatools.comparing import (
    answers,
    campaign,
    comparison,
    conformance,
    findings,
    generator,
    junit,
    keeping,
    ranking,
    reports,
    shrinking,
    threaded,
)
from vmatools.linux.kernel import Process, Settings, kernel_of
from vmatools.model import Space
from vmatools.outputs import Difference, kind_of
from vmatools.profile import coverage
from vmatools.running import program
from vmatools.running.program import Ran
from vmatools.systems import rows
from vmatools.traces import Trace, read_trace

TWO = b"""vmatrace 1
0 mmap 0x100000 4096 PROT_READ MAP_PRIVATE|MAP_ANONYMOUS|MAP_FIXED -1 0
0 mmap 0x101000 4096 PROT_READ MAP_PRIVATE|MAP_ANONYMOUS|MAP_FIXED -1 0
"""


def examined(model: type[Space], text: bytes) -> comparison.Examined:
    return comparison.examine(comparison.InProcess(model, comparison.Rules()), read_trace(text))


def kinds(told: comparison.Examined) -> list[tuple[str, str, str]]:
    return [kind_of(one.difference) for one in told.findings]


class Refuses(comparison.InProcess):
    """A system that can run no trace."""

    def there(self, trace: Trace, seconds: float | None = None) -> Ran:
        return Ran("", conformance.CANNOT_RUN, "no room")


class AllDifferences(unittest.TestCase):
    def test_each_difference_of_a_trace_is_found(self) -> None:
        text = (
            b"vmatrace 1\n0 munmap 0x7ffffffff000 4096\n0 mmap 0 0 PROT_READ MAP_PRIVATE|MAP_ANONYMOUS -1 0\n0 maps\n"
        )

        class Both(mutants.MunmapPastEnd, mutants.MmapNoLength):
            """Two errors are others."""

        self.assertEqual(
            kinds(examined(Both, text)), [("munmap", "-1 EINVAL", "-1 ENOMEM"), ("mmap", "-1 EINVAL", "-1 ENOMEM")]
        )

    def test_a_list_is_blamed_on_the_line_that_changed_it(self) -> None:
        told = examined(mutants.NeverMerges, TWO + b"0 fault 0x100000 r\n")
        self.assertEqual(kinds(told)[0], ("mmap", "list: joined", "list: apart"))
        self.assertEqual(told.findings[0].difference.number, 3)
        self.assertEqual(told.findings[0].difference.here_lines[0], "maps 1")

    def test_what_a_child_damages_is_blamed_on_its_line(self) -> None:
        text = TWO + b"0 fork 1\n1 munmap 0x100000 4096\n0 munmap 0x101000 4096\n"
        told = examined(mutants.DamagesParent, text)
        self.assertEqual([(one.difference.operation, one.difference.number) for one in told.findings], [("munmap", 5)])

    def test_a_fork_goes_with_its_child(self) -> None:
        trace = read_trace(TWO + b"0 fork 1\n1 munmap 0x100000 4096\n0 maps\n")
        self.assertEqual([line.word for line in oracles.without(trace, 4).lines], ["mmap", "mmap", "maps"])

    def test_no_more_than_so_many(self) -> None:
        text = b"vmatrace 1\n" + b"0 munmap 0x7ffffffff000 4096\n" * 5
        told = comparison.examine(comparison.InProcess(mutants.MunmapPastEnd, comparison.Rules()), read_trace(text), 2)
        self.assertEqual((len(told.findings), told.has_more), (2, True))


# Rows whose traces have the name of another one too: the more general one, or an earlier line's.
ALSO: dict[str, str | None] = {
    "overcommit-mprotect": "aligned",
    "error-move-odd": "mremap-past-limit",
    "error-noreplace-below-min": "below-min",
    "error-old-zero-unmapped": "mremap-old-zero",
    "grow-growing": "grow-none",
    "brk-moved": "brk-name",
    "brk-hole": "brk-name",
    "brk-below": "brk-name",
    "seal-fixed": "seal-split",
    "fork-written": "border",
    **dict.fromkeys(["border-moved-back", "aligned-shared", "aligned-file-in-memory", "mremap-old-zero-private"]),  # alike
}


class Linux(unittest.TestCase):
    """Linux as the right side, and who is right."""

    def sides(self, model: str) -> comparison.Sides:
        class Under(comparison.Sides):
            def here(self, trace: Trace) -> str:
                return self.oracle.output(trace)

            def there(self, trace: Trace, seconds: float | None = None) -> program.Ran:
                return program.Ran(oracles.oracle_of(model).output(trace), None, "")

        return Under("", [], 1, comparison.Rules())

    def says(self, right: str, model: str, text: bytes) -> str:
        sides, trace = self.sides(model), read_trace(text)
        sides.oracle = oracles.oracle_of(right)
        (found, *_) = comparison.examine(sides, trace).findings
        told = answers.answers_of(found.trace, found.difference, sides.oracle)
        assert told
        self.assertEqual(list(told.sides)[1:], ["profile", "yours"])
        return told.says

    def test_who_is_right_is_said(self) -> None:
        longer = TWO + b"0 mremap 0x100000 4096 140737488355328 0\n"
        seal = TWO.replace(b"0x101000 4096 PROT_READ", b"0x101000 4096 PROT_NONE") + b"0 mseal 0x101000 4096 0\n"
        seal += b"0 mprotect 0x100000 8192 PROT_EXEC\n"
        hidden = TWO.replace(b"PROT_READ", b"PROT_EXEC") + b"0 fault 0x100000 r\n"
        mapped = TWO + b"0 fault 0xffffffffff600000 r\n"
        for right, model, text, wanted in (
            ("linux-6.18", "linux-6.12", longer, "answer as yours; Linux 6.1, 6.12 and 6.16 do (moves_several)."),
            ("linux-6.18", "profile", seal, "Yours is the profile's answer, and no Linux gives it (row seal-prefix)."),
            ("profile", "linux-6.18", longer, "the profile differs from these (row mremap-too-long)."),
            ("linux-6.18", "linux-6.18,keys=0", hidden, "linux-6.18.44 doesn't answer as yours; with keys=0 it does."),
            ("profile", "linux-6.18,vsyscall=emulate", mapped, "linux-7.2.12 doesn't answer as yours; with vsyscall=emulate it"),
            ("profile", "linux-7.2", seal, "As yours: Linux 6.12, 6.16, 6.17, 6.18.15, 6.18.44 and 7.2; the profile"),
        ):
            with self.subTest(right=right, model=model):
                self.assertIn(wanted, self.says(right, model, text))

    def test_equal_systems_have_no_finding(self) -> None:
        sides = self.sides("linux-6.12")
        sides.oracle = oracles.oracle_of("linux-6.12")
        for profile in ("mremap", "growing"):
            trace = generator.Generator(profile, "1 1", 20, is_fitted=True).draw()
            self.assertEqual(comparison.examine(sides, trace).findings, [])

    def test_what_is_not_modelled_is_counted(self) -> None:
        sides = self.sides("linux-6.12")
        sides.oracle = oracles.oracle_of("linux-6.12")
        (name,) = comparison.examine(sides, read_trace(TWO + b"0 brk 0x200000\n")).aside
        self.assertIn("not modelled: every process has a break", name)

    def test_a_trace_that_is_not_modelled_has_no_row(self) -> None:
        self.assertIsNone(answers.row_of(read_trace(TWO + b"0 brk 0x200000\n"), kernel_of("6.18")))

    def test_every_row_is_named_by_the_models(self) -> None:
        """Each row's trace has the row's name, or the beginning of it; some have that of another row which they are too."""
        kernel, others = kernel_of("6.18", Settings(huge="madvise"), Process(brk=0x7FFFFF20F000)), {}
        for row in rows.read_rows()[1]:
            on_disk = replace(kernel, settings=replace(kernel.settings, files="disk"))
            found = answers.row_of(read_trace(row.trace.encode()), on_disk if row.name in rows.ON_DISK else kernel)
            if found is None or not row.name.startswith(found):
                others[row.name] = found
        self.assertEqual(others, ALSO)


class Shrinking(unittest.TestCase):
    def test_numbers_get_small(self) -> None:
        """What differs from three pages on is shown with three."""

        def first_same(traces: list[Trace]) -> int | None:
            fitting = (
                any(line.word == "mmap" and line.arguments[1] > 8192 for line in trace.lines) for trace in traces
            )
            return next((place for place, holds in enumerate(fitting) if holds), None)

        trace = read_trace(b"vmatrace 1\n0 mmap 0 70368744177664 PROT_READ MAP_PRIVATE|MAP_ANONYMOUS -1 0\n")
        self.assertEqual(shrinking.Shrinker(trace, first_same).shrink().lines[0].arguments[1], 12288)


class Generated(unittest.TestCase):
    def test_the_same_words_give_the_same_trace(self) -> None:
        for name in generator.PROFILES:
            first, second = (generator.Generator(name, "7 3", 12).draw().text() for _ in range(2))
            self.assertEqual(first, second)
            self.assertEqual(read_trace(first.encode()).text(), first)

    def test_a_draw_below_an_end_is_that_of_randrange(self) -> None:
        recipes, source = generator.Recipes(random.Random(1), generator.PROFILES["few"]), random.Random(1)
        ends = [1, 2, 3, 7, 8, 100, 2**40] * 30
        self.assertEqual([recipes.below(end) for end in ends], [source.randrange(end) for end in ends])

    def test_threads_name_calls_of_others(self) -> None:
        trace = generator.Generator("few", "1 1", 60, threads=4).draw()
        self.assertEqual({line.thread for line in trace.lines}, {0, 1, 2, 3})
        self.assertTrue(any(line.after for line in trace.lines))
        self.assertEqual(read_trace(trace.text().encode()).text(), trace.text())

    def test_rows_are_counted_by_the_names_of_the_tables(self) -> None:
        rows = coverage.rows_of(read_trace(TWO))
        self.assertEqual(rows, Counter({"mmap/done": 2, "merge/private": 1}))
        for name in generator.PROFILES:
            self.assertLessEqual(set(coverage.rows_of(generator.Generator(name, "1 1", 20).draw())), set(coverage.ROWS))


class Reports(unittest.TestCase):
    def finding(self, name: str = "munmap/-1 EINVAL/0") -> findings.Finding:
        operation, here, there = name.split("/", 2)
        return findings.Finding(
            name, Difference(operation, here, there, 2, ["a"], ["b"]), "vmatrace 1\n", "trace 0", "vma compare --only 0"
        )

    def baseline(self, text: str) -> findings.Baseline:
        return findings.Baseline(findings.Baseline.lines(Path("base"), text))

    def test_what_is_known_does_not_fail(self) -> None:
        told = findings.Findings(self.baseline("# all\nmunmap/*/0 # it takes any\nmmap/a/b # gone\n"))
        told.add([self.finding()], Counter())
        self.assertFalse(told.has_new)
        self.assertEqual([known.pattern for known in told.baseline.stale], ["mmap/a/b"])
        told.add([self.finding("brk/an address/another address")], Counter())
        self.assertTrue(told.has_new)

    def test_a_baseline_wants_a_reason(self) -> None:
        for text in ("munmap/*/0\n", "munmap/*/0 #\n", "munmap # why\n"):
            with self.assertRaises(console.Failure):
                self.baseline(text)

    def test_junit_counts(self) -> None:
        told = findings.Findings(self.baseline("munmap/*/0 # it takes any\nmmap/a/b # gone\n"))
        told.add([self.finding(), self.finding("brk/\x00/b")], Counter())
        suite = ElementTree.fromstring(findings.junit_of(told, True, None).split("\n", 1)[1])
        self.assertEqual([suite.get(name) for name in ("tests", "failures", "skipped", "errors")], ["4", "2", "1", "0"])

    def test_junit_has_no_letter_that_xml_has_not(self) -> None:
        self.assertEqual(junit.clean("a\0b\udcffc\ufffe\U0001f600é\r\n"), "a?b?c?\U0001f600é?\n")


class Worse(comparison.InProcess):
    """A system that gives each length of trace another wrong answer, of so many, after some time."""

    def __init__(self, count: int, seconds: float = 0.0) -> None:
        super().__init__(Space, comparison.Rules())
        self.count, self.pause = count, seconds

    def there(self, trace: Trace, seconds: float | None = None) -> Ran:
        time.sleep(self.pause)
        lines = [f"L{line.number} t0 v1 = -1 E{len(trace.lines) % self.count}\n" for line in trace.lines[:1]]
        return Ran("".join(lines), None, "")


class Without(comparison.InProcess):
    """A system without an operation."""

    def __init__(self, word: str) -> None:
        super().__init__(Space, comparison.Rules())
        self.word = word

    def there(self, trace: Trace, seconds: float | None = None) -> Ran:
        output = super().there(trace, seconds).output
        for line in trace.lines:
            if line.word == self.word:
                output = re.sub(f"^(L{line.number} t.*) = .*$", r"\1 = -1 ENOSYS", output, flags=re.MULTILINE)
        return Ran(output, None, "")


class Refusing(Without):
    """A system whose adapter can't run an operation."""

    def there(self, trace: Trace, seconds: float | None = None) -> Ran:
        line = next((line for line in trace.lines if line.word == self.word), None)
        if line:
            return Ran("", "ends with status 4", f"line {line.number}: it has no {self.word}")
        return comparison.InProcess.there(self, trace, seconds)


class Ranking(unittest.TestCase):
    def test_what_counts_most(self) -> None:
        pairs = [
            ("munmap", "an output", "does not end", "hang"),
            ("munmap", "0", "hung", "hang"),
            ("brk", "an address", "ended with status 1", "crash"),
            ("mmap", "an output", "ends by signal SIGSEGV", "crash"),
            ("run", "an output", "writes nothing", "crash"),
            ("output", "legal", "illegal: the output ends", "crash"),
            ("maps", "legal", "illegal: a list", "list"),
            ("mmap", "list: mapped", "list: not mapped", "lost or wrong data"),
            ("fault", "served", "SIGSEGV SEGV_MAPERR", "lost or wrong data"),
            ("fault", "served", "SIGSEGV SEGV_ACCERR", "protection"),
            ("mprotect", "list: permissions", "list: other permissions", "protection"),
            ("mmap", "list: joined", "list: apart", "list"),
            ("fault", "SIGSEGV SEGV_MAPERR", "SIGSEGV SEGV_ACCERR", "reply"),
            ("mmap", "-1 EEXIST", "an address", "reply"),
            ("mmap", "an address", "another address", "place"),
            ("mremap", "an address", "a place outside", "place"),
        ]
        for operation, here, there, wanted in pairs:
            self.assertEqual(ranking.name_of(Difference(operation, here, there, 2, [], [])), wanted)

    def finding(self, operation: str, here: str, there: str, *lines: str) -> findings.Finding:
        text = "".join(f"{line}\n" for line in ("vmatrace 1", *lines))
        difference = Difference(operation, here, there, len(lines) + 1, [], [])
        return findings.Finding("/".join(difference[:3]), difference, text, "trace 0", "")

    def test_what_vanishes_with_the_operation_of_another(self) -> None:
        place = "0 mmap 0x10000 4096 PROT_READ MAP_PRIVATE|MAP_ANONYMOUS|MAP_FIXED -1 0"
        kept = place.replace("MAP_FIXED", "MAP_FIXED_NOREPLACE")
        move = "0 mremap 0x10000 4096 4096 MREMAP_MAYMOVE"
        one = self.finding("mmap", "-1 EEXIST", "an address", place, kept)
        two = self.finding("mmap", "-1 EEXIST", "-1 ENOMEM", place, kept)
        three = self.finding("munmap", "list: mapped", "list: not mapped", place, kept, "0 munmap 0x10000 4096")
        crash = self.finding("mremap", "an address", "ended with status 1", place, move)
        after = self.finding("brk", "an address", "ended with status 1", place, move, "0 brk 0")
        other = self.finding("munmap", "0", "-1 EINVAL", place, "0 munmap 0x10000 4096")
        found = ranking.above({one.name: one for one in (crash, after, one, two, three, other)})
        self.assertEqual(found, {after.name: crash.name, two.name: one.name, three.name: one.name})


class Runs(unittest.TestCase):
    """A run of many traces, and what it finds."""

    def campaign(
        self,
        told: findings.Findings,
        runs: int | None,
        journal: findings.Journal | None = None,
        sides: comparison.Sides | None = None,
        report: reports.Report | None = None,
        kept: keeping.Kept | None = None,
        **more: Any,
    ) -> campaign.Campaign:
        settings = campaign.Settings(["model"], ["few", "edges"], runs, 12, words=["--lines", "12"], **more)
        sides = sides or comparison.InProcess(mutants.MunmapPastEnd, comparison.Rules())
        return campaign.Campaign(settings, sides, told, journal, report, kept)

    def traces(self, count: int) -> Path:
        """A folder with so many traces."""
        folder = tempfile.TemporaryDirectory()
        self.addCleanup(folder.cleanup)
        for number in range(count):
            Path(folder.name, f"{number:02}.trace").write_text("vmatrace 1\n" + "0 munmap 0 4096\n" * (number + 1))
        return Path(folder.name)

    def test_kinds_are_counted_and_shrunk(self) -> None:
        told, stream = findings.Findings(), io.StringIO()
        run = self.campaign(told, 16, findings.Journal(stream))
        run.run()
        (name, kind), *others = told.in_order()
        self.assertEqual((name, others), ("munmap/-1 EINVAL/-1 ENOMEM", []))
        self.assertEqual(read_trace(kind.shortest.trace.encode()).lines[0].word, "munmap")
        self.assertIn("--lines 12 --only", kind.shortest.repeat)
        events = [json.loads(line)["event"] for line in stream.getvalue().splitlines()]
        self.assertEqual((events[0], Counter(events)), ("finding", Counter(finding=kind.count, smallest=1)))

    def test_each_kind_is_told_at_once_and_its_small_trace_below(self) -> None:
        told, stream = findings.Findings(), io.StringIO()
        run = self.campaign(told, 16, report=reports.Report(stream))
        run.run()
        run.report.end(told, False, None)  # type: ignore[union-attr]
        title = "1. munmap: program -1 EINVAL, yours -1 ENOMEM"
        lines = stream.getvalue().splitlines()
        self.assertRegex(lines[0], f"^{title} [(]trace [0-9]+ of seed 1, profile (few|edges)[)]$")
        self.assertEqual(lines[1], f"{title} (--ignore 'munmap/-1 EINVAL/-1 ENOMEM')")
        self.assertEqual(lines[2], "   the smallest trace:")
        ranked = lines[lines.index("what counts most first:") + 1]
        self.assertRegex(ranked, f"^  reply +{title} [(][0-9]+ traces?[)]$")

    def test_all_kinds_are_found_and_ten_made_small(self) -> None:
        """Of the others there is a line, and the command that shows them."""
        for makes_all in (False, True):
            told, stream = findings.Findings(), io.StringIO()
            sides = Worse(findings.MOST_SHOWN + 5)
            run = self.campaign(told, 3, sides=sides, makes_all=makes_all, folder=self.traces(20), report=reports.Report(stream))
            run.run()
            run.report.end(told, False, None)  # type: ignore[union-attr]
            self.assertEqual((len(told.kinds) > findings.MOST_SHOWN, told.traces), (True, 20))
            small = len(told.kinds) if makes_all else findings.MOST_SHOWN
            self.assertEqual(sum(kind.is_shrunk for kind in told.kinds.values()), small)
            lines = stream.getvalue().splitlines()
            self.assertEqual(lines.count("   the smallest trace:"), small)
            ranked = lines[lines.index("what counts most first:") + 1 :]
            self.assertEqual(sum("vma compare --lines 12 --traces" in line for line in ranked), len(told.kinds) - small)

    def test_what_counts_most_is_made_small_first(self) -> None:
        told = findings.Findings()
        run = self.campaign(told, 1)
        for name in ("mmap/an address/another address", "munmap/0/-1 EINVAL", "fault/0/hung"):
            operation, here, there = name.split("/")
            one = findings.Finding(name, Difference(operation, here, there, 2, [], []), TWO.decode(), "a", "a")
            told.kinds[name] = findings.Kind(one)
            run.see(name, told.kinds[name])
        run.make_small()
        self.assertEqual(list(run.shrinking.values()), ["fault/0/hung"])
        run.give_up()
        run.shrinking.clear()
        run.made = findings.MOST_SHOWN  # then only what hangs or crashes
        run.make_small()
        self.assertFalse(run.shrinking)
        crash = findings.Finding("brk/0/x", Difference("brk", "0", "ended with status 1", 2, [], []), TWO.decode(), "a", "a")
        told.kinds["brk/0/x"] = findings.Kind(crash)
        run.see("brk/0/x", told.kinds["brk/0/x"])
        run.make_small()
        self.assertEqual(list(run.shrinking.values()), ["brk/0/x"])
        run.give_up()

    def test_what_a_run_as_long_misses_is_told(self) -> None:
        told, stream = findings.Findings(), io.StringIO()
        suite = sorted(self.traces(1).glob("*.trace"))
        right = comparison.InProcess(Space, comparison.Rules())
        self.campaign(told, 5, sides=right, suite=suite, grows=True).run()
        told.pairs = findings.Pairs(9, 5, 1)
        reports.Report(stream).end(told, False, None)
        self.assertIn("missed 0 or 1 of 361 wrong models; this one was shorter\n6 traces, 0 differ\n", stream.getvalue())
        for seconds, wanted in ((29.5, "30 seconds .* 0 or 1 .* models$"), (119.5, "two minutes .* 0 of"), (900, "ten minu")):
            self.assertRegex(reports.missed_by(seconds), wanted)
        told.differing = 1
        stream = io.StringIO()
        reports.Report(stream).end(told, False, None)
        self.assertNotIn("wrong models", stream.getvalue())

    def test_what_does_not_come_again_is_told(self) -> None:
        class Once(comparison.InProcess):
            def there(self, trace: Trace, seconds: float | None = None) -> Ran:
                self.model = Space
                return Ran("", "does not end", "") if not told.traces and not told.kinds else super().there(trace)

        told, stream = findings.Findings(), io.StringIO()
        sides = Once(Space, comparison.Rules())
        self.campaign(told, 1, sides=sides, folder=self.traces(3), report=reports.Report(stream)).run()
        self.assertEqual([kind.is_once for kind in told.kinds.values()], [True])
        self.assertIn("   a trace, which did not differ again:\n", stream.getvalue())

    def test_cases_that_were_not_come_to_are_told(self) -> None:
        told = findings.Findings()
        suite = sorted(self.traces(5).glob("*.trace"))
        self.campaign(told, 2, suite=suite).run()
        self.assertEqual((told.traces, told.cases_left), (7, 0))
        self.assertFalse(list(told.told_lines()))
        self.campaign(told, 2, suite=suite, for_seconds=0.0).run()
        self.assertEqual(told.cases_left, 5)
        self.assertIn("5 cases of the suite not run: the run ended before", list(told.told_lines()))

    def test_all_of_a_run_is_within_its_time(self) -> None:
        """The traces, what is made small, and the report: each run of the system takes two seconds."""
        told, stream = findings.Findings(), io.StringIO()
        run = self.campaign(told, None, sides=Worse(5, 2.0), for_seconds=2.5, report=reports.Report(stream))
        begin = time.monotonic()
        run.run()
        run.report.end(told, False, None)  # type: ignore[union-attr]
        self.assertLess(time.monotonic() - begin, 25)  # a second or two where the machine is not busy
        self.assertTrue(told.kinds)
        self.assertIn("a trace, which was not made small", stream.getvalue())

    def test_a_call_that_is_not_there_is_told_once(self) -> None:
        told, stream = findings.Findings(), io.StringIO()
        run = self.campaign(told, 16, sides=Without("munmap"), report=reports.Report(stream))
        run.run()
        self.assertEqual((told.lacks, list(told.kinds), told.traces), ({"munmap"}, [], 16))
        line = "munmap: not there, left out of all traces (-1 ENOSYS); `--with munmap` keeps it\n"
        self.assertEqual(stream.getvalue(), line)
        sides = Without("munmap")
        sides.kept = {"munmap"}
        told = findings.Findings()
        self.campaign(told, 16, sides=sides).run()
        self.assertIn("munmap/0/-1 ENOSYS", told.kinds)

    def test_what_the_adapter_cannot_run_is_left_out(self) -> None:
        told = findings.Findings()
        self.campaign(told, 16, sides=Refusing("munmap")).run()
        self.assertEqual((list(told.kinds), told.left_out.total() + told.traces), ([], 16))
        self.assertEqual(set(told.left_out), {"it has no munmap"})
        lines = list(told.told_lines())
        self.assertIn(f"left out: {console.counted(told.left_out.total(), 'trace')}: it has no munmap", lines)
        half = any(line.startswith("left out: more than half") for line in lines)
        self.assertEqual(half, told.left_out.total() > told.traces)
        self.assertGreater(told.left_out.total(), told.traces)

    def test_what_writes_nothing_is_told_once(self) -> None:
        told = findings.Findings()
        with tempfile.TemporaryDirectory() as folder:
            program = Path(folder, "program")
            program.write_text("#!/bin/sh\necho maps 0\n", encoding="utf-8")
            program.chmod(0o755)
            self.campaign(told, 3, sides=comparison.Sides(str(program), ["true"], 30, comparison.Rules())).run()
        self.assertEqual((list(told.kinds), told.differing), (["run/an output/writes nothing"], 3))

    def settings(self, *words: str) -> Any:
        """What a comparison with these words runs."""
        parser, _ = cli.parser_of(cli.COMMANDS["compare"])
        options = parser.parse_args([*words, "--", "true"])
        options.given_oracle = options.oracle
        compare.check_oracle(options)
        return compare.settings_of(options)

    def test_the_cases_of_the_suite_come_first(self) -> None:
        wanted = {"": True, "--runs 5": True, "--profile few": False, "--only 3": False, "--threads 2": False}
        wanted |= {"--for 5": True, "--profile few --suite": True, "--no-suite": False}
        for words, has_suite in wanted.items():
            settings = self.settings(*words.split())
            self.assertEqual(bool(settings.suite), has_suite, words)
            self.assertIsInstance(settings.suite, list)
            self.assertFalse(settings.has_coverage)
        settings = self.settings("--runs", "2")
        names = [source.name for source in campaign.sources(settings)]
        self.assertEqual(len(names), len(settings.suite) + 2)
        self.assertIn("suite/brk/", names[0])
        self.assertIn("trace 1 of seed 1", names[-1])
        self.assertFalse([name for name in names if "/wide/" in name or Path(name).with_suffix(".legal").exists()])

    def test_kernel_is_the_linux_of_the_machine(self) -> None:
        self.assertEqual(self.settings("--kernel").oracle, self.settings("--as", "linux").oracle)
        self.assertTrue(self.settings("--kernel").oracle.kernel)
        self.assertIn("--as", self.settings("--kernel").words)

    def test_a_run_has_two_minutes_where_no_word_ends_it(self) -> None:
        wanted = {"": 120, "--profile few": 120, "--threads 2": 120, "--for 5": 5, "--runs 5": None, "--only 3": None}
        for words, seconds in wanted.items():
            self.assertEqual(self.settings(*words.split()).for_seconds, seconds, words)
        self.assertEqual(self.settings("--runs", "5", "--for", "7").for_seconds, 7)

    def test_a_trace_with_comments_is_blamed_on_its_line(self) -> None:
        folder, told = self.traces(0), findings.Findings()
        text = "vmatrace 1\n# one\n# two\n0 mmap 0 4096 PROT_READ MAP_PRIVATE|MAP_ANONYMOUS -1 0\n0 munmap 0x7ffffffff000 4096\n"
        Path(folder, "a.trace").write_text(text, encoding="utf-8")
        self.campaign(told, None, folder=folder).run()
        self.assertEqual((list(told.kinds), told.traces), (["munmap/-1 EINVAL/-1 ENOMEM"], 1))
        self.assertRegex(told.kinds["munmap/-1 EINVAL/-1 ENOMEM"].shortest.trace, "^vmatrace 1\n0 munmap .*\n$")

    def test_what_was_kept_is_run_again_first_and_stays_red(self) -> None:
        with tempfile.TemporaryDirectory() as name:
            folder = Path(name, "kept")
            self.campaign(findings.Findings(), 16, kept=keeping.Kept.opened(folder)).run()
            (trace,) = folder.glob("*.trace")
            self.assertEqual(keeping.name_in(trace.read_text(encoding="utf-8")), "munmap/-1 EINVAL/-1 ENOMEM")
            self.assertEqual({path.suffix for path in folder.iterdir()}, {".trace", ".program", ".yours"})
            told, stream = findings.Findings(), io.StringIO()
            self.campaign(told, 1, findings.Journal(stream), kept=keeping.Kept.opened(folder)).run()
            self.assertEqual((list(told.kinds), told.has_new), (["munmap/-1 EINVAL/-1 ENOMEM"], True))
            self.assertEqual(json.loads(stream.getvalue().splitlines()[0])["source"], str(trace))
            told = findings.Findings()
            right = comparison.InProcess(Space, comparison.Rules())
            self.campaign(told, 1, sides=right, kept=keeping.Kept.opened(folder)).run()
            self.assertEqual((told.agree, told.has_new), ([str(trace)], False))
            told = findings.Findings()
            run = self.campaign(told, 1, for_seconds=0.0, kept=keeping.Kept.opened(folder))
            run.run()  # no time for it
            self.assertTrue(told.has_new)
            self.assertEqual(told.not_run, {str(trace): "munmap/-1 EINVAL/-1 ENOMEM"})
            self.assertIn("not run again", findings.junit_of(told, False, None))
            told = findings.Findings()
            refused = Refuses(Space, comparison.Rules())
            self.campaign(told, 1, sides=refused, kept=keeping.Kept.opened(folder)).run()
            self.assertEqual((told.not_run, told.has_new), ({str(trace): "munmap/-1 EINVAL/-1 ENOMEM"}, True))

    def test_an_output_of_threads_is_blamed_on_its_line(self) -> None:
        trace = read_trace(TWO)
        found = threaded.illegal(trace, "L2 t0 v1 = 0x100000\nL3 t0 v2 = -1 ENOMEM\n", 2)
        self.assertEqual((*kind_of(found), found.number), ("mmap", "legal", "illegal: -1 ENOMEM", 3))
        self.assertEqual(found.here_lines, ["it is `L3 t0 v2 = -1 ENOMEM` and not `L3 t0 v2 = 0x101000`"])
        self.assertEqual(kind_of(threaded.illegal(trace, "", 1)), ("output", "legal", "illegal: the output ends"))


if __name__ == "__main__":
    unittest.main()
