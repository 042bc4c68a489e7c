"""The corpus: what traces reach, which are kept, and how they are changed."""

import random
import shutil
import tempfile
import unittest
from pathlib import Path

from models import mutants
from vmatools.comparing import campaign, changes, comparison, conformance, corpus, findings, generator, keeping, pairs
from vmatools.model import Space
from vmatools.profile.serial import serial_output
from vmatools.traces import Trace, read_trace

MAPPED = b"""vmatrace 1
0 mmap 0x10000 8192 PROT_READ MAP_PRIVATE|MAP_ANONYMOUS|MAP_FIXED -1 0
0 mmap 0x12000 4096 PROT_READ MAP_PRIVATE|MAP_ANONYMOUS|MAP_FIXED -1 0
"""


def seeds(count: int) -> list[Trace]:
    return [read_trace(path.read_bytes()).numbered() for path in conformance.cases_in_order(False)[:count]]


def named(count: int) -> list[tuple[str, Trace]]:
    return [(str(place), trace) for place, trace in enumerate(seeds(count))]


def grown(seed: int, count: int) -> list[str]:
    """So many traces of a corpus, as texts."""
    made = corpus.Corpus(seed, 12, generator.IN_TURN, named(30))
    return [made.next()[0].text() for _ in range(count)]


class Pairs(unittest.TestCase):
    def reached(self, text: bytes) -> set[pairs.Pair]:
        known: set[pairs.Pair] = set()
        serial_output(read_trace(text), lambda trace: pairs.Watched(trace, known))
        return known

    def test_a_watched_space_answers_as_the_model(self) -> None:
        for name in generator.PROFILES:
            trace = generator.Generator(name, "watched", 15).draw()
            self.assertEqual(serial_output(trace, lambda trace: pairs.Watched(trace, set())), serial_output(trace), name)

    def test_what_joins_and_what_just_does_not_are_told_apart(self) -> None:
        joined = self.reached(MAPPED)
        for other in (b"PROT_WRITE MAP_PRIVATE", b"PROT_READ MAP_PRIVATE|MAP_GROWSDOWN"):
            text = other.join(MAPPED.rsplit(b"PROT_READ MAP_PRIVATE", 1))
            self.assertTrue(joined - self.reached(text))
            self.assertTrue(self.reached(text) - joined)

    def test_the_past_of_an_area_counts(self) -> None:
        moved = MAPPED + b"0 mremap 0x10000 4096 4096 MREMAP_MAYMOVE|MREMAP_FIXED 0x20000\n0 mprotect 0x20000 4096 PROT_NONE\n"
        fresh = MAPPED + b"0 mprotect 0x10000 4096 PROT_NONE\n"
        self.assertTrue(any("mremap" in str(pair[-1]) for pair in self.reached(moved) - self.reached(fresh)))


class Kept(unittest.TestCase):
    def test_a_trace_is_kept_up_to_the_last_line_that_is_new(self) -> None:
        made = corpus.Corpus(1, 12, ["few"], [])
        told: list[Trace] = []
        made.measure(read_trace(MAPPED + b"0 munmap 0x13000 0\n"), told.append)
        made.measure(read_trace(MAPPED), told.append)
        made.measure(read_trace(MAPPED + b"0 munmap 0x13001 0\n0 munmap 0x13001 0\n"), told.append)
        self.assertEqual([len(trace.lines) for trace in told], [3, 4])
        self.assertEqual([entry.trace.text() for entry in made.entries], [trace.text() for trace in told])

    def test_a_state_is_what_a_line_finds(self) -> None:
        entry = corpus.entry_of(read_trace(MAPPED), set())
        self.assertEqual([len(entry.space(place).areas) for place in range(3)], [0, 1, 1])
        self.assertEqual(entry.space(9).areas[0].hi, 0x13)

    def test_what_the_last_tenth_reaches_is_told(self) -> None:
        made = corpus.Corpus(1, 12, ["few"], named(30))
        self.assertEqual(made.late, 0)
        known = []
        for _ in range(50):
            made.next()
            known.append(len(made.known))
        self.assertEqual(made.late, known[-1] - known[44])

    def test_what_is_reached_is_of_what_ran(self) -> None:
        """Of the seeds that were not run nothing is counted."""
        made = corpus.Corpus(1, 12, ["few"], named(30))
        for _ in range(50):
            made.next()
        new = len(made.known) - made.before
        ran: set[pairs.Pair] = set()
        for trace in seeds(7):
            corpus.entry_of(trace, ran)
        self.assertEqual(made.reached_of([]), (new, 0, made.late))
        self.assertEqual(made.reached_of([str(place) for place in range(7)]), (new + len(ran), len(ran), made.late))
        self.assertEqual(made.reached_of([str(place) for place in range(30)]), (len(made.known), made.before, made.late))
        self.assertIn("beyond those of the suite, which was not run", str(findings.Pairs(5, 0, 1)))
        self.assertIn("5 pairs reached, 3 of them by the suite", str(findings.Pairs(5, 3, 1)))


class Grown(unittest.TestCase):
    def test_traces_depend_on_the_seed_alone(self) -> None:
        first = grown(1, 60)
        self.assertEqual(first, grown(1, 60))
        self.assertNotEqual(first, grown(2, 60))
        made = corpus.Corpus(1, 12, generator.IN_TURN, named(30))
        self.assertEqual(made.trace(41)[0].text(), first[41])

    def test_every_change_is_a_trace(self) -> None:
        for text in grown(3, 200):
            read_trace(text.encode())

    def test_a_change_has_no_fork_of_a_used_thread_and_no_note(self) -> None:
        text = b"vmatrace 1\n0 brk 0\n1 brk 0 after=2\n0 fork 2\n2 brk 0\n0 maps\n"
        trace = read_trace(text)
        first, second, fork, child, read = trace.lines
        self.assertEqual([line.word for line in changes.legal([child, fork, first])], ["brk", "brk"])
        self.assertEqual([line.after for line in changes.legal([first, second])], [None, None])
        self.assertEqual(len(changes.legal([read] * 70)), 64)
        self.assertEqual(changes.legal([fork, child, fork._replace(thread=2)]), [fork, child])

    def test_a_short_trace_gets_lines_of_files_too(self) -> None:
        changer = changes.Changer(random.Random(1), 30, 60)
        entry = corpus.entry_of(read_trace(b"vmatrace 1\nheap 0x10000\n0 brk 0x12000\n"), set())
        for _ in range(20):
            lines = changer.changed(entry, lambda: entry).lines
            self.assertIn(len(lines), range(changer.lines - changes.MOST_CHANGES, changer.lines + 1))
        drawn = [changer.drawn_line(entry, 1, 0) for _ in range(200)]
        self.assertIn(3, [line.arguments[4] for line in drawn if line.word == "mmap"])

    def test_each_way_changes_something(self) -> None:
        changer = changes.Changer(random.Random(1), 30, 60)
        entries = [corpus.entry_of(trace, set()) for trace in seeds(60)]
        for way in changer.ways:
            was_changed = False
            for entry in entries:
                lines = list(entry.trace.lines)
                way(entry, lines, entries[7])
                was_changed |= lines != entry.trace.lines
            self.assertTrue(was_changed, way.__name__)


class Folder(unittest.TestCase):
    def run_with(self, folder: Path, sides: comparison.Sides, runs: int, seed: int = 1) -> findings.Findings:
        told = findings.Findings()
        settings = campaign.Settings(["model"], ["few", "brk"], runs, 12, seed, grows=True)
        campaign.Campaign(settings, sides, told, kept=keeping.Kept.opened(folder)).run()
        return told

    def test_a_folder_is_gone_on_from_and_two_are_one_by_copying(self) -> None:
        right = comparison.InProcess(Space, comparison.Rules())
        wrong = comparison.InProcess(mutants.MunmapPastEnd, comparison.Rules())
        with tempfile.TemporaryDirectory() as name:
            one, other = Path(name, "one"), Path(name, "other")
            first = self.run_with(one, right, 40)
            self.assertGreater(first.pairs.all, first.pairs.before)
            self.assertEqual((first.traces, first.kinds), (40, {}))
            seeds = {path.name for path in one.iterdir()}
            self.assertTrue(seeds and all(path.startswith("reaches-") for path in seeds))
            found = self.run_with(other, wrong, 200, 2)
            self.assertIn("munmap/-1 EINVAL/-1 ENOMEM", found.kinds)
            (kind,) = [path for path in other.glob("*.trace") if keeping.name_in(path.read_text(encoding="utf-8"))]
            self.assertIn(f"--traces {kind}", found.kinds["munmap/-1 EINVAL/-1 ENOMEM"].shortest.repeat)
            shutil.copytree(one, other, dirs_exist_ok=True)
            again = self.run_with(other, right, 1)
            self.assertEqual(again.agree, [str(kind)])
            self.assertGreater(again.traces, len(seeds))
            self.assertGreater(again.pairs.all, first.pairs.all)
