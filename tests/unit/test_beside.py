"""A known system in a comparison: its words, how traces are fitted, and what of it is compared."""

import argparse
import re
import sys
import time
import unittest
from typing import Optional
from unittest import mock

from unit.common import InFolder, vma
from vmatools import console, oracles
from vmatools.commands import compare
from vmatools.comparing import comparison, generator, windows
from vmatools.linux.kernel import running_version
from vmatools.outputs import Difference
from vmatools.running import program
from vmatools.running.program import TOP, Ran
from vmatools.systems import beside, machines, words
from vmatools.systems.capabilities import Capabilities
from vmatools.systems.places import Window
from vmatools.traces import Trace, read_trace

MAP = "0 mmap 0x10000 4096 PROT_READ MAP_PRIVATE|MAP_ANONYMOUS|MAP_FIXED -1 0"
AREA = "00010000-00011000 r--p 00000000 00:00 0 "


def trace_of(*lines: str) -> Trace:
    return read_trace("".join(line + "\n" for line in ("vmatrace 1", *lines)).encode())


def options_of(*words: str) -> argparse.Namespace:
    parser = argparse.ArgumentParser()
    compare.add_arguments(parser)
    return parser.parse_args(words)


class Words(unittest.TestCase):
    def setUp(self) -> None:
        self.enterContext(mock.patch.object(beside, "missing", return_value=None))

    def test_a_system_that_is_not_installed(self) -> None:
        with mock.patch.object(beside, "missing", return_value="runsc"):
            with self.assertRaisesRegex(console.Failure, "gvisor is not installed .Debian: apt-get install runsc"):
                beside.take_system(options_of("--system", "gvisor"))

    def test_a_known_system_brings_what_belongs_to_it(self) -> None:
        options = options_of("--system", "valgrind")
        beside.take_system(options)
        self.assertEqual(
            options.command[len(program.VMA) :], ["kernel", "--batch", "--system", "valgrind", "--window", "0x10000-0x2000000"]
        )
        self.assertTrue(options.batch and options.window)
        self.assertEqual(options.oracle.kernel.version, running_version())
        self.assertEqual(options.for_seconds, beside.FOR_SECONDS)
        self.assertEqual(beside.words_of(options), [])

    def test_a_machine_is_one_and_its_own_version_is_right(self) -> None:
        options = options_of("--system", "machine:/boot/vmlinuz", "--runs", "5")
        with mock.patch.object(machines, "version_of", return_value="6.12.117"):
            beside.take_system(options)
        self.assertEqual((options.oracle.name, options.window, options.jobs), ("linux-6.12.117", None, 1))
        self.assertIsNone(options.for_seconds)

    def test_the_minute_of_a_system_begins_when_it_has_begun(self) -> None:
        """A machine may take longer than that to boot."""
        options = options_of("--system", "uml", "--as", "profile")
        beside.take_system(options)
        with mock.patch.multiple(beside, Adapters=mock.DEFAULT, fit_of=lambda *_: self.assertIsNone(options.begin)):
            with beside.prepared(options, mock.Mock(), mock.Mock()):
                self.assertLess(time.monotonic() - options.begin, beside.FOR_SECONDS)

    def test_the_profile_is_a_word_away(self) -> None:
        options = options_of("--system", "native", "--as", "profile")
        beside.take_system(options)
        self.assertEqual(options.oracle, oracles.PROFILE)

    def test_threads_are_judged_by_the_profile(self) -> None:
        options = options_of("--threads", "2", "--as", "linux-6.18", "--", "true")
        options.given_oracle = options.oracle
        with self.assertRaisesRegex(console.Failure, "by the profile alone"):
            compare.check_oracle(options)

    def test_a_system_and_a_command_are_one_too_many(self) -> None:
        with self.assertRaises(console.Failure):
            beside.take_system(options_of("--system", "valgrind", "--", "true"))

    def test_a_window_stands_in_the_command_that_repeats(self) -> None:
        options = options_of("--batch", "--window", "0x10000-0x20000", "--", "true")
        self.assertEqual(beside.words_of(options), ["--batch", "--window", "0x10000-0x20000"])

    def test_windows(self) -> None:
        self.assertEqual(words.window_of("0x10000-131072"), Window(0x10000, 0x20000))
        for wrong in ("0x10000", "0x10001-0x20000", "0x20000-0x10000", "-1-0x10000", "a-b"):
            with self.subTest(wrong), self.assertRaises(argparse.ArgumentTypeError):
                words.window_of(wrong)


class Answering(comparison.Sides):
    """Both sides with outputs that are given."""

    def __init__(self, output: str, fault: Optional[str] = None, here: str = "") -> None:
        super().__init__("", [], 1, comparison.Rules())
        self.output, self.fault, self.told = output, fault, here

    def here(self, trace: Trace) -> str:
        return self.told

    def there(self, trace: Trace, seconds: Optional[float] = None) -> Ran:
        has_seal = any(line.word == "mseal" for line in trace.lines)
        return Ran(self.output, self.fault if has_seal or not self.output else None, "")


class Fits(InFolder):
    def test_a_window_and_what_a_system_has_hold_both(self) -> None:
        has = Capabilities(frozenset("mmap munmap mremap fault maps min -MAP_SHARED -MAP_FIXED".split()))
        window = windows.Fit(Window(0x10000000, 0x20000000))
        both = windows.Both(window, has)
        for number in range(9):
            trace = both.fitted(generator.Generator("mix", f"both {number}", 30).draw())
            self.assertTrue(trace.lines and window.keeps(trace) and has.keeps(trace) and both.keeps(trace))
        inside = MAP.replace("0x10000", "0x10000000")
        self.assertFalse(both.keeps(trace_of(inside)))
        self.assertFalse(windows.Both(window, Capabilities(frozenset(["mmap"]))).keeps(trace_of(MAP)))

    def test_a_run_keeps_to_both(self) -> None:
        sent = self.top / "sent"
        adapter = self.put_program("adapter", f"tee -a {sent} | {sys.executable} {TOP}/examples/batch/adapter.py\n")
        for batch in (["--batch"], list[str]()):
            sent.write_text("")
            words = ["--window", "0x10000000-0x20000000", "--runs", "4", "--no-suite", "--lines", "20", "--jobs", "1", *batch]
            done = vma("compare", *words, "--", str(adapter))
            self.assertIn("COMMAND has no mremap, brk, mseal, limit, top, heap", done.stderr)
            traces = re.split("^(?=vmatrace 1$)", re.sub("(?m)^(trace|end) .*\n", "", sent.read_text()), flags=re.MULTILINE)[1:]
            random_ones = [text for text in traces if "min" in text]
            self.assertEqual(len(random_ones), 4, done.stdout)
            for text in random_ones:
                self.assertIn("\nmin 0x10000000\n", text)
                self.assertFalse(re.search("(?m)^(top|limit|heap) |mremap|brk|mseal|GROWSDOWN", text), text)
            self.assertEqual(done.returncode, 0, done.stdout)

    def test_a_call_that_a_system_has_not(self) -> None:
        self.assertEqual(beside.lacks_of(Answering("maps 0\n", "ends with status 4"), 0x10000), ["mseal"])
        self.assertEqual(beside.lacks_of(Answering("maps 0\n"), 0x10000), [])
        self.assertEqual(beside.lacks_of(Answering("", "ends with status 4"), 0x10000), [])  # it runs nothing at all

    def test_an_empty_space_of_another_kernel(self) -> None:
        fit = windows.EmptyFit(4096, ["mseal"])
        trace = fit.fitted(trace_of("min 0x10000", "top 0x100000", "limit areas 3", MAP, "0 mseal 0x10000 4096 0"))
        self.assertEqual(trace.settings, {"min": 4096, "limit": 3})
        self.assertEqual([line.word for line in trace.lines], ["mmap"])
        self.assertTrue(fit.keeps(trace))
        self.assertFalse(fit.keeps(trace_of("0 mseal 0x10000 4096 0")))
        self.assertFalse(fit.keeps(trace_of("min 0x10000")))


class Endings(unittest.TestCase):
    def test_the_end_of_a_system_is_told_before_what_differs_above(self) -> None:
        trace = trace_of(MAP, "0 munmap 0x10000 4096", "0 fault 0x10000 w")
        sides = Answering(
            "L2 t0 v1 = 0x20000\nL3 t0 v2 = hung\n",
            None,
            f"L2 t0 v1 = 0x10000\nL3 t0 v2 = 0\nL4 t0 v2 = served\n{AREA}\n",
        )
        found = sides.difference(trace)
        self.assertEqual(found, Difference("munmap", "0", "hung", 3, ["L3 t0 v2 = 0"], ["L3 t0 v2 = hung"]))

    def test_an_end_is_no_list(self) -> None:
        self.assertIsNone(Answering("").end_in(trace_of(MAP), "L2 t0 v1 = 0x10000\nmaps 0\n"))


class Windows(unittest.TestCase):
    def test_places_outside_of_the_window_are_one(self) -> None:
        shown = beside.Windowed(Window(0x10000, 0x20000)).shown
        self.assertEqual(shown("L2 t0 v1 = 0x7ffff7ff0000\n"), shown("L2 t0 v1 = 0x400000000\n"))
        self.assertNotEqual(shown("L2 t0 v1 = 0x12000\n"), shown("L2 t0 v1 = 0x400000000\n"))

    def test_names_of_heaps_count_for_nothing(self) -> None:
        shown = beside.Windowed(Window(0x10000, 0x20000)).shown
        self.assertEqual(shown(f"{AREA.rstrip()}              [heap]\n"), shown(f"{AREA.rstrip()} \n"))
