"""Traces for diltzekun-live: the order of its answers, a session that answers one trace after another, and where it is found."""

import argparse
import os
import sys
import textwrap
import unittest
from typing import Any
from unittest import mock

from unit.common import InFolder
from vmatools import console
from vmatools.commands import compare, conform
from vmatools.comparing import campaign, comparison, conformance, findings, generator
from vmatools.profile.serial import serial_output
from vmatools.running import forks, live, program
from vmatools.systems.batch import Adapters
from vmatools.traces import read_trace

FORK = b"vmatrace 1\n0 fork 1\n0 maps\n"
# Reads of one version by several threads, before forks and in children.
FORKS = b"""vmatrace 1
5 maps
3 mmap 0x10000 4096 PROT_READ MAP_PRIVATE|MAP_ANONYMOUS|MAP_FIXED -1 0
7 maps
1 fork 2
0 maps
2 maps
2 munmap 0x10000 4096
2 maps
0 munmap 0x10000 8192
5 fork 9
9 brk 0
9 maps
3 maps
"""
EMPTY = b"vmatrace 1\n0 munmap 0x10000 4096\n0 maps\n"
ANSWERS = "L2 t0 v1 = 0\nL3 t0 v1 = maps 0\nmaps 0\n"
# A session with no memory. It doesn't fork, ends at a `fault`, and is silent at an `mseal`.
SESSION = textwrap.dedent(
    """
    import sys
    number = version = 0
    for line in sys.stdin:
        number, words = number + 1, line.split()
        if words == ["new"]:
            print("maps 0", flush=True)
            number = version = 0
        elif words[0] == "query":
            print("none", flush=True)
        elif words[1:2] == ["fork"]:
            print(f"trace line {number} cause 14 Child")
        elif words[1:2] == ["touch"]:
            print(f"trace line {number} cause 3 Word")
        elif words[1:2] == ["maps"]:
            print(f"L{number} t{words[0]} v{version} = maps 0")
        elif words[1:2] == ["fault"]:
            sys.exit(6)
        elif words[1:2] == ["mseal"]:
            sys.stdin.readline(), sys.stdin.read()
        elif words[0] not in ("vmatrace", "#"):
            version += 1
            print(f"L{number} t{words[0]} v{version} = 0")
    """
)


def parsed(command: Any, words: list[str]) -> argparse.Namespace:
    parser = argparse.ArgumentParser()
    command.add_arguments(parser)
    return parser.parse_args(words)


class Orders(unittest.TestCase):
    """The order in which `serial` prints what a session answers line by line."""

    def test_reads_of_one_version_go_by_thread(self) -> None:
        one, two = "L2 t1 v0 = maps 1\n1000-2000 r--p 00000000 00:00 0 \n", "L3 t0 v0 = SIGSEGV SEGV_MAPERR\n"
        self.assertEqual(live.as_serial(one + two + "maps 0\n"), two + one + "maps 0\n")

    def test_reads_of_one_thread_keep_their_order(self) -> None:
        text = "L2 t0 v0 = ok\nL3 t0 v0 = SIGSEGV SEGV_MAPERR\nmaps 0\n"
        self.assertEqual(live.as_serial(text), text)

    def test_a_call_comes_before_the_reads_of_its_version(self) -> None:
        lines = ["L2 t3 v1 = 0\n", "L3 t1 v1 = maps 0\n", "L4 t0 v1 = maps 0\n", "L5 t0 v2 = 0\n", "maps 0\n"]
        self.assertEqual(live.as_serial("".join(lines)), "".join(lines[place] for place in (0, 2, 1, 3, 4)))

    def test_what_is_no_answer_stays_as_it_is(self) -> None:
        for text in ("", "x\n", "L2 t1 v0 = ok\nx\nL3 t0 v0 = ok\n", "maps 0\nL2 t0 v0 = ok\n"):
            self.assertEqual(live.as_serial(text), text)


class Sessions(unittest.TestCase):
    """One process answers one trace after another, and keeps its place whatever a trace is."""

    def setUp(self) -> None:
        self.adapter = live.LiveAdapter([sys.executable, "-c", SESSION])
        self.addCleanup(self.adapter.close)

    def test_each_trace_has_its_answer(self) -> None:
        for _ in range(3):
            answer = self.adapter.run(EMPTY, 30)
            self.assertEqual((answer.output, answer.fault), (ANSWERS, None))

    def test_behind_a_bad_line_the_next_trace_has_its_answer(self) -> None:
        process = self.adapter.begin()
        for text, fault, message in (
            (FORK, conformance.CANNOT_RUN, "line 2: diltzekun-live doesn't fork"),
            (b"vmatrace 1\n0 maps\n0 touch 1\n0 touch 2\n", "ends with status 3", "trace line 3 cause 3 Word"),
            (b"vmatrace 1\nnew\n0 maps\n", "ends with status 3", "line 2: no line of a trace is so"),
            (b"vmatrace 1\n0 maps\n query 0\n", "ends with status 3", "line 3: no line of a trace is so"),
            (b"vmatrace 1\n0 maps", "ends with status 3", "line 2: no line of a trace is so"),
        ):
            answer = self.adapter.run(text, 30)
            self.assertEqual((answer.output, answer.fault, answer.message), ("", fault, message))
            self.assertEqual(self.adapter.run(EMPTY, 30).output, ANSWERS)
        self.assertIs(self.adapter.process, process)

    def test_many_traces_are_answered_up_to_one_that_is_refused(self) -> None:
        refused = b"vmatrace 1\nnew\n0 maps\n"
        answers = self.adapter.run_all([EMPTY, FORK, EMPTY, refused, EMPTY], 30)
        self.assertEqual([answer.output for answer in answers], [ANSWERS, "", ANSWERS])
        self.assertEqual(answers[1].fault, conformance.CANNOT_RUN)
        self.assertEqual([answer.fault for answer in self.adapter.run_all([refused, EMPTY], 30)], ["ends with status 3"])

    def test_a_session_that_ends_or_hangs_is_another_one_then(self) -> None:
        ends, hangs = b"vmatrace 1\n0 fault 0 r\n", b"vmatrace 1\n0 mseal 0 0 0\n"
        self.assertEqual(self.adapter.run(ends, 30).fault, "ends with status 6")
        self.assertEqual(self.adapter.run(EMPTY, 30).output, ANSWERS)
        self.assertEqual(self.adapter.run(hangs, 0.5).fault, "does not end")
        self.assertEqual(self.adapter.run(EMPTY, 30).output, ANSWERS)

    def test_it_is_closed(self) -> None:
        self.adapter.run(EMPTY, 30)
        process = self.adapter.process
        self.adapter.close()
        assert process
        self.assertEqual(process.poll(), 0)


class InComparison(unittest.TestCase):
    """A comparison whose program is answered for by sessions."""

    def setUp(self) -> None:
        self.sides = comparison.Sides("/no/program", [], 10, comparison.Rules())
        self.sides.live = Adapters([sys.executable, "-c", SESSION], live.LiveAdapter)
        self.addCleanup(self.sides.live.close)

    def test_a_trace_goes_to_a_session(self) -> None:
        self.assertEqual(self.sides.program_output(read_trace(EMPTY)), ANSWERS)

    def test_what_a_session_fails_on_goes_to_the_program(self) -> None:
        for text in (b"vmatrace 1\n0 fault 0x1000 r\n", FORK + b"1 fault 0x1000 r\n"):
            with mock.patch.object(self.sides, "by_serial", lambda _: "maps 7\n"):
                self.assertEqual(self.sides.program_output(read_trace(text)), "maps 7\n")

    def test_both_sides_answer_many_traces_at_once(self) -> None:
        traces = [read_trace(EMPTY), read_trace(FORK), read_trace(EMPTY)]
        self.assertEqual(self.sides.seen(traces), [comparison.Seen()] * 3)
        self.sides.adapters = Adapters([sys.executable, "-c", SESSION], live.LiveAdapter)
        self.addCleanup(self.sides.adapters.close)
        first, fork, last = self.sides.seen(traces)
        assert first.there and fork.there
        self.assertEqual((first.there.output, first.right), (ANSWERS, ANSWERS))
        self.assertEqual((fork.there.fault, last), (conformance.CANNOT_RUN, first))
        self.assertEqual(fork.right, serial_output(read_trace(FORK)))
        with mock.patch.object(self.sides, "there", side_effect=AssertionError):
            self.assertEqual(comparison.examine(self.sides, traces[0], seen=first), comparison.Examined())
            told = comparison.examine(self.sides, traces[0], seen=comparison.Seen(fork.there, ANSWERS))
        self.assertEqual(told.left_out, "diltzekun-live doesn't fork")

    def test_a_model_that_answers_in_its_place_is_held_to_the_program(self) -> None:
        self.sides.adapters, self.sides.live = self.sides.live, None
        examiner = campaign.Campaign(campaign.Settings([], ["few"], 1), self.sides, findings.Findings())
        with mock.patch.object(self.sides, "by_serial", lambda _: "maps 7\n"):
            with self.assertRaisesRegex(comparison.CannotRun, "the model of the tools answers otherwise"):
                examiner.examined_all([campaign.Source(0, "", [], lambda: read_trace(FORK))])

    def test_a_smallest_trace_is_held_to_the_program(self) -> None:
        trace = read_trace(EMPTY)
        with mock.patch.object(self.sides, "by_serial", lambda _: ANSWERS):
            self.sides.confirm_smallest(trace)
        with mock.patch.object(self.sides, "by_serial", lambda _: "maps 7\n"):
            with self.assertRaisesRegex(comparison.CannotRun, "are both of one build"):
                self.sides.confirm_smallest(trace)


class Forks(unittest.TestCase):
    """A trace that forks is answered by a session for each space, as `serial` prints it."""

    def test_it_is_as_by_serial(self) -> None:
        sides = comparison.Sides("/no/program", [], 10, comparison.Rules())
        sides.live = Adapters([str(program.LIVE.model)], live.LiveAdapter)
        self.addCleanup(sides.live.close)
        suite = [read_trace(path.read_bytes()).numbered() for path in conformance.cases_in_order(False) if "fork" in path.name]
        drawn = [generator.Generator("fork", f"sessions {number}", 25).draw() for number in range(20)]
        threads = [read_trace(FORKS)]
        traces = [trace for trace in [*suite, *drawn, *threads] if forks.forks_of(trace)]
        self.assertGreater(len(traces), 10)
        answers = sides.by_sessions(traces)
        for place, trace in enumerate(traces):
            self.assertEqual(answers[place], serial_output(trace), trace.text())


class Places(InFolder):
    """Which diltzekun-live is taken."""

    def setUp(self) -> None:
        super().setUp()
        names = ("given", "diltzekun", "diltzekun-live", "other")
        self.made = {name: str(self.put_program(name, "")) for name in names}
        self.environment = {"PATH": str(self.top)}

    def test_the_one_from_where_the_program_is(self) -> None:
        with mock.patch.dict(os.environ, self.environment, clear=True):
            self.assertEqual(program.live_beside(None), self.made["diltzekun-live"])
            self.assertIsNone(program.live_beside(self.made["given"]))
            os.environ[program.VARIABLE] = self.made["given"]
            self.assertIsNone(program.live_beside(None))
            os.environ[program.LIVE.variable] = self.made["other"]
            self.assertEqual(program.live_beside(None), self.made["other"])
            self.assertIsNone(program.live_beside(self.made["given"]))

    def test_one_that_is_missing(self) -> None:
        with self.assertRaises(console.Failure) as caught:
            program.find("/no/live", named=program.LIVE)
        self.assertIn("crates/vma_live && rt run", str(caught.exception))

    def test_compare_takes_the_one_that_is_given(self) -> None:
        with mock.patch.dict(os.environ, self.environment, clear=True):
            cases: list[tuple[list[str], str | None]] = [
                ([], self.made["diltzekun-live"]),
                (["--program", self.made["given"]], None),
                (["--program", self.made["given"], "--live", self.made["other"]], self.made["other"]),
                (["--threads", "2"], None),
            ]
            for words, wanted in cases:
                options = parsed(compare, words)
                compare.take_program(options)
                self.assertEqual(options.live, wanted, words)

    def test_conform_takes_it_in_the_place_of_a_command(self) -> None:
        options = parsed(conform, ["--live", self.made["given"]])
        conform.take_live(options)
        self.assertEqual((options.command, options.batch), ([self.made["given"]], True))
        with self.assertRaises(console.Failure):
            conform.take_live(parsed(conform, ["--live", self.made["given"], "--", "true"]))
