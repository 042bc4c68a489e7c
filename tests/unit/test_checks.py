"""What the checks of tests/checks let pass and what not."""

import os
import signal
import subprocess
import sys
import unittest
from pathlib import Path
from unittest import mock

import checking
import documents
import examples
import judged_runs
import kit
import lint
import workflows

from models.loading import module_of
from unit.common import InFolder


class Groups(unittest.TestCase):
    def test_a_crate_in_two_groups_is_counted_twice(self) -> None:
        rows = "| tree | nodes, walks | nodes |\n| state | nodes | a list |\n"
        page = f"text\n\n| Group | Crates | What |\n|---|---|---|\n{rows}\nwalks\n"
        self.assertEqual(documents.groups_of(page), {"nodes": 2, "walks": 1})


class Histories(unittest.TestCase):
    def check(self, histories: list[int], processors: int = 4) -> None:
        runs = judged_runs.Runs(judged_runs.Program("none"), 1)
        runs.histories = histories
        with mock.patch.object(os, "sched_getaffinity", return_value=set(range(processors))), mock.patch("builtins.print"):
            runs.check_histories()

    def test_threads_that_run_one_after_the_other_are_refused(self) -> None:
        with self.assertRaises(checking.Failed):
            self.check([1] * 20)
        with self.assertRaises(checking.Failed):
            self.check([2] * 6 + [1] * 14)
        self.check([2] * 7 + [1] * 14)

    def test_where_it_cannot_be_told(self) -> None:
        self.check([1] * 20, processors=1)
        self.check([1] * (judged_runs.FEW - 1))


class Peaks(unittest.TestCase):
    def resident(self, *command: str, addresses: int = 1 << 40) -> tuple[int, int]:
        """The status of a command, and the KiB that it has resident at most."""
        told, writer = os.pipe()
        words = [sys.executable, "-IS", str(checking.TOP / "tests/checks/peak.py"), str(writer), str(addresses), *command]
        done = subprocess.run(words, pass_fds=[writer], stderr=subprocess.DEVNULL)
        os.close(writer)
        with open(told, "rb") as source:
            return done.returncode, int(source.read())

    def test_a_command_alone_is_counted(self) -> None:
        self.assertLess(self.resident("/bin/true")[1], 12_000)
        status, peak = self.resident(sys.executable, "-ISc", "bytearray(100_000_000)")
        self.assertEqual(status, 0)
        self.assertGreater(peak, 97_000)
        self.assertLess(peak, 125_000)

    def test_how_it_ends(self) -> None:
        self.assertEqual(self.resident("/bin/sh", "-c", "exit 3")[0], 3)
        self.assertEqual(self.resident("/bin/sh", "-c", "kill -9 $$")[0], 137)
        self.assertNotEqual(self.resident(sys.executable, "-ISc", "bytearray(1 << 30)", addresses=1 << 29)[0], 0)


class Workflows(unittest.TestCase):
    def test_the_steps_of_both_forms(self) -> None:
        github = {"on": ["push"], "jobs": {"one": {"steps": [{"uses": "actions/checkout@v4"}, {"run": "make"}]}}}
        gitlab = {"two": {"image": "debian:12", "before_script": ["apt-get update"], "script": ["make", "make test"]}}
        self.assertEqual(list(workflows.steps_of(github)), ["make"])
        self.assertEqual(list(workflows.steps_of(gitlab)), ["apt-get update", "make", "make test"])

    def test_a_step_takes_seconds(self) -> None:
        self.assertEqual(workflows.shortened("vma compare --for 300 -- ./a"), "vma compare --for 5 -- ./a")

    def test_a_step_that_fails(self) -> None:
        with self.assertRaisesRegex(checking.Failed, "has status 3"):
            workflows.run_step("exit 3", Path("/"))
        with self.assertRaisesRegex(checking.Failed, "has status 2: .*no-such"):
            workflows.run_step("echo no-such >&2; exit 2 # compare", Path("/"))


class Kit(unittest.TestCase):
    def test_its_letter_is_free_and_its_logic_is_not(self) -> None:
        with mock.patch("builtins.print"):
            kit.check_logic("0123abcd", "rattle-kit-13b logic 0123abcd\n")
            for told, why in (
                ("rattle-kit-14a logic 4567\n", r"its logic is 4567 \(rattle-kit-14a\), and kit-version has 0123abcd"),
                ("rt: no kit\n", "names no logic"),
            ):
                with self.assertRaisesRegex(checking.Failed, why):
                    kit.check_logic("0123abcd", told)


class Examples(InFolder):
    """A wrong output beside a trace, and one that is not legal, are found; no fork is judged."""

    def check(self, trace: str, output: str, judged: str) -> None:
        path = self.put("a.trace", trace)
        self.put("a.out", "right\n")
        program = self.put_program("program", f"cat > /dev/null\n[ $1 = check ] && echo {judged} || echo {output}\n")
        with mock.patch.object(examples, "TOP", self.top):
            examples.check_output(str(program), "serial", path)

    def test_what_is_found(self) -> None:
        self.check("vmatrace 1\n0 maps\n", "right", "legal")
        self.check("vmatrace 1\n0 fork 1\n", "right", "bad 2")
        for output, judged in (("wrong", "legal"), ("right", "'bad 2'")):
            with self.assertRaises(checking.Failed):
                self.check("vmatrace 1\n0 maps\n", output, judged)


class Patterns(unittest.TestCase):
    def test_a_possessive_group_is_found(self) -> None:
        for parts in ("[0-9]{1,16} +", "(a|b)* +", "[ab]+ +", "a? +", "(? >a)", ".+ +"):
            text = parts.replace(" ", "")
            self.assertEqual(list(lint.possessive(f"a = 1\nb = {text!r}\nc = {text.encode()!r}\n")), [2, 3], text)
        for text in ("[*+?}+]+", r"\\?+", r"\\++", "+++ exited", "g++ a.cc", "(a+|b)+ +"):
            self.assertEqual(list(lint.possessive(f"a = {text!r}\n")), [], text)


class Running(unittest.TestCase):
    """Under which Pythons checks run."""

    def setUp(self) -> None:
        self.tests = module_of(checking.TOP / "tests/run")

    def test_what_is_run_in_the_background_hears_an_interrupt(self) -> None:
        self.addCleanup(signal.signal, signal.SIGINT, signal.signal(signal.SIGINT, signal.SIG_IGN))
        self.tests.hear_interrupts()
        asks = [sys.executable, "-c", "import signal; print(signal.getsignal(signal.SIGINT) is signal.SIG_IGN)"]
        self.assertEqual(subprocess.run(asks, capture_output=True, text=True).stdout, "False\n")

    def pythons(self, said: str, *names: str) -> list[str]:
        done = subprocess.CompletedProcess([], 0, said)
        place = mock.patch.object(self.tests, "SYSTEM_PYTHON", "/bin/sh")
        with place, mock.patch.object(subprocess, "run", return_value=done), mock.patch("builtins.print") as printed:
            found = list(self.tests.pythons(list(names)))
        self.assertEqual(printed.called, said.startswith("3 9 "))
        return found

    def test_another_version_is_tried_where_all_run(self) -> None:
        own = sys.executable
        self.assertEqual(self.pythons("3 99 0"), [own, "/bin/sh"])
        self.assertEqual(self.pythons("3 99 0", "unit"), [own])
        self.assertEqual(self.pythons(" ".join(map(str, sys.version_info[:3]))), [own])
        self.assertEqual(self.pythons("3 9 2"), [own])
