"""What the tools start ends with them, whatever ends them, and so does what that has started."""

import os
import signal
import subprocess
import sys
import time
from collections.abc import Callable
from typing import Any
from unittest import mock

from unit.common import VMA, InFolder
from vmatools.running import children, keeper
from vmatools.running.program import TOP

SECONDS = 30  # for what is done at once on a machine that is not busy
# An adapter that hangs, with a child in its group and one in a session of its own. Each writes its number.
HANGS = """
{says}
echo $$ >> {pids}
sh -c 'echo $$ >> {pids}; while :; do sleep 1; done' &
setsid sh -c 'echo $$ >> {pids}; while :; do sleep 1; done' &
while :; do sleep 1; done
"""
# A tool that is killed before it can tell the keeper what it has started. What that has started is without a parent by then.
KILLED = """
import os, signal, time
from vmatools.running import children

def kill(line):
    print(line, flush=True)
    while os.stat({pids!r}).st_size == 0:
        time.sleep(0.01)
    os.kill(os.getpid(), signal.SIGKILL)

children.tell = kill
children.start(["sh", "-c", "setsid sh -c 'echo $$ >> {pids}; sleep 1000' & read a < {fifo}"], stdout=-3, stderr=-3)
"""


# How an adapter answers when it is asked what it has, by itself and as one of many traces.
ANSWERS = ("read a; case $a in trace*) exit;; esac", "read a; read b; read c; echo maps 0; echo end 1; read d")


def waited(is_done: Callable[[], object]) -> bool:
    """Whether something comes true in time."""
    end = time.monotonic() + SECONDS
    while not is_done() and time.monotonic() < end:
        time.sleep(0.02)
    return bool(is_done())


class Children(InFolder):
    def setUp(self) -> None:
        super().setUp()
        self.pids = self.put("pids", "")

    def adapter(self, says: str = "") -> list[str]:
        """The command of an adapter that hangs when it has said this."""
        return ["sh", str(self.put("adapter", HANGS.format(pids=self.pids, says=says)))]

    def started(self) -> list[int]:
        return [int(line) for line in self.pids.read_text(encoding="ascii").split()]

    def left(self) -> list[int]:
        """Which of them still run."""
        return sorted(set(self.started()) & set(keeper.families()))

    def ended_by(self, number: int, command: list[str], **more: Any) -> tuple[int, str, str]:
        """Ends a tool in the middle of a case that hangs; its status, and what it wrote, where all it started is gone."""
        with subprocess.Popen(command, stdout=subprocess.PIPE, stderr=subprocess.PIPE, text=True, **more) as tool:
            try:
                self.assertTrue(waited(lambda: len(self.started()) >= 3), f"the adapter hasn't begun in {SECONDS} seconds")
                tool.send_signal(number)
                output, message = tool.communicate(timeout=SECONDS)
            except subprocess.TimeoutExpired:
                self.fail(f"the tool hasn't ended {SECONDS} seconds after {signal.Signals(number).name}")
            finally:
                tool.kill()
        self.assertTrue(waited(lambda: not self.left()), f"{self.left()} of {self.started()} still run")
        return tool.returncode, output, message

    def test_what_is_waited_for_is_named_and_not_for_long(self) -> None:
        for started, told in (("", "the adapter hasn't begun in 0.5"), ("1\n2\n3\n", "hasn't ended 0.5 .* SIGURG")):
            begin = time.monotonic()
            self.pids.write_text(started)
            with mock.patch.dict(globals(), SECONDS=0.5), self.assertRaisesRegex(AssertionError, told):
                self.ended_by(signal.SIGURG, ["sleep", "40"])  # it does nothing
            self.assertLess(time.monotonic() - begin, SECONDS)

    def test_conform_that_is_ended(self) -> None:
        for batch in list[str](), ["--batch"]:
            for number in (signal.SIGTERM, signal.SIGKILL, signal.SIGINT):
                with self.subTest(batch=batch, number=number):
                    self.pids.write_text("")
                    words = ["conform", "--jobs", "1", "--seconds", "600", "--only", "brk", *batch, "--"]
                    status, output, message = self.ended_by(number, [*VMA, *words, *self.adapter(ANSWERS[bool(batch)])])
                    if number == signal.SIGINT:  # with a report of what there was
                        self.assertEqual(status, 130)
                        self.assertRegex(message, "interrupted: 0 of [0-9]+ cases")
                        self.assertIn("all ", output)

    def test_compare_that_is_ended(self) -> None:
        program, trace = self.put_program("program", "echo maps 0\n"), self.put("a.trace", "vmatrace 1\n")
        for batch in list[str](), ["--batch"]:
            for number, wanted in ((signal.SIGTERM, 143), (signal.SIGKILL, -9), (signal.SIGINT, 130)):
                with self.subTest(batch=batch, number=number):
                    self.pids.write_text("")
                    words = ["--jobs", "1", "--seconds", "600", "--program", str(program), "--traces", str(trace), *batch]
                    status, _, _ = self.ended_by(number, [*VMA, "compare", *words, "--", *self.adapter(ANSWERS[bool(batch)])])
                    self.assertEqual(status, wanted)

    def test_a_check_that_is_ended(self) -> None:
        self.put_program("rt", HANGS.format(pids=self.pids, says=""))
        environment = {**os.environ, "PATH": f"{self.top}:{os.environ['PATH']}", "TMPDIR": str(self.top)}
        check = [sys.executable, "-B", str(TOP / "tests/checks"), "refused_programs"]
        for number, wanted in ((signal.SIGTERM, -15), (signal.SIGKILL, -9), (signal.SIGINT, 130)):
            with self.subTest(number=number):
                self.pids.write_text("")
                self.assertEqual(self.ended_by(number, check, env=environment)[0], wanted)

    def test_a_tool_that_is_killed_before_the_keeper_knows(self) -> None:
        fifo = self.top / "fifo"
        os.mkfifo(fifo)
        script = KILLED.format(pids=str(self.pids), fifo=fifo)
        environment = {**os.environ, "PYTHONPATH": str(TOP / "tools")}
        done = subprocess.run([sys.executable, "-c", script], stdout=subprocess.PIPE, text=True, timeout=SECONDS, env=environment)
        self.assertEqual(done.returncode, -signal.SIGKILL)
        started = {int(done.stdout), *self.started()}
        self.assertEqual(len(started), 2)
        self.assertTrue(waited(lambda: not started & set(keeper.families())), "what was started runs on")

    def test_an_adapter_that_is_too_slow(self) -> None:
        process = children.start(self.adapter())
        self.assertTrue(waited(lambda: len(self.started()) >= 3))
        children.stop(process)
        children.end(process)
        self.assertEqual(process.returncode, -signal.SIGKILL)
        self.assertTrue(waited(lambda: not self.left()))
        self.assertNotIn(process, children.RUNNING)

    def test_the_keeper_lets_be_what_was_taken_back(self) -> None:
        source, target = os.pipe()
        with subprocess.Popen(["sleep", "100"], start_new_session=True) as kept:
            with subprocess.Popen(["sleep", "100"], start_new_session=True) as gone:
                with subprocess.Popen([sys.executable, "-I", "-S", keeper.__file__], stdin=source) as process:
                    os.close(source)
                    os.write(target, f"+{kept.pid}\n+{gone.pid}\n-{kept.pid}\n".encode())
                    os.close(target)
                    self.assertEqual(process.wait(SECONDS), 0)
                self.assertEqual(gone.wait(SECONDS), -signal.SIGKILL)
            self.assertIsNone(kept.poll())
            kept.kill()
