"""Adapters: what `serve` makes of a class, what an adapter says that it has, and that traces are made of that alone."""

import contextlib
import io
import os
import shlex
import subprocess
import sys
import unittest
from typing import Any
from unittest import mock

from unit.common import InFolder, vma
from vmatools import adapter, model
from vmatools.adapter import Area, File, Settings
from vmatools.commands import new_adapter
from vmatools.running import program
from vmatools.running.program import TOP
from vmatools.systems.batch import Adapter, Adapters
from vmatools.systems.capabilities import Capabilities, split
from vmatools.traces import PAGE, read_trace

EXAMPLE = [sys.executable, str(TOP / "examples/batch/adapter.py")]
ANONYMOUS = "MAP_PRIVATE|MAP_ANONYMOUS"


class ByModel:
    """A space that answers as the model does, through the methods of an adapter."""

    def __init__(self, settings: Settings) -> None:
        self.settings, self.space, self.known = settings, model.Space(read_trace(b"vmatrace 1\n")), dict[int, File]()
        self.space.min, self.space.top, self.space.heap = (
            place // PAGE for place in (settings.min, settings.top, settings.heap)
        )
        self.space.most_areas, self.space.break_ = settings.limit, settings.heap
        self.munmap, self.mprotect, self.mseal = self.space.munmap, self.space.mprotect, self.space.mseal
        self.brk, self.mremap = self.space.brk, self.space.mremap

    def mmap(self, address: int, length: int, prot: int, flags: int, file: File | None, offset: int) -> int | str:
        return self.space.mmap(address, length, prot, flags, -1, offset)

    def areas(self) -> list[Area]:
        return [Area(a.lo * PAGE, a.hi * PAGE, a.prot, a.shared, 0, None, a.heap) for a in self.space.areas]

    def fault(self, address: int, access: str) -> Area | str:
        grown = self.space.grow(address, access)
        verdict = self.space.fault(address, access)
        if not grown and not verdict.startswith("served"):
            return verdict
        return next(area for area in self.areas() if area.start <= address < area.end)


class Few:
    """A space with one call, which fails as it is asked."""

    lacks = ("fork", "MAP_SHARED")

    def __init__(self, settings: Settings) -> None:
        self.replies = iter((0x10000, -12, "EFAULT", OSError(22, "Invalid"), None))

    def munmap(self, address: int, length: int) -> Any:
        reply = next(self.replies)
        if isinstance(reply, OSError):
            raise reply
        return reply


def output(space_type: Any, text: str) -> str:
    with contextlib.redirect_stderr(io.StringIO()):
        return adapter.answered(space_type, text.encode())[0]


class Served(unittest.TestCase):
    def test_what_the_model_answers(self) -> None:
        text = (
            f"vmatrace 1\nlimit areas 6\nheap 0x200000\n0 mmap 0x20000 4096 PROT_READ|PROT_WRITE {ANONYMOUS}|MAP_GROWSDOWN -1 0\n"
            "2 fault 0x1f008 w\n1 fault 0x1f008 r\n0 brk 0x201000\n0 maps\n0 fork 5\n5 munmap 0x200000 4096\n5 maps\n"
            "0 mremap 0x1f000 8192 4096 0\n0 mseal 0x1f000 4096 0\n0 mprotect 0x1f000 4096 PROT_READ\n"
        )
        from vmatools.profile.serial import serial_output

        self.assertEqual(output(ByModel, text), serial_output(read_trace(text.encode())))

    def test_replies_of_every_kind(self) -> None:
        text = "vmatrace 1\n" + "0 munmap 0x10000 4096\n" * 5
        results = [line.split(" = ")[1] for line in output(Few, text).splitlines()[:-1]]
        self.assertEqual(results, ["0x10000", "-1 ENOMEM", "-1 EFAULT", "-1 EINVAL", "0"])

    def test_shared_memory_has_its_number_where_the_call_is_done(self) -> None:
        numbers = []

        class Shared:
            def __init__(self, settings: Settings) -> None:
                pass

            def mmap(self, *arguments: Any) -> int:
                numbers.append(arguments[4].inode)
                return -22 if len(numbers) == 1 else 0x10000

        line = "0 mmap 0 4096 PROT_READ MAP_SHARED|MAP_ANONYMOUS -1 0\n"
        output(Shared, "vmatrace 1\nfile 3 r 1 0:0 1 /a\n" + line * 3)
        self.assertEqual(numbers, [2, 2, 3])

    def test_a_bad_trace_and_a_fault_of_the_class(self) -> None:
        with contextlib.redirect_stderr(io.StringIO()) as said:
            self.assertEqual(adapter.answered(Few, b"vmatrace 3\n"), ("", " 3 trace line 1 cause 1 Header"))
            self.assertEqual(adapter.answered(Few, b"vmatrace 1\n" + b"0 munmap 0 1\n" * 6), ("", " 1 StopIteration: "))
        self.assertIn("Traceback", said.getvalue())


class Has(unittest.TestCase):
    def test_what_a_class_has(self) -> None:
        self.assertEqual(adapter.capabilities(Few), "has munmap limit top min file wide -MAP_SHARED")
        self.assertEqual(adapter.capabilities(ByModel)[:20], "has mmap fault maps ")

    def test_the_line_before_the_first_answer(self) -> None:
        has, rest = split(b"has munmap -MAP_SHARED\nmaps 0\n")
        self.assertEqual((has and has.words, rest), (frozenset({"munmap", "-MAP_SHARED"}), b"maps 0\n"))
        self.assertEqual(split(b"maps 0\n"), (None, b"maps 0\n"))

    def test_traces_are_made_of_it_alone(self) -> None:
        has = Capabilities(frozenset("mmap munmap maps min -MAP_SHARED".split()))
        trace = read_trace(
            f"vmatrace 2\nlimit areas 9\nmin 0x20000\nfile 3 r 1 0:0 1 /a\n0 mmap 0 4096 PROT_READ {ANONYMOUS} -1 0\n"
            "0 mmap 0 4096 PROT_READ MAP_SHARED|MAP_ANONYMOUS -1 0\n0 mmap 0 4096 PROT_READ MAP_PRIVATE 3 0\n"
            "0 fork 4\n4 munmap 0x1000 4096\n1 munmap 0x1000 4096 after=5\n0 fault 0 r\n0 maps\n".encode()
        )
        self.assertEqual(has.lacked(trace), "wide")
        self.assertEqual(
            has.fitted(trace).text(),
            f"vmatrace 1\nmin 0x20000\n0 mmap 0 4096 PROT_READ {ANONYMOUS} -1 0\n1 munmap 0x1000 4096 after=3\n0 maps\n",
        )
        self.assertTrue(has.keeps(has.fitted(trace)))

    def test_an_adapter_that_says_so_and_one_that_does_not(self) -> None:
        for command, has in ((EXAMPLE, True), ([sys.executable, "-c", OLDER], False)):
            adapters = Adapters(command)
            self.addCleanup(adapters.close)
            self.assertEqual(bool(adapters.capabilities(60)), has)
            self.assertEqual(adapters.run(b"vmatrace 1\n", 60).output, "maps 0\n")

    def test_one_that_ends_says_it_again(self) -> None:
        one = Adapter(EXAMPLE)
        self.addCleanup(one.close)
        for _ in range(2):
            self.assertEqual(one.run(b"vmatrace 1\n", 60).output, "maps 0\n")
            one.close()


OLDER = """
import sys
for line in sys.stdin:
    if line.startswith("end "):
        print("maps 0", line, sep="\\n", end="", flush=True)
"""


class Example(InFolder):
    def test_one_trace_without_batch(self) -> None:
        text = (TOP / "examples/readme.trace").read_text()
        done = subprocess.run(EXAMPLE, input=text, capture_output=True, text=True)
        self.assertEqual((done.returncode, done.stdout), (0, (TOP / "examples/readme.out").read_text()))

    def test_the_second_search_goes_up_from_the_lowest_address(self) -> None:
        lines = "0 mmap 0 4096 PROT_READ MAP_PRIVATE|MAP_ANONYMOUS -1 0\n" * 2
        done = subprocess.run(EXAMPLE, input=f"vmatrace 1\nmin 0x7fffffffe000\n{lines}", capture_output=True, text=True)
        self.assertEqual(done.stdout.splitlines()[:2], ["L3 t0 v1 = 0x7fffffffe000", "L4 t0 v2 = -1 ENOMEM"])

    def test_a_new_adapter_runs_where_it_is_written(self) -> None:
        for language, names in (("python", ["adapter.py"]), ("c", ["adapter.c", "vma_adapter.h"])):
            done = vma("new-adapter", language, f"{self.top}/{language}")
            self.assertEqual((done.returncode, sorted(os.listdir(self.top / language))), (0, names), done.stderr)
        done = vma("new-adapter", "c", f"{self.top}/c")
        self.assertEqual((done.returncode, done.stdout), (2, ""))
        self.assertIn("adapter.c: it is there already", done.stderr)
        self.assertNotIn("examples/", (self.top / "python/adapter.py").read_text())
        own = subprocess.run([self.top / "python/adapter.py"], input="vmatrace 1\n0 maps\n", capture_output=True, text=True)
        self.assertEqual(own.stdout, "L2 t0 v0 = maps 0\nmaps 0\n")

    def test_a_new_adapter_takes_the_tools_that_are_there(self) -> None:
        for name in ("__init__", "adapter"):
            self.put(f"tools/vmatools/{name}.py", "Area = File = Settings = object\nserve = lambda kind: print(kind.lacks)\n")
        self.assertEqual(vma("new-adapter", "python", f"{self.top}/made").returncode, 0)
        os.rename(self.top / "made", self.top / "moved")
        command, environment = [self.top / "moved/adapter.py"], {**os.environ, "PYTHONPATH": f"{self.top}/tools"}
        done = subprocess.run(command, capture_output=True, text=True, env=environment)
        self.assertEqual((done.returncode, done.stdout[:8], done.stderr), (0, "('limit'", ""))

    def test_its_next_commands_are_for_a_shell_wherever_the_tools_are(self) -> None:
        tool = self.put("a ü/tools/vma", "")
        with mock.patch.object(program, "TOP", self.top / "a ü"):
            last = new_adapter.next_steps(self.top, new_adapter.LANGUAGES["c"], "./adapter")[-1]
        self.assertEqual(shlex.split(last), [str(tool), "compare", "--batch", "--", "./adapter"])

    def test_what_it_lacks_is_left_out_without_batch_too(self) -> None:
        case = ["--only", "mprotect/limit-split-refused", "--only", "munmap/whole"]
        runs = ["--no-suite", "--runs", "5", "--profile", "limits"]
        for words in ("conform", *case), ("compare", *runs):
            command = [sys.executable, str(TOP / "tools/vma"), *words, "--", *EXAMPLE]
            done = subprocess.run(command, capture_output=True, text=True)
            self.assertEqual(done.returncode, 0, done.stdout)
            self.assertRegex(done.stdout + done.stderr, "left out: 1: the adapter has no limit|COMMAND has no .*limit.*: traces")

    def test_a_new_adapter_that_cannot_be_written_is_not_there(self) -> None:
        limited = ["sh", "-c", 'ulimit -f 16; exec "$@"', "sh", sys.executable, str(TOP / "tools/vma")]
        done = subprocess.run([*limited, "new-adapter", "c", self.top], capture_output=True, text=True)
        self.assertEqual((done.returncode, os.listdir(self.top)), (74, []), done.stderr)
