"""The runner's scripts and answers, places, processes and batches, without a system that answers."""

import gzip
import io
import struct
import sys
import tempfile
import unittest
from pathlib import Path
from unittest import mock

from models.loading import module_of
from vmatools import console, model
from vmatools.commands import kernel
from vmatools.comparing import generator, windows
from vmatools.running.program import TOP
from vmatools.systems import (
    batch,
    empty,
    known,
    linux_of,
    machines,
    measuring,
    rows,
    running,
    scripts,
    searches,
    seen,
    telling,
)
from vmatools.systems.places import PAST_ALL, Refused, Window, check_window, finds_place, leaves
from vmatools.traces import Trace, read_trace

MAP = "MAP_PRIVATE|MAP_ANONYMOUS"
WINDOW = Window(0x10000, 0x2000000)


def trace_of(*lines: str) -> Trace:
    return read_trace("".join(line + "\n" for line in ("vmatrace 1", *lines)).encode())


class Places(unittest.TestCase):
    def refusal(self, *lines: str) -> str:
        with self.assertRaises(Refused) as caught:
            check_window(trace_of(*lines), WINDOW)
        self.assertEqual(caught.exception.status, 4)
        return str(caught.exception)

    def test_a_trace_keeps_to_a_window(self) -> None:
        check_window(trace_of(f"0 mmap 0x10000 4096 PROT_READ {MAP}|MAP_FIXED -1 0", "0 maps"), WINDOW)
        check_window(trace_of(f"0 mmap 0x10000 {PAST_ALL} PROT_READ {MAP}|MAP_FIXED -1 0"), WINDOW)
        self.assertIn("line 2: it leaves the window from 0x10000 to 0x2000000", self.refusal("0 munmap 0x1fff000 8192"))
        self.assertIn("line 2: it leaves the place", self.refusal(f"0 mmap 0 4096 PROT_READ {MAP} -1 0"))
        self.assertIn("takes a `heap`", self.refusal("0 brk 0x20000"))
        self.assertIn("cannot be set in a window", self.refusal("limit areas 3"))

    def test_a_heap_narrows_the_window(self) -> None:
        self.assertEqual(WINDOW.of(trace_of("heap 0x100000")), (0xD0000, 0x140000))
        self.assertIn("leaves the window from 0xd0000", self.refusal("heap 0x100000", "0 fault 0x1000000 r"))

    def test_the_ends_of_a_trace_narrow_the_window(self) -> None:
        self.assertEqual(WINDOW.of(trace_of("min 0x40000", "top 0x100000")), (0x40000, 0x100000))
        self.assertEqual(WINDOW.of(trace_of("min 0x1000", "heap 0x100000")), (0xD0000, 0x140000))
        self.assertIn("leaves the window from 0x40000", self.refusal("min 0x40000", "0 fault 0x3f000 w"))

    def test_which_lines_find_a_place(self) -> None:
        finding = [f"0 mmap 0x10000 4096 PROT_READ {MAP} -1 0", "0 mremap 0x10000 4096 8192 MREMAP_MAYMOVE"]
        fixed = [
            f"0 mmap 0x10000 4096 PROT_READ {MAP}|MAP_FIXED -1 0",
            "0 mremap 0x10000 4096 8192 0",
            "0 munmap 0x10000 4096",
        ]
        self.assertEqual([finds_place(line) for line in trace_of(*finding, *fixed).lines], [True] * 2 + [False] * 3)

    def test_an_empty_space_has_what_its_kernel_has(self) -> None:
        guest = empty.Kernel(lowest=4096, most_areas=2000, is_wide=False)
        for lines, said in {
            ("0 munmap 0 0x7ffffffff000",): "line 2: it touches the addresses from 0x7fffff000000",
            ("limit areas 3000",): "vm.max_map_count is lower here",
            ("min 0x10000",): "the lowest address of this machine",
            ("top 0x100000",): "the kernel's search begins between",
            ("heap 0x7fffff010000",): "lies among this tool's own",
        }.items():
            with self.subTest(lines), self.assertRaisesRegex(Refused, said):
                empty.check_empty(trace_of(*lines), guest)
        empty.check_empty(
            trace_of("min 0x1000", "limit areas 10", "top 0x155555556000", "0 munmap 0x10000 4096"), guest
        )


class Fits(unittest.TestCase):
    def test_random_traces_keep_to_the_window_and_leave_no_place(self) -> None:
        fit = windows.Fit(WINDOW, ["mseal"])
        for number, profile in enumerate(windows.PROFILES * 2):
            trace = fit.fitted(generator.Generator(profile, f"1 {number}", 20).draw())
            with self.subTest(profile, number=number):
                check_window(trace, WINDOW)
                self.assertTrue(fit.keeps(trace))
                self.assertEqual((trace.settings["min"], trace.settings["top"]), (WINDOW.low, WINDOW.high))
                self.assertFalse(any(line.word == "mseal" for line in trace.lines))
                told = searches.answers_of_model(trace)
                self.assertFalse(
                    [
                        line
                        for line in trace.lines
                        if finds_place(line) and searches.is_place_of_search(line, told[line.number])
                    ]
                )

    def test_a_trace_out_of_the_window_is_told(self) -> None:
        fit = windows.Fit(WINDOW)
        for line in ("0 munmap 0x2000000 4096", f"0 mmap 0 4096 PROT_READ {MAP} -1 0", "0 brk 0x20000"):
            self.assertFalse(fit.keeps(trace_of(line)), line)
        self.assertTrue(leaves(trace_of("0 fault 0x1000 r").lines[0], WINDOW.low, WINDOW.high))

    def test_a_hint_below_a_growing_area_becomes_a_place(self) -> None:
        growing = f"0 mmap 0x11000 4096 PROT_READ {MAP}|MAP_FIXED|MAP_GROWSDOWN -1 0"
        hint = f"0 mmap 0x10000 4096 PROT_READ {MAP} -1 0"
        first = windows.Fit(WINDOW).fitted(trace_of(growing, hint)).lines[1]
        self.assertFalse(finds_place(first))
        self.assertTrue(finds_place(windows.Fit(WINDOW).fitted(trace_of(hint)).lines[0]))

    def test_a_move_that_keeps_its_old_range_gets_a_place(self) -> None:
        move = "0 mremap 0x10000 4096 4096 MREMAP_MAYMOVE|MREMAP_DONTUNMAP"
        trace = trace_of(f"0 mmap 0x10000 4096 PROT_READ {MAP}|MAP_FIXED -1 0", move)
        self.assertFalse(windows.Fit(WINDOW).keeps(trace))  # Linux would find one outside
        fitted = windows.Fit(WINDOW).fitted(trace)
        self.assertEqual(len(fitted.lines[1].arguments), 5)
        self.assertTrue(windows.Fit(WINDOW).keeps(fitted))

    def test_what_is_mapped_is_touched_at_the_end(self) -> None:
        trace = windows.Fit(WINDOW).fitted(trace_of(f"0 mmap 0x10000 4096 PROT_WRITE {MAP}|MAP_FIXED -1 0"))
        self.assertEqual([(line.word, line.arguments[0]) for line in trace.lines[1:]], [("fault", 0x10000)])


class Scripts(unittest.TestCase):
    def test_sizes_and_words(self) -> None:
        trace = trace_of(
            "file 7 rw 5000 8:1 11 /f",
            "heap 0x100000",
            "0 mmap 0x100000 4096 PROT_READ MAP_PRIVATE 7 0",
            "0 fork 1",
            "1 brk 0",
            "0 fault 0x100000 w",
        )
        data = scripts.script_of(trace, WINDOW)
        self.assertEqual(len(data), 8 * (17 + 3 + 4 * 11))
        start = struct.unpack("<17Q", data[:136])
        self.assertEqual(start[:5], (scripts.MAGIC, 0, 0xD0000, 0x140000, 0))
        self.assertEqual(start[-2:], (1, 4))
        self.assertEqual(struct.unpack("<3Q", data[136:160]), (2, 5000, 2**64 - 1))
        lines = [struct.unpack("<11Q", data[at : at + 88]) for at in range(160, len(data), 88)]
        self.assertEqual(
            [(line[0], line[2], line[9], line[10]) for line in lines],
            [(9, 0, 1, 1), (57, 0, 0, 0), (12, 2, 0, 0), (1000, 0, 0, 0)],
        )

    def test_the_runner_has_the_same_numbers(self) -> None:
        source = (Path(scripts.__file__).parent / "runner.c").read_text(encoding="utf-8")
        self.assertIn(f"MAGIC = {scripts.MAGIC:#x}", source)
        self.assertIn(f"BURST = {machines.BURST}", source)


class Told(unittest.TestCase):
    TRACE = (
        "file 3 rw 4096 8:1 11 /f",
        "0 mmap 0x10000 4096 PROT_READ MAP_PRIVATE|MAP_FIXED 3 0",
        "0 fork 1",
        "1 fault 0x10000 r",
        "0 maps",
    )
    AREA = "00010000-00011000 r--p 00000000 00:01 77   /memfd:vmatrace-0000 (deleted)"
    LINES = [
        "shift 0",
        "at 3",
        "reply 3 10000",
        "at 4",
        "list 4",
        AREA,
        "end",
        "at 5",
        "fault 5 0 0 1",
        "area " + AREA,
        "list 0",
        AREA,
        "end",
        "at 6",
        "list 6",
        AREA,
        "end",
        "list 0",
        AREA,
        "end",
    ]
    SHOWN = "00010000-00011000 r--p 00000000 08:01 11                                 /f"

    def told(self, lines: list[str], ending: str | None = None) -> list[str]:
        return telling.told(trace_of(*self.TRACE), lines, ending)

    def test_an_output_of_both_spaces(self) -> None:
        self.assertEqual(
            "\n".join(self.told(self.LINES)).split("\n"),
            [
                "L3 t0 v1 = 0x10000",
                "L4 t0 v1 = child 1 areas 1",
                "L6 t0 v1 = maps 1",
                self.SHOWN,
                "maps 1",
                self.SHOWN,
                "child 1 of L4 v1",
                "L5 t1 v0 = served 00010000-00011000 r--p page 0",
                "maps 1",
                self.SHOWN,
            ],
        )

    def test_a_system_that_hangs_or_dies(self) -> None:
        self.assertEqual(self.told(self.LINES[:2], "hung"), ["L3 t0 v1 = hung"])
        self.assertEqual(
            self.told(self.LINES[:8], "killed by signal 11")[-2:],
            ["child 1 of L4 v1", "L5 t1 v1 = killed by signal 11"],
        )
        self.assertEqual(
            self.told([*self.LINES[:8], "died 7", "Bail out!"], "ended with status 6")[-1],
            "L5 t1 v1 = killed by signal 7",
        )
        ended = self.told([*self.LINES[:8], "ended 1"], "ended with status 6")
        self.assertEqual(ended[-1], "L5 t1 v1 = ended with status 1")
        self.assertEqual(
            self.told([*self.LINES[:8], "Bail out! a b"], "killed by signal 6")[-1], "L5 t1 v1 = killed by signal 6"
        )

    def test_what_the_runner_refuses(self) -> None:
        with self.assertRaisesRegex(Refused, "no heap there") as caught:
            self.told(["stop 4 no heap there"])
        self.assertEqual(caught.exception.status, 4)
        with self.assertRaisesRegex(Refused, r"no mmap\(2\)"):
            self.told(["shift 0", "at 3", f"reply 3 {2**64 - 38:x}"])

    def test_codes_by_their_names(self) -> None:
        for numbers, text in {
            (11, 4): "SIGSEGV SEGV_PKUERR",
            (7, 1): "SIGBUS BUS_ADRALN",
            (7, 2): "SIGBUS BUS_ADRERR",
            (4, 2): "SIGILL ILL_ILLOPN",
            (11, 128): "SIGSEGV SI_KERNEL",
            (11, 0): "SIGSEGV SI_USER",
            (11, 2**32 - 6): "SIGSEGV SI_TKILL",
            (11, 99): "signal 11 code 99",
            (10, 1): "signal 10 code 1",
        }.items():
            self.assertEqual(telling.signal_text(*numbers), text)

    def test_shared_memory_gets_the_next_number(self) -> None:
        shown = telling.Shown([])
        area = "00010000-00011000 r--s 00000000 00:0f 4242 /dev/zero (deleted)"
        shown.meets(area)
        self.assertEqual(
            shown.area(area),
            "00010000-00011000 r--s 00000000 00:01 1                                  /dev/zero (deleted)",
        )


class LinuxOf(unittest.TestCase):
    def test_qemu_and_user_mode_linux_have_no_protection_keys(self) -> None:
        """An emulated program finds OSPKE clear, whatever the machine has, and user-mode Linux can't use them."""
        with mock.patch.object(measuring, "version_of", return_value="6.1.176"):
            for name in ("qemu-x86_64", "uml"):
                self.assertEqual(linux_of.kernel_of(known.system_of(name)).settings.keys, 0)


class Searches(unittest.TestCase):
    def test_a_place_that_is_searched_in_a_window(self) -> None:
        taken = f"0 mmap 0x10000 4096 PROT_READ {MAP}|MAP_FIXED -1 0"
        hint = f"0 mmap 0x10000 4096 PROT_READ {MAP} -1 0"
        with self.assertRaisesRegex(Refused, "line 3: it leaves the place"):
            searches.check_searches(trace_of(taken, hint), ["reply 2 10000", "reply 3 7ffff7ffe000"], WINDOW)
        searches.check_searches(
            trace_of(hint), ["reply 2 7ffff7ffe000"], WINDOW
        )  # an answer of its own: the hint is free

    def test_a_search_that_meets_the_runner(self) -> None:
        line = f"0 mmap 0 4096 PROT_READ {MAP} -1 0"
        searches.check_searches(trace_of(line), ["reply 2 7ffff7ffe000"], None)
        with self.assertRaisesRegex(Refused, "this tool's own"):
            searches.check_searches(trace_of(line), [f"reply 2 {empty.OWN_END:x}"], None)


class Processes(unittest.TestCase):
    def test_one_process_for_each_script(self) -> None:
        once = running.Once(["sh", "-c", "cat; echo said >&2"])
        self.assertEqual(once.run(b"a\nb\n", 10), running.Ran(["a", "b"], None, "said\n"))
        self.assertEqual(
            running.Once(["sh", "-c", "echo at 2; kill -11 $$"]).run(b"", 10).ending, "killed by signal 11"
        )
        self.assertEqual(running.Once(["sh", "-c", "exit 3"]).run(b"", 10).ending, "ended with status 3")
        hung = running.Once(["sh", "-c", "trap '' TERM; echo at 2; sleep 100"]).run(b"", 0.3)
        self.assertEqual((hung.texts, hung.ending), (["at 2"], "hung"))
        with self.assertRaisesRegex(Refused, "/nowhere cannot be run: No such file"):
            running.Once(["/nowhere"]).run(b"", 1)

    def test_one_process_for_many(self) -> None:
        server = """
import struct, sys
print("ready", flush=True)
while head := sys.stdin.buffer.read(8):
    script = sys.stdin.buffer.read(struct.unpack("<Q", head)[0]).decode()
    if script == "die":
        sys.exit(7)
    print(f"at 2\\n{script}" if script != "hang" else "at 2", flush=True)
    if script == "hang":
        sys.stdin.buffer.read()
    print("done b" if script == "signal" else "done e" if script == "late" else "done 0", flush=True)
"""
        served = running.Served(lambda: running.started([sys.executable, "-c", server]), 30)
        self.assertEqual(served.run(b"hello", 30), running.Ran(["at 2", "hello"], None, ""))
        self.assertEqual(served.run(b"signal", 30).ending, "killed by signal 11")
        self.assertEqual(served.run(b"late", 30).ending, "hung")
        self.assertEqual(served.run(b"die", 30).ending, "ended with status 7")
        self.assertEqual(served.run(b"hang", 0.5), running.Ran(["at 2"], "hung", ""))
        self.assertEqual(served.run(b"again", 30).texts, ["at 2", "again"])
        served.close()

    def test_a_process_that_does_not_begin(self) -> None:
        served = running.Served(lambda: running.started(["sh", "-c", "echo no such window >&2; exit 1"]), 30)
        with self.assertRaisesRegex(Refused, r"does not begin \(ended with status 1\): no such window"):
            served.run(b"", 1)

    def test_whole_lines(self) -> None:
        self.assertEqual(running.whole_lines(b"a\nb"), ["a"])
        self.assertTrue(running.is_complete(bytearray(b"x\ndone 0\n"), b"done"))
        self.assertFalse(running.is_complete(bytearray(b"done 0\nx\n"), b"done"))
        self.assertFalse(running.is_complete(bytearray(b"done 0"), b"done"))
        self.assertTrue(running.is_complete(bytearray(b"ready\r\n"), b"ready"))
        self.assertFalse(running.is_complete(bytearray(b"readying\n"), b"ready"))


class Batches(unittest.TestCase):
    def test_the_protocol_of_an_adapter(self) -> None:
        stream = io.BytesIO(b"trace 1 2.5\nvmatrace 1\n0 maps\nend 1\ntrace 2 1\nvmatrace 1\nend 2\n")
        self.assertEqual(
            list(batch.requests(stream)),
            [batch.Request("1", 2.5, b"vmatrace 1\n0 maps\n"), batch.Request("2", 1, b"vmatrace 1\n")],
        )

    def test_kernel_answers_a_batch(self) -> None:
        class Fake:
            def answer(self, data: bytes, seconds: float) -> str:
                if data == b"refuse\n":
                    raise Refused(4, "line 2:\n it does not")
                return f"maps {len(data)}\n"

        answers = io.BytesIO()
        stream = io.BytesIO(b"trace 1 1\nab\nend 1\ntrace 2 1\nrefuse\nend 2\n")
        kernel.serve(Fake(), stream, answers)  # type: ignore[arg-type]
        self.assertEqual(answers.getvalue(), b"maps 3\nend 1\nend 2 4 line 2: it does not\n")

    def test_an_adapter_that_refuses_and_one_that_ends(self) -> None:
        script = 'read a; read b; while read c; do case $c in end*) echo "$c 4 not here"; read a;; esac; done'
        adapter = batch.Adapter(["sh", "-c", script])
        for _ in range(2):
            self.assertEqual(adapter.run(b"vmatrace 1\n", 30), batch.Answer("", "ends with status 4", "not here", True))
        adapter.close()
        self.assertEqual(batch.fault_of("killed by signal 9"), "ends by signal SIGKILL")
        self.assertEqual(batch.Adapter(["sh", "-c", "echo half; exit 3"]).run(b"x\n", 30).fault, "ends with status 3")

    def test_many_traces_are_answered_in_one_exchange(self) -> None:
        """The adapter writes before it has read all, and both are more than pipes hold."""
        script = 'while read a b c; do case $a in end) echo "end $b";; trace) ;; *) echo "$a $b";; esac; done'
        adapter = batch.Adapter(["sh", "-c", script])
        self.addCleanup(adapter.close)
        texts = [b"%d %s\n" % (place, b"x" * 5000) for place in range(40)]
        self.assertEqual([answer.output.encode() for answer in adapter.run_all(texts, 30)], texts)
        self.assertEqual(adapter.run(b"0 y\n", 30).output, "0 y\n")

    def test_what_ends_the_process_is_the_last_that_is_answered(self) -> None:
        script = 'while read a b c; do case $a in end) echo "end $b";; bad) echo half; exit 3;; esac; done'
        adapter = batch.Adapter(["sh", "-c", script])
        self.addCleanup(adapter.close)
        answers = adapter.run_all([b"good\n", b"bad\n", b"good\n"], 30)
        self.assertEqual([(one.output, one.fault) for one in answers], [("", None), ("half\n", "ends with status 3")])
        self.assertEqual(adapter.run_all([b"good\n"] * 2, 30), [batch.Answer("", None, "", True)] * 2)

    def test_a_last_line_may_come_in_parts(self) -> None:
        data = bytearray(b"\na\nend 7 4 not")
        self.assertIsNone(batch.lines_of(data, 1, 1, b"end 7"))
        since = len(data)
        data += b" here\nb\n"
        found = batch.lines_of(data, 1, since, b"end 7")
        assert found
        self.assertEqual(data[slice(*found)], b"end 7 4 not here\n")

    def test_a_last_line_has_all_of_its_number(self) -> None:
        for data in bytearray(b"\nend 12\n"), bytearray(b"\nend 12\nend 1x\nend 1"):
            self.assertIsNone(batch.lines_of(data, 1, 1, b"end 1"))
            since = len(data)
            data += b"\nend 1\nend 1\n"
            found = batch.lines_of(data, 1, since, b"end 1")
            self.assertEqual(found and (data[found[0] : found[1]], data[: found[0]].count(b"end 1\n")), (b"end 1\n", 0))
        script = "while read a b c; do [ $a = end ] && echo \"end ${b}2\" && echo \"end $b\"; done"
        adapter = batch.Adapter(["sh", "-c", script])
        self.addCleanup(adapter.close)
        self.assertEqual([one.output for one in adapter.run_all([b"a\n"] * 2, 30)], ["end 12\n", "end 22\n"])

    def test_one_that_does_not_speak_the_protocol(self) -> None:
        class Hasty(batch.Adapter):
            GRACE = 0.2

        cases = {
            "cat > /dev/null; sleep 100": "does not end in .* seconds: `trace 1 .* / vmatrace 1 / end 1` was sent, and nothing",
            "echo maps 0; echo no file >&2; exit 1": "ends with status 1 in .*, and `maps 0.n` came, with `no file` on standard",
        }
        for script, told in cases.items():
            adapters = batch.Adapters(["sh", "-c", script], Hasty)
            with self.assertRaisesRegex(console.Failure, f"the adapter {told}.* does it speak --batch"):
                adapters.capabilities(0.4)
            adapters.close()
        script = 'while read a b c; do [ $a = end ] && echo maps 0 && echo "end $b"; done'
        adapters = batch.Adapters(["sh", "-c", script])
        adapters.capabilities(30)
        self.assertEqual(adapters.run(b"vmatrace 1\n", 30).output, "maps 0\n")  # by the same process
        self.assertEqual(len(adapters.idle), 1)
        adapters.close()


class Tables(unittest.TestCase):
    def test_a_score(self) -> None:
        score = measuring.Score()
        score.take(
            "L2 t0 v1 = 0\nL3 t0 v1 = maps 0\nmaps 0\n",
            "L2 t0 v2 = 0\nL3 t0 v1 = maps 0\nmaps 1\n00010000-00011000 r--p 00000000 00:00 0 \n",
        )
        self.assertEqual(score.text(), "100.0 / 50")
        self.assertEqual(measuring.Score().text(), "- / -")

    def test_a_table(self) -> None:
        result = measuring.Result(known.KNOWN["window"], "6.18", {"few": measuring.Score()}, traces=3, refused=1)
        lines = measuring.table_of([result])
        self.assertEqual(len({line.count("|") for line in lines}), 1)
        self.assertTrue(lines[2].startswith("| window | 6.18 | 2 |"))

    def test_reads_are_put_behind_calls(self) -> None:
        trace = measuring.with_reads(generator.Generator("few", "1 1", 40).draw())
        self.assertGreater(sum(line.word == "maps" for line in trace.lines), 4)
        model.Space(trace)

    def test_a_page_gets_its_table(self) -> None:
        write, begin, end = module_of(TOP / "dev/systems").write, "<!-- made by dev/systems suite -->", "<!-- end of suite -->"
        with tempfile.TemporaryDirectory() as folder:
            page = Path(folder, "page.md")
            page.write_text(f"a\n{begin}\nold\n{end}\nb\n", encoding="utf-8")
            write("suite", ["new \\1"], page)
            self.assertEqual(page.read_text(encoding="utf-8"), f"a\n{begin}\n\nnew \\1\n\n{end}\nb\n")
            page.write_text("none", encoding="utf-8")
            with self.assertRaises(console.Failure):
                write("suite", [], page)

    def test_the_rows_are_written_as_they_are_read(self) -> None:
        head, found = rows.read_rows()
        with tempfile.TemporaryDirectory() as folder:
            copy = Path(folder, "rows.txt")
            rows.write_rows(head, found, copy)
            self.assertEqual(copy.read_text(encoding="utf-8"), rows.ROWS.read_text(encoding="utf-8"))

    def test_the_examples_name_who_was_seen(self) -> None:
        found = list(seen.examples())
        self.assertTrue(found)
        for example in found:
            self.assertTrue(example.seen, example.name)
            self.assertTrue({told.system for told in example.seen} <= set(known.KNOWN), example.name)


class Known(unittest.TestCase):
    def test_systems_by_name(self) -> None:
        self.assertEqual(known.system_of("machine:/boot/x").image, "/boot/x")
        self.assertEqual(known.system_under("qemu-x86_64-static -L '/a b'").under, ("qemu-x86_64-static", "-L", "/a b"))
        for make, word in ((known.system_of, "bochs"), (known.system_under, "")):
            with self.assertRaises(Refused) as caught:
                make(word)
            self.assertEqual(caught.exception.status, 2)

    def test_an_archive_of_one_file(self) -> None:
        with tempfile.TemporaryDirectory() as folder:
            file = Path(folder, "runner")
            file.write_bytes(b"12345")
            data = gzip.decompress(machines.archive_of(file))
        self.assertEqual(len(data) % 4, 0)
        self.assertEqual((data[:6], data[54:62]), (b"070701", b"00000005"))
        self.assertIn(b"init\0", data)
        self.assertIn(b"TRAILER!!!\0", data)

    def test_the_newest_image(self) -> None:
        names = [f"/boot/vmlinuz-6.1.0-{build}-cloud-amd64" for build in (9, 57, 50)]
        with mock.patch("glob.glob", return_value=names):
            self.assertEqual(machines.newest_image(), names[1])
        with mock.patch("glob.glob", return_value=[]), self.assertRaises(Refused):
            machines.newest_image()
