"""Outputs that are judged and drawn: judge and draw agree, and a picture is well-formed whatever stands in it."""

import io
import random
import unittest
from xml.etree import ElementTree

from vmatools import console, traces
from vmatools.comparing import generator, judging
from vmatools.drawing import page, picture, runs
from vmatools.profile import serial

FAULTS = b"vmatrace 1\n0 fault 0x10000 r\n0 fault 0x20000 r\n"
FIRST, SECOND, LIST = b"L2 t0 v0 = SIGSEGV SEGV_MAPERR\n", b"L3 t0 v0 = SIGSEGV SEGV_MAPERR\n", b"maps 0\n"
MANY = b"9" * 4301

# Of each output its first wrong line, and why.
WRONG = {
    "swapped": (SECOND + FIRST + LIST, 1, "it answers line 3 of thread 0, whose next is line 2"),
    "twice": (FIRST + SECOND + SECOND + LIST, 3, "and not `maps 0`"),
    "no last list": (FIRST + SECOND, 3, "it ends here"),
    "nothing": (b"", 1, "it is empty"),
    "no newline": (FIRST + SECOND + LIST[:-1], 3, "no newline ends it"),
    "more": (FIRST + SECOND + LIST + b"x\n", 4, "something stands below the last list"),
    "carriage returns": ((FIRST + SECOND + LIST).replace(b"\n", b"\r\n"), 1, "a carriage return stands at its end"),
    "many digits": (b"L" + MANY + b" t0 v0 = 0\n", 1, "no item stands here"),
    "many digits of a version": (b"L2 t0 v" + MANY + b" = 0\n", 1, "no item stands here"),
    "binary": (bytes(range(256)) * 40, 1, "no item stands here"),
    "a long line": (b"x" * 100_000, 1, "it has more than"),
}


def differences(trace: bytes, output: bytes) -> list[str]:
    read, texts = runs.read_numbered(io.BytesIO(trace), None)
    return [told for run in runs.replayed(read, texts, output) for told in run.differences]


class Judging(unittest.TestCase):
    def test_what_is_wrong(self) -> None:
        trace = traces.read_trace(FAULTS)
        self.assertIsNone(judging.first_wrong(trace, FIRST + SECOND + LIST))
        for name, (output, line, why) in WRONG.items():
            with self.subTest(name):
                wrong = judging.first_wrong(trace, output)
                self.assertIsNotNone(wrong)
                if wrong:
                    self.assertEqual(wrong.line, line)
                    self.assertIn(why, wrong.why)
                    self.assertTrue(wrong.why.isprintable())

    def test_draw_says_something_wherever_judge_does(self) -> None:
        self.assertEqual(differences(FAULTS, FIRST + SECOND + LIST), [])
        for name, (output, _, _) in WRONG.items():
            with self.subTest(name):
                self.assertTrue(differences(FAULTS, output))

    def test_draw_and_judge_agree_on_changed_outputs(self) -> None:
        draw = random.Random(3)
        for number in range(150):
            name = draw.choice([name for name in generator.PROFILES if name != "many"])
            trace = generator.Generator(name, f"judged {number}", 8).draw()
            text = trace.text().encode()
            output = changed(draw, serial.serial_output(traces.read_trace(text)).encode())
            wrong = judging.first_wrong(traces.read_trace(text), output)
            self.assertEqual(bool(differences(text, output)), wrong is not None, (text, output))


def changed(draw: random.Random, output: bytes) -> bytes:
    """An output in which lines are swapped, left out or there twice, or a byte is another; or as it was."""
    lines = output.splitlines(keepends=True)
    at, other = draw.randrange(len(lines)), draw.randrange(len(lines))
    how = draw.randrange(5)
    if how == 0:
        lines[at], lines[other] = lines[other], lines[at]
    elif how == 1:
        del lines[at]
    elif how == 2:
        lines.insert(other, lines[at])
    elif how == 3:
        place = draw.randrange(len(output))
        return output[:place] + bytes([output[place] ^ draw.choice([1, 2, 16])]) + output[place + 1 :]
    return b"".join(lines)


class Drawing(unittest.TestCase):
    def test_any_name_of_a_file_is_well_formed(self) -> None:
        name = "/" + "".join(map(chr, [*range(1, 10), *range(11, 160), 0xFFFE])) + "]]>"
        mmap = "0 mmap 0x10000 4096 PROT_READ MAP_PRIVATE|MAP_FIXED 3 0"
        trace = f"vmatrace 1\nfile 3 r 4096 8:1 7 {name}\n{mmap}\n".encode()
        read, texts = runs.read_numbered(io.BytesIO(trace), None)
        found = runs.replayed(read, texts, None)
        files = {file.descriptor: file for file in read.files}
        ElementTree.fromstring(picture.picture(found, files))
        self.assertNotIn("\x01", page.page(found, files, "a"))

    def test_a_trace_that_is_too_long(self) -> None:
        trace = b"vmatrace 1\n" + b"0 fault 0 r\n" * 11
        runs.read_numbered(io.BytesIO(trace), 11)
        with self.assertRaises(console.Failure) as caught:
            runs.read_numbered(io.BytesIO(trace), 10)
        self.assertIn("more than 10 operations", str(caught.exception))

    def test_an_output_without_end_is_read_no_further(self) -> None:
        said = runs.stated(b"L2 t0 v0 = 0\n" * 100_000 + b"rubbish\n", 2)
        self.assertLess(len(said[0].answers), 2_000)
