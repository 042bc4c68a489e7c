"""Traces: read, written, and refused at the first bad line."""

import io
import random
import unittest

from vmatools import traces
from vmatools.comparing import generator
from vmatools.profile import loads

HEAD = b"vmatrace 1\n"

# Of each cause a trace, its bad line, and the word.
BAD = {
    "Header": (b"vmatrace 3\n", 1, None),
    "TooLong": (HEAD + b"#" * 4097 + b"\n", 2, None),
    "Word": (HEAD + b"0 maps\n0 touch 1\n", 3, 2),
    "Number": (HEAD + b"0 brk 0x\n", 2, 3),
    "Flag": (HEAD + b"0 mprotect 0 0 PROT_READ|PROT_READ\n", 2, 5),
    "Arity": (HEAD + b"0 munmap 1\n", 2, 4),
    "Thread": (HEAD + b"64 maps\n", 2, 1),
    "TooMany": (HEAD + b"0 maps\n" * 65, 66, None),
    "FileTwice": (HEAD + b"file 3 r 1 0:0 1 /a\nfile 3 r 1 0:0 1 /b\n", 3, 2),
    "Utf8": (HEAD + b"#\xff\n", 2, None),
    "NoEnd": (HEAD + b"0 maps", 2, None),
    "After": (HEAD + b"0 maps\n1 maps after=2\n", 3, 3),
    "Child": (HEAD + b"0 fork 0\n", 2, 3),
}


class Endless(io.BytesIO):
    """A trace that must not be read behind its beginning."""

    def read1(self, size: int | None = -1) -> bytes:
        if self.tell() > 5_100:
            raise AssertionError("it is read further than the first bad line")
        return super().read1(50)


class Reading(unittest.TestCase):
    def test_each_cause(self) -> None:
        self.assertEqual(set(BAD), set(traces.CAUSES))
        for cause, (data, line, word) in BAD.items():
            with self.subTest(cause), self.assertRaises(traces.BadLine) as caught:
                traces.read_trace(data)
            bad = caught.exception
            self.assertEqual((bad.cause, bad.line, bad.word), (cause, line, word))

    def test_the_empty_trace(self) -> None:
        with self.assertRaises(traces.BadLine) as caught:
            traces.read_trace(b"")
        self.assertEqual(str(caught.exception), "line 1 cause 1 Header")

    def test_it_stops_at_the_first_bad_line(self) -> None:
        for line in (b"0 touch 1\n", b"x" * 5000):
            with self.subTest(line[:10]), self.assertRaises(traces.BadLine):
                traces.read_trace(Endless(HEAD + line * 1000))

    def test_lines_across_blocks(self) -> None:
        data = HEAD + b"# a comment\n0 munmap 0x10000 4096\n" * 60_000
        self.assertEqual(len(traces.read_trace(data).lines), 60_000)

    def test_numbers_of_many_digits(self) -> None:
        for word in (b"9" * 3000, b"0x" + b"f" * 3000):
            with self.assertRaises(traces.BadLine) as caught:
                traces.read_trace(HEAD + b"0 brk " + word + b"\n")
            self.assertEqual(caught.exception.cause, "Number")

    def test_the_limits(self) -> None:
        operations = HEAD + b"0 brk 0\n" * traces.LIMITS["operations"]
        self.assertEqual(first_bad(operations), "none in 1000000 operations")
        self.assertEqual(first_bad(operations + b"# one\n0 brk 0\n"), "line 1000003 cause 8 TooMany")
        line, fits = b"# one\n", (traces.LIMITS["bytes"] - len(HEAD)) // 6
        self.assertEqual(first_bad(HEAD + line * (fits + 1)), f"line {fits + 2} cause 2 TooLong")
        self.assertEqual(first_bad(HEAD + line * fits), "none in 0 operations")


def first_bad(data: bytes) -> str:
    """The first bad line of a trace."""
    try:
        return f"none in {sum(1 for _ in traces.Reader(data))} operations"
    except traces.BadLine as bad:
        return str(bad)


class BothWays(unittest.TestCase):
    def random_traces(self) -> list[traces.Trace]:
        return [generator.Generator(name, f"unit {name}", 25).draw() for name in generator.PROFILES]

    def test_what_is_written_is_read_again(self) -> None:
        for trace in self.random_traces():
            text = trace.text()
            read = traces.read_trace(text.encode())
            self.assertEqual(read.text(), text)
            self.assertEqual((read.version, read.settings, read.files), (trace.version, trace.settings, trace.files))

    def test_plain_lines_say_the_same_word_by_word(self) -> None:
        texts = [trace.text() for trace in self.random_traces()] + ["\n".join(loads.load(2000, 5)) + "\n"]
        for text in texts:
            spaced = "".join(line + " \n" for line in text.splitlines())  # a blank at the end makes no line plain
            self.assertEqual(traces.read_trace(text.encode()).lines, traces.read_trace(spaced.encode()).lines)

    def test_a_changed_line_is_as_bad_plain_as_not(self) -> None:
        draw = random.Random(7)
        lines = loads.load(50, 3)
        for _ in range(2000):
            at = draw.randrange(1, len(lines))
            place = draw.randrange(len(lines[at]))
            changed = lines[at][:place] + draw.choice("0x|A -9") + lines[at][place + 1 :]
            told = []
            for text in (changed, changed + " "):
                try:
                    told.append(str(traces.read_trace(f"vmatrace 1\n{text}\n".encode()).lines))
                except traces.BadLine as bad:
                    told.append(str(bad))
            self.assertEqual(told[0], told[1], changed)
