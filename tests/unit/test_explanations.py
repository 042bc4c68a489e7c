"""The sentences on bad lines, and on maps texts that `retrace` does not take."""

import unittest

from vmatools import traces
from vmatools.profile import serial
from vmatools.texts import explanations, maps_texts

HEAD = "vmatrace 1\n"
MMAP = "0 mmap {} 4096 PROT_READ {} -1 0\n"
FLAGS = "MAP_PRIVATE|MAP_ANONYMOUS"

# Of each bad text, what its sentence says, and the part of the line that is marked.
SENTENCES = {
    "": ("the file is empty", ""),
    "\n": ("the first line is empty", ""),
    "vmatrace 1\r\n": ("carriage return", "vmatrace 1\r"),
    "vmatarce 1\n": ("did you mean vmatrace?", "vmatarce 1"),
    "\ufeffvmatrace 1\n": ("byte order mark", "\ufeffvmatrace 1"),
    "\x7fELF\n": ("this file is a program (ELF)", "\x7fELF"),
    HEAD + "0 madvise 0 4096 4\n": ("Linux has it, and the model does not; it changes no area", "madvise"),
    "12 brk(NULL) = 0x10000\n": ("this is a line of strace: `tools/vma import`", "12 brk(NULL) = 0x10000"),
    HEAD + "munmap(0x10000, 4096) = 0\n": ("this is a line of strace: `tools/vma import`", "munmap(0x10000,"),
    HEAD + "0 munmap(0x10000, 4096) = 0\n": ("this is a line of strace: `tools/vma import`", "munmap(0x10000,"),
    HEAD + "0 shmat 0\n": ("Linux has it, and the model does not; a list may be another", "shmat"),
    HEAD + "0 unmap 0 1\n": ("did you mean munmap?", "unmap"),
    HEAD + MMAP.format("NULL", FLAGS): ("NULL is not an address: did you mean 0?", "NULL"),
    HEAD + MMAP.format("0", "NULL"): ("did you mean 0?", "NULL"),
    HEAD + MMAP.format("0", "MAP_SHARED_VALIDATE"): ("for a file MAP_SHARED does the same", "MAP_SHARED_VALIDATE"),
    HEAD + MMAP.format("0", "MAP_LOCKED|MAP_PRIVATE"): ("leave it out if nothing depends on it", "MAP_LOCKED"),
    HEAD + MMAP.format("0", "MAP_PRIVATE|MAP_ANON"): ("did you mean MAP_ANONYMOUS?", "MAP_ANON"),
    HEAD + "0 brk 7ffff000\n": ("hexadecimal digits need `0x` in front", "7ffff000"),
    HEAD + "0 brk 4k\n": ("a number has no unit", "4k"),
    HEAD + "munmap 0 1\n": ("its thread is missing in front", "munmap"),
    HEAD + "0 maps\nheap 0x10000\n": ("below the first operation, line 2", "heap"),
}

GOOD = "00010000-00011000 rw-p 00000000 00:00 0 \n"
# Of each maps text its bad line and why `retrace` does not take it.
MAPS = {
    GOOD + "00011000-00012000 rw-p 00000000 00:00 0 \n": (2, "would be one with the area above it"),
    "00001000-00002000 rw-p 00000000 00:00 0 \n": (1, "begins below 0x10000"),
    GOOD + "ffffffffff600000-ffffffffff601000 --xp 00000000 00:00 0".ljust(73 + 19) + "[vsyscall]\n": (2, "column 74"),
    "00010000-00011000 rw-s 00000000 00:00 0 \n": (1, "a shared area has the name of what it maps"),
    "00010000-00011000 rw-p 00000000 00:00 0\n": (1, "one space behind the inode"),
    "00010000-00011000 rw-p 0 0\n": (1, "no line of a maps text"),
    "00010000-00011000 rw-p 00001000 00:00 0 \n": (1, "has the offset 0"),
    "10000-11000 rw-p 00000000 00:00 0 \n": (1, "eight digits or more"),
    "00010000-00010800 rw-p 00000000 00:00 0 \n": (1, "no multiple of 4096"),
    GOOD * 2: (2, "begins below the end of the one above it"),
    "7ffffffff000-800000000000 rw-p 00000000 00:00 0 \n": (1, "ends above 0x7ffffffff000"),
}


class Sentences(unittest.TestCase):
    def test_each(self) -> None:
        for text, (part, marked) in SENTENCES.items():
            with self.subTest(text), self.assertRaises(traces.BadLine) as caught:
                traces.read_trace(text.encode())
            bad = caught.exception
            self.assertIn(part, explanations.explain(bad))
            line, (start, end) = explanations.marked_span(bad)
            self.assertEqual(line[start:end], marked)

    def test_no_suggestion_where_none_is_right(self) -> None:
        with self.assertRaises(traces.BadLine) as caught:
            traces.read_trace((HEAD + MMAP.format("0", "MAP_SHARED_VALIDATE")).encode())
        self.assertNotIn("did you mean", explanations.explain(caught.exception))

    def test_each_cause_has_a_sentence(self) -> None:
        self.assertEqual(set(explanations.SENTENCES), set(traces.CAUSES))


class MapsTexts(unittest.TestCase):
    def test_why_retrace_refuses(self) -> None:
        for text, (line, part) in MAPS.items():
            with self.subTest(text), self.assertRaises(maps_texts.Refused) as caught:
                maps_texts.traced(maps_texts.rows_of(text.encode()))
            self.assertEqual(caught.exception.line, line)
            self.assertIn(part, caught.exception.why)

    def test_what_it_takes_comes_back(self) -> None:
        text = (GOOD + "00011000-00012000 r--p 00000000 00:00 0 \n").encode()
        trace = traces.read_trace(maps_texts.traced(maps_texts.rows_of(text)))
        self.assertEqual([line.word for line in trace.lines], ["mmap", "mmap"])

    def test_a_name_behind_column_74(self) -> None:
        front = f"7fffffff5000-7fffffff6000 r--p 7fffffffffffe000 08:01 {2**64 - 1} "
        trace = traces.read_trace(maps_texts.traced(maps_texts.rows_of(f"{front} /n\n".encode())))
        self.assertEqual(serial.serial_output(trace).splitlines()[-1], f"{front} /n")
        with self.assertRaises(maps_texts.Refused):
            maps_texts.traced(maps_texts.rows_of(f"{front}/n\n".encode()))

    def test_what_seems_one(self) -> None:
        self.assertTrue(maps_texts.seems_one(GOOD.encode()))
        self.assertFalse(maps_texts.seems_one(HEAD.encode()))
