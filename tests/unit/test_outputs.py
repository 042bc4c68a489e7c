"""Outputs that are compared: the kinds of what differs."""

import re
import unittest

from vmatools import outputs
from vmatools.running.program import TOP

LOW, NEXT, HIGH = (f"{place:08x}-{place + 4096:08x} rw-p 00000000 00:00 0 " for place in (0x10000, 0x11000, 0x20000))
JOINED = "00010000-00012000 rw-p 00000000 00:00 0 "
FILE = "00010000-00011000 r--p 00001000 08:01 7                                  /a"

# Of each kind two lists, and how they part.
LISTS = {
    "joined": ([JOINED], [LOW, NEXT], ("list: joined", "list: apart")),
    "apart": ([LOW, NEXT], [JOINED], ("list: apart", "list: joined")),
    "not mapped": ([LOW], [LOW, HIGH], ("list: not mapped", "list: mapped")),
    "mapped": ([LOW, HIGH], [LOW], ("list: mapped", "list: not mapped")),
    "permissions": ([LOW], [LOW.replace("rw-p", "r--p")], ("list: permissions", "list: other permissions")),
    "offset": ([FILE], [FILE.replace("00001000", "00002000")], ("list: offset", "list: other offset")),
    "device": ([FILE], [FILE.replace("08:01", "08:02")], ("list: device", "list: other device")),
    "inode": ([FILE], [FILE.replace(" 7 ", " 8 ")], ("list: inode", "list: other inode")),
    "name": ([FILE], [FILE.replace("/a", "/b")], ("list: name", "list: other name")),
    "a border": (
        [LOW, "00011000-00013000 rw-p 00000000 00:00 0 "],
        [JOINED, "00012000-00013000 rw-p 00000000 00:00 0 "],
        ("list: a border", "list: another border"),
    ),
    "in other letters": ([LOW], [LOW.rstrip()], None),
    "overlap": ([LOW, NEXT], [JOINED, NEXT], ("a list", "list: overlap")),
    "out of order": ([LOW, HIGH], [HIGH, LOW], ("a list", "list: out of order")),
    "no list": ([LOW], ["rubbish"], ("a list", "a list of no known form")),
}


SERVED = "L2 t0 v0 = served 00010000-00012000 rw-p page {}\n"
# Two outputs of a trace, and the kind of their difference.
ANSWERS = {
    ("L2 t0 v1 = 0x1000\n", "L2 t0 v1 = 0x2000\n"): ("an address", "another address"),
    (SERVED.format(0), SERVED.format(1)): ("served", "served otherwise"),
    ("L2 t0 v0 = child 1 areas 1\n", "L2 t0 v0 = child 1 areas 2\n"): ("a child", "another child"),
    ("L2 t0 v1 = 0\n", "L2 t0 v2 = 0\n"): ("a version", "another version"),
    ("L2 t0 v1 = 0\n", "L3 t0 v1 = 0\n"): ("an answer", "the answer to another line"),
    ("L2 t0 v1 = 0\n", "rubbish\n"): ("an answer", "a line of no known form"),
    ("L2 t0 v1 = 0\n", "maps 0\n"): ("an answer", "the output goes on with something else"),
    ("L2 t0 v1 = 0\n", ""): ("an answer", "the output ends"),
    ("L2 t0 v1 = 0\n", "L2 t0 v1 = 0\nmaps 0\n"): ("the end", "the output goes on"),
    ("L2 t0 v1 = 0\n", "L2 t0 v1 = 0"): ("a newline", "no newline at the end"),
}


def maps(lines: list[str]) -> list[str]:
    return [f"maps {len(lines)}", *lines]


class Lists(unittest.TestCase):
    def test_each_kind(self) -> None:
        for name, (ours, theirs, wanted) in LISTS.items():
            with self.subTest(name):
                found = outputs.list_difference(ours, maps(theirs))
                self.assertEqual(found, wanted or ("a list", "list: the same in other letters"))

    def test_each_kind_is_in_the_documents(self) -> None:
        page = re.sub(r"\s+", " ", (TOP / "docs/COMPARE.md").read_text(encoding="utf-8"))
        for name, (_, _, wanted) in LISTS.items():
            for word in wanted or ("list: the same in other letters",):
                with self.subTest(name, word=word):
                    self.assertTrue(f"`{word}`" in page or word.startswith("list: other "))


class Parts(unittest.TestCase):
    def test_numbers_of_many_digits_are_no_items(self) -> None:
        line = f"L{'9' * 4301} t0 v1 = 0"
        self.assertEqual(outputs.parts_of(line + "\n"), [outputs.Part(None, None, None, line, [line])])

    def test_each_kind_of_answers(self) -> None:
        page = (TOP / "docs/COMPARE.md").read_text(encoding="utf-8")
        for (here, there), wanted in ANSWERS.items():
            with self.subTest(wanted):
                found = outputs.first_difference(here, there, {2: "mmap", 3: "mmap"})
                self.assertEqual(found and outputs.kind_of(found)[1:], wanted)
                for word in wanted:
                    self.assertIn(f"`{word}`", page)

    def test_the_first_difference(self) -> None:
        here, there = "L2 t0 v1 = 0\nmaps 0\n", "L2 t0 v1 = -1 EINVAL\nmaps 0\n"
        found = outputs.first_difference(here, there, {2: "munmap"})
        self.assertIsNotNone(found)
        if found:
            self.assertEqual(outputs.kind_of(found), ("munmap", "0", "-1 EINVAL"))
        self.assertIsNone(outputs.first_difference(here, here, {2: "munmap"}))
