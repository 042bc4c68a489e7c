"""The shrinker, with tests of what differs that need no run."""

import unittest
from collections.abc import Callable
from concurrent.futures import ThreadPoolExecutor

from models import mutants, wrong
from vmatools import traces
from vmatools.comparing import comparison, findings, generator, shrinking, smaller
from vmatools.model import Space
from vmatools.outputs import kind_of

Test = Callable[[traces.Trace], bool]


def shrunk(trace: traces.Trace, differs: Test) -> list[str]:
    """The lines below the header of the smallest trace that is found."""

    def first_same(candidates: list[traces.Trace]) -> int | None:
        return next((place for place, candidate in enumerate(candidates) if differs(candidate)), None)

    return shrinking.Shrinker(trace, first_same).shrink().text().splitlines()[1:]


def has(*words: str) -> Test:
    """Whether operations of these names come in this order."""

    def differs(trace: traces.Trace) -> bool:
        coming = iter(line.word for line in trace.lines)
        return all(word in coming for word in words)

    return differs


def drawn(name: str) -> traces.Trace:
    return generator.Generator(name, "shrinking", 40).draw()


class Shrinking(unittest.TestCase):
    def test_only_what_is_needed_stays(self) -> None:
        for words in (["munmap"], ["mmap", "mprotect"], ["mmap", "munmap", "mmap"]):
            with self.subTest(words):
                lines = shrunk(drawn("few"), has(*words))
                self.assertEqual([line.split()[1] for line in lines], words)

    def test_a_setting_that_is_needed_stays(self) -> None:
        trace = traces.Trace(1, {"heap": 0x10000, "limit": 7}, [], drawn("few").lines)
        lines = shrunk(trace, lambda made: "limit" in made.settings and has("munmap")(made))
        self.assertEqual([line.split()[0] for line in lines], ["limit", "0"])

    def test_numbers_get_small(self) -> None:
        lines = shrunk(
            drawn("few"), lambda made: any(line.word == "mmap" and line.arguments[1] > 4096 for line in made.lines)
        )
        self.assertEqual(len(lines), 1)
        self.assertLess(int(lines[0].split()[3]), 20_000)

    def test_children_have_the_next_numbers(self) -> None:
        text = b"vmatrace 1\n5 brk 0\n5 fork 9\n9 fault 0 r\n5 fork 7\n7 brk 0\n"

        def differs(made: traces.Trace) -> bool:
            child = next((line.arguments[0] for line in made.lines if line.word == "fork"), None)
            return any(line.word == "fault" and line.thread == child for line in made.lines)

        self.assertEqual(shrunk(traces.read_trace(text), differs), ["0 fork 1", "1 fault 0 r"])

    def test_every_step_is_a_trace(self) -> None:
        def is_trace(made: traces.Trace) -> bool:
            traces.read_trace(made.text().encode())
            return has("mremap")(made)

        self.assertEqual(len(shrunk(drawn("mremap"), is_trace)), 1)


ANON = "PROT_READ MAP_PRIVATE|MAP_ANONYMOUS|MAP_FIXED -1 0"
NOISE = """vmatrace 1
limit areas 900
top 0x7fffe0000000
file 3 rw 9000 8:1 17 /srv/data/with-a-long-name
"""


def smallest(model: type[Space], text: str) -> tuple[str, list[str]]:
    """The first kind in which a wrong model differs on a trace, and all lines of the smallest trace of that kind."""
    sides = comparison.InProcess(model, comparison.Rules())
    (found,) = comparison.examine(sides, traces.read_trace(text.encode()), 1).findings
    name = "/".join(kind_of(found.difference))
    with ThreadPoolExecutor(1) as pool:
        search = smaller.Smaller(sides, pool, 1, 600, 600, 600, lambda: False)
        small = search.finding(findings.Finding(name, found.difference, found.trace.text(), "", ""))
    assert small
    return name, small.trace.splitlines()


class Readable(unittest.TestCase):
    """An odd trace in, and the one that a person reads out, of the same kind."""

    def test_of_wrong_models(self) -> None:
        by_rule = {one.name: one.space for one in wrong.shown()}
        cases: list[tuple[type[Space], str, str, list[str]]] = [
            (
                mutants.MunmapPastEnd,
                NOISE + "7 munmap 0x7fffffff3000 61441\n",
                "munmap/-1 EINVAL/-1 ENOMEM",
                ["0 munmap 0x800000000000 4096"],
            ),
            (
                by_rule["munmap loses shared below"],
                NOISE + "2 mmap 0x7f31415000 20480 PROT_READ MAP_SHARED|MAP_ANONYMOUS|MAP_FIXED_NOREPLACE -1 0\n"
                "5 munmap 0x7f31417000 3996\n",
                "munmap/list: permissions/list: other permissions",
                [f"0 mmap 0x10000 8192 {ANON}".replace("PRIVATE", "SHARED"), "0 munmap 0x11000 4096"],
            ),
            (
                by_rule["mseal of an odd length: It unmaps the page behind its range"],
                NOISE + f"3 mmap 0x7abcd000 40960 {ANON}\n3 mseal 0x7abce000 12345 0\n",
                "mseal/list: mapped/list: not mapped",
                [f"0 mmap 0x10000 8192 {ANON}", "0 mseal 0x10000 1 0"],
            ),
            (
                by_rule["fork loses heap"],
                NOISE + "heap 0x7abcd000\n9 brk 0x7abcf456\n9 fork 41\n41 fault 0x7abce000 w\n",
                "fork/list: name/list: other name",
                ["heap 0x10000", "0 brk 0x11000", "0 fork 1"],
            ),
            (
                by_rule["mseal loses object within"],
                NOISE + "file 9 w 12345 8:3 77 /a\nfile 7 r 9000 8:1 23 /srv/data/of-a-page-and-more\n"
                "0 mmap 0x7abcd000 12345 PROT_READ MAP_PRIVATE|MAP_FIXED 7 8192\n0 mseal 0x7abcf000 1 0\n",
                "mseal/list: device/list: other device",
                ["file 3 r 0 8:1 23 /f", "0 mmap 0x10000 4096 PROT_READ MAP_PRIVATE|MAP_FIXED 3 0", "0 mseal 0x10000 4096 0"],
            ),
        ]
        for model, text, kind, lines in cases:
            with self.subTest(kind):
                self.assertEqual(smallest(model, text), (kind, ["vmatrace 1", *lines]))

    def test_no_more_threads_than_it_needs(self) -> None:
        text = b"vmatrace 1\n5 munmap 0x10000 4096\n9 brk 0 after=2\n9 mprotect 0x10000 4096 PROT_READ after=2\n7 brk 0 after=3\n"

        def of_two(made: traces.Trace) -> bool:
            threads = {line.word: line.thread for line in made.lines}
            return {"munmap", "mprotect"} <= set(threads) and threads["munmap"] != threads["mprotect"]

        def with_a_note(made: traces.Trace) -> bool:
            return of_two(made) and any(line.after for line in made.lines)

        wanted = ["0 munmap 0 0", "1 mprotect 0 0 PROT_READ"]
        self.assertEqual(shrunk(traces.read_trace(text), of_two), wanted)
        self.assertEqual(shrunk(traces.read_trace(text), with_a_note), [wanted[0], f"{wanted[1]} after=2"])

    def test_lines_of_one_thread_wait_for_none_of_its_own(self) -> None:
        text = b"vmatrace 1\n5 brk 0\n9 brk 0 after=2\n5 fork 3\n3 brk 0\n"
        made = shrinking.with_threads(traces.read_trace(text), {5: 0, 9: 0})
        self.assertEqual(made.text().splitlines()[1:], ["0 brk 0", "0 brk 0", "0 fork 1", "1 brk 0"])

    def test_a_place_in_a_high_window_is_round(self) -> None:
        text = f"vmatrace 1\n0 mmap 0x12345677000 20480 {ANON}\n0 munmap 0x12345679000 4096\n".encode()

        def differs(made: traces.Trace) -> bool:
            if [line.word for line in made.lines] != ["mmap", "munmap"]:
                return False
            mapped, cut = (line.arguments[:2] for line in made.lines)
            return bool(0x100000000 < mapped[0] < cut[0] < cut[0] + cut[1] < mapped[0] + mapped[1])

        lines = shrunk(traces.read_trace(text), differs)
        self.assertEqual([line.split()[2:4] for line in lines], [["0x12000000000", "12288"], ["0x12000001000", "4096"]])
