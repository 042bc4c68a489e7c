"""The model, on the suite of cases: one or more for each row of the tables of docs/MODEL.md."""

import unittest
from pathlib import Path

from vmatools import traces
from vmatools.model import Area, Space, area_at, areas_in, is_free, joins, replaced
from vmatools.profile import coverage, loads, serial
from vmatools.running.program import TOP


def area(lo: int, hi: int, prot: int = 3, number: int = 0, offset: int = 0) -> Area:
    return Area(lo, hi, prot, 7, False, False, False, False, number, offset)


def cases() -> list[Path]:
    return sorted(path for folder in ("suite", "examples") for path in (TOP / folder).rglob("*.trace"))


class Tables(unittest.TestCase):
    def test_each_case_has_its_output(self) -> None:
        found = cases()
        self.assertGreater(len(found), 700)
        for path in found:
            output = path.with_suffix(".out")
            with self.subTest(path.relative_to(TOP)):
                trace = traces.read_trace(path.read_bytes())
                self.assertEqual(serial.serial_output(trace).encode(), output.read_bytes())

    def test_each_row_decides_a_case(self) -> None:
        reached: set[str] = set()
        for path in cases():
            reached.update(coverage.rows_of(traces.read_trace(path.read_bytes())))
        self.assertEqual(set(coverage.ROWS) - reached, set())


class Lists(unittest.TestCase):
    def test_what_lies_where(self) -> None:
        areas = [area(1, 3), area(5, 6, 1), area(6, 8)]
        self.assertEqual(
            [area_at(areas, page) for page in (0, 2, 3, 5, 7, 8)], [None, areas[0], None, *areas[1:], None]
        )
        self.assertEqual(areas_in(areas, 2, 6), areas[:2])
        self.assertTrue(is_free(areas, 3, 5))
        self.assertFalse(is_free(areas, 3, 6))

    def test_neighbours_join(self) -> None:
        self.assertTrue(joins(area(1, 2), area(2, 3)))
        self.assertFalse(joins(area(1, 2), area(2, 3, 1)))
        self.assertFalse(joins(area(1, 2), area(3, 4)))
        self.assertTrue(joins(area(1, 2, 3, 1, 4), area(2, 3, 3, 1, 5)))
        self.assertFalse(joins(area(1, 2, 3, 1, 4), area(2, 3, 3, 1, 6)))
        self.assertEqual(replaced([area(1, 2), area(3, 4)], 2, 3, [area(2, 3)]), [area(1, 4)])

    def test_a_cut_leaves_both_ends(self) -> None:
        self.assertEqual(replaced([area(1, 9)], 3, 5, []), [area(1, 3), area(5, 9)])

    def test_a_child_leaves_its_parent_alone(self) -> None:
        space = Space(traces.read_trace(b"vmatrace 1\n"))
        space.mmap(
            0x10000, 4096, 3, traces.MAP["MAP_PRIVATE"] | traces.MAP["MAP_ANONYMOUS"] | traces.MAP["MAP_FIXED"], -1, 0
        )
        child = space.child()
        child.munmap(0x10000, 4096)
        self.assertEqual((len(space.areas), len(child.areas)), (1, 0))


class Loads(unittest.TestCase):
    def test_a_summary_counts_the_output(self) -> None:
        output = serial.serial_output(traces.read_trace("\n".join([*loads.load(1, 4), ""]).encode())).splitlines()
        self.assertEqual(
            loads.summary(output), ["calls 1", "refused 0", "faults 0", "served 0", "version 1", "areas 1"]
        )
