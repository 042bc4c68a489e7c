"""The picture of a run: as wide as the column of a page that shows it, where its VMAs can be read so."""

import re
import subprocess
import unittest
from pathlib import Path
from xml.etree import ElementTree

from unit.common import InFolder, vma
from vmatools.drawing.axis import READABLE, Axis
from vmatools.model import Area
from vmatools.running.program import TOP

TOUR = [str(TOP / f"examples/tour.{ending}") for ending in ("trace", "out")]
OUTPUT = Path(TOUR[1]).read_text()


def draw(*words: str, status: int = 0) -> subprocess.CompletedProcess[str]:
    done = vma("draw", *words)
    assert done.returncode == status and "Traceback" not in done.stderr, done.stderr
    return done


def drawn(trace: str) -> str:
    return draw("--svg", str(TOP / trace)).stdout


def area(lo: int, hi: int) -> Area:
    return Area(lo, hi, 1, 7, False, False, False, False, 0, 0)


class Widths(unittest.TestCase):
    def test_the_pictures_of_the_tour_fit_a_page_of_830_pixels(self) -> None:
        for trace in ("examples/tour.trace", "examples/second-tour.trace"):
            found = re.search(r'width="([0-9.]+)"', drawn(trace))
            self.assertTrue(found and 600 < float(found[1]) <= 830, f"{trace}: {found and found[1]}")

    def test_a_page_is_wide_enough_to_read_its_protection(self) -> None:
        areas = [area(start, start + 1) for start in range(16, 28)]
        axis = Axis([areas], [], 100)
        self.assertAlmostEqual(axis.width, READABLE * 12)

    def test_many_areas_take_no_more_than_the_most(self) -> None:
        axis = Axis([[area(start, start + 1) for start in range(16, 44)]], [], 100)
        self.assertLessEqual(axis.width, 640 + 1)

    def test_it_speaks_of_vmas(self) -> None:
        self.assertNotIn("area", drawn("examples/tour.trace").replace("aria", ""))


class Pages(InFolder):
    def test_a_page_of_each_example_asks_for_nothing_and_its_pictures_are_xml(self) -> None:
        for trace in (path for pattern in ("*.trace", "calls/*.trace") for path in (TOP / "examples").glob(pattern)):
            with self.subTest(trace.name):
                page = draw(str(trace), str(trace.with_suffix(".out"))).stdout
                self.assertNotRegex(page, r"(src|href)=|url\(|@import")
                for picture in re.findall(r"<svg .*?</svg>", page, re.DOTALL):
                    ElementTree.fromstring(picture)

    def test_the_picture_and_the_list_of_the_tour(self) -> None:
        self.assertEqual(draw("--svg", *TOUR).stdout, (TOP / "docs/tour.svg").read_text())
        self.assertEqual(draw("--list", "6", *TOUR).stdout, "maps 4\n" + OUTPUT.split("maps 4\n")[1])

    def test_a_wrong_output_is_marked_and_what_is_none_is_refused(self) -> None:
        wrong = str(self.put("wrong.out", OUTPUT.replace("-1 ENOMEM", "0x100000")))
        told = draw(TOUR[0], wrong, status=1).stderr
        self.assertIn("line 9: the output says v5 = 0x100000, and the model v5 = -1 ENOMEM", told)
        for words in ([wrong + "x", wrong], [wrong, wrong], [*TOUR, "--list", "7"]):
            draw(*words, status=2)
