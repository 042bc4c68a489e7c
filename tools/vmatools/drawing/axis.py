"""The axis of addresses of a picture: where each page lies, with gaps, and areas that stay as they are, folded."""

import math
from collections.abc import Iterable
from typing import NamedTuple

from ..model import Area

MOST_WIDTH, FOLD, LEAST_CELL, MOST_CELL = 640, 26, 9, 150
READABLE = 31  # the width of a cell of one page in which its protection can be read
MOST_SHOWN = 30  # areas; where there are more, only those near a change are shown


class Cell(NamedTuple):
    """The pages between two borders of areas, outside of all where they have no number; how wide, or none where it is folded;
    and how many areas lie in it that stay as they are.
    """

    lo: int | None
    hi: int | None
    weight: float | None
    quiet: int


class Axis:
    """Addresses from left to right. Each cell is the pages between two borders of areas; a gap, or areas that nothing
    changes, are folded to a narrow one.
    """

    def __init__(self, lists: list[list[Area]], faults: list[int], room: float) -> None:
        shown = self.areas_shown(lists, faults)
        borders = sorted({page for area in shown for page in (area.lo, area.hi)})
        self.shown = set(shown)
        quiet = sorted({area for areas in lists for area in areas} - self.shown)
        self.cells: list[Cell] = []
        self.borders = borders
        if quiet and (not borders or quiet[0].lo < borders[0]):
            below = [area for area in quiet if not borders or area.lo < borders[0]]
            self.cells.append(Cell(None, None, None, len(below)))
        covered = self.covered(shown)
        for lo, hi in zip(borders, borders[1:]):
            inside = [area for area in quiet if lo <= area.lo < hi]
            is_mapped = any(first <= lo and hi <= last for first, last in covered)
            self.cells.append(Cell(lo, hi, 1 + 0.5 * math.log2(hi - lo) if is_mapped else None, len(inside)))
        above = [area for area in quiet if borders and area.lo >= borders[-1]]
        if above:
            self.cells.append(Cell(None, None, None, len(above)))
        self.measure(room)

    @staticmethod
    def covered(areas: Iterable[Area]) -> list[list[int]]:
        runs: list[list[int]] = []
        for area in sorted(areas, key=lambda area: (area.lo, area.hi)):
            if runs and area.lo <= runs[-1][1]:
                runs[-1][1] = max(runs[-1][1], area.hi)
            else:
                runs.append([area.lo, area.hi])
        return runs

    @staticmethod
    def areas_shown(lists: list[list[Area]], faults: list[int]) -> set[Area]:
        """All areas where they are few; else those that come or go, what touches them, and those with a fault."""
        every = {area for areas in lists for area in areas}
        if len(every) <= MOST_SHOWN:
            return every
        steady = set(lists[0]).intersection(*lists[1:])
        moving = every - steady
        edges = {page for area in moving for page in (area.lo, area.hi)}
        near = {
            area
            for area in steady
            if area.lo in edges or area.hi in edges or any(area.lo <= page < area.hi for page in faults)
        }
        return moving | near

    def measure(self, room: float) -> None:
        """Widths: by the logarithm of the pages, so that a page is seen beside a gigabyte. They fill the room, or take more
        where cells could not be read.
        """
        weights = [weight for _, _, weight, _ in self.cells if weight]
        self.fold = FOLD
        folds = FOLD * (len(self.cells) - len(weights))
        wanted = min(max(room, folds + READABLE * sum(weights)), MOST_WIDTH)
        unit = min(max(wanted - folds, 200) / sum(weights), MOST_CELL) if weights else 0
        self.x: dict[int, float] = {}
        self.starts: list[float] = []
        x = 0.0
        for lo, hi, weight, _ in self.cells:
            self.starts.append(x)
            if lo is not None:
                self.x[lo] = x
            x += max(weight * unit, LEAST_CELL) if weight else self.fold
            if hi is not None:
                self.x[hi] = x
        self.width = x

    def place(self, page: int) -> float | None:
        """Where a page lies."""
        for start, (lo, hi, _, _), following in zip(self.starts, self.cells, self.starts[1:] + [self.width]):
            if lo is not None and hi is not None and lo <= page < hi:
                return start + (following - start) * (page - lo + 0.5) / (hi - lo)
        if self.borders and page < self.borders[0]:
            return 4
        return self.width - 4 if self.cells else None
