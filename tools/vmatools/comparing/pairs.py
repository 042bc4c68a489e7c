"""What traces reach of the model, in pairs: the rows that decide a line, together with one thing that it meets there.

Things are where its range begins and ends among the VMAs, of which kind these are and what made them so, which neighbours join
and why others don't, how near a border, a limit or the end of a file it is, and what the line above did.
"""
from __future__ import annotations

from collections.abc import Hashable
from typing import Any

from .. import model
from ..model import ATTRIBUTES, Area, Space, first_above, index_of, pages_of
from ..traces import MAP, PAGE, Line, Trace

Pair = tuple[Hashable, ...]
MOST_JOINTS = 3  # of a call that are told apart
NUMBERS: dict[tuple[Hashable, ...], int] = {}


def number_of(words: tuple[Hashable, ...]) -> int:
    """A number in the place of words, which has its hash at once."""
    return NUMBERS.setdefault(words, len(NUMBERS))


def near(distance: int) -> int:
    """A distance, as far as it is one of a page."""
    return distance if -2 < distance < 2 else 2 if distance > 0 else -2


def kind_of(area: Area | None) -> int:
    """Of which kind a VMA is."""
    if area is None:
        return -1
    _, _, _, _, shared, grows, sealed, heap, backing, offset = area
    return (1 + (offset > 0) if backing else 0) + 3 * shared + 6 * grows + 12 * sealed + 24 * heap


def met(areas: list[Area], page: int, place: int) -> tuple[Area | None, int]:
    """The VMA that has a page, and where in it the page is; or where in a hole. `place` is that of the first that ends above."""
    area = areas[place] if place < len(areas) else None
    if area is not None and area.lo <= page:
        return area, (area.lo == page) + 2 * (area.hi == page + 1)
    is_behind = place > 0 and areas[place - 1].hi == page
    return None, 4 + is_behind + 2 * (area is not None and area.lo == page + 1)


class Watched(Space):
    """A space that adds the pairs that its lines reach to those that are known, and says in which line one was new."""

    def __init__(self, trace: Trace, known: set[Pair]) -> None:
        super().__init__(trace)
        self.known = known
        self.fresh = [0]  # the last line with a pair that was new, of all spaces of the trace
        self.rows: tuple[str, ...] = ()
        self.last = ""  # the row of the line above
        self.joints: tuple[int, ...] = ()
        self.past: dict[Area, tuple[str, str]] = {}  # of a VMA, the last two operations that changed it
        self.is_child = False

    def child(self) -> Watched:
        child = super().child()
        child.past, child.is_child = dict(self.past), True
        return child

    def note(self, row: str) -> None:
        self.rows += (row,)

    def joins(self, first: Area, second: Area) -> bool:  # type: ignore[override]
        if first.hi != second.lo:
            return False
        joint = 0
        if first[ATTRIBUTES] != second[ATTRIBUTES]:
            joint = next(place for place in range(2, 9) if first[place] != second[place])
        elif second.offset != index_of(first, first.hi):
            joint = 9
        self.joints += (joint,)
        return not joint

    def answer(self, line: Line) -> tuple[list[str], bool]:
        before, end, self.rows, self.joints = self.areas, self.break_, (), ()
        result = model.answer(self, line)
        if line.word != "maps":
            self.reach(line, before, end, result[0][0])
            if self.areas is not before:
                self.remember(line.word, before)
        return result

    def remember(self, word: str, before: list[Area]) -> None:
        """The VMAs that a call has changed have a past."""
        old, new = before, self.areas
        begin, most = 0, min(len(old), len(new))
        while begin < most and old[begin] is new[begin]:
            begin += 1
        end = 0
        while end < most - begin and old[-1 - end] is new[-1 - end]:
            end += 1
        gone = [self.past.pop(area, ("", "")) for area in old[begin : len(old) - end]]
        last = max(gone, default=("", ""))[0]
        self.past |= {area: (word, last) for area in new[begin : len(new) - end]}

    def ranges(self, line: Line, end: int, reply: str) -> list[tuple[int, int]]:
        """First pages of the ranges that a line is about, and those behind them."""
        start, arguments = line.arguments[0] // PAGE, line.arguments
        if line.word == "fault":
            return [(start, start + 1)]
        if line.word == "brk":
            return [(min(pages_of(end), start), max(pages_of(end), start, 1))]
        ranges = [(start, start + pages_of(arguments[1]))]
        if line.word == "mremap":
            to = arguments[4] // PAGE if len(arguments) > 4 else start
            ranges.append((to, to + pages_of(arguments[2])))
        elif line.word == "mmap" and reply.startswith("0x"):
            ranges[0] = (int(reply, 16) // PAGE, int(reply, 16) // PAGE + pages_of(arguments[1]))
        return ranges

    def reach(self, line: Line, before: list[Area], end: int, reply: str) -> None:
        found: list[Pair] = []
        for place, (start, stop) in enumerate(self.ranges(line, end, reply)):
            rows = number_of((place, *self.rows))
            found += self.reached(rows, before, start, stop)
            found.append((rows, 0, near(start - self.min), near(stop - self.limit), near(start - model.FLOOR)))
        rows = number_of((line.word, *self.rows))
        found += [
            (rows, 1, self.joints[:MOST_JOINTS]),
            (rows, 2, self.last),
            (rows, 3, near(len(before) - self.most_areas), self.is_child, near(pages_of(self.break_) - start)),
            (rows, 4, *self.details(line)),
        ]
        self.last = self.rows[-1] if self.rows else ""
        if not self.known.issuperset(found):
            self.known.update(found)
            self.fresh[0] = line.number

    def reached(self, rows: Hashable, before: list[Area], start: int, stop: int) -> list[Pair]:
        """Pairs of a range."""
        begin = first_above(before, start)
        end = begin if begin < len(before) and before[begin].hi > stop else first_above(before, stop)
        page = max(stop - 1, start)
        first, at = met(before, start, begin)
        last, to = met(before, page, end - (end > 0 and before[end - 1].hi > page))
        below, count = met(before, start - 1, begin - (begin > 0 and before[begin - 1].hi == start))[0], min(end - begin, 3)
        above = before[end] if end < len(before) and before[end].lo <= stop else None
        kind, past = kind_of(first), self.past.get(first, "") if first else ""
        return [
            (rows, 5, at, to, count),
            (rows, 6, at, kind),
            (rows, 7, kind, past),
            (rows, 8, to, kind_of(last)),
            (rows, 9, kind_of(below), kind_of(above)),
            (rows, 10, count, first and first.prot, last and last.prot),
        ]

    def details(self, line: Line) -> tuple[Hashable, ...]:
        """What of the words of a line counts apart from places."""
        arguments: list[Any] = line.arguments
        odd = arguments[0] % PAGE > 0
        if line.word == "fault":
            area = model.area_at(self.areas, arguments[0] // PAGE)
            file = self.file_of.get(area.object) if area else None
            past = near(index_of(area, arguments[0] // PAGE) - pages_of(file.size)) if area and file else 3
            return odd, arguments[1], area and area.prot, past
        if line.word == "brk":
            return odd, self.break_ % PAGE > 0
        odds = tuple(near(-length % PAGE) for length in arguments[1 : 3 if line.word == "mremap" else 2])
        if line.word != "mmap":
            return odd, odds, arguments[2] if line.word == "mprotect" else arguments[3:4] == [0]
        prot, flags, offset = arguments[2], arguments[3], arguments[5]
        kind = flags & (MAP["MAP_SHARED"] | MAP["MAP_ANONYMOUS"] | MAP["MAP_GROWSDOWN"])
        return odd, odds, prot, kind, offset.bit_length() // 8
