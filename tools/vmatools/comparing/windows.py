"""Traces for a system that is not empty: they keep to a window of addresses, and leave no place to be found.

A trace that was drawn for an empty space is fitted line by line, beside the model of what its lines so far leave: a
place that would be searched becomes a fixed one in the window, and a line that leaves the window is dropped, unless any
system refuses it.
"""

import copy
import random
from collections.abc import Collection, Iterator
from dataclasses import dataclass

from .. import model
from ..systems.capabilities import Capabilities
from ..systems.empty import LOWEST_TOP, TOP
from ..systems.places import Window, finds_place, leaves
from ..traces import MAP, MREMAP, PAGE, Line, Trace

PROFILES = [
    "few",
    "many",
    "files",
    "mremap",
    "faults",
    "growing",
    "brk",
    "mseal",
    "fork",
    "mix",
]  # those that keep to a part of memory
FIXED = MAP["MAP_FIXED"]
GUARD = 257  # pages that Linux keeps free below a growing area, and one
MOST_PAGES = 0x200  # of a mapping whose place is chosen here
TRIES = 200
MOST_TOUCHED = 8  # areas that are touched at the end of a trace


@dataclass(frozen=True)
class Fit:
    """How traces are fitted: to a window, and to a system that lacks some operations."""

    window: Window
    lacks: Collection[str] = ()

    def fitted(self, trace: Trace) -> Trace:
        """The trace as it can run in the window."""
        return Fitting(self, trace).trace()

    def keeps(self, trace: Trace) -> bool:
        """Whether a trace keeps to the window by what it says, without being run."""
        low, high = self.window.of(trace)
        is_set = "limit" not in trace.settings and trace.settings.get("heap", low) >= low
        return is_set and not any(self.is_out(line, low, high, trace) for line in trace.lines)

    def is_out(self, line: Line, low: int, high: int, trace: Trace) -> bool:
        is_lost = finds_place(line) and (line.word == "mmap" and line.arguments[0] < PAGE or adds_mapping(line))
        return is_lost or leaves(line, low, high) or line.word == "brk" and "heap" not in trace.settings


@dataclass(frozen=True)
class EmptyFit:
    """How traces are fitted to the empty space of a kernel, which lacks some operations."""

    lowest: int
    lacks: Collection[str] = ()

    def fitted(self, trace: Trace) -> Trace:
        """The trace with settings that the kernel can have, and without what it lacks."""
        settings = {
            name: value for name, value in trace.settings.items() if name != "top" or LOWEST_TOP <= value <= TOP
        }
        lines = [line for line in trace.lines if line.word not in self.lacks]
        return Trace(trace.version, settings | {"min": self.lowest}, trace.files, lines).numbered()

    def keeps(self, trace: Trace) -> bool:
        """Whether a trace has nothing that the kernel lacks."""
        return trace.settings.get("min", self.lowest) == self.lowest and not any(
            line.word in self.lacks for line in trace.lines
        )


@dataclass(frozen=True)
class Both:
    """How traces are fitted to a place, and to what the system says that it has."""

    place: "AnyFit"
    has: Capabilities

    @property
    def lacks(self) -> Collection[str]:
        return self.place.lacks

    def fitted(self, trace: Trace) -> Trace:
        """The trace as it can run there. What is left out first would change the places; what a fit adds may be lacked."""
        return self.has.fitted(self.place.fitted(self.has.fitted(trace)))

    def keeps(self, trace: Trace) -> bool:
        return self.place.keeps(trace) and self.has.keeps(trace)


AnyFit = Fit | EmptyFit | Capabilities | Both


def is_guarded(space: model.Space, start: int, pages: int) -> bool:
    """Whether a place lies so near below a growing area that Linux passes it over as a hint."""
    return any(area.grows and start < area.lo < start + pages + GUARD for area in space.areas)


def adds_mapping(line: Line) -> bool:
    """Whether Linux maps pages at another place and keeps their old range, which the program refuses."""
    return line.word == "mremap" and (line.arguments[1] == 0 or bool(line.arguments[3] & MREMAP["MREMAP_DONTUNMAP"]))


class Fitting:
    """One trace that is fitted: the lines so far, and the spaces that they leave."""

    def __init__(self, fit: Fit, trace: Trace) -> None:
        self.fit, self.whole = fit, trace
        heap = trace.settings.get("heap")
        settings = {"min": fit.window.low, "top": fit.window.high}
        if heap and fit.window.low < heap < fit.window.high:
            settings["heap"] = heap
        self.fresh = Trace(1, settings, trace.files, [])
        self.low, self.high = fit.window.of(self.fresh)
        self.random = random.Random(trace.text())
        self.parent = model.Space(self.fresh)
        self.spaces: dict[int, model.Space] = {}

    def trace(self) -> Trace:
        lines = list(self.lines())
        return self.fresh.with_lines([*lines, *self.touches(lines)]).numbered()

    def touches(self, lines: list[Line]) -> Iterator[Line]:
        """Accesses to what is mapped at the end, in the parent: they show what a call did to pages and not to the list."""
        thread = next((line.thread for line in lines if line.thread not in self.spaces), 0)
        areas = self.parent.areas
        for area in self.random.sample(areas, min(len(areas), MOST_TOUCHED)):
            page = self.random.choice([area.lo, area.hi - 1])
            kind = self.random.choice("rww")
            if self.low <= page * PAGE < self.high:
                yield Line(0, thread, "fault", [page * PAGE, kind], None)

    def lines(self) -> Iterator[Line]:
        for line in self.whole.lines:
            space = self.spaces.get(line.thread, self.parent)
            fitted = self.placed(line, space) if self.may_have(line) else None
            if fitted is None or leaves(fitted, self.low, self.high):
                continue
            if line.word == "fork":
                self.spaces[line.arguments[0]] = space.child()
            else:
                model.answer(space, fitted)
            yield fitted

    def may_have(self, line: Line) -> bool:
        return line.word not in self.fit.lacks and (line.word != "brk" or "heap" in self.fresh.settings)

    def placed(self, line: Line, space: model.Space) -> Line | None:
        """The line, with a fixed place in the place of one that would be searched; or none where there is no room."""
        if not finds_place(line):
            return line
        values = list(line.arguments)
        length = model.pages_of(values[1 if line.word == "mmap" else 2])
        found = model.answer(copy.copy(space), line)[0][0]
        is_hint_lost = line.word == "mmap" and (values[0] < PAGE or is_guarded(space, values[0] // PAGE, length))
        is_searched = is_hint_lost or adds_mapping(line)
        if not is_searched and (not found.startswith("0x") or int(found, 16) == values[0] // PAGE * PAGE):
            return line
        place = self.free_place(space, length)
        if place is None:
            return None
        if line.word == "mmap":
            return line._replace(arguments=[place, values[1], values[2], values[3] | FIXED, *values[4:]])
        return line._replace(arguments=[*values[:3], values[3] | MREMAP["MREMAP_FIXED"], place])

    def free_place(self, space: model.Space, pages: int) -> int | None:
        """A place in the upper half of the window where so many pages are free, if a few tries find one."""
        first, last = (self.low + self.high) // 2 // PAGE, self.high // PAGE - pages
        for _ in range(TRIES if 0 < pages < MOST_PAGES and first < last else 0):
            page = self.random.randrange(first, last)
            if model.is_free(space.areas, page, page + pages):
                return page * PAGE
        return None
