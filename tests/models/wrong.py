"""Wrong models by rule: the model of the tools with one thing wrong, which most traces don't show.

The rules: what an operation makes of the pages below its range, in it and above it loses an attribute, or keeps that of what
was there; a call that a row refuses has another error, or has changed something nevertheless; and in a state of its own alone
a call does too little, too much, or something else. `WITNESSES` has for each a trace by which it isn't the model. A change that
no search has told from the model is none of them.

    PYTHONPATH=tools:tests python3 -m models.wrong FIRST LAST

searches the suite, and then random traces of these seeds, for witnesses, and writes the file with those that it had.
"""
from __future__ import annotations

import itertools
import sys
from collections.abc import Callable, Iterator
from itertools import pairwise
from pathlib import Path
from typing import Any, NamedTuple

from models import drawn
from vmatools import model, traces
from vmatools.comparing import conformance, generator
from vmatools.comparing.comparison import is_trace
from vmatools.model import Area, Space, areas_in, pages_of
from vmatools.profile import coverage, serial
from vmatools.traces import CALLS, PAGE, Trace

WITNESSES = Path(__file__).parent / "wrong.traces"
MARK = "# "  # of the line above a trace, which has the name
EACH = 4  # of the calls that are wrong in a state of their own, one in so many is tried
LOST: dict[str, Any] = dict(prot=0, most=model.ALL, shared=False, grows=False, sealed=False, heap=False, object=0, offset=0)
ERRORS = [row for row in coverage.ROWS if row.split("/")[0] in CALLS and row.split("/")[1] not in ("done", "no-length")]


class Call(Space):
    """A model that knows which call is made, with which arguments, and what was before it; and whether that is one of the calls
    in a state in which it is to be wrong."""

    wrong_call, is_now = "", False
    state: Callable[[Call], Any] = staticmethod(lambda space: False)
    call, start, end = "", 0, 0  # the call, and the first and the last page of its range
    arguments: tuple[Any, ...] = ()
    row, count = "", 0
    before = ""  # the row that decided the last call
    is_child = False

    def note(self, row: str) -> None:
        self.row = row

    def child(self) -> Call:
        child = super().child()
        child.is_child = True
        return child

    def changed(self, areas: list[Area], lo: int, hi: int, **attributes: Any) -> list[Area]:
        inner = [model.piece(area, max(area.lo, lo), min(area.hi, hi)) for area in areas_in(areas, lo, hi)]
        return self.replaced(areas, lo, hi, [area._replace(**attributes) for area in inner]) if lo < hi else areas

    def made(self, name: str, arguments: tuple[Any, ...]) -> Any:
        """Makes a call."""
        length = arguments[1] if len(arguments) > 1 else PAGE
        self.call, self.arguments, self.start = name, arguments, arguments[0] // PAGE
        self.end = min(self.start + pages_of(length), self.limit)
        self.is_now = name == self.wrong_call and bool(type(self).state(self))
        try:
            return getattr(super(), name)(*arguments)
        finally:
            self.call, self.is_now, self.before, self.count = "", False, self.row, self.count + 1


def calling(name: str) -> Callable[..., Any]:
    return lambda self, *arguments: self.made(name, arguments)


for word in CALLS:
    setattr(Call, word, calling(word))


def split_at(areas: list[Area], border: int, number: int, worse: Callable[[Area, Area], Area]) -> list[Area]:
    """The list in which an area that goes over a border is two, of which one is worse than it should be."""
    place = next((place for place, area in enumerate(areas) if area.lo < border < area.hi), None)
    if place is None:
        return areas
    whole = areas[place]
    pieces = [model.piece(whole, whole.lo, border), model.piece(whole, border, whole.hi)]
    pieces[number] = worse(pieces[number], whole)
    return areas[:place] + pieces + areas[place + 1 :]


class Wrong(NamedTuple):
    """A wrong model."""

    name: str
    space: type[Space]


# Attributes that are lost or kept


def lost_beside(call: str, part: str, attribute: str) -> type[Space]:
    """What a call leaves below or above its range loses an attribute where it is split off."""

    class Losing(Call):
        def replaced(self, areas: list[Area], lo: int, hi: int, middle: list[Area]) -> list[Area]:
            border, number = (lo, 0) if part == "below" else (hi, 1)
            if self.call == call:
                areas = split_at(areas, border, number, lambda piece, _: piece._replace(**{attribute: LOST[attribute]}))
            return super().replaced(areas, lo, hi, middle)

    return Losing


def lost_within(call: str, attribute: str, is_kept: bool) -> type[Space]:
    """What a call makes of its range loses an attribute, or has that of what was there."""

    class Losing(Call):
        def replaced(self, areas: list[Area], lo: int, hi: int, middle: list[Area]) -> list[Area]:
            old = model.area_at(areas, lo)
            if self.call == call and middle and (old or not is_kept):
                value = getattr(old, attribute) if is_kept else LOST[attribute]
                middle = [area._replace(**{attribute: value}) for area in middle]
            return super().replaced(areas, lo, hi, middle)

    return Losing


def lost_by_growth(attribute: str) -> type[Space]:
    """An area that grows loses an attribute."""

    class Losing(Space):
        def grow(self, address: int, access: str) -> Area | None:
            grown = super().grow(address, access)
            if grown is None:
                return None
            worse = grown._replace(**{attribute: LOST[attribute]})
            self.areas = [worse if area is grown else area for area in self.areas]
            return worse

    return Losing


def lost_by_fork(attribute: str) -> type[Space]:
    """The areas of a child lose an attribute."""

    class Losing(Space):
        def child(self) -> Losing:
            child = super().child()
            child.areas = [area._replace(**{attribute: LOST[attribute]}) for area in self.areas]
            return child

    return Losing


def attributes() -> Iterator[Wrong]:
    for attribute in LOST:
        for call in CALLS:
            for part in ("below", "above"):
                yield Wrong(f"{call} loses {attribute} {part}", lost_beside(call, part, attribute))
            yield Wrong(f"{call} loses {attribute} within", lost_within(call, attribute, False))
            yield Wrong(f"{call} keeps {attribute} within", lost_within(call, attribute, True))
        yield Wrong(f"growth loses {attribute}", lost_by_growth(attribute))
        yield Wrong(f"fork loses {attribute}", lost_by_fork(attribute))


# State left by a call that is refused


def refused_cuts(row: str) -> type[Space]:
    """A call that a row refuses has unmapped its range, or the first page of it."""

    class Cutting(Call):
        def made(self, name: str, arguments: tuple[Any, ...]) -> Any:
            before = self.areas
            reply = super().made(name, arguments)
            if self.row == row and self.start < self.end:
                self.areas = model.replaced(before, self.start, self.start + 1, [])
            return reply

    return Cutting


def refused_keeps(call: str, row: str) -> type[Space]:
    """A call that is refused at the end leaves the list that it would have made."""

    class Keeping(Call):
        def keep(self, areas: list[Area], reply: model.Reply, name: str, objects: int = 0) -> model.Reply:
            reply = super().keep(areas, reply, name, objects)
            if self.call == call and row == "too-many" and self.row == f"{call}/{row}":
                self.areas = areas
            return reply

        def unless_sealed(self, areas: list[Area], reply: model.Reply, name: str, *ranges: Any, objects: int = 0) -> model.Reply:
            reply = super().unless_sealed(areas, reply, name, *ranges, objects=objects)
            if self.call == call and row == "sealed" and self.row == f"{call}/{row}":
                self.areas = areas
            return reply

    return Keeping


def refused_counts(row: str) -> type[Space]:
    """A shared mapping that a row refuses has taken a number."""

    class Counting(Call):
        def made(self, name: str, arguments: tuple[Any, ...]) -> Any:
            reply = super().made(name, arguments)
            self.objects += self.row == row
            return reply

    return Counting


def refused_says(row: str) -> type[Space]:
    """A call that a row refuses has another error."""

    class Saying(Space):
        def by(self, name: str, reply: Any) -> Any:
            other = "ENOMEM" if reply == "EINVAL" else "EINVAL"
            return super().by(name, other if name == row and isinstance(reply, str) else reply)

    return Saying


def refused() -> Iterator[Wrong]:
    for row in ERRORS:
        yield Wrong(f"{row} cuts", refused_cuts(row))
        yield Wrong(f"{row} has another error", refused_says(row))
        if row.startswith("mmap/"):
            yield Wrong(f"{row} takes a number", refused_counts(row))
    for call in CALLS:
        for row in ("too-many", "sealed"):
            yield Wrong(f"{call}/{row} is done", refused_keeps(call, row))


# Calls that are wrong in a state of their own


def first_of(space: Call) -> Area | None:
    return model.area_at(space.areas, space.start)


def covered(space: Call) -> list[Area]:
    return areas_in(space.areas, space.start, space.end)


def neighbours(space: Call) -> int:
    """How many areas touch the range from outside, or go on there."""
    return sum(model.area_at(space.areas, page) is not None for page in (space.start - 1, space.end) if page >= 0)


STATES: dict[str, Callable[[Call], Any]] = {
    "of four areas": lambda space: len(space.areas) == 4,
    "of seven areas or more": lambda space: len(space.areas) > 6,
    "over three areas": lambda space: len(covered(space)) == 3,
    "between two neighbours": lambda space: neighbours(space) == 2,
    "from a hole": lambda space: not first_of(space) and covered(space),
    "up to a hole": lambda space: first_of(space) and not model.area_at(space.areas, space.end - 1),
    "on the last area": lambda space: space.areas and covered(space)[-1:] == space.areas[-1:],
    "on the first area": lambda space: space.areas and covered(space)[:1] == space.areas[:1],
    "at the limit of areas": lambda space: len(space.areas) == space.most_areas,
    "after a refusal": lambda space: space.before in ERRORS,
    "after an mremap": lambda space: space.before in ("mremap/to-place", "mremap/longer-elsewhere"),
    "after a split": lambda space: any(
        one.offset and other.offset and one.object == other.object for one, other in pairwise(space.areas)
    ),
    "in a child": lambda space: space.is_child,
    "beside a seal": lambda space: any(area.sealed for area in space.areas),
    "beside a stack": lambda space: any(area.grows for area in space.areas),
    "beside a heap": lambda space: any(area.heap for area in space.areas),
    "on PROT_NONE": lambda space: any(area.prot == 0 for area in covered(space)),
    "on shared memory": lambda space: any(area.shared for area in covered(space)),
    "on a file from its third page on": lambda space: any(area.object and area.offset > 1 for area in covered(space)),
    "of an odd length": lambda space: len(space.arguments) > 1 and space.arguments[1] % PAGE,
    "of more than five pages": lambda space: space.end - space.start > 5,
    "above the floor": lambda space: space.start >= model.FLOOR,
    "as the twentieth call": lambda space: space.count >= 19,
}


class StaysApart(Call):
    """It joins no neighbours."""

    def replaced(self, areas: list[Area], lo: int, hi: int, middle: list[Area]) -> list[Area]:
        if self.is_now:
            return model.replaced(areas, lo, hi, middle, lambda first, second: False)
        return super().replaced(areas, lo, hi, middle)


class LeavesLastPage(Call):
    """It leaves the last of several pages."""

    def replaced(self, areas: list[Area], lo: int, hi: int, middle: list[Area]) -> list[Area]:
        if not self.is_now or hi - lo < 2:
            return super().replaced(areas, lo, hi, middle)
        inner = [model.piece(area, area.lo, min(area.hi, hi - 1)) for area in middle if area.lo < hi - 1]
        return super().replaced(areas, lo, hi - 1, inner)


class TakesPageMore(Call):
    """It unmaps the page behind its range."""

    def replaced(self, areas: list[Area], lo: int, hi: int, middle: list[Area]) -> list[Area]:
        return super().replaced(areas, lo, hi + self.is_now, middle)


class ForgetsOffset(Call):
    """What it splits off above has the offset of the whole."""

    def replaced(self, areas: list[Area], lo: int, hi: int, middle: list[Area]) -> list[Area]:
        if self.is_now:
            areas = split_at(areas, hi, 1, lambda piece, whole: piece._replace(offset=whole.offset))
        return super().replaced(areas, lo, hi, middle)


class PassesSeals(Call):
    """It changes what is sealed."""

    def has_sealed(self, lo: int, hi: int) -> bool:
        return not self.is_now and super().has_sealed(lo, hi)


class PassesLimit(Call):
    """It makes one area too many."""

    def keep(self, areas: list[Area], *rest: Any, **more: Any) -> model.Reply:
        self.most_areas += self.is_now
        try:
            return super().keep(areas, *rest, **more)
        finally:
            self.most_areas -= self.is_now


class DoesNothing(Call):
    """It answers, and changes nothing."""

    def made(self, name: str, arguments: tuple[Any, ...]) -> Any:
        before, end = self.areas, self.break_
        self.was_now = False
        reply = super().made(name, arguments)
        if self.was_now:
            self.areas, self.break_ = before, end
        return reply

    def note(self, row: str) -> None:
        super().note(row)
        self.was_now = self.is_now


FAULTS: list[type[Call]] = [StaysApart, LeavesLastPage, TakesPageMore, ForgetsOffset, PassesSeals, PassesLimit, DoesNothing]


def in_states() -> Iterator[Wrong]:
    for call in CALLS:
        for state, holds in STATES.items():
            for kind in FAULTS:
                more = {"wrong_call": call, "state": staticmethod(holds)}
                yield Wrong(f"{call} {state}: {(kind.__doc__ or '').rstrip('.')}", type(kind.__name__, (kind,), more))


def candidates() -> Iterator[Wrong]:
    """What the rules make."""
    yield from attributes()
    yield from refused()
    yield from itertools.islice(in_states(), None, None, EACH)


# Witnesses


def differs(space: type[Space], trace: Trace) -> bool:
    return serial.serial_output(trace, space) != serial.serial_output(trace)


def smaller(space: type[Space], trace: Trace) -> Trace:
    """The trace with as few of its lines as show the same."""
    for place in reversed(range(len(trace.lines))):
        fewer = trace.with_lines(trace.lines[:place] + trace.lines[place + 1 :]).numbered()
        if is_trace(fewer) and differs(space, fewer):
            trace = fewer
    return trace


def witnesses() -> dict[str, str]:
    """The traces of the file, by the names of the wrong models."""
    blocks = WITNESSES.read_text(encoding="utf-8").split(f"\n{MARK}") if WITNESSES.exists() else []
    pairs = (block.removeprefix(MARK).partition("\n") for block in blocks)
    return {name: text.rstrip("\n") + "\n" for name, _, text in pairs}


def shown() -> list[Wrong]:
    """The wrong models that have a witness."""
    known = witnesses()
    return [wrong for wrong in candidates() if wrong.name in known]


def searched(seeds: range) -> Iterator[Trace]:
    for path in conformance.cases_in_order(True):
        yield traces.read_trace(path.read_bytes()).numbered()
    for seed in seeds:
        yield generator.Generator(generator.IN_TURN[seed % len(generator.IN_TURN)], f"wrong {seed}", 30).draw()
        yield from drawn.traces_of(range(seed, seed + 1))


def main(first: int, last: int) -> None:
    known = witnesses()
    tried = [(trace, serial.serial_output(trace)) for trace in searched(range(first, last + 1))]
    for wrong in candidates():
        own = [pair for pair in tried if any(line.word in wrong.name for line in pair[0].lines)] or tried
        if wrong.name not in known:
            found = next((trace for trace, right in own if serial.serial_output(trace, wrong.space) != right), None)
            if found:
                known[wrong.name] = smaller(wrong.space, found).text()
    texts = [f"{MARK}{wrong.name}\n{known[wrong.name]}" for wrong in candidates() if wrong.name in known]
    WITNESSES.write_text("".join(texts), encoding="utf-8")


if __name__ == "__main__":
    main(*map(int, sys.argv[1:]))
