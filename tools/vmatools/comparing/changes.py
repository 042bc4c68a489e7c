"""Traces changed a little: a line more, less, twice or elsewhere, an argument at a border of what is mapped there, a setting."""

import random
from collections.abc import Callable, Sequence
from typing import Any, NamedTuple

from ..model import DEFAULT_MIN, FLOOR, Area, Space
from ..traces import FORMS, LIMITS, MAP, MREMAP, PAGE, File, Line, Trace
from .generator import PROFILES, Profile, Recipes, within

MOST_CHANGES = 4
FEW_LINES = 12  # a shorter trace gets more at its end
FILES = [File(3, "rw", 3 * PAGE, 8, 1, 11, "/srv/file-3"), File(4, "r", 5000, 8, 1, 12, "/srv/file-4")]
FAR = [2**20, 2**32, 2**51 - 2, 2**51 - 1]  # offsets in pages
ADDRESSES, LENGTHS = ("ADDR", "OLD", "NEW"), ("LEN", "OLDLEN", "NEWLEN")
WITH: dict[tuple[str, ...], list[str]] = {  # operations that have an argument of one of some kinds
    kinds: [word for word, form in FORMS.items() if set(form) & set(kinds)] for kinds in (ADDRESSES, LENGTHS)
}
PLACES = MAP["MAP_FIXED"] | MAP["MAP_FIXED_NOREPLACE"]
ALL = Profile("", {name: 1 for profile in PROFILES.values() for name in profile.weights if name != "maps"}, pages=16)
NAMES = list(ALL.weights)

State = tuple[list[Area], int]


class Entry(NamedTuple):
    """A trace that is changed, and before each of its lines, and behind the last, the VMAs and the break that it finds. `first`
    is the space in which it begins."""

    trace: Trace
    states: list[State]
    first: Space

    def space(self, place: int) -> Space:
        """The space that the line at a place finds, and behind the last what the parent's calls leave."""
        space = self.first.child()
        space.areas, space.break_ = self.states[min(place, len(self.states) - 1)]
        return space


def borders(space: Space) -> list[int]:
    """Pages at which something begins or ends."""
    pages = [page for area in space.areas[:24] for page in (area.lo, area.hi)]
    return [*pages, space.min, space.top, space.limit, -(-space.break_ // PAGE), FLOOR]


class Changer:
    """Changes traces."""

    def __init__(self, source: random.Random, lines: int, most_lines: int) -> None:
        """`lines` is how many a trace has, where it hasn't more, and `most_lines` how many one may have."""
        self.recipes, self.lines, self.most_lines = Recipes(source, ALL), lines, most_lines
        self.below, self.pick = self.recipes.below, self.recipes.pick
        self.ways: list[Callable[[Entry, list[Line], Entry], None]] = [
            self.border, self.border, self.border, self.length, self.length, self.flags, self.flags,
            self.drawn, self.drawn, self.drawn, self.drawn, self.doubled, self.dropped, self.moved, self.spliced, self.more,
        ]  # fmt: skip

    def changed(self, entry: Entry, others: Callable[[], Entry]) -> Trace:
        """The trace with a few changes, some of them with lines of another one, and behind it lines of others."""
        lines, other = list(entry.trace.lines), others()
        while len(lines) < FEW_LINES:
            self.more(entry, lines, other)
        for _ in range(1 + self.below(MOST_CHANGES)):
            self.pick(self.ways)(entry, lines, other)
        while len(lines) < self.lines:
            lines += others().trace.lines[: self.lines - len(lines)]
        trace = entry.trace.with_lines(legal(lines[: self.most_lines]))
        if self.below(5) == 0:
            self.setting(entry, trace)
        if not trace.files and any(line.word == "mmap" and line.arguments[4] in (3, 4) for line in lines):
            trace.files = list(FILES)
        return trace

    # One line

    def place(self, lines: Sequence[Line], words: Sequence[str] = ()) -> int | None:
        """The place of a line, one of the last more often."""
        places = [place for place, line in enumerate(lines) if line.arguments and (not words or line.word in words)]
        return max(self.pick(places), self.pick(places)) if places else None

    def put(self, lines: list[Line], place: int, argument: int, value: Any) -> None:
        line = lines[place]
        value = within(FORMS[line.word][argument], value)
        lines[place] = line._replace(arguments=[*line.arguments[:argument], value, *line.arguments[argument + 1 :]])

    def argument(self, lines: Sequence[Line], kinds: tuple[str, ...]) -> tuple[int, int] | None:
        """The places of a line and of one of its arguments of some kinds."""
        place = self.place(lines, WITH[kinds])
        if place is None:
            return None
        line = lines[place]
        own = [number for number, kind in enumerate(FORMS[line.word][: len(line.arguments)]) if kind in kinds]
        return (place, self.pick(own)) if own else None

    def border(self, entry: Entry, lines: list[Line], _: Entry) -> None:
        """An address at a border of what is mapped there, or a page from it; the end of its range stays, or it moves along."""
        found = self.argument(lines, ADDRESSES)
        if found is None:
            return
        place, argument = found
        pages = borders(entry.space(place))
        page = max(self.pick(pages) + self.pick((0, 0, 0, -1, 1)), 0)
        line, odd = lines[place], self.pick((0,) * 12 + (1, 8, PAGE - 1))
        if line.word not in ("brk", "fault") and argument == 0 and self.below(2):
            end = line.arguments[0] + line.arguments[1]
            if 0 < end - page * PAGE < 64 * PAGE:
                self.put(lines, place, 1, end - page * PAGE)
        if line.word not in ("brk", "fault") and argument == 0 and self.below(4) == 0:
            page = max(page - -(-line.arguments[1] // PAGE), 0)  # it ends there
        self.put(lines, place, argument, page * PAGE + odd)

    def length(self, entry: Entry, lines: list[Line], _: Entry) -> None:
        """A length up to a border, or a page or a byte more or less."""
        found = self.argument(lines, LENGTHS)
        if found is None:
            return
        place, argument = found
        start, length = lines[place].arguments[0], lines[place].arguments[argument]
        pages = borders(entry.space(place))
        to_border = [page * PAGE - start for page in pages if 0 < page * PAGE - start < 64 * PAGE]
        near = [length + PAGE, length - PAGE, length + 1, length - 1]
        self.put(lines, place, argument, self.pick(to_border * 2 + near))

    def flags(self, _: Entry, lines: list[Line], __: Entry) -> None:
        """Other flags, another protection, access, file or offset."""
        place = self.place(lines, ("mmap", "mprotect", "mremap", "fault"))
        if place is None:
            return
        line = lines[place]
        if line.word == "fault":
            return self.put(lines, place, 1, self.pick("rwx"))
        if line.word == "mprotect":
            return self.put(lines, place, 2, self.below(8))
        if line.word == "mremap":
            flags = line.arguments[3] ^ self.pick((MREMAP["MREMAP_MAYMOVE"], MREMAP["MREMAP_FIXED"]))
            new = line.arguments[4:] or [line.arguments[0]]
            lines[place] = line._replace(arguments=[*line.arguments[:3], flags, *(new if flags & 2 else [])])
            return None
        return self.mapping(lines, place)

    def mapping(self, lines: list[Line], place: int) -> None:
        """An mmap with something else in it."""
        address, length, prot, flags, descriptor, offset = lines[place].arguments
        turned = (MAP["MAP_PRIVATE"] | MAP["MAP_SHARED"], MAP["MAP_GROWSDOWN"], MAP["MAP_FIXED"], PLACES)
        others = [
            [address, length, self.below(8), flags, descriptor, offset],
            [address, length, prot, flags ^ self.pick(turned), descriptor, offset],
            [address, length, prot, flags & ~MAP["MAP_ANONYMOUS"], self.pick((3, 3, 4)), offset],
            [address, length, prot, flags | MAP["MAP_ANONYMOUS"], -1, 0],
            [address, length, prot, flags, descriptor, offset + self.pick((-PAGE, PAGE, 2 * PAGE, 8))],
            [address, length, prot, flags, descriptor, self.pick(FAR) * PAGE - self.pick((0, length))],
        ]
        arguments = self.pick(others)
        lines[place] = lines[place]._replace(arguments=[within(kind, value) for kind, value in zip(FORMS["mmap"], arguments)])

    # Lines

    def drawn_line(self, entry: Entry, place: int, thread: int) -> Line:
        """A line that the generator draws for what is mapped there."""
        space = entry.space(place)
        low = space.areas[self.below(len(space.areas))].lo if space.areas else DEFAULT_MIN
        recipes = self.recipes
        recipes.base, recipes.files = max(low - self.pick((2, 8)), 0), entry.trace.files or FILES
        recipes.space, recipes.spaces = space, {0: space}
        word, arguments = getattr(recipes, self.pick(NAMES))()
        if self.below(12) == 0:
            word, arguments = recipes.spoiled(word, arguments)
        return Line(0, thread, word, [within(kind, value) for kind, value in zip(FORMS[word], arguments)], None)

    def drawn(self, entry: Entry, lines: list[Line], _: Entry) -> None:
        """A new line, or one in the place of another."""
        place = self.below(len(lines) + 1)
        thread = lines[min(place, len(lines) - 1)].thread if lines else 0
        line = self.drawn_line(entry, place, thread)
        if line.word == "fork":
            used = {one.thread for one in lines} | {one.arguments[0] for one in lines if one.word == "fork"}
            line = line._replace(arguments=[next(number for number in range(1, 64) if number not in used)])
        lines[place : place + self.below(2)] = [line]

    def more(self, entry: Entry, lines: list[Line], _: Entry) -> None:
        """Lines at the end."""
        for _number in range(1 + self.below(4)):
            line = self.drawn_line(entry, len(entry.states), lines[-1].thread if lines and self.below(2) else 0)
            if line.word != "fork":
                lines.append(line)

    def doubled(self, _: Entry, lines: list[Line], __: Entry) -> None:
        if lines:
            line = self.pick(lines)
            lines.insert(self.below(len(lines) + 1), line)

    def dropped(self, _: Entry, lines: list[Line], __: Entry) -> None:
        if len(lines) > 1:
            del lines[self.below(len(lines))]

    def moved(self, _: Entry, lines: list[Line], __: Entry) -> None:
        if len(lines) > 1:
            line = lines.pop(self.below(len(lines)))
            lines.insert(self.below(len(lines) + 1), line)

    def spliced(self, _: Entry, lines: list[Line], other: Entry) -> None:
        """Lines of another trace, in the middle of this one or behind it."""
        if other.trace.lines:
            first = self.below(len(other.trace.lines))
            place = self.below(len(lines) + 1) if self.below(2) else len(lines)
            lines[place:place] = other.trace.lines[first : first + 1 + self.below(8)]

    def setting(self, entry: Entry, trace: Trace) -> None:
        """A setting at what the trace reaches."""
        space = entry.space(self.below(len(entry.states)))
        pages = [page for page in borders(space) if 0 < page <= space.limit and page * PAGE <= 0x7FFFFFFFF000]
        name = self.pick(("limit", "limit", "min", "heap", "top"))
        value = len(space.areas) + self.pick((0, 0, 1, 2)) if name == "limit" else self.pick(pages) * PAGE
        trace.settings = trace.settings | {name: max(value, 1)}


def legal(lines: Sequence[Line]) -> list[Line]:
    """The lines without what may not be in a trace: too many reads and forks, forks of used threads, and notes."""
    kept: list[Line] = []
    used: set[int] = set()
    children: set[int] = set()
    reads = 0
    for line in lines:
        if line.word == "fork":
            child = line.arguments[0]
            if child in used | {line.thread} or line.thread in children or len(children) == LIMITS["forks"]:
                continue
            children.add(child)
            used.add(child)
        reads += line.word == "maps"
        if line.word == "maps" and reads > LIMITS["maps"]:
            continue
        used.add(line.thread)
        kept.append(line._replace(after=None) if line.after else line)
    return kept
