"""Random traces for a comparison, each of a profile and a seed.

A generator keeps the model of each space, and draws from its list what the next line is about: so most calls succeed.
One line in six is spoiled in one place, so that each error comes too.
"""

import itertools
import random
from collections.abc import Sequence
from dataclasses import dataclass, field
from typing import Any, Optional, TypeVar

from ..model import DEFAULT_MIN, DEFAULT_TOP, FLOOR, Area, Space, is_free, pages_of
from ..traces import CALLS, FORMS, LIMITS, MAP, MREMAP, PAGE, PROT, USER_PAGES, File, Line, Trace
from .fitting import fitted

T = TypeVar("T")
Arguments = list[Any]
Drawn = tuple[str, Arguments]

READ, WRITE, EXEC = PROT.values()
ANONYMOUS, PRIVATE, SHARED, FIXED = (MAP[f"MAP_{name}"] for name in ("ANONYMOUS", "PRIVATE", "SHARED", "FIXED"))
NOREPLACE, GROWS = MAP["MAP_FIXED_NOREPLACE"], MAP["MAP_GROWSDOWN"]
IDLE_FLAGS = [MAP[f"MAP_{name}"] for name in ("STACK", "NORESERVE", "POPULATE", "DENYWRITE", "EXECUTABLE")]
MAYMOVE, TO_FIXED, DONTUNMAP = MREMAP.values()
SPOILED = 16  # of a hundred lines

PROTECTIONS = [READ | WRITE] * 5 + [READ] * 4 + [0, WRITE, READ | EXEC, READ | WRITE | EXEC]
MODES = [["rw"], ["r"], ["r", "rw", "w"]]  # of the first, the second and the third file
LOW = 0x100
EDGES = [DEFAULT_MIN - 2, FLOOR - 3, DEFAULT_TOP - 12, USER_PAGES[1] - 12]

VSYSCALL = 0xFFFFFFFFFF600000


@dataclass(frozen=True)
class Profile:
    """What traces are about."""

    says: str  # a line for --help
    weights: dict[str, int]  # of the recipes below
    bases: Sequence[int] = field(default_factory=lambda: [LOW])
    pages: int = 24  # how wide the part of memory is that most lines are about
    files: int = 0
    settings: tuple[str, ...] = ()


BASIC = {
    "map_fixed": 6,
    "map_beside": 4,
    "map_anywhere": 2,
    "map_hint": 2,
    "map_noreplace": 1,
    "unmap": 4,
    "protect": 5,
    "resize": 2,
    "move": 1,
    "touch": 3,
    "maps": 1,
}
FILES = {
    "map_file": 6,
    "map_shared": 3,
    "map_beside": 5,
    "map_fixed": 1,
    "unmap": 3,
    "protect": 4,
    "resize": 2,
    "move": 2,
    "touch": 5,
    "maps": 1,
}
DEEP = {
    "map_fixed": 3,
    "map_beside": 4,
    "map_between": 4,
    "map_far": 3,
    "hint_at_border": 4,
    "map_growing": 2,
    "map_below_grower": 2,
    "touch_below": 3,
    "protect_as_neighbour": 6,
    "protect_none": 4,
    "to_hole": 4,
    "unmap": 2,
    "seal": 1,
    "resize": 2,
    "grow_to_neighbour": 3,
    "move_beside": 6,
    "touch": 2,
    "fork": 1,
    "brk": 2,
}
PROFILES = {
    "few": Profile("few areas, close together", BASIC),
    "many": Profile(
        "many areas: ten times as many lines", {**BASIC, "map_fixed": 12, "unmap": 1, "maps": 0}, pages=600
    ),
    "files": Profile("files and shared objects", FILES, files=3),
    "mremap": Profile("areas that shrink, grow and move", {**BASIC, "resize": 12, "move": 8}, files=1),
    "faults": Profile("page faults, of two threads", {**FILES, "map_fixed": 4, "touch": 20}, files=3),
    "edges": Profile("the edges of memory, and huge lengths", {**BASIC, "huge": 4, "map_last": 2, "brk": 1}, EDGES),
    "limits": Profile(
        "a limit of areas, and a top and a lowest address of their own",
        {**BASIC, "seal": 1},
        [LOW, FLOOR - 3],
        settings=("limit", "top", "min"),
    ),
    "growing": Profile(
        "areas that grow downwards", {**BASIC, "map_growing": 8, "touch_below": 16}, settings=("lowest",)
    ),
    "brk": Profile(
        "the break of a heap",
        {**BASIC, "brk": 14, "map_over_break": 3, "seal_heap": 2},
        files=1,
        settings=("heap", "few"),
    ),
    "mseal": Profile("sealed pages", {**BASIC, "seal": 4, "protect_to_sealed": 2, "cut_sealed": 2}),
    "fork": Profile(
        "child spaces, with a heap, seals and stacks",
        {**BASIC, "map_shared": 2, "fork": 5, "brk": 8, "seal": 3, "map_growing": 3, "touch_below": 4},
        settings=("heap",),
    ),
    "deep": Profile(
        "neighbours that join or nearly do, borders, and what was moved, split or without rights before",
        DEEP,
        [LOW, LOW, FLOOR - 3],
        pages=16,
        files=2,
        settings=("heap", "few"),
    ),
    "wide": Profile(
        "version 2, with addresses above 47 bits", {**BASIC, "huge": 2}, [USER_PAGES[1] - 12, USER_PAGES[2] - 12]
    ),
    "mix": Profile("some of all but `many`, `fork` and `wide`, in each trace others", {}),
}
IN_TURN = [name for name in PROFILES if name != "wide"]
MIXED = ["few", "files", "mremap", "faults", "edges", "limits", "growing", "brk", "mseal"]


class Recipes:
    """Draws single lines for a trace, about what a space has mapped."""

    space: Space
    spaces: dict[int, Space]

    def __init__(self, source: random.Random, profile: Profile) -> None:
        self.bits, self.profile, self.base = source.getrandbits, profile, 0
        self.at_once, self.children, self.threads = 0, LIMITS["forks"], [0]
        self.files: Sequence[File] = ()
        self.reads = 0  # of the list, that were drawn

    # Drawing

    def below(self, end: int) -> int:
        """A number from 0 up to but not including an end: what `randrange` draws, in half the time."""
        width = end.bit_length()
        number = self.bits(width)
        while number >= end:
            number = self.bits(width)
        return number

    def pick(self, choices: Sequence[T]) -> T:
        return choices[self.below(len(choices))]

    def often(self, percent: int) -> bool:
        return self.below(100) < percent

    def page(self) -> int:
        return self.base + self.below(self.profile.pages)

    def pages(self) -> int:
        return self.pick((1, 1, 1, 2, 2, 3, 4))

    def length(self, pages: int) -> int:
        return pages * PAGE - (self.pick((1, 100, 4095)) if self.often(10) else 0)

    def prot(self) -> int:
        return self.pick(PROTECTIONS)

    def area(self) -> Optional[Area]:
        return self.pick(self.space.areas) if self.space.areas else None

    def free_page(self, pages: int) -> int:
        """A page from which on so many are free, if a few tries find one."""
        for _ in range(8):
            page = self.page()
            if is_free(self.space.areas, page, page + pages):
                return page
        return self.page()

    def range(self) -> tuple[int, int]:
        """A start and a number of pages: of an area, of a part of it, or over its end."""
        area = self.area()
        if area is None or self.often(8):
            return self.page(), self.pages()
        size = min(area.hi - area.lo, 16)
        start = area.lo + self.pick([0, 0, self.below(size)])
        end = self.pick(
            [area.hi, start + 1, start + 1 + self.below(size)] + [area.hi + self.pages()] * self.often(40)
        )
        return start, max(end - start, 1)

    # Recipes: each draws a line, as its word and its arguments

    def map_fixed(
        self,
        flags: int = FIXED,
        prot: Optional[int] = None,
        descriptor: int = -1,
        offset: int = 0,
        kind: int = PRIVATE | ANONYMOUS,
    ) -> Drawn:
        flags |= kind | (self.pick(IDLE_FLAGS) if self.often(3) else 0)
        pages = self.pages()
        page = self.free_page(pages) if self.often(60) or flags & NOREPLACE else self.page()
        page = max(page, self.space.min) if self.often(80) else page
        return "mmap", [
            page * PAGE,
            self.length(pages),
            self.prot() if prot is None else prot,
            flags,
            descriptor,
            offset,
        ]

    def map_anywhere(self) -> Drawn:
        word, arguments = self.map_fixed(flags=0)
        return word, [0, *arguments[1:]]

    def map_hint(self) -> Drawn:
        word, arguments = self.map_fixed(flags=0)
        return word, [arguments[0] + self.pick((0, 0, 0, 8)), *arguments[1:]]

    def map_noreplace(self) -> Drawn:
        return self.map_fixed(flags=NOREPLACE)

    def map_growing(self) -> Drawn:
        word, arguments = self.map_fixed(flags=FIXED | GROWS, prot=self.pick([READ | WRITE] * 3 + [READ, 0]))
        if self.often(10):
            arguments[0] = self.space.min * PAGE  # it may not grow then
        return word, arguments

    def map_shared(self) -> Drawn:
        return self.map_fixed(flags=self.pick((FIXED, 0)), kind=SHARED | ANONYMOUS)

    def map_file(self) -> Drawn:
        readable = [file for file in self.files if "r" in file.mode]
        if not readable:
            return self.map_fixed()
        file = self.pick(readable)
        kind = self.pick((PRIVATE, PRIVATE, SHARED))
        prot = self.pick([READ, READ, READ | EXEC]) if kind == SHARED and "w" not in file.mode else None
        flags = self.pick((FIXED, FIXED, 0))
        return self.map_fixed(flags, prot, file.descriptor, self.below(5) * PAGE, kind)

    def map_beside(self) -> Drawn:
        """Right behind an area or in front of it, mostly with the same attributes, so that the two join."""
        area = self.area()
        if area is None:
            return self.map_fixed()
        pages = self.pages()
        behind = self.often(60) or area.lo <= pages
        start, offset = (area.hi, area.offset + area.hi - area.lo) if behind else (area.lo - pages, area.offset - pages)
        file = self.space.file_of.get(area.object)
        kind = (SHARED if area.shared else PRIVATE) | (0 if file else ANONYMOUS) | (GROWS if area.grows else 0)
        prot = area.prot if self.often(80) else self.prot()
        descriptor, offset = (file.descriptor, max(offset, 0)) if file else (-1, 0)
        return "mmap", [start * PAGE, pages * PAGE, prot, kind | FIXED, descriptor, offset * PAGE]

    def huge(self) -> Drawn:
        """Up to an end of memory, or longer than any room."""
        page = self.page()
        ends = [self.space.limit, self.space.limit + 1, self.space.top, FLOOR, FLOOR * 2]
        pages = max(self.pick(ends) - page, 1)
        flags = PRIVATE | ANONYMOUS | self.pick((0, 0, FIXED, NOREPLACE))
        return self.pick(
            [
                ("mmap", [self.pick([0, page * PAGE]), pages * PAGE, self.prot(), flags, -1, 0]),
                ("munmap", [page * PAGE, pages * PAGE]),
                ("mprotect", [page * PAGE, pages * PAGE, self.prot()]),
            ]
        )

    def map_last(self) -> Drawn:
        """At a fixed place up to the end of user memory, or a page past it."""
        pages = self.pages()
        flags = PRIVATE | ANONYMOUS | self.pick((FIXED, FIXED, NOREPLACE))
        start = self.space.limit - pages + self.pick((0, 0, 0, 1))
        return "mmap", [start * PAGE, pages * PAGE, self.prot(), flags, -1, 0]

    def unmap(self) -> Drawn:
        start, pages = self.range()
        return "munmap", [start * PAGE, self.length(pages)]

    def protect(self) -> Drawn:
        start, pages = self.range()
        return "mprotect", [start * PAGE, self.length(pages), self.prot()]

    def seal(self) -> Drawn:
        start, pages = self.range()
        return "mseal", [start * PAGE, self.length(pages), 0]

    def before_sealed(self) -> Optional[tuple[Area, Area]]:
        """An area that is not sealed and a sealed one right behind it."""
        pairs = list(zip(self.space.areas, self.space.areas[1:]))
        fitting = [
            (first, second) for first, second in pairs if first.hi == second.lo and second.sealed and not first.sealed
        ]
        return self.pick(fitting) if fitting else None

    def seal_behind(self) -> Drawn:
        """Seals the end of an area, so that what lies before it is not sealed."""
        open_areas = [area for area in self.space.areas if not area.sealed and area.hi - area.lo > 1]
        area = self.pick(open_areas) if open_areas else None
        return ("mseal", [(area.hi - 1) * PAGE, PAGE, 0]) if area else self.seal()

    def protect_to_sealed(self) -> Drawn:
        """An mprotect of several areas, of which the last is sealed."""
        pair = self.before_sealed()
        if pair is None:
            return self.seal_behind()
        first, second = pair
        start = self.pick([first.lo, first.hi - 1])
        return "mprotect", [start * PAGE, (self.pick([first.hi + 1, second.hi]) - start) * PAGE, self.prot()]

    def cut_sealed(self) -> Drawn:
        """An mremap to a fixed place with a smaller size, of which the cut part is sealed."""
        pair = self.before_sealed()
        if pair is None:
            return self.seal_behind()
        first, second = pair
        start = self.pick([first.lo, first.hi - 1])
        olds, news = self.pick([first.hi + 1, second.hi]) - start, self.pick([1, first.hi - start])
        return "mremap", [start * PAGE, olds * PAGE, news * PAGE, MAYMOVE | TO_FIXED, self.free_page(news) * PAGE]

    def resize(self) -> Drawn:
        """An mremap without a fixed place: of an area's end, so that it may get longer, or of any part of it."""
        area = self.area()
        if area is None:
            return self.map_fixed()
        start = max(area.hi - self.pages(), area.lo) if self.often(60) else area.lo
        olds = area.hi - start if self.often(80) else 1
        news = max(olds + self.pick((-2, -1, 0, 1, 1, 2, 3)), 1)
        return "mremap", [start * PAGE, olds * PAGE, self.length(news), self.pick((0, MAYMOVE))]

    def move(self) -> Drawn:
        area = self.area()
        if area is None:
            return self.map_fixed()
        olds = min(self.pages(), area.hi - area.lo)
        start, news = self.pick([area.lo, area.hi - olds]), max(olds + self.pick((0, 0, 0, -1, 1)), 1)
        return "mremap", [start * PAGE, olds * PAGE, news * PAGE, MAYMOVE | TO_FIXED, self.free_page(news) * PAGE]

    def touch(self) -> Drawn:
        area = self.area()
        page = self.page()
        if area and self.often(88):
            page = self.pick([area.lo, area.hi - 1, area.lo + self.below(min(area.hi - area.lo, 16))])
            file = self.space.file_of.get(area.object)
            if file and self.often(40):  # where the file ends
                last = area.lo + file.size // PAGE - area.offset
                page = last if area.lo <= last < area.hi else page
        return "fault", [page * PAGE + self.pick((0, 0, 8, 4095)), self.pick("rrrwwx")]

    def touch_below(self) -> Drawn:
        """The page below an area that grows, or one a page lower."""
        growing = [area for area in self.space.areas if area.grows and area.lo > 0]
        if not growing:
            return self.map_growing()
        page = self.pick(growing).lo - self.pick([1] * 8 + [2])
        return "fault", [page * PAGE + self.pick((0, 8)), self.pick("rrwwwx")]

    def brk(self) -> Drawn:
        if not self.space.heap:
            return "brk", [self.page() * PAGE]
        low, now = self.space.heap * PAGE, self.space.break_
        higher, lower = now + PAGE * (1 + self.below(5)), now - PAGE * (1 + self.below(4))
        odd = now + self.pick([-100, 100, 3 * PAGE - 1])
        end = -(-now // PAGE)
        # A break within an area that goes on above it leaves both of its ends.
        cut = [(area.lo + 1) * PAGE for area in self.space.areas if area.lo < end - 1 and area.hi > end]
        return "brk", [max(self.pick([higher] * 4 + [lower] * 3 + [low, now, 0, now + 8, odd] + cut * 6), 0)]

    def map_over_break(self) -> Drawn:
        """At a fixed place from below the break to above it, so that a lower break leaves both ends."""
        end = -(-self.space.break_ // PAGE)
        start = end - self.pick((1, 2, 3))
        if not self.space.heap or start < self.space.min:
            return self.map_fixed()
        pages = end - start + self.pick((1, 1, 2))
        word, (_, _, *rest) = self.map_file() if self.files and self.often(50) else self.map_fixed()
        rest[1] |= FIXED
        return word, [start * PAGE, pages * PAGE, *rest]

    def seal_heap(self) -> Drawn:
        """The last page of the heap."""
        end = -(-self.space.break_ // PAGE)
        return ("mseal", [(end - 1) * PAGE, PAGE, 0]) if end > self.space.heap else self.brk()

    # What lies beside each other

    def neighbours(self) -> Optional[tuple[Area, Area]]:
        """Two areas of which none is between."""
        pairs = list(zip(self.space.areas, self.space.areas[1:]))
        return self.pick(pairs) if pairs else None

    def map_between(self) -> Drawn:
        """From the end of an area up to the next one, with what one of them has: so two or three join, or nearly do."""
        pair = self.neighbours()
        if pair is None or not 0 < pair[1].lo - pair[0].hi < 64:
            return self.map_beside()
        start, pages, like = pair[0].hi, pair[1].lo - pair[0].hi, self.pick(pair)
        file = self.space.file_of.get(like.object)
        kind = (SHARED if like.shared else PRIVATE) | (0 if file else ANONYMOUS) | (GROWS if like.grows else 0)
        descriptor, offset = (file.descriptor, max(like.offset + start - like.lo, 0)) if file else (-1, 0)
        return "mmap", [start * PAGE, pages * PAGE, like.prot, kind | FIXED, descriptor, offset * PAGE]

    def map_far(self) -> Drawn:
        """Of a file, near an offset of 32 bits, or of the last that there is."""
        word, arguments = self.map_file()
        pages = pages_of(arguments[1])
        far = self.pick([2**20 - 1, 2**20, 2**32 - pages, 2**51 - 1 - pages, 2**51 - pages])
        return word, [*arguments[:5], far * PAGE] if arguments[4] >= 0 else arguments

    def hint_at_border(self) -> Drawn:
        """Without a fixed place, asked for beside an area, over its end, or at an end of memory."""
        area, pages = self.area(), self.pages()
        ends = [self.space.min, self.space.min - 1, self.space.top - pages, self.space.top, self.space.limit - pages, 0]
        places = [area.hi, area.lo - pages, area.hi - 1, area.lo - pages + 1, area.lo] if area else []
        page = max(self.pick(places * 2 + ends), 0)
        flags = self.pick((PRIVATE, PRIVATE, SHARED)) | ANONYMOUS
        return "mmap", [page * PAGE + self.pick((0, 0, 0, 1, PAGE - 1)), self.length(pages), self.prot(), flags, -1, 0]

    def map_below_grower(self) -> Drawn:
        """A page or two below an area that grows, or right at it."""
        growing = [area for area in self.space.areas if area.grows and area.lo > 4]
        if not growing:
            return self.map_growing()
        end, pages = self.pick(growing).lo - self.pick((0, 1, 1, 2)), self.pick((1, 2))
        flags = PRIVATE | ANONYMOUS | FIXED | self.pick((0, 0, GROWS))
        return "mmap", [max(end - pages, 0) * PAGE, pages * PAGE, self.prot(), flags, -1, 0]

    def protect_as_neighbour(self) -> Drawn:
        """An area, or its part beside the neighbour, gets what that has."""
        pair = self.neighbours()
        if pair is None:
            return self.protect()
        (one, other), is_upper = pair, self.often(50)
        area, prot = (other, one.prot) if is_upper else (one, other.prot)
        pages = self.pick([area.hi - area.lo, area.hi - area.lo, 1])
        start = area.lo if is_upper else area.hi - pages
        return "mprotect", [start * PAGE, self.length(pages), prot]

    def protect_none(self) -> Drawn:
        """An area, or a part of it, loses its rights, or has some again."""
        area = self.area()
        if area is None:
            return self.map_fixed()
        start, pages = self.range() if self.often(40) else (area.lo, area.hi - area.lo)
        return "mprotect", [start * PAGE, pages * PAGE, 0 if area.prot else self.prot()]

    def to_hole(self) -> Drawn:
        """From within an area up to a page of the hole behind it, or from the hole before it."""
        area = self.area()
        if area is None:
            return self.map_fixed()
        start, end = self.pick([(area.hi - 1, area.hi + 1), (area.lo - 1, area.lo + 1), (area.lo, area.hi + 1)])
        start, end = max(start, 0) * PAGE, end * PAGE
        return self.pick([("mprotect", [start, end - start, self.prot()]), ("munmap", [start, end - start])])

    def grow_to_neighbour(self) -> Drawn:
        """An mremap in place up to the next area, or a page less or more."""
        pair = self.neighbours()
        if pair is None or pair[1].lo - pair[0].hi > 64:
            return self.resize()
        area, room = pair[0], pair[1].lo - pair[0].hi
        olds = self.pick([1, area.hi - area.lo])
        news = max(olds + room + self.pick((-1, 0, 0, 1)), 1)
        return "mremap", [(area.hi - olds) * PAGE, olds * PAGE, news * PAGE, self.pick((0, MAYMOVE))]

    def move_beside(self) -> Drawn:
        """An area, or an end of it, to where it touches another one, or what is left of itself."""
        area, other = self.area(), self.area()
        if area is None or other is None:
            return self.map_fixed()
        olds = self.pick([area.hi - area.lo, 1])
        start, news = self.pick([area.lo, area.hi - olds]), max(olds + self.pick((0, 0, 0, -1, 1)), 1)
        to = max(self.pick([other.hi, other.lo - news, other.lo, start + olds, start - news]), 0)
        return "mremap", [start * PAGE, olds * PAGE, news * PAGE, MAYMOVE | TO_FIXED, to * PAGE]

    def maps(self) -> Drawn:
        self.reads += 1
        return self.touch() if self.reads > LIMITS["maps"] else ("maps", [])

    def fork(self) -> Drawn:
        if self.at_once:
            return self.touch()
        first = len(self.threads)
        free = [thread for thread in range(first, first + self.children) if thread not in self.spaces]
        return ("fork", [free[0]]) if free and self.space is self.spaces[0] else self.touch()

    # Spoiling

    def spoiled(self, word: str, arguments: Arguments) -> Drawn:
        """The line with one thing in it that is mostly an error."""
        spoil = {"mmap": self.spoil_mmap, "mremap": self.spoil_mremap, "fault": self.spoil_fault}.get(
            word, self.spoil_range
        )
        return word, spoil(word, list(arguments)) if FORMS[word] and word not in ("brk", "fork") else arguments

    def taken_page(self) -> int:
        area = self.area()
        return area.lo if area else self.page()

    def place_of_error(self, pages: int) -> int:
        """A fixed address that is mostly refused: inside of a page, below the lowest address, past user memory,
        taken."""
        lowest, limit = self.space.min, self.space.limit
        return self.pick(
            [self.page() * PAGE + 8, (lowest - 1) * PAGE, (limit - pages + 1) * PAGE, self.taken_page() * PAGE]
        )

    def spoil_mmap(self, _: str, arguments: Arguments) -> Arguments:
        address, length, prot, flags, descriptor, offset = arguments
        pages, limit, both = -(-length // PAGE), self.space.limit, SHARED | PRIVATE
        fixed_at, no_place = self.place_of_error(pages), flags & ~FIXED & ~NOREPLACE
        choices = [
            [address, length, prot, flags, descriptor, offset + 8],
            [address, length, prot, flags & ~ANONYMOUS, 9, offset],
            [address, 0, prot, flags, descriptor, offset],
            [address, (limit + 1) * PAGE, prot, flags, descriptor, offset],
            [address, length, prot, flags & ~both, descriptor, offset],
            [address, length, prot, flags | both, descriptor, offset],
            [address, length, prot, flags & ~both | SHARED | GROWS, descriptor, offset],
            [address, 2**64 - self.pick((1, 100, PAGE - 1, PAGE)), prot, flags, descriptor, offset],
            *[[fixed_at, length, prot, no_place | self.pick((FIXED, NOREPLACE)), descriptor, offset]] * 4,
            [self.taken_page() * PAGE, length, prot, no_place | NOREPLACE, descriptor, offset],
            [0, (limit - FLOOR) * PAGE, prot, no_place | ANONYMOUS, -1, 0],
        ]
        for file in self.files:
            choices.append([address, length, prot, flags & ~ANONYMOUS, file.descriptor, 2**63 - PAGE])
            if file.mode != "rw":
                choices += [[address, length, WRITE, flags & ~both & ~ANONYMOUS | SHARED, file.descriptor, 0]] * 2
        return self.pick(choices)

    def spoil_range(self, word: str, arguments: Arguments) -> Arguments:
        address, length, *rest = arguments
        limit = self.space.limit
        choices = [
            [address + 8, length, *rest],
            [address, 0, *rest],
            [address, (limit + 1) * PAGE - address, *rest],
            [address, 2**64 - self.pick((1, 100, PAGE - 1, PAGE)), *rest],
            [address, (2**64 - address) % 2**64 - self.pick((0, 1, PAGE)), *rest],
            [self.free_page(1) * PAGE, length, *rest],
        ]
        if word == "mprotect":
            read_only = [area for area in self.space.areas if not area.most & WRITE]
            choices += [[area.lo * PAGE, (area.hi - area.lo) * PAGE, READ | WRITE] for area in read_only[:2]] * 3
        return self.pick(choices + ([[address, length, 1]] * 2 if word == "mseal" else []))

    def spoil_mremap(self, _: str, arguments: Arguments) -> Arguments:
        address, olds, news, flags, *new = arguments
        limit, free = self.space.limit, self.free_page(2) * PAGE
        choices = [
            [address, olds, news, flags | DONTUNMAP, *new],
            [address + 8, olds, news, flags, *new],
            [address, olds, 0, flags, *new],
            [address, 0, news, flags, *new],
            [limit * PAGE, olds, news, flags, *new],
            [free, olds, news, flags, *new],
            [address, olds, news, TO_FIXED, free],
            [address, olds, news, TO_FIXED | MAYMOVE, self.place_of_error(-(-news // PAGE))],
            [address, olds, news, TO_FIXED | MAYMOVE, address],
            [address, olds + 8 * PAGE, news + 12 * PAGE, flags, *new],
            [address, olds, limit * PAGE, flags & ~TO_FIXED],
            [address, 2**64 - self.pick((1, PAGE)), news, flags, *new],
            [address, olds, 2**64 - self.pick((1, PAGE)), flags, *new],
        ]
        on_object = [area for area in self.space.areas if area.object]
        choices += [[area.lo * PAGE, PAGE, 2**63, MAYMOVE] for area in on_object[:2]]
        return self.pick(choices)

    def spoil_fault(self, _: str, arguments: Arguments) -> Arguments:
        past_end = [area for area in self.space.areas if self.space.file_of.get(area.object)]
        choices = [
            [self.free_page(1) * PAGE, "r"],
            [2**64 - 1, "w"],
            [arguments[0], self.pick("wx")],
            [2**47 + arguments[0], "r"],
            [VSYSCALL + 8 * self.pick((0, 2)), self.pick("rwx")],
        ]
        return self.pick(choices + [[(area.hi - 1) * PAGE, "r"] for area in past_end[:2]])


class Generator(Recipes):
    """Draws one trace."""

    def __init__(self, name: str, seed: str, lines: int, threads: int = 0, is_fitted: bool = False) -> None:
        """`threads` is how many run at once, where they do, `is_fitted` whether the running kernel has to have the settings."""
        self.random = random.Random(f"{name} {seed}")
        super().__init__(self.random, PROFILES[name])
        if name == "mix":
            self.profile = self.mixed()
        self.lines = lines * 10 if name == "many" else lines
        self.at_once, self.children = threads, self.pick([1, 2, LIMITS["forks"]])
        self.threads = list(range(threads)) if threads else [0, 1] if name == "faults" else [0]
        self.base = self.pick(self.profile.bases)
        self.trace = Trace(version=2 if name == "wide" else 1)
        self.set_up()
        self.files = self.trace.files
        if is_fitted:
            self.trace = fitted(self.trace)
        self.spaces = {0: Space(self.trace)}
        self.space = self.spaces[0]

    def mixed(self) -> Profile:
        parts = [PROFILES[part] for part in self.random.sample(MIXED, 3)]
        weights = {name: sum(other.weights.get(name, 0) for other in parts) for part in parts for name in part.weights}
        settings = tuple(name for part in parts for name in part.settings)
        return Profile("", weights, self.pick(parts).bases, files=max(part.files for part in parts), settings=settings)

    def set_up(self) -> None:
        settings = self.trace.settings
        if "limit" in self.profile.settings:
            settings["limit"] = self.pick((1, 2, 3, 4, 5, 6, 8))
        if "top" in self.profile.settings and self.often(50):
            settings["top"] = PAGE * self.pick([1, DEFAULT_MIN + 1, LOW + 6, FLOOR + 2, DEFAULT_TOP - 5, USER_PAGES[1]])
        if "min" in self.profile.settings and self.often(50):
            settings["min"] = PAGE * self.pick([1, DEFAULT_MIN - 1, LOW + 2, FLOOR + 1])
        if "few" in self.profile.settings and self.often(20):
            settings["limit"] = self.pick((4, 5, 6, 8))
        if "lowest" in self.profile.settings and self.often(40):
            settings["min"] = PAGE * (self.base + 3)
        if "heap" in self.profile.settings:
            settings["heap"] = PAGE * (self.base + self.below(12))
        for number in range(self.profile.files):
            mode, size = self.pick(MODES[number]), self.pick((0, 1, 4096, 5000, 9000, 65536))
            self.trace.files.append(File(number + 3, mode, size, 8, 1, number + 11, f"/srv/file-{number + 3}"))

    # A trace

    def draw(self) -> Trace:
        """The trace, with the numbers of its lines."""
        names, weights = list(self.profile.weights), list(itertools.accumulate(self.profile.weights.values()))
        for _ in range(self.lines):
            thread = self.pick([*self.spaces, *self.threads[1:]])
            self.space = self.spaces.get(thread, self.spaces[0])
            # Areas first, so that what follows finds something.
            name = (
                self.pick(["map_fixed", "map_anywhere"])
                if len(self.trace.lines) < 2
                else self.random.choices(names, cum_weights=weights)[0]
            )
            word, arguments = getattr(self, name)()
            if self.often(SPOILED):
                word, arguments = self.spoiled(word, arguments)
            self.add(thread, word, [within(kind, value) for kind, value in zip(FORMS[word], arguments)])
        return self.trace.numbered()

    def note(self, thread: int) -> Optional[int]:
        """Of a trace whose threads run at once, now and then a call of another thread that comes first."""
        if not self.at_once or not self.often(10):
            return None
        calls = [line.number for line in self.trace.lines if line.word in CALLS and line.thread != thread]
        return self.pick(calls) if calls else None

    def add(self, thread: int, word: str, arguments: Arguments) -> None:
        line = Line(len(self.trace.lines) + 1, thread, word, arguments, self.note(thread))
        self.trace.lines.append(line)
        if word == "fork":
            self.spaces[arguments[0]] = self.space.child()
        else:
            self.space.answer(line)


def within(kind: str, value: Any) -> Any:
    """The value, or the nearest one that a trace may name."""
    return value if kind == "ACCESS" else min(max(value, -1 if kind == "MAPPED_FD" else 0), 2**64 - 1)
