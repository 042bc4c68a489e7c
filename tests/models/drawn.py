"""Random traces for the changes of the model that no case notices: of three kinds, each by a seed."""

import random
from collections.abc import Iterator

from vmatools.comparing import generator
from vmatools.profile import loads
from vmatools.traces import MAP, MREMAP, PAGE, PROT, USER_PAGES, File, Line, Trace, read_trace

LINES = 30  # operations of a trace
PROFILE_LINES = 15
FIRST = 0x10000
WORDS = ("mmap", "mmap", "mmap", "munmap", "mprotect", "mremap", "mremap", "brk", "mseal", "fault", "maps")
PLACES = (0, MAP["MAP_FIXED"], MAP["MAP_FIXED_NOREPLACE"], MAP["MAP_GROWSDOWN"])
SHARING = (MAP["MAP_SHARED"], MAP["MAP_PRIVATE"], MAP["MAP_PRIVATE"])


class Edges:
    """A trace whose numbers are near each other, or at the edges of what a number may be: 0, the ends of user memory, of
    offsets and of 64 bits, each one less and one more."""

    def __init__(self, seed: int) -> None:
        self.random = random.Random(f"edges {seed}")
        version = self.random.choice((1, 1, 2))
        limit = USER_PAGES[version] * PAGE
        self.edges = [
            number % 2**64
            for edge in (0, limit, 2**63, 2**64)
            for number in (edge - PAGE - 1, edge - PAGE, edge - 1, edge, edge + 1, edge + PAGE)
        ]
        settings = {
            "limit": self.random.randint(1, 6),
            "min": FIRST + PAGE * self.random.randint(0, 3),
            "top": FIRST + PAGE * self.random.randint(4, 12),
            "heap": FIRST + PAGE * self.random.randint(0, 6),
        }
        chosen = {name: value for name, value in settings.items() if self.random.random() < 0.4}
        file = File(3, self.random.choice(("r", "w", "rw")), self.random.choice((0, 1, PAGE, 3 * PAGE)), 8, 1, 11, "/f")
        self.whole = Trace(version, chosen, [file])

    def page(self) -> int:
        return FIRST + PAGE * self.random.randint(-1, 10) if self.random.random() < 0.85 else self.random.choice(self.edges)

    def length(self) -> int:
        return PAGE * self.random.randint(0, 4) if self.random.random() < 0.85 else self.random.choice(self.edges)

    def offset(self) -> int:
        return PAGE * self.random.randint(0, 3) if self.random.random() < 0.7 else self.random.choice(self.edges)

    def prot(self) -> int:
        return self.random.randrange(sum(PROT.values()) + 1)

    def mmap(self) -> list[object]:
        flags = self.random.choice(PLACES) | self.random.choice(SHARING)
        if self.random.random() < 0.6:
            flags |= MAP["MAP_ANONYMOUS"]
        file = self.random.choice((3, 3, 3, 4, -1))
        return [self.page(), self.length(), self.prot(), flags, file, self.offset()]

    def mremap(self) -> list[object]:
        flags = self.random.randrange(sum(MREMAP.values()) + 1)
        new = [self.page()] if flags & MREMAP["MREMAP_FIXED"] else []
        return [self.page(), self.length(), self.length(), flags, *new]

    def operation(self) -> tuple[str, list[object]]:
        word = self.random.choice(WORDS)
        drawn: dict[str, list[object]] = {
            "mmap": self.mmap(),
            "munmap": [self.page(), self.length()],
            "mprotect": [self.page(), self.length(), self.prot()],
            "mremap": self.mremap(),
            "brk": [self.page()],
            "mseal": [self.page(), self.length(), self.random.choice((0, 0, 0, 1))],
            "fault": [self.page(), self.random.choice("rwx")],
            "maps": [],
        }
        return word, drawn[word]

    def draw(self) -> Trace:
        lines = [Line(0, 0, *self.operation(), None) for _ in range(LINES)]
        return self.whole.with_lines(lines).numbered()


def traces_of(seeds: range) -> Iterator[Trace]:
    """For each seed the trace of `generate 30 SEED`, one of a profile of `vma emit`, all in turn, and one of edges."""
    profiles = list(generator.PROFILES)
    for seed in seeds:
        yield read_trace(("\n".join(loads.load(LINES, seed)) + "\n").encode())
        yield generator.Generator(profiles[seed % len(profiles)], f"alike {seed}", PROFILE_LINES).draw()
        yield Edges(seed).draw()
