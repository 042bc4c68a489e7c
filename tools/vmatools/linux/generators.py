"""Random traces about what Linux does otherwise than the profile, drawn from the VMAs that its model has.

`hard` is about all of it: VMAs that were written to and their merging, accounts, several VMAs that move at once, copies that
stay and second mappings, places of 2 MiB, too much memory, stacks, seals and forks. `written` has few pages, mostly written,
split, moved away and back; `sealed` has many seals. With `-limit` there is a limit of few VMAs.
"""

import random
from collections.abc import Callable, Sequence
from typing import Any, TypeVar

from ..traces import LIMITS, PAGE, File, Line, Trace
from .areas import (
    MAP_ANONYMOUS,
    MAP_FIXED,
    MAP_FIXED_NOREPLACE,
    MAP_GROWSDOWN,
    MAP_NORESERVE,
    MAP_POPULATE,
    MAP_PRIVATE,
    MAP_SHARED,
    MAP_STACK,
    MREMAP_DONTUNMAP,
    MREMAP_FIXED,
    MREMAP_MAYMOVE,
    VM_GROWSDOWN,
    VM_MAYSHARE,
    NotModelled,
    Vma,
)
from .kernel import Kernel
from .space import LinuxSpace

BASE, WIDTH = 0x100, 20
MOVE = MREMAP_MAYMOVE | MREMAP_FIXED

T = TypeVar("T")
Arguments = list[Any]


class Hard:
    """Draws one trace."""

    weights = {"mmap": 10, "munmap": 2, "mprotect": 8, "fault": 10, "mremap": 7, "fork": 1}
    forking, sealing = 0.25, 0.3  # how many traces have forks, and seals

    def __init__(self, seed: str, lines: int, kernel: Kernel, has_limit: bool = False) -> None:
        self.random = random.Random(seed)
        self.lines, self.trace = lines, Trace(version=1)
        settings = self.trace.settings
        settings["min"] = max(kernel.settings.min, PAGE)
        if has_limit:
            settings["limit"] = self.pick([4, 5, 6, 7, 8, 10, 12])
        for number in range(self.pick([0, 1, 2, 3])):
            mode, size = self.pick(["rw", "rw", "r", "w"]), self.pick([0, 5000, 20000, 90000])
            self.trace.files.append(File(number + 3, mode, size, 8, 1, number + 11, f"/srv/f{number}"))
        self.chances = dict(self.weights)
        self.chances["fork"] *= self.often(self.forking)
        self.chances["mseal"] = 3 * (kernel.rules.has_mseal and self.often(self.sealing))
        self.is_plain = self.often(0.5)  # few kinds of VMAs, so that more joins
        self.is_huge = self.often(0.25)
        self.set_up()
        if "heap" in settings:
            self.chances["brk"] = 6
        self.spaces = {0: LinuxSpace(self.trace, kernel)}
        self.space = self.spaces[0]

    def set_up(self) -> None:
        if self.often(0.25):
            self.trace.settings["heap"] = (BASE + self.random.randrange(8)) * PAGE

    def pick(self, choices: Sequence[T]) -> T:
        return self.random.choice(choices)

    def often(self, share: float) -> bool:
        return self.random.random() < share

    def draw(self) -> Trace:
        """The trace. Each line is answered, so that the next is about what there is."""
        for number in range(self.lines):
            thread = self.pick(list(self.spaces))
            self.space = self.spaces[thread]
            words = [word for word in self.chances if word != "fork" or self.can_fork()]
            weights = [self.chances[word] for word in words]
            word = "mmap" if number < 2 else self.random.choices(words, weights)[0]
            recipe: Callable[[], Arguments] = getattr(self, word)
            line = Line(len(self.trace.lines) + 1, thread, word, recipe(), None)
            try:
                if word == "fork":
                    self.spaces[line.arguments[0]] = self.space.dup_mmap()
                else:
                    self.space.answer(line)
            except NotModelled:
                continue
            self.trace.lines.append(line)
        return self.trace.numbered()

    def can_fork(self) -> bool:
        """Only the first space forks, and a few times."""
        return self.space is self.spaces[0] and len(self.spaces) <= 4

    # Places

    def page(self) -> int:
        return BASE + self.random.randrange(WIDTH)

    def prot(self) -> int:
        return self.pick([3, 3, 3, 1, 1] if self.is_plain else [3, 3, 3, 1, 1, 0, 2, 4, 5, 7])

    def near(self) -> list[Vma]:
        return [vma for vma in self.space.vmas if BASE - 0x40 <= vma.lo < BASE + 4 * WIDTH] or self.space.vmas

    def range(self) -> tuple[int, int]:
        """Mostly a part of a VMA, or of several."""
        vmas = self.near()
        if not vmas or self.often(0.1):
            return self.page(), self.random.randint(1, 5)
        vma = self.pick(vmas)
        size = min(vma.hi - vma.lo, 12)
        start = vma.lo + self.pick([0, 0, self.random.randrange(size)])
        if self.often(0.3):
            last = self.pick(vmas)
            end = self.pick([last.hi, last.lo + 1, vma.hi + self.random.randint(1, 4)])
        else:
            end = self.pick([vma.hi, vma.hi, start + self.random.randint(1, size)])
        return start, min(max(end - start, 1), 0x400)

    def growing(self) -> list[Vma]:
        return [vma for vma in self.space.vmas if vma.flags & VM_GROWSDOWN]

    # Lines

    def mmap(self) -> Arguments:
        flags, descriptor, offset = self.what()
        pages, address, where = self.random.randint(1, 4), self.page() * PAGE, self.random.random()
        if self.is_huge and where < 0.3:
            pages = self.pick([512, 513, 511, 1024, 768, 2**21, 2**23, 2**24])
            return [self.pick([0, 0, 0, address]), pages * PAGE, self.prot(), flags & ~MAP_POPULATE, descriptor, offset]
        if where < 0.75:
            flags |= MAP_FIXED
            if self.space.vmas and self.often(0.5):
                return self.beside(self.pick(self.space.vmas), pages, flags, descriptor, offset)
        elif where < 0.8:
            flags |= MAP_FIXED_NOREPLACE
        elif where < 0.92:
            address = 0
        return [address, pages * PAGE, self.prot(), flags, descriptor, offset]

    def what(self) -> tuple[int, int, int]:
        """The flags of a mapping, its descriptor and offset."""
        flags, descriptor, offset, which = MAP_PRIVATE | MAP_ANONYMOUS, -1, 0, self.random.random()
        if which < 0.12:
            flags = MAP_SHARED | MAP_ANONYMOUS
        elif which < 0.4 and self.trace.files:
            flags = self.pick([MAP_PRIVATE, MAP_PRIVATE, MAP_SHARED, MAP_SHARED, MAP_SHARED | MAP_PRIVATE])
            descriptor, offset = self.pick(self.trace.files).descriptor, self.random.randrange(4) * PAGE
        if self.often(0.15):
            flags |= self.pick([MAP_STACK, MAP_NORESERVE, MAP_POPULATE, MAP_POPULATE])
        return flags | (MAP_GROWSDOWN if self.often(0.07) else 0), descriptor, offset

    def beside(self, vma: Vma, pages: int, flags: int, descriptor: int, offset: int) -> Arguments:
        """Beside a VMA, and of a file's with the offset that runs on."""
        page = self.pick([vma.hi, max(vma.lo - pages, 1)])
        if 0 < vma.file <= len(self.trace.files) and 0 <= vma.index_of(page) < 2**40:
            flags = (MAP_SHARED if vma.flags & VM_MAYSHARE else MAP_PRIVATE) | MAP_FIXED
            descriptor, offset = self.trace.files[vma.file - 1].descriptor, vma.index_of(page) * PAGE
            return [page * PAGE, pages * PAGE, vma.flags & 7, flags, descriptor, offset]
        return [page * PAGE, pages * PAGE, self.prot(), flags, descriptor, offset]

    def munmap(self) -> Arguments:
        start, pages = self.range()
        return [start * PAGE, pages * PAGE]

    def mprotect(self) -> Arguments:
        return [*self.munmap(), self.prot()]

    def mseal(self) -> Arguments:
        return [*self.munmap(), 0]

    def brk(self) -> Arguments:
        return [max(self.space.brk_now + self.random.randint(-3, 4) * PAGE + self.pick([0, 0, 8, -8]), 0)]

    def fault(self) -> Arguments:
        start, pages = self.range()
        page = start + self.random.randrange(pages)
        if self.growing() and self.often(0.3):
            page = max(self.pick(self.growing()).lo - self.pick([1, 1, 2, 5, 60, 300, 2050]), 0)
        return [page * PAGE + self.pick([0, 0, PAGE - 1]), self.pick("wwwwrx")]

    def mremap(self) -> Arguments:
        start, olds = self.range()
        news, flags, which = olds, self.pick([0, MREMAP_MAYMOVE, MREMAP_MAYMOVE]), self.random.random()
        new: list[int] = []
        if which < 0.3:
            news = max(olds + self.pick([-2, -1, 1, 1, 2, 3]), 1)
            if self.is_huge and self.often(0.3):
                news = self.pick([512, 1024, 513])
        elif which < 0.8:
            news, flags = max(olds + self.pick([0, 0, 0, 0, -1, 1, 2]), 1), MOVE
            new = [self.target(news)]
            if self.often(0.3):
                flags |= MREMAP_DONTUNMAP
                news = olds if self.often(0.9) else news
        elif which < 0.9:
            flags = MREMAP_MAYMOVE | MREMAP_DONTUNMAP
        else:
            olds = 0
            if self.often(0.5):
                flags, new = MOVE, [self.target(news)]
        return [start * PAGE, olds * PAGE, news * PAGE, flags, *new]

    def target(self, pages: int) -> int:
        """A place for so many pages, mostly beside a VMA."""
        vmas = [vma for vma in self.space.vmas if vma.lo < 2 * BASE]
        if vmas and self.often(0.6):
            vma = self.pick(vmas)
            return self.pick([vma.hi, max(vma.lo - pages, 1)]) * PAGE
        return self.page() * PAGE

    def fork(self) -> Arguments:
        return [len(self.spaces)]


class Written(Hard):
    """Few pages and few kinds of VMAs, most of them written to, split, moved away and back. Also calls that are refused for
    memory, stacks that may not grow, and breaks beside plain memory."""

    weights = {"mmap": 6, "munmap": 1, "mprotect": 8, "fault": 10, "mremap": 5, "fork": 1}
    forking, sealing = 0.5, 0.0

    def set_up(self) -> None:
        self.is_plain = True
        self.width, self.prots = self.pick([5, 8, 12]), self.pick([[3], [3, 1], [3, 3, 1, 7]])
        self.flavour = self.pick(["plain", "plain", "plain", "file", "stack", "heap", "memory"])
        self.moved: list[tuple[int, int, int]] = []
        if self.flavour == "heap":
            self.trace.settings["heap"] = (BASE + self.width // 2) * PAGE

    def page(self) -> int:
        return BASE + self.random.randrange(self.width)

    def prot(self) -> int:
        return self.pick(self.prots)

    def range(self) -> tuple[int, int]:
        return super().range() if self.often(0.5) else (self.page(), self.random.randint(1, 4))

    def mmap(self) -> Arguments:
        start, pages, flags = self.page(), self.random.randint(1, 4), MAP_PRIVATE | MAP_ANONYMOUS | MAP_FIXED
        if self.often(0.04):
            flags |= self.pick([MAP_NORESERVE, MAP_POPULATE, MAP_STACK])
        if self.flavour == "stack" and self.often(0.5):
            flags |= MAP_GROWSDOWN
        if self.flavour == "memory" and self.often(0.3):
            pages, flags = self.pick([2**23, 2**22, 2**23 + 5]), self.pick([flags, MAP_FIXED | MAP_SHARED | MAP_ANONYMOUS])
            return [start * PAGE, pages * PAGE, self.prot(), flags & ~MAP_POPULATE, -1, 0]
        if self.flavour == "file" and self.trace.files and self.often(0.6):
            descriptor, flags = self.trace.files[0].descriptor, MAP_PRIVATE | MAP_FIXED
            return [start * PAGE, pages * PAGE, self.prot(), flags, descriptor, (start - BASE) * PAGE]
        return [start * PAGE, pages * PAGE, self.prot(), flags, -1, 0]

    def mremap(self) -> Arguments:
        if self.moved and self.often(0.5):  # back
            start, pages, old = self.moved.pop(self.random.randrange(len(self.moved)))
            cut = self.random.randrange(pages) if self.often(0.3) else 0
            return [(start + cut) * PAGE, (pages - cut) * PAGE, (pages - cut) * PAGE, MOVE, (old + cut) * PAGE]
        if self.often(0.25):
            return super().mremap()
        start, pages = self.range()
        pages = min(pages, 6)
        new = self.pick([0x180, 0x188, 0x190]) + self.pick([0, 0, 1])
        if self.flavour == "stack" and self.often(0.3):
            new = 0x20000
        if self.often(0.2):
            new = self.page()
        self.moved.append((new, pages, start))
        flags = MOVE | (MREMAP_DONTUNMAP if self.often(0.15) else 0)
        return [start * PAGE, pages * PAGE, pages * PAGE, flags, new * PAGE]

    def fault(self) -> Arguments:
        if self.flavour == "stack" and self.growing() and self.often(0.5):
            vma = self.pick(self.growing())
            less = self.pick([1, 1, 2, 3, vma.pgoff + 1, 2046, 2048, 2050])
            return [max(vma.lo - less, 1) * PAGE, self.pick("wwr")]
        if self.space.vmas and self.often(0.8):
            vma = self.pick(self.space.vmas)
            return [(vma.lo + self.random.randrange(min(vma.hi - vma.lo, 6))) * PAGE, self.pick("wwwwwr")]
        return super().fault()

    def brk(self) -> Arguments:
        return [max(self.space.brk_now + self.random.randint(-2, 2) * PAGE, 0)]


class Sealed(Hard):
    """Mostly seals, and calls that go over their borders."""

    weights = {"mmap": 8, "munmap": 2, "mprotect": 8, "fault": 4, "mremap": 4, "fork": 0}
    sealing = 1.0

    def __init__(self, seed: str, lines: int, kernel: Kernel, has_limit: bool = False) -> None:
        super().__init__(seed, lines, kernel, has_limit)
        self.chances["mseal"] *= 4


KINDS = {"hard": Hard, "written": Written, "sealed": Sealed, "hard-limit": Hard, "written-limit": Written}


def drawn(kind: str, seed: str, lines: int, kernel: Kernel) -> Trace:
    """A trace of a kind and a seed."""
    return KINDS[kind](f"{kind} {seed}", lines, kernel, kind.endswith("-limit")).draw()


def with_lists(trace: Trace) -> Trace:
    """The trace with a read of the list behind each call, as many as there may be: from the first lines on."""
    lines: list[Line] = []
    left = LIMITS["maps"] - 4 - sum(line.word == "maps" for line in trace.lines)
    for line in trace.lines:
        lines.append(line)
        if line.word not in ("maps", "fault", "fork") and left > 0:
            lines.append(line._replace(word="maps", arguments=[]))
            left -= 1
    return trace.with_lines(lines).numbered()
