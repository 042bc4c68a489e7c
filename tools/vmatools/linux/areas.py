"""VMAs in a list, by address, and the few ways in which the kernel changes one. Their numbers are pages, unless they are
called addresses."""
from __future__ import annotations

import errno
from bisect import bisect_right
from typing import NamedTuple, Optional

from ..traces import MAP, MREMAP, PAGE, File, Trace
from .kernel import Kernel

# The kernel's flags of a VMA (include/linux/mm.h)
VM_READ, VM_WRITE, VM_EXEC, VM_SHARED = 0x1, 0x2, 0x4, 0x8
VM_MAYREAD, VM_MAYWRITE, VM_MAYEXEC, VM_MAYSHARE = 0x10, 0x20, 0x40, 0x80
VM_GROWSDOWN, VM_ACCOUNT, VM_NORESERVE, VM_NOHUGEPAGE = 0x100, 0x100000, 0x200000, 0x40000000
VM_PKEY, VM_SEALED = 1 << 32, 1 << 63
VM_ACCESS = VM_READ | VM_WRITE | VM_EXEC
VM_MAY = VM_MAYREAD | VM_MAYWRITE | VM_MAYEXEC

MAP_SHARED, MAP_PRIVATE, MAP_FIXED, MAP_ANONYMOUS = (
    MAP[f"MAP_{name}"] for name in ("SHARED", "PRIVATE", "FIXED", "ANONYMOUS")
)
MAP_FIXED_NOREPLACE, MAP_GROWSDOWN, MAP_NORESERVE, MAP_POPULATE, MAP_STACK = (
    MAP[f"MAP_{name}"] for name in ("FIXED_NOREPLACE", "GROWSDOWN", "NORESERVE", "POPULATE", "STACK")
)
MREMAP_MAYMOVE, MREMAP_FIXED, MREMAP_DONTUNMAP = MREMAP.values()

GUARD = 256  # stack_guard_gap
HUGE = 512  # pages of 2 MiB
WORD = 2**64
TASK_PAGES = (2**47 - PAGE) // PAGE
TASK_SIZE = TASK_PAGES * PAGE
MMAP_BASE = 0x7FFFF7FFF000  # where searches from above begin, without randomisation
ERRORS = {**errno.errorcode, errno.EOPNOTSUPP: "EOPNOTSUPP"}


class AnonVma(NamedTuple):
    """What private VMAs share whose pages were written: its number in a space, and whether a fork made it."""

    number: int
    is_forked: bool = False


class Vma:
    """A VMA (struct vm_area_struct). It is changed in place, as in the kernel."""

    __slots__ = ("lo", "hi", "flags", "file", "pgoff", "anon")

    def __init__(self, lo: int, hi: int, flags: int, file: int, pgoff: int, anon: Optional[AnonVma] = None) -> None:
        self.lo, self.hi, self.flags, self.file, self.pgoff, self.anon = lo, hi, flags, file, pgoff, anon

    @property
    def is_anonymous(self) -> bool:
        return not self.file

    @property
    def start_gap(self) -> int:
        """vm_start_gap: a stack-like VMA keeps 256 pages below it."""
        return max(self.lo - GUARD, 0) if self.flags & VM_GROWSDOWN else self.lo

    @property
    def is_forked(self) -> bool:
        return self.anon is not None and self.anon.is_forked

    def index_of(self, page: int) -> int:
        """The page of its object that lies at a page (linear_page_index)."""
        return self.pgoff + page - self.lo

    def copy(self) -> Vma:
        return Vma(self.lo, self.hi, self.flags, self.file, self.pgoff, self.anon)


class State(NamedTuple):
    """A VMA as the next calls see it: a list of `maps` hides some of it."""

    lo: int
    hi: int
    flags: int
    file: int
    pgoff: int
    anon: Optional[AnonVma]


class Refusal(Exception):
    """A call is refused, with this error. What it changed so far stays."""

    def __init__(self, name: str) -> None:
        super().__init__(name)
        self.name = name


class NotModelled(Exception):
    """A line of a trace, of which the model doesn't say what a kernel answers."""

    def __init__(self, why: str, line: int = 0) -> None:
        super().__init__(f"line {line}: {why}" if line else why)
        self.why, self.line = why, line


def pages_of(length: int) -> int:
    """PAGE_ALIGN, in 64 bits, as pages."""
    return (length + PAGE - 1) % WORD // PAGE


def lo_of(vma: Vma) -> int:
    return vma.lo


class Areas:
    """The VMAs of an address space (mm_struct), and what a trace sets."""

    def __init__(self, trace: Trace, kernel: Kernel) -> None:
        settings, process = trace.settings, kernel.process
        self.kernel, self.rules, self.settings = kernel, kernel.rules, kernel.settings
        self.dac_mmap_min_addr = settings.get("min", kernel.settings.min) // PAGE
        self.mmap_min_addr = max(self.dac_mmap_min_addr, kernel.settings.built // PAGE)
        self.mmap_base = settings.get("top", MMAP_BASE) // PAGE
        self.max_map_count = settings.get("limit", process.most_areas)
        self.own_areas = 0 if "limit" in settings else process.areas
        self.files: list[File] = trace.files
        self.file_of = {file.descriptor: number for number, file in enumerate(trace.files, 1)}
        self.sizes = {number: pages_of(file.size) for number, file in enumerate(trace.files, 1)}
        self.objects = len(trace.files)
        heap = settings.get("heap", 0) // PAGE * PAGE
        self.has_heap = bool(heap)
        self.start_brk = heap or process.brk  # addresses
        self.brk_now = self.start_brk
        self.vmas: list[Vma] = []
        self.anons = 0  # how many anon_vmas were made

    def state(self) -> list[State]:
        """All that the next calls depend on, VMA by VMA."""
        return [State(vma.lo, vma.hi, vma.flags, vma.file, vma.pgoff, vma.anon) for vma in self.vmas]

    @property
    def map_count(self) -> int:
        return len(self.vmas) + self.own_areas

    def place_of(self, page: int) -> int:
        """Where in the list the first VMA is that ends above a page."""
        place = bisect_right(self.vmas, page, key=lo_of)
        return place - 1 if place and self.vmas[place - 1].hi > page else place

    def find_vma(self, page: int) -> Optional[Vma]:
        """The first VMA that ends above a page."""
        place = self.place_of(page)
        return self.vmas[place] if place < len(self.vmas) else None

    def vma_lookup(self, page: int) -> Optional[Vma]:
        """The VMA that has a page."""
        vma = self.find_vma(page)
        return vma if vma and vma.lo <= page else None

    def find_vma_intersection(self, lo: int, hi: int) -> Optional[Vma]:
        vma = self.find_vma(lo)
        return vma if vma and vma.lo < hi else None

    def vma_prev(self, page: int) -> Optional[Vma]:
        """The last VMA that begins below a page."""
        place = bisect_right(self.vmas, page - 1, key=lo_of)
        return self.vmas[place - 1] if place else None

    def vma_next(self, page: int) -> Optional[Vma]:
        """The first VMA that begins at a page or above."""
        place = bisect_right(self.vmas, page - 1, key=lo_of)
        return self.vmas[place] if place < len(self.vmas) else None

    def insert_vma(self, vma: Vma) -> None:
        self.vmas.insert(bisect_right(self.vmas, vma.lo, key=lo_of), vma)

    def split_at(self, vma: Vma, page: int) -> tuple[Vma, Vma]:
        """__split_vma, which doesn't ask for the number of VMAs."""
        upper = vma.copy()
        upper.lo, upper.pgoff = page, vma.index_of(page)
        vma.hi = page
        self.insert_vma(upper)
        return vma, upper

    def split_vma(self, vma: Vma, page: int) -> tuple[Vma, Vma]:
        if self.map_count >= self.max_map_count:
            raise Refusal("ENOMEM")
        return self.split_at(vma, page)

    def lacks_memory(self, pages: int) -> bool:
        """__vm_enough_memory with OVERCOMMIT_GUESS: one call may not charge more than all memory."""
        return pages > self.settings.memory
