"""One address space of Linux, which answers the operations of a trace in their order."""
from __future__ import annotations

from ..model import Area, line_of
from ..traces import PAGE, Line, Trace
from .areas import (
    TASK_SIZE,
    VM_ACCESS,
    VM_ACCOUNT,
    VM_GROWSDOWN,
    VM_MAY,
    VM_MAYREAD,
    VM_MAYSHARE,
    VM_READ,
    VM_SEALED,
    WORD,
    AnonVma,
    NotModelled,
    Refusal,
    Vma,
)
from .faults import Faulting
from .kernel import Kernel

ABOVE_47 = "what Linux does with addresses above 47 bits isn't modelled"
NO_FORK = "a fork that is refused for memory has no answer in a trace"


class LinuxSpace(Faulting):
    """An address space, its forks, and its list as text."""

    def __init__(self, trace: Trace, kernel: Kernel) -> None:
        super().__init__(trace, kernel)
        self.is_wide = trace.version > 1

    def dup_mmap(self) -> LinuxSpace:
        """The space of a child: each VMA that has an anon_vma gets one of its own."""
        if any(vma.flags & VM_ACCOUNT and self.lacks_memory(vma.hi - vma.lo) for vma in self.vmas):
            raise NotModelled(NO_FORK)
        child = object.__new__(type(self))
        child.__dict__.update(self.__dict__)
        child.sizes = dict(self.sizes)
        child.vmas = [vma.copy() for vma in self.vmas]
        for number, vma in enumerate(child.vmas):
            vma.anon = AnonVma(number, True) if vma.anon else None
        child.anons = len(child.vmas)
        return child

    child = dup_mmap

    def vma_is_initial_heap(self, vma: Vma) -> bool:
        lo, hi = vma.lo * PAGE, vma.hi * PAGE
        if not self.has_heap and self.brk_now == self.start_brk:
            return False
        if self.rules.heap_is_strict:
            return lo < self.brk_now and hi > self.start_brk
        return lo <= self.brk_now and hi >= self.start_brk

    @property
    def areas(self) -> list[Area]:
        """The VMAs of the trace in the profile's form: without those of the process itself."""
        taken = self.kernel.process.taken
        return [self.area_of(vma) for vma in self.vmas if not any(lo <= vma.lo < hi for lo, hi in taken)]

    def area_of(self, vma: Vma) -> Area:
        flags = vma.flags
        return Area(
            vma.lo,
            vma.hi,
            (flags & VM_ACCESS) // VM_READ,
            (flags & VM_MAY) // VM_MAYREAD,
            bool(flags & VM_MAYSHARE),
            bool(flags & VM_GROWSDOWN),
            bool(flags & VM_SEALED),
            vma.is_anonymous and self.vma_is_initial_heap(vma),
            vma.file,
            vma.pgoff % (WORD // PAGE) if vma.file else 0,
        )

    def maps(self) -> list[str]:
        """The list, as lines."""
        areas = self.areas
        return [f"maps {len(areas)}", *map(self.maps_line, areas)]

    def maps_line(self, area: Area) -> str:
        return line_of(area, self.files[area.object - 1] if 0 < area.object <= len(self.files) else None)

    def answer(self, line: Line) -> tuple[list[str], bool]:
        """Does what a line asks for, a fork apart: the lines of its result, and whether it is a call."""
        if self.is_wide and is_above(line):
            raise NotModelled(ABOVE_47)
        try:
            if line.word == "maps":
                return self.maps(), False
            if line.word == "fault":
                text, is_call = self.fault(*line.arguments)
                return [text], is_call
            value = getattr(self, line.word)(*line.arguments)
        except Refusal as refusal:
            return [f"-1 {refusal.name}"], True
        return [hex(value) if value or line.word == "brk" else "0"], True


def is_above(line: Line) -> bool:
    """Whether a line names an address above 47 bits."""
    addresses = {"mremap": (0, 4), "maps": (), "fork": ()}.get(line.word, (0,))
    lengths = {"mmap": 1, "munmap": 1, "mprotect": 1, "mremap": 2, "mseal": 1}
    length = line.arguments[lengths[line.word]] if line.word in lengths else 0
    places = [line.arguments[place] for place in addresses if place < len(line.arguments)]
    return any(place + length > TASK_SIZE for place in places)
