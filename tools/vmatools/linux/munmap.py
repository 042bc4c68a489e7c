"""munmap: mm/vma.c."""

from collections.abc import Sequence

from ..traces import PAGE
from .areas import TASK_SIZE, VM_SEALED, Refusal, Vma, pages_of
from .searching import Searching


class Unmapping(Searching):
    """Ranges that are unmapped."""

    def vms_gather_munmap_vmas(self, lo: int, hi: int) -> list[Vma]:
        """The VMAs that a range is to lose, split off at its ends. A sealed one refuses when it is reached, so what was split
        below it stays split."""
        first = self.find_vma_intersection(lo, hi)
        if first is None:
            return []
        if first.lo < lo:
            if hi < first.hi and self.map_count >= self.max_map_count:
                raise Refusal("ENOMEM")
            if first.flags & VM_SEALED:
                raise Refusal("EPERM")
            self.split_at(first, lo)
        found: list[Vma] = []
        place = self.place_of(lo)
        while place < len(self.vmas) and self.vmas[place].lo < hi:
            vma = self.vmas[place]
            if vma.flags & VM_SEALED:
                raise Refusal("EPERM")
            if vma.hi > hi:
                self.split_at(vma, hi)
            found.append(vma)
            place += 1
        return found

    def vms_complete_munmap_vmas(self, found: Sequence[Vma]) -> None:
        if found:
            place = self.vmas.index(found[0])
            del self.vmas[place : place + len(found)]

    def do_munmap(self, address: int, length: int) -> None:
        """do_vmi_munmap, of bytes"""
        if address % PAGE or address > TASK_SIZE or length > TASK_SIZE - address or pages_of(length) == 0:
            raise Refusal("EINVAL")
        lo = address // PAGE
        self.vms_complete_munmap_vmas(self.vms_gather_munmap_vmas(lo, lo + pages_of(length)))

    def munmap(self, address: int, length: int) -> int:
        self.do_munmap(address, length)
        return 0
