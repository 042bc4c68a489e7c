"""brk: mm/mmap.c, and do_brk_flags of mm/vma.c."""

from ..traces import PAGE
from .areas import GUARD, VM_ACCOUNT, VM_MAY, VM_READ, VM_WRITE, NotModelled, Refusal, Vma, pages_of
from .mmap import Mapping

NO_HEAP = "every process has a break, and this trace doesn't say where: it sets no heap"


class Breaking(Mapping):
    """The break."""

    def brk(self, address: int) -> int:
        """The break after the call."""
        if not self.start_brk:
            raise NotModelled(NO_HEAP)
        try:
            self.move_brk(address)
        except Refusal:
            pass
        return self.brk_now

    def move_brk(self, address: int) -> None:
        if address < self.start_brk:
            return
        old, new = pages_of(self.brk_now), pages_of(address)
        if old != new and address > self.brk_now:
            self.do_brk_flags(old, new - old)
        elif old != new:
            if self.find_vma_intersection(new, old) is None:
                return
            self.vms_complete_munmap_vmas(self.vms_gather_munmap_vmas(new, old))
        self.brk_now = address

    def do_brk_flags(self, old: int, pages: int) -> None:
        """The break goes up. It joins the VMA below, if that ends above the first break, and never one above."""
        self.get_unmapped_area(old * PAGE, pages % 2**52, True, 0, False, False)
        new = old + pages
        above, below = self.find_vma(old), self.vma_prev(old)
        if above and above.lo < new + 1 + GUARD and new + 1 > above.start_gap:
            raise Refusal("ENOMEM")
        if self.map_count > self.max_map_count or self.lacks_memory(pages):
            raise Refusal("ENOMEM")
        if below and below.hi * PAGE <= self.start_brk:  # vma_prev_limit
            below = None
        flags = VM_READ | VM_WRITE | VM_MAY | VM_ACCOUNT
        self.merged_or_new(below, None, Vma(old, new, flags, 0, old))
