"""Where a mapping goes: mm/mmap.c, mm/vma.c, mm/huge_memory.c, arch/x86/kernel/sys_x86_64.c.

A search goes over candidates. From above, room may end at the top, or where a VMA keeps its guard; from below it may begin
at a third of user memory, or where a VMA ends.
"""

from typing import Optional

from ..traces import PAGE
from .anon_vmas import AnonVmas
from .areas import ERRORS, HUGE, TASK_PAGES, TASK_SIZE, WORD, Refusal

UNMAPPED_BASE = TASK_PAGES // 3 + 1  # mm->mmap_legacy_base, without randomisation


class Searching(AnonVmas):
    """Places of mappings."""

    def is_room(self, start: int, pages: int) -> bool:
        """Whether pages are free, and the next VMA above keeps its guard, wherever the gap ends."""
        above = self.find_vma(start)
        if above is not None and start + pages > above.start_gap:
            return False
        return all(hi <= start or start + pages <= lo for lo, hi in self.kernel.process.taken)

    @property
    def low_limit(self) -> int:
        return max(1, self.mmap_min_addr) if self.rules.search_has_min else 1

    def unmapped_area_topdown(self, pages: int) -> Optional[int]:
        """The highest room below mmap_base."""
        top, low = self.mmap_base, self.low_limit
        ends = [vma.start_gap for vma in self.vmas] + [lo for lo, _ in self.kernel.process.taken]
        for end in [top, *sorted((end for end in ends if end <= top), reverse=True)]:
            if end - pages < low:
                return None
            if self.is_room(end - pages, pages):
                return end - pages
        return None

    def unmapped_area(self, pages: int) -> Optional[int]:
        """The lowest room from a third of user memory on."""
        low = max(UNMAPPED_BASE, self.low_limit)
        begins = [vma.hi for vma in self.vmas] + [hi for _, hi in self.kernel.process.taken]
        for start in [low, *sorted(begin for begin in begins if begin > low)]:
            if start + pages > TASK_PAGES:
                return None
            if self.is_room(start, pages):
                return start
        return None

    def get_unmapped_area_topdown(self, hint: int, pages: int) -> Optional[int]:
        """arch_get_unmapped_area_topdown: at the hint, a page or 0, else as high as there is room, else as low."""
        if hint and hint + pages <= TASK_PAGES:
            above = self.find_vma(hint)
            if above is None or hint + pages <= above.start_gap:
                return hint
        found = self.unmapped_area_topdown(pages)
        return self.unmapped_area(pages) if found is None else found

    def thp_get_unmapped_area(self, hint: int, pages: int, index: int) -> Optional[int]:
        """__thp_get_unmapped_area: room for 2 MiB more, and in it the place that is aligned as the offset is."""
        aligned = -(-index // HUGE) * HUGE
        if index + pages < aligned + HUGE:
            return None
        found = self.get_unmapped_area_topdown(hint, pages + HUGE)
        if found is None or hint and found == hint:
            return found
        return found + ((index - found) % HUGE or HUGE)

    def asks_for_huge(self, hint: int, pages: int, is_file: bool, is_shared: bool) -> bool:
        if is_file:
            return self.settings.files == "disk"
        return not is_shared and not hint and self.rules.aligns_anonymous and pages % HUGE == 0

    def get_unmapped_area(
        self, address: int, pages: int, is_fixed: bool, index: int, is_file: bool, is_shared: bool
    ) -> int:
        """__get_unmapped_area: the page of a place; the address is one for a fixed place, and else a hint."""
        if pages > TASK_PAGES:
            raise Refusal("ENOMEM")
        if is_fixed:
            place: Optional[int] = self.fixed_place(address, pages)
        else:
            hint, place = address // PAGE, None
            if self.asks_for_huge(hint, pages, is_file, is_shared):
                place = self.thp_get_unmapped_area(hint, pages, index if is_file else 0)
            if place is None:
                place = self.get_unmapped_area_topdown(hint, pages)
        if place is None:
            raise Refusal("ENOMEM")
        if place < self.dac_mmap_min_addr:  # security_mmap_addr
            raise Refusal("EPERM")
        return place

    @staticmethod
    def fixed_place(address: int, pages: int) -> int:
        if address > WORD - PAGE:  # it reads as an error (IS_ERR_VALUE)
            raise Refusal(ERRORS.get(WORD - address, f"E{WORD - address}"))
        if address > TASK_SIZE - pages * PAGE:
            raise Refusal("ENOMEM")
        if address % PAGE:
            raise Refusal("EINVAL")
        return address // PAGE
