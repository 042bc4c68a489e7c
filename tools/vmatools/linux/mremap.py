"""mremap: mm/mremap.c."""

from typing import NamedTuple, Optional

from ..traces import PAGE
from .areas import (
    MREMAP_DONTUNMAP,
    MREMAP_FIXED,
    MREMAP_MAYMOVE,
    TASK_PAGES,
    TASK_SIZE,
    VM_ACCOUNT,
    VM_MAYSHARE,
    VM_SEALED,
    VM_SHARED,
    WORD,
    Refusal,
    Vma,
    pages_of,
)
from .brk import Breaking


class Remap(NamedTuple):
    """The arguments: addresses in bytes, lengths as pages."""

    address: int
    olds: int
    news: int
    flags: int
    new_address: int

    @property
    def page(self) -> int:
        return self.address // PAGE

    @property
    def names_place(self) -> bool:
        """MREMAP_FIXED, or MREMAP_DONTUNMAP, for which the new address is a hint."""
        return bool(self.flags & (MREMAP_FIXED | MREMAP_DONTUNMAP))

    @property
    def overlaps(self) -> bool:
        """Whether the ranges share bytes. The sums wrap."""
        old_end = (self.address + self.olds * PAGE) % WORD
        return old_end > self.new_address and (self.new_address + self.news * PAGE) % WORD > self.address


class Remapping(Breaking):
    """Mappings that move, grow and shrink."""

    def mremap(self, address: int, old_length: int, new_length: int, flags: int, new_address: int = 0) -> int:
        remap = Remap(address, pages_of(old_length), pages_of(new_length), flags, new_address)
        if self.rules.moves_several:
            return self.new_mremap(remap) * PAGE
        return self.old_mremap(remap, old_length == new_length) * PAGE

    def unmap_pages(self, page: int, pages: int) -> None:
        self.do_munmap(page * PAGE, pages * PAGE)

    def lacks_areas(self) -> bool:
        return self.map_count + 2 >= self.max_map_count - 3

    def is_near_limit(self, remap: Remap) -> bool:
        """check_map_count_against_split_early; before 7.2 only a call with a place is tested."""
        if self.rules.limits_each_mremap:
            return self.map_count + (5 if remap.flags & MREMAP_DONTUNMAP else 4) > self.max_map_count
        return remap.names_place and self.lacks_areas()

    # Since Linux 6.17

    def new_mremap(self, remap: Remap) -> int:
        """do_mremap: the page."""
        if remap.address % PAGE or not remap.news or remap.news > TASK_PAGES:
            raise Refusal("EINVAL")
        if remap.names_place and self.is_bad_place(remap):
            raise Refusal("EINVAL")
        if self.is_near_limit(remap):
            raise Refusal("ENOMEM")
        if remap.flags & MREMAP_FIXED and remap.olds == remap.news:
            return self.remap_move(remap)
        vma = self.check_prep_vma(self.vma_lookup(remap.page), remap)
        if remap.names_place:
            return self.mremap_to(remap)
        if remap.news > remap.olds:
            return self.expand_vma(vma, remap)
        if remap.news < remap.olds:
            self.unmap_pages(remap.page + remap.news, remap.olds - remap.news)
        return remap.page

    @staticmethod
    def is_bad_place(remap: Remap) -> bool:
        """check_mremap_params, of a place that is named"""
        return bool(
            remap.new_address > TASK_SIZE - remap.news * PAGE
            or remap.new_address % PAGE
            or not remap.flags & MREMAP_MAYMOVE
            or remap.flags & MREMAP_DONTUNMAP
            and remap.olds != remap.news
            or remap.overlaps
        )

    def check_prep_vma(self, vma: Optional[Vma], remap: Remap) -> Vma:
        if vma is None:
            raise Refusal("EFAULT")
        if vma.flags & VM_SEALED:
            raise Refusal("EPERM")
        if remap.names_place or remap.news > remap.olds:
            self.check_range(vma, remap, min(remap.olds, remap.news))
        return vma

    @staticmethod
    def check_range(vma: Vma, remap: Remap, kept: int) -> None:
        """An old length of 0 is for shared memory; what is kept lies within the VMA; the offset doesn't wrap."""
        if not remap.olds and not vma.flags & (VM_SHARED | VM_MAYSHARE):
            raise Refusal("EINVAL")
        if kept > vma.hi - remap.page:
            raise Refusal("EFAULT")
        if remap.news != kept and vma.index_of(remap.page) + remap.news >= WORD:
            raise Refusal("EINVAL")

    def remap_move(self, remap: Remap) -> int:
        """VMA after VMA, each to where it lay from the first; holes stay holes."""
        start, end = remap.page, (remap.page + remap.olds) % 2**52
        page, target = start, remap.new_address // PAGE
        first: Optional[int] = None
        last: Optional[int] = None
        while page < end:
            vma = self.find_vma(page)
            if vma is None or vma.lo >= end or last is None and start < vma.lo:
                break
            lo = max(vma.lo, start)
            pages = min(end, vma.hi) - lo
            target += vma.lo - last if last is not None else 0
            last = page = vma.hi
            part = Remap(lo * PAGE, pages, pages, remap.flags, target * PAGE)
            self.check_prep_vma(vma, part)
            place = self.mremap_to(part)
            first = place if first is None else first
            target = place + pages
        if first is None:
            raise Refusal("EFAULT")
        return first

    def mremap_to(self, remap: Remap) -> int:
        """What lies at a fixed place goes, the rest of a longer range goes, and then it is moved."""
        if remap.flags & MREMAP_FIXED:
            self.unmap_pages(remap.new_address // PAGE, remap.news)
        vma = self.vma_lookup(remap.page)
        if vma is not None and remap.news < remap.olds:
            self.unmap_pages(remap.page + remap.news, remap.olds - remap.news)
            vma = self.vma_lookup(remap.page)
        if vma is None:
            raise Refusal("EFAULT")
        return self.set_new_vma(vma, remap._replace(olds=min(remap.olds, remap.news)))

    # Before

    def old_mremap(self, remap: Remap, is_same: bool) -> int:
        """The system call before Linux 6.17. `is_same` says that both lengths are the same in bytes."""
        can_move = remap.flags & MREMAP_MAYMOVE
        if remap.flags & MREMAP_FIXED and not can_move:
            raise Refusal("EINVAL")
        if remap.flags & MREMAP_DONTUNMAP and (not can_move or not is_same):
            raise Refusal("EINVAL")
        if remap.address % PAGE or not remap.news:
            raise Refusal("EINVAL")
        if self.rules.limits_before_lookup and remap.names_place:
            self.check_place_early(remap)
        vma = self.vma_lookup(remap.page)
        if vma is None:
            raise Refusal("EFAULT")
        if vma.flags & VM_SEALED:
            raise Refusal("EPERM")
        if remap.names_place:
            return self.old_mremap_to(remap)
        if remap.olds < remap.news:
            self.check_range(vma, remap, remap.olds)  # vma_to_resize
            return self.expand_vma(vma, remap)
        if remap.olds > remap.news:
            self.unmap_pages(remap.page + remap.news, remap.olds - remap.news)
        return remap.page

    def check_place_early(self, remap: Remap) -> None:
        """check_mremap_params of Linux 6.16"""
        if remap.new_address % PAGE:
            raise Refusal("EINVAL")
        if self.lacks_areas():
            raise Refusal("ENOMEM")

    def old_mremap_to(self, remap: Remap) -> int:
        news = remap.news
        if remap.new_address % PAGE or news > TASK_PAGES or remap.new_address > TASK_SIZE - news * PAGE or remap.overlaps:
            raise Refusal("EINVAL")
        if self.lacks_areas():
            raise Refusal("ENOMEM")
        if remap.flags & MREMAP_FIXED:
            self.do_munmap(remap.new_address, news * PAGE)
        if remap.olds > news:
            self.unmap_pages(remap.page + news, remap.olds - news)
            remap = remap._replace(olds=news)
        vma = self.vma_lookup(remap.page)
        if vma is None:
            raise Refusal("EFAULT")
        self.check_range(vma, remap, remap.olds)
        return self.set_new_vma(vma, remap)

    # Both

    def expand_vma(self, vma: Vma, remap: Remap) -> int:
        """In place where there is room, else elsewhere."""
        more = remap.news - remap.olds
        if vma.hi - remap.page == remap.olds and self.vma_expandable(vma, more):
            if vma.flags & VM_ACCOUNT and self.lacks_memory(more):
                raise Refusal("ENOMEM")
            new = Vma(vma.hi, vma.hi + more, vma.flags, vma.file, vma.index_of(vma.hi), vma.anon)
            if not self.vma_merge_new_range(vma, self.vma_next(vma.hi), new):
                raise Refusal("ENOMEM")
            return remap.page
        if not remap.flags & MREMAP_MAYMOVE:
            raise Refusal("ENOMEM")
        return self.set_new_vma(vma, remap._replace(new_address=0))

    def vma_expandable(self, vma: Vma, more: int) -> bool:
        end = vma.hi + more
        is_free = end <= TASK_PAGES and not self.find_vma_intersection(vma.hi, end)
        return is_free and vma.lo >= self.dac_mmap_min_addr

    def set_new_vma(self, vma: Vma, remap: Remap) -> int:
        """vrm_set_new_addr, and then move_vma. A mapping of shared anonymous memory has a file of its own, in memory."""
        is_file, is_shared = 0 < vma.file <= len(self.files), bool(vma.flags & VM_MAYSHARE)
        is_fixed, index = bool(remap.flags & MREMAP_FIXED), vma.index_of(remap.page)
        place = self.get_unmapped_area(remap.new_address, remap.news, is_fixed, index, is_file, is_shared)
        return self.move_vma(vma, remap, place)

    def move_vma(self, vma: Vma, remap: Remap, place: int) -> int:
        needed = 2 if self.rules.limits_each_mremap else 4
        if self.map_count + needed > self.max_map_count:
            raise Refusal("ENOMEM")
        keeps_old = bool(remap.flags & MREMAP_DONTUNMAP)
        charged = remap.news if keeps_old else remap.news - remap.olds
        if vma.flags & VM_ACCOUNT and self.lacks_memory(charged):
            raise Refusal("ENOMEM")
        vma = self.copy_vma(vma, remap, place)
        if keeps_old:
            self.dontunmap_complete(vma, remap)
        else:
            self.unmap_source_vma(vma, remap.page, remap.olds)
        return place

    def copy_vma(self, vma: Vma, remap: Remap, place: int) -> Vma:
        """The copy at the new place, which may join its source. Returns the VMA that has the source then."""
        is_unwritten = vma.is_anonymous and not vma.anon
        prev, nxt = self.vma_prev(place), self.find_vma(place + remap.news)
        if remap.flags & MREMAP_DONTUNMAP and is_unwritten and self.rules.keeps_copies_apart:
            if not self.rules.joins_beside_source and (place == vma.hi or place + remap.news == vma.lo):
                prev = nxt = None
            prev, nxt = None if prev is vma else prev, None if nxt is vma else nxt
        index = place if is_unwritten else vma.index_of(remap.page)
        new = Vma(place, place + remap.news, vma.flags, vma.file, index, vma.anon)
        merged = self.vma_merge_new_range(prev, nxt, new, vma.anon)
        if merged is None:
            self.insert_vma(new)
        return merged if merged and merged.lo <= remap.page < merged.hi else vma

    def dontunmap_complete(self, vma: Vma, remap: Remap) -> None:
        """What MREMAP_DONTUNMAP leaves was never written to, where it is a whole VMA."""
        if self.rules.loses_accounts:
            vma.flags &= ~VM_ACCOUNT
        if (vma.lo, vma.hi) == (remap.page, remap.page + remap.olds):
            vma.anon = None
            if vma.is_anonymous and self.rules.keeps_copies_apart:
                vma.pgoff = vma.lo

    def unmap_source_vma(self, vma: Vma, lo: int, olds: int) -> None:
        """The account of the whole VMA is taken off, and given back to the pieces that stay. Where munmap refuses it stays
        off, as of an old length of 0 before 6.17."""
        is_accounted, below, above = vma.flags & VM_ACCOUNT, vma.lo < lo, vma.hi > lo + olds
        vma.flags &= ~VM_ACCOUNT
        try:
            if olds or not self.rules.moves_several:
                self.unmap_pages(lo, olds)
        except Refusal:
            return
        for wanted, piece in ((below, self.vma_prev(lo)), (above, self.find_vma(lo + olds))):
            if is_accounted and wanted and piece:
                piece.flags |= VM_ACCOUNT
