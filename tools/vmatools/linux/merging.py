"""Which VMAs join, and how: mm/vma.c."""

from typing import Optional

from .areas import AnonVma, Areas, Vma


class Merging(Areas):
    """VMAs that join."""

    def is_mergeable_anon_vma(self, target: Optional[AnonVma], new: Optional[AnonVma], source: Optional[AnonVma]) -> bool:
        """Whether a VMA may take a range. `source` is the anon_vma of the VMA that the range is of or copied from."""
        if not self.rules.merges_unfaulted:
            return new is None and target is not None and not target.is_forked or new == target
        if target is None and new is not None:
            return source is None or not source.is_forked
        if target is not None and new is None:
            return not target.is_forked
        return new == target

    @staticmethod
    def is_mergeable_vma(target: Vma, new: Vma) -> bool:
        return target.flags == new.flags and target.file == new.file

    def can_vma_merge_left(self, prev: Optional[Vma], new: Vma, source: Optional[AnonVma]) -> bool:
        return (
            prev is not None
            and prev.hi == new.lo
            and self.is_mergeable_vma(prev, new)
            and self.is_mergeable_anon_vma(prev.anon, new.anon, source)
            and prev.index_of(prev.hi) == new.pgoff
        )

    def can_vma_merge_right(
        self, nxt: Optional[Vma], new: Vma, source: Optional[AnonVma], left: Optional[Vma]
    ) -> bool:
        """`left` is the VMA on the left, where the range joins that too: then these two have to agree."""
        if not (
            nxt is not None
            and nxt.lo == new.hi
            and self.is_mergeable_vma(nxt, new)
            and self.is_mergeable_anon_vma(nxt.anon, new.anon, source)
            and nxt.pgoff == new.index_of(new.hi)
        ):
            return False
        return left is None or left.anon is None or nxt.anon is None or left.anon == nxt.anon

    @staticmethod
    def dup_anon_vma(target: Vma, source: Optional[AnonVma]) -> None:
        target.anon = target.anon or source

    def vma_merge_new_range(
        self, prev: Optional[Vma], nxt: Optional[Vma], new: Vma, source: Optional[AnonVma] = None
    ) -> Optional[Vma]:
        """Joins a range that is free with its neighbours. Returns the VMA that has it then."""
        source = None if self.rules.loses_written else source
        left = prev if self.can_vma_merge_left(prev, new, source) else None
        right = nxt if self.can_vma_merge_right(nxt, new, source, left) else None
        target = left or right
        if left and right:
            self.dup_anon_vma(left, right.anon)
            self.vmas.remove(right)
            left.hi = right.hi
        elif left:
            left.hi = new.hi
        elif right:
            right.pgoff -= new.hi - new.lo
            right.lo = new.lo
        if target:
            self.dup_anon_vma(target, source)
        return target

    def vma_merge_existing_range(self, middle: Vma, lo: int, hi: int, flags: int) -> Optional[Vma]:
        """Joins a part of a VMA, which gets other flags, with neighbours. One within the VMA joins nothing."""
        is_left, is_right = lo == middle.lo, hi == middle.hi
        new = Vma(lo, hi, flags, middle.file, middle.index_of(lo), middle.anon)
        prev, nxt = self.vma_prev(lo) if is_left else None, self.vma_next(hi) if is_right else None
        left = prev if self.can_vma_merge_left(prev, new, middle.anon) else None
        right = nxt if self.can_vma_merge_right(nxt, new, middle.anon, left) else None
        if left and right:
            self.dup_anon_vma(left, right.anon or middle.anon)
            left.hi = right.hi
            self.vmas.remove(middle)
            self.vmas.remove(right)
        elif left:
            self.dup_anon_vma(left, middle.anon)
            left.hi = hi
            self.cut_below(middle, hi)
        elif right:
            self.dup_anon_vma(right, middle.anon)
            self.cut_above(middle, lo)
            right.pgoff -= hi - lo
            right.lo = lo
        return left or right

    def cut_below(self, vma: Vma, page: int) -> None:
        """What a VMA has below a page is another's."""
        if page == vma.hi:
            self.vmas.remove(vma)
        else:
            vma.pgoff = vma.index_of(page)
            vma.lo = page

    def cut_above(self, vma: Vma, page: int) -> None:
        """What a VMA has from a page on is another's."""
        if page == vma.lo:
            self.vmas.remove(vma)
        else:
            vma.hi = page

    def modify_flags(self, vma: Vma, lo: int, hi: int, flags: int) -> Vma:
        """vma_modify_flags, and the flags that its callers set then: a part of a VMA joins neighbours, or is split off."""
        merged = self.vma_merge_existing_range(vma, lo, hi, flags)
        if merged:
            return merged
        if vma.lo < lo:
            vma = self.split_vma(vma, lo)[1]
        if vma.hi > hi:
            vma = self.split_vma(vma, hi)[0]
        vma.flags = flags
        return vma
