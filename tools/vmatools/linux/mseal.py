"""mseal, VMA by VMA: mm/mseal.c."""

from ..traces import PAGE
from .areas import VM_SEALED, WORD, NotModelled, Refusal, Vma, pages_of
from .mprotect import Protecting

NO_MSEAL = "this version has no mseal"
SPOILT = "this version spoils its list, as mseal goes on from a stale place beside a VMA that could be joined"


class Sealing(Protecting):
    """Seals."""

    def mseal(self, address: int, length: int, flags: int) -> int:
        """do_mseal: holes are looked for first (check_mm_seal)."""
        if not self.rules.has_mseal:
            raise NotModelled(NO_MSEAL)
        if flags or address % PAGE:
            raise Refusal("EINVAL")
        pages = pages_of(length)
        if length and not pages:
            raise Refusal("EINVAL")
        start, end = address // PAGE, (address + pages * PAGE) % WORD // PAGE
        if end < start:
            raise Refusal("EINVAL")
        page = start
        while page < end:
            vma = self.vma_lookup(page)
            if vma is None:
                raise Refusal("ENOMEM")
            page = vma.hi
        self.mseal_apply(start, end)
        return 0

    def mseal_apply(self, start: int, end: int) -> None:
        page = stale = start
        while page < end:
            vma = self.vma_lookup(page)
            assert vma
            stop = min(vma.hi, end)
            if not vma.flags & VM_SEALED:
                is_stale = self.rules.has_stale_seal and stale < vma.lo
                vma = self.seal_stale(vma, stop) if is_stale else self.mseal_fixup(vma, page, stop)
            page, stale = max(stop, vma.hi), stop

    def mseal_fixup(self, vma: Vma, lo: int, hi: int) -> Vma:
        return self.modify_flags(vma, lo, hi, vma.flags | VM_SEALED)

    def seal_stale(self, vma: Vma, hi: int) -> Vma:
        """Up to 6.18.15: the range begins below the VMA, so that it joins nothing. Where it could, the list is spoilt."""
        sealed = Vma(vma.lo, hi, vma.flags | VM_SEALED, vma.file, vma.pgoff, vma.anon)
        if hi == vma.hi and self.can_vma_merge_right(self.vma_next(hi), sealed, vma.anon, None):
            raise NotModelled(SPOILT)
        if vma.hi > hi:
            vma = self.split_vma(vma, hi)[0]
        vma.flags |= VM_SEALED
        return vma
