"""What a write to private memory leaves in a VMA: mm/rmap.c and mm/vma.c."""

from typing import Optional

from .areas import VM_ACCESS, AnonVma, Vma
from .merging import Merging


class AnonVmas(Merging):
    """VMAs that are written to."""

    @staticmethod
    def anon_vma_compatible(first: Vma, second: Vma) -> bool:
        return (
            first.hi == second.lo
            and first.file == second.file
            and not (first.flags ^ second.flags) & ~VM_ACCESS
            and second.pgoff == first.index_of(second.lo)
        )

    def reusable_anon_vma(self, old: Vma, first: Vma, second: Vma) -> Optional[AnonVma]:
        return old.anon if not old.is_forked and self.anon_vma_compatible(first, second) else None

    def find_mergeable_anon_vma(self, vma: Vma) -> Optional[AnonVma]:
        """That of the next VMA, or of the one before."""
        nxt, prev = self.vma_next(vma.hi), self.vma_prev(vma.lo)
        found = self.reusable_anon_vma(nxt, vma, nxt) if nxt else None
        return found or (self.reusable_anon_vma(prev, prev, vma) if prev else None)

    def anon_vma_prepare(self, vma: Vma) -> None:
        """A VMA that is written to has an anon_vma from then on."""
        if vma.anon:
            return
        vma.anon = self.find_mergeable_anon_vma(vma)
        if vma.anon is None:
            vma.anon = AnonVma(self.anons)
            self.anons += 1
