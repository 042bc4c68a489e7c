"""mprotect, VMA by VMA: mm/mprotect.c."""

from ..traces import PAGE
from .areas import (
    VM_ACCESS,
    VM_ACCOUNT,
    VM_EXEC,
    VM_NORESERVE,
    VM_PKEY,
    VM_SEALED,
    VM_SHARED,
    VM_WRITE,
    WORD,
    Refusal,
    Vma,
    pages_of,
)
from .munmap import Unmapping


class Protecting(Unmapping):
    """Protections."""

    def execute_only_pkey(self, prot: int) -> int:
        """Memory that may only be executed gets a protection key, where the processor has them."""
        return VM_PKEY if prot == VM_EXEC and self.settings.keys else 0

    def mprotect(self, address: int, length: int, prot: int) -> int:
        """do_mprotect_pkey: a hole or a denied access ends it, and the VMAs before stay changed."""
        if address % PAGE:
            raise Refusal("EINVAL")
        if not length:
            return 0
        page, end = address // PAGE, (address + pages_of(length) * PAGE) % WORD // PAGE
        if end <= page:
            raise Refusal("ENOMEM")
        while page < end:
            vma = self.vma_lookup(page)
            if vma is None:
                raise Refusal("ENOMEM")
            flags = vma.flags & ~VM_ACCESS & ~VM_PKEY | prot | self.execute_only_pkey(prot)
            if prot & ~(flags >> 4):
                raise Refusal("EACCES")
            stop = min(vma.hi, end)
            page = max(stop, self.mprotect_fixup(vma, page, stop, flags).hi)
        return 0

    def mprotect_fixup(self, vma: Vma, lo: int, hi: int, flags: int) -> Vma:
        """A range of one VMA. What becomes writable is accounted from then on."""
        if vma.flags & VM_SEALED:
            raise Refusal("EPERM")
        if flags == vma.flags:
            return vma
        if flags & VM_WRITE:
            if not vma.flags & (VM_ACCOUNT | VM_WRITE | VM_SHARED | VM_NORESERVE):
                if self.lacks_memory(hi - lo):
                    raise Refusal("ENOMEM")
                flags |= VM_ACCOUNT
        elif vma.flags & VM_ACCOUNT and vma.is_anonymous and not vma.anon and self.rules.unaccounts:
            flags &= ~VM_ACCOUNT
        return self.modify_flags(vma, lo, hi, flags)
