"""Page faults: arch/x86/mm/fault.c, and expand_downwards of mm/vma.c."""

from ..traces import PAGE
from .areas import (
    GUARD,
    HUGE,
    TASK_PAGES,
    VM_ACCESS,
    VM_EXEC,
    VM_GROWSDOWN,
    VM_MAYSHARE,
    VM_NOHUGEPAGE,
    VM_PKEY,
    VM_READ,
    VM_SHARED,
    VM_WRITE,
    WORD,
    Vma,
)
from .mremap import Remapping

VSYSCALL = 0xFFFFFFFFFF600000
MAPERR, ACCERR = "SIGSEGV SEGV_MAPERR", "SIGSEGV SEGV_ACCERR"


def permissions(vma: Vma) -> str:
    letters = "".join(
        letter if vma.flags & bit else "-" for letter, bit in (("r", VM_READ), ("w", VM_WRITE), ("x", VM_EXEC))
    )
    return letters + ("s" if vma.flags & VM_MAYSHARE else "p")


class Faulting(Remapping):
    """Accesses."""

    def fault(self, address: int, access: str) -> tuple[str, bool]:
        """do_user_addr_fault: the answer to an access, and whether a VMA grew that serves it."""
        page = address // PAGE
        if 2**47 <= address < WORD - 2**47:
            return "SIGSEGV SI_KERNEL", False
        if page == VSYSCALL // PAGE:
            return self.vsyscall(access), False
        vma, has_grown = self.find_vma(page), False
        if vma is None or page >= TASK_PAGES:
            return MAPERR, False
        if vma.lo > page:
            if not vma.flags & VM_GROWSDOWN or not self.expand_downwards(vma, page):
                return MAPERR, False
            has_grown = True
        verdict = self.verdict(vma, page, access)
        return verdict, has_grown and verdict.startswith("served")

    def vsyscall(self, access: str) -> str:
        kind = self.settings.vsyscall
        if access == "x" and kind != "none" or access == "r" and kind == "emulate":
            rights = "--xp" if kind == "xonly" else "r-xp"
            return f"served {VSYSCALL:x}-{VSYSCALL + PAGE:x} {rights} page 0"
        return MAPERR

    def expand_downwards(self, vma: Vma, page: int) -> bool:
        """A stack-like VMA takes all pages down to this one, if it may. It counts as written once its neighbour was asked."""
        below = self.vma_prev(vma.lo)
        if page < self.mmap_min_addr:
            return False
        if below and not below.flags & VM_GROWSDOWN and below.flags & VM_ACCESS and page - below.hi < GUARD:
            return False
        self.anon_vma_prepare(vma)
        more = vma.lo - page
        if more > vma.pgoff or (vma.hi - page) * PAGE > self.settings.stack or self.lacks_memory(more):
            return False
        vma.lo = page
        vma.pgoff -= more
        return True

    def verdict(self, vma: Vma, page: int, access: str) -> str:
        """access_error: a key, the right to write, any right; then the object's end, and the right to execute."""
        if vma.flags & VM_PKEY and access != "x":
            return "SIGSEGV SEGV_PKUERR"
        if access == "w" and not vma.flags & VM_WRITE or not vma.flags & VM_ACCESS:
            return ACCERR
        if access == "w" and not vma.flags & VM_SHARED or self.is_huge_fault(vma, page):
            self.anon_vma_prepare(vma)
        index = vma.index_of(page) if vma.file else 0
        if vma.file and index >= self.sizes[vma.file]:
            return "SIGBUS BUS_ADRERR"
        if access == "x" and not vma.flags & VM_EXEC:
            return ACCERR
        return f"served {vma.lo * PAGE:08x}-{vma.hi * PAGE:08x} {permissions(vma)} page {index}"

    def is_huge_fault(self, vma: Vma, page: int) -> bool:
        """Whether 2 MiB are taken at once, as they lie within anonymous memory."""
        begin = page // HUGE * HUGE
        is_plain = vma.is_anonymous and not vma.flags & VM_NOHUGEPAGE
        return self.settings.huge == "always" and is_plain and vma.lo <= begin and begin + HUGE <= vma.hi
