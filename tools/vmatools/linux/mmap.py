"""mmap: do_mmap of mm/mmap.c, and mmap_region of mm/vma.c."""

from typing import Optional

from ..traces import PAGE
from .areas import (
    MAP_ANONYMOUS,
    MAP_FIXED,
    MAP_FIXED_NOREPLACE,
    MAP_GROWSDOWN,
    MAP_NORESERVE,
    MAP_POPULATE,
    MAP_PRIVATE,
    MAP_SHARED,
    MAP_STACK,
    VM_ACCOUNT,
    VM_GROWSDOWN,
    VM_MAY,
    VM_MAYSHARE,
    VM_MAYWRITE,
    VM_NOHUGEPAGE,
    VM_NORESERVE,
    VM_SHARED,
    VM_WRITE,
    Refusal,
    Vma,
    pages_of,
)
from .mseal import Sealing

MOST_FILE_BYTES = 2**63 - 1


class Mapping(Sealing):
    """New mappings."""

    def mmap(self, address: int, length: int, prot: int, flags: int, descriptor: int, offset: int) -> int:
        """ksys_mmap_pgoff and do_mmap, in the order of their tests"""
        number = 0 if flags & MAP_ANONYMOUS else self.file_of.get(descriptor, 0)
        if offset % PAGE:
            raise Refusal("EINVAL")
        if not flags & MAP_ANONYMOUS and not number:
            raise Refusal("EBADF")
        if not length:
            raise Refusal("EINVAL")
        pages, index = pages_of(length), offset // PAGE
        if not pages or self.map_count > self.max_map_count:
            raise Refusal("ENOMEM")
        is_fixed, is_shared = bool(flags & (MAP_FIXED | MAP_FIXED_NOREPLACE)), bool(flags & MAP_SHARED)
        where = address if is_fixed else self.round_hint_to_min(address)
        start = self.get_unmapped_area(where, pages, is_fixed, index, bool(number), is_shared)
        if flags & MAP_FIXED_NOREPLACE and self.find_vma_intersection(start, start + pages):
            raise Refusal("EEXIST")
        if number:
            vm_flags = self.file_flags(number, index, pages, prot, flags)
        else:
            vm_flags = self.anonymous_flags(prot, flags)
            index = 0 if is_shared else start
        vma = self.mmap_region(start, pages, vm_flags, number, index)
        if flags & MAP_POPULATE and vm_flags & (VM_WRITE | VM_SHARED) == VM_WRITE:
            self.anon_vma_prepare(vma)
        return start * PAGE

    def round_hint_to_min(self, address: int) -> int:
        page = address // PAGE
        return max(page, self.mmap_min_addr) * PAGE if page else 0

    def common_flags(self, prot: int, flags: int) -> int:
        """The flags of any mapping (calc_vm_prot_bits, calc_vm_flag_bits)."""
        found = prot | VM_MAY | self.execute_only_pkey(prot)
        found |= VM_GROWSDOWN if flags & MAP_GROWSDOWN else 0
        found |= VM_NORESERVE if flags & MAP_NORESERVE else 0
        return found | (VM_NOHUGEPAGE if flags & MAP_STACK and self.rules.aligns_anonymous else 0)

    def file_flags(self, number: int, index: int, pages: int, prot: int, flags: int) -> int:
        """The tests of a file, and the flags of its mapping."""
        mode, kind, found = self.files[number - 1].mode, flags & (MAP_SHARED | MAP_PRIVATE), self.common_flags(prot, flags)
        if pages * PAGE > MOST_FILE_BYTES or index > (MOST_FILE_BYTES - pages * PAGE) // PAGE:  # file_mmap_ok
            raise Refusal("EOVERFLOW")
        if not kind:
            raise Refusal("EINVAL")
        if kind & MAP_SHARED:
            if kind == MAP_SHARED | MAP_PRIVATE and flags & MAP_FIXED_NOREPLACE:  # MAP_SHARED_VALIDATE
                raise Refusal("EOPNOTSUPP")
            if prot & VM_WRITE and "w" not in mode:
                raise Refusal("EACCES")
            found |= VM_MAYSHARE | VM_SHARED
            if "w" not in mode:
                found &= ~(VM_MAYWRITE | VM_SHARED)
        if "r" not in mode:
            raise Refusal("EACCES")
        if found & VM_GROWSDOWN:
            raise Refusal("EINVAL")
        return found

    def anonymous_flags(self, prot: int, flags: int) -> int:
        kind, found = flags & (MAP_SHARED | MAP_PRIVATE), self.common_flags(prot, flags)
        if kind not in (MAP_SHARED, MAP_PRIVATE) or kind == MAP_SHARED and found & VM_GROWSDOWN:
            raise Refusal("EINVAL")
        return found | (VM_SHARED | VM_MAYSHARE if kind == MAP_SHARED else 0)

    def mmap_region(self, lo: int, pages: int, flags: int, number: int, index: int) -> Vma:
        """What lies there is split off; memory is promised; what lies there goes; the VMA comes. Up to 6.11 it goes before
        memory is promised, and what goes counts for nothing."""
        hi = lo + pages
        found = self.vms_gather_munmap_vmas(lo, hi)
        if not self.rules.replaces_last:
            self.vms_complete_munmap_vmas(found)
            found = []
        if flags & (VM_NORESERVE | VM_SHARED | VM_WRITE) == VM_WRITE:  # accountable_mapping
            if self.lacks_memory(pages - sum(vma.hi - vma.lo for vma in found if vma.flags & VM_ACCOUNT)):
                raise Refusal("ENOMEM")
            flags |= VM_ACCOUNT
        self.vms_complete_munmap_vmas(found)
        if flags & VM_SHARED and not number:
            number = self.shmem_zero_setup(pages, flags)
        prev, nxt, new = self.vma_prev(lo), self.vma_next(hi), Vma(lo, hi, flags, number, index)
        if not self.rules.replaces_last:
            prev = self.old_left(prev, nxt, new)
        return self.merged_or_new(prev, nxt, new)

    def merged_or_new(self, prev: Optional[Vma], nxt: Optional[Vma], new: Vma) -> Vma:
        """A merge with the neighbours, or a VMA of its own (__mmap_new_vma)."""
        merged = self.vma_merge_new_range(prev, nxt, new)
        if merged is None:
            self.insert_vma(new)
        return merged or new

    def shmem_zero_setup(self, pages: int, flags: int) -> int:
        """Shared anonymous memory is a new object. Where it is refused, what lay there is gone."""
        if not flags & VM_NORESERVE and self.lacks_memory(pages):
            raise Refusal("ENOMEM")
        self.objects += 1
        self.sizes[self.objects] = pages
        return self.objects

    def old_left(self, prev: Optional[Vma], nxt: Optional[Vma], new: Vma) -> Optional[Vma]:
        """mmap_region up to Linux 6.11: the next VMA is asked first, and the previous one joins only with its anon_vma."""
        if nxt is None or not self.can_vma_merge_right(nxt, new, None, None):
            return prev
        joined = Vma(new.lo, new.hi, new.flags, new.file, new.pgoff, nxt.anon)
        return prev if self.can_vma_merge_left(prev, joined, None) else None
