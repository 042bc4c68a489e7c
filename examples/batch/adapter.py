#!/usr/bin/env python3
"""A small address space behind an adapter: `vma compare --batch -- ./adapter.py`.

It is a sorted list of VMAs with mmap, munmap, mprotect and faults. Yours stands in the place of `Space`.
"""
import sys
from pathlib import Path

sys.path.insert(0, str(Path(__file__).resolve().parents[2] / "tools"))  # where vmatools is, if it isn't installed
from vmatools.adapter import Area, File, Settings, serve

PAGE = 4096
WRITE = 2  # of a protection
SHARED, PRIVATE, FIXED, ANONYMOUS, NOREPLACE = 1, 2, 0x10, 0x20, 0x100000  # of flags


class Space:
    lacks = ("limit", "top", "wide", "MAP_GROWSDOWN")

    def __init__(self, settings: Settings) -> None:
        self.settings = settings
        self.list: list[Area] = []

    def areas(self) -> list[Area]:
        return self.list

    def mmap(self, address: int, length: int, prot: int, flags: int, file: File | None, offset: int) -> int | str:
        size = -(-length // PAGE) * PAGE
        refused = self.refusal(size, prot, flags, file, offset)
        if refused:
            return refused
        fixed = flags & (FIXED | NOREPLACE)
        if fixed and (address % PAGE or address < self.settings.min or address + size > self.settings.end):
            return "EINVAL" if address % PAGE else "EPERM" if address < self.settings.min else "ENOMEM"
        if flags & NOREPLACE and self.is_mapped(address, address + size):
            return "EEXIST"
        start = address if fixed else self.place(address // PAGE * PAGE, size)
        if start is None:
            return "ENOMEM"
        first = 0 if flags & ANONYMOUS else offset
        self.replace(start, start + size, Area(start, start + size, prot, bool(flags & SHARED), first, file))
        return start

    def refusal(self, size: int, prot: int, flags: int, file: File | None, offset: int) -> str | None:
        """Why an mmap is refused, wherever it would be."""
        if offset % PAGE:
            return "EINVAL"
        if not flags & ANONYMOUS and not file:
            return "EBADF"
        if size == 0:
            return "EINVAL"
        if size > self.settings.end:
            return "ENOMEM"
        is_of_file = file and not flags & ANONYMOUS
        if is_of_file and offset + size > 2**63 - 1:
            return "EOVERFLOW"
        if bool(flags & SHARED) == bool(flags & PRIVATE):
            return "EINVAL"
        if is_of_file and ("r" not in file.mode or "w" not in file.mode and flags & SHARED and prot & WRITE):
            return "EACCES"
        return None

    def munmap(self, address: int, length: int) -> str | None:
        end = address + -(-length // PAGE) * PAGE
        if address % PAGE or length == 0 or end > self.settings.end:
            return "EINVAL"
        self.replace(address, end)
        return None

    def mprotect(self, address: int, length: int, prot: int) -> str | None:
        end = address + -(-length // PAGE) * PAGE
        if address % PAGE:
            return "EINVAL"
        if end >= 1 << 64:
            return "ENOMEM"
        for area in self.list:
            if area.start <= address < min(area.end, end):
                if area.shared and area.file and "w" not in area.file.mode and prot & WRITE:
                    return "EACCES"
                part = cut(area, address, min(area.end, end))
                self.replace(part.start, part.end, part._replace(prot=prot))
                address = part.end
        return "ENOMEM" if address < end else None

    def fault(self, address: int, access: str) -> Area | str:
        area = next((area for area in self.list if area.start <= address < area.end), None)
        if area is None:
            return "SIGSEGV SEGV_MAPERR"
        if not area.prot & {"r": 7, "w": 2, "x": 4}[access]:
            return "SIGSEGV SEGV_ACCERR"
        is_past = area.file and area.page(address) >= -(-area.file.size // PAGE)
        return "SIGBUS BUS_ADRERR" if is_past else area

    def is_mapped(self, start: int, end: int) -> bool:
        return any(area.start < end and area.end > start for area in self.list)

    def place(self, hint: int, size: int) -> int | None:
        """At the hint, or as high as there is room below the top, or as low as there is from a third of memory up."""
        hint = max(hint, self.settings.min) if hint else 0
        if hint and hint + size <= self.settings.end and not self.is_mapped(hint, hint + size):
            return hint
        end = self.settings.top
        for area in reversed(self.list):
            if end - area.end >= size:
                break
            end = min(end, area.start)
        if end - size >= self.settings.min:
            return end - size
        start = max(self.settings.min, -(-self.settings.end // 3 // PAGE) * PAGE)
        for area in self.list:
            if area.start - start >= size:
                break
            start = max(start, area.end)
        return start if start + size <= self.settings.end else None

    def replace(self, start: int, end: int, new: Area | None = None) -> None:
        """Unmaps a range, puts a VMA there, and joins neighbours that look alike."""
        below = [cut(area, area.start, min(area.end, start)) for area in self.list if area.start < start]
        above = [cut(area, max(area.start, end), area.end) for area in self.list if area.end > end]
        self.list = []
        for area in [*below, *([new] if new else []), *above]:
            last = self.list[-1] if self.list else None
            if last and last.end == area.start and cut(last._replace(end=area.end), area.start, area.end) == area:
                self.list[-1] = last._replace(end=area.end)
            else:
                self.list.append(area)


def cut(area: Area, start: int, end: int) -> Area:
    """The part of a VMA between two addresses in it."""
    return area._replace(start=start, end=end, offset=area.offset + start - area.start if area.file else 0)


if __name__ == "__main__":
    serve(Space)
