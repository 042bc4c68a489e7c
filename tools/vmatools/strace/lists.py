"""Compares the list of areas that a run leaves with the one that the kernel had, page by page."""

import bisect
from collections.abc import Iterator
from dataclasses import dataclass, field

from ..console import counted, printable
from ..traces import PAGE
from .areas import OF_KERNEL, USER_END, Area

Attributes = tuple[object, ...]


@dataclass
class Comparison:
    """What differs: `told` has what a trace of a log can't have, or what KERNEL.md has; `others` is the rest."""

    joined: list[int] = field(default_factory=list)  # borders that the kernel has alone
    apart: list[int] = field(default_factory=list)  # borders that the run has alone
    grown: list[tuple[int, int]] = field(default_factory=list)  # pages of a stack that faults added
    above: list[str] = field(default_factory=list)  # areas above user memory
    own: list[str] = field(default_factory=list)  # areas of the kernel's own, which a trace leaves out
    removed: set[str] = field(default_factory=set)  # files that were removed while they were mapped
    others: list[str] = field(default_factory=list)

    def told(self) -> Iterator[str]:
        if self.joined:
            yield f"one area in the run, apart in the kernel: {counted(len(self.joined), 'border')}{places(self.joined)}"
        if self.apart:
            yield f"apart in the run, one area in the kernel: {counted(len(self.apart), 'border')}{places(self.apart)}"
        for lo, hi in self.grown:
            yield f"a stack grew by faults, which are in no log: {counted((hi - lo) // PAGE, 'page')}, {lo:x}-{hi:x}"
        for name in sorted(self.removed):
            yield f"removed while it was mapped, of which a trace says nothing: {printable(name)}"
        for name in self.own:
            yield f"the kernel's own, where no search for room comes, and left out: {name}"
        for name in self.above:
            yield f"above user memory, and in no trace: {name}"


def places(borders: list[int]) -> str:
    return ", at " + ", ".join(map(hex, borders[:6])) + (", .." if len(borders) > 6 else "")


def attributes(area: Area, at: int, known: bool) -> Attributes:
    """What a page is mapped to. Names in brackets are those of plain memory; of a file, the trace may not know the inode."""
    if area.is_file and not area.name.startswith("["):
        return (
            area.perms,
            name_of(area),
            area.offset + at - area.lo,
            (area.major, area.minor, area.inode) if known else (),
        )
    return area.perms, "shared" if area.perms[3] == "s" else "[heap]" if area.name == "[heap]" else ""


def name_of(area: Area) -> str:
    return area.name.removesuffix(" (deleted)")


def area_at(areas: list[Area], begins: list[int], at: int) -> Area | None:
    place = bisect.bisect_right(begins, at) - 1
    return areas[place] if place >= 0 and at < areas[place].hi else None


def compare(run: list[Area], kernel: list[Area]) -> Comparison:
    """What differs between the list of a run and that of the kernel."""
    found = Comparison(above=[area.name or f"{area.lo:x}" for area in kernel if area.hi > USER_END])
    kernel = [area for area in kernel if area.hi <= USER_END]
    edges = sorted({edge for area in (*run, *kernel) for edge in (area.lo, area.hi)})
    begins = [area.lo for area in run], [area.lo for area in kernel]
    for lo, hi in zip(edges, edges[1:]):
        here, there = area_at(run, begins[0], lo), area_at(kernel, begins[1], lo)
        if here or there:
            compare_pages(found, here, there, lo, hi)
    found.joined = sorted(inside(run, border_set(kernel)))
    found.apart = sorted(inside(kernel, border_set(run)))
    return found


def border_set(areas: list[Area]) -> set[int]:
    """The places at which two areas touch."""
    return {above.lo for below, above in zip(areas, areas[1:]) if below.hi == above.lo}


def inside(areas: list[Area], borders: set[int]) -> set[int]:
    """Those of the places that lie within an area."""
    begins = [area.lo for area in areas]
    return {at for at in borders if (area := area_at(areas, begins, at)) and area.lo < at}


def compare_pages(found: Comparison, here: Area | None, there: Area | None, lo: int, hi: int) -> None:
    """Pages that are in one area, or none, on both sides."""
    if here is None and there is not None and there.name == "[stack]":
        found.grown.append((lo, hi))
        return
    if here is None and there is not None and there.name in OF_KERNEL:
        found.own.append(there.name)
        return
    if here is None or there is None:
        which = "not in the run" if here is None else "not in the kernel"
        area = here or there
        assert area
        found.others.append(f"{lo:x}-{hi:x} {area.perms} {area.name or 'without a name'}: {which}")
        return
    if here.name != there.name and name_of(here) == name_of(there):
        found.removed.add(name_of(here))
    is_known = bool(here.inode) and bool(there.inode)
    ours, theirs = (attributes(area, lo, is_known) for area in (here, there))
    if ours != theirs:
        shown = [" ".join(map(str, one)).strip() for one in (ours, theirs)]
        found.others.append(f"{lo:x}-{hi:x}: {shown[0]} in the run, {shown[1]} in the kernel")
