"""A model of one address space, in the words of docs/MODEL.md: what each call, each fault and each read of the list answers.

It is written from docs/MODEL.md alone, and has nothing of the program's code.
"""

import bisect
from collections.abc import Callable
from typing import Any, NamedTuple, TypeVar, Union

from .traces import MAP, MOST_AREAS, MREMAP, PAGE, PROT, USER_PAGES, File, Line, Trace

DEFAULT_TOP = 0x7FFFF7FFF
DEFAULT_MIN = 0x10
FLOOR = 0x2AAAAAAAB  # the second search begins here: a third of user memory
WINDOW_END = USER_PAGES[1]  # only a call whose hint asks for it is placed above
MOST_OBJECT_PAGES = 2**51 - 1
READ, WRITE, EXEC = PROT.values()
ALL = READ | WRITE | EXEC
FIXED = MAP["MAP_FIXED"] | MAP["MAP_FIXED_NOREPLACE"]

# What a call answers: the name of an error, an address, or 0 where it has none to tell.
Reply = Union[int, str]


class Area(NamedTuple):
    """Pages from `lo` up to but not including `hi`; `prot` and `most` are bits of PROT. Object 0 is private anonymous memory,
    the next are the files in their order, and those after them are shared anonymous memory.
    """

    lo: int
    hi: int
    prot: int
    most: int
    shared: bool
    grows: bool
    sealed: bool
    heap: bool
    object: int
    offset: int


Refusal = tuple[str, str]  # the row of a table that decides, and the error
Join = Callable[[Area, Area], bool]
Anything = TypeVar("Anything")
SomeSpace = TypeVar("SomeSpace", bound="Space")


# What a page is mapped to, as far as neighbours have to agree in it: the fields of an area from `prot` up to `object`.
ATTRIBUTES = slice(2, 9)


# The list of areas


def index_of(area: Area, page: int) -> int:
    """The page of its object that an area maps at a page."""
    return area.offset + page - area.lo if area.object else 0


def piece(area: Area, lo: int, hi: int) -> Area:
    _, _, prot, most, shared, grows, sealed, heap, number, _ = area
    return Area(lo, hi, prot, most, shared, grows, sealed, heap, number, index_of(area, lo))


def joins(first: Area, second: Area) -> bool:
    """Neighbours join that touch, have the same attributes and object, and whose offsets run on, which private memory has not."""
    same = first.hi == second.lo and first[ATTRIBUTES] == second[ATTRIBUTES]
    return same and second.offset == index_of(first, first.hi)


def first_above(areas: list[Area], page: int) -> int:
    """The place of the first area that ends above a page: the one that has the page, if one has it."""
    place = bisect.bisect_left(areas, (page + 1,))
    return place - 1 if place and areas[place - 1].hi > page else place


def area_at(areas: list[Area], page: int) -> Area | None:
    place = first_above(areas, page)
    return areas[place] if place < len(areas) and areas[place].lo <= page else None


def areas_in(areas: list[Area], lo: int, hi: int) -> list[Area]:
    """The areas that have a page from `lo` up to `hi`."""
    return areas[first_above(areas, lo) : bisect.bisect_left(areas, (hi,))] if lo < hi else []


def is_free(areas: list[Area], lo: int, hi: int) -> bool:
    place = first_above(areas, lo)
    return place == len(areas) or areas[place].lo >= hi


def replaced(areas: list[Area], lo: int, hi: int, middle: list[Area], join: Join = joins) -> list[Area]:
    """The list with these areas in the place of all that was mapped from `lo` up to `hi`, merged."""
    begin, end = first_above(areas, lo), bisect.bisect_left(areas, (hi,))
    # A split leaves the parts of the outermost areas that lie below and above.
    below = [piece(area, area.lo, lo) for area in areas[begin:end] if area.lo < lo]
    above = [piece(area, hi, area.hi) for area in areas[begin:end] if area.hi > hi]
    # No two areas of the old list join, so only these and one to each side can.
    left = max(begin - 1, 0)
    merged: list[Area] = []
    for area in areas[left:begin] + below + middle + above + areas[end : end + 1]:
        if merged and join(merged[-1], area):
            merged[-1] = merged[-1]._replace(hi=area.hi)
        else:
            merged.append(area)
    return areas[:left] + merged + areas[end + 1 :]


def changed(areas: list[Area], lo: int, hi: int, join: Join = joins, **attributes: Any) -> list[Area]:
    """The list in which all pages from `lo` up to `hi`, which are mapped, have these attributes."""
    if lo == hi:
        return areas
    inner = areas_in(areas, lo, hi)
    return replaced(areas, lo, hi, [piece(a, max(a.lo, lo), min(a.hi, hi))._replace(**attributes) for a in inner], join)


def permissions(area: Area) -> str:
    letters = "".join(letter if area.prot & bit else "-" for letter, bit in (("r", READ), ("w", WRITE), ("x", EXEC)))
    return f"{area.lo * PAGE:08x}-{area.hi * PAGE:08x} {letters}{'s' if area.shared else 'p'}"


def pages_of(length: int) -> int:
    """How many pages a length takes: rounded up."""
    return -(-length // PAGE)


class Space:
    """One address space, which answers the operations of a trace in their order."""

    def __init__(self, trace: Trace) -> None:
        self.min, self.top, self.heap = (
            trace.settings.get(name, default) // PAGE
            for name, default in (("min", DEFAULT_MIN * PAGE), ("top", DEFAULT_TOP * PAGE), ("heap", 0))
        )
        self.most_areas = trace.settings.get("limit", MOST_AREAS)
        self.limit = USER_PAGES[trace.version]
        self.files = {file.descriptor: (object, file) for object, file in enumerate(trace.files, 1)}
        self.file_of = dict(self.files.values())
        self.objects = len(trace.files)  # the objects that were numbered so far
        self.break_ = self.heap * PAGE  # the end of the heap, an address
        self.areas: list[Area] = []

    def child(self: SomeSpace) -> SomeSpace:
        """The space that a fork begins with."""
        child = object.__new__(type(self))
        child.__dict__.update(self.__dict__)
        return child

    @staticmethod
    def joins(first: Area, second: Area) -> bool:
        """Whether neighbours join, which a model that is wrong may say otherwise."""
        return joins(first, second)

    def replaced(self, areas: list[Area], lo: int, hi: int, middle: list[Area]) -> list[Area]:
        return replaced(areas, lo, hi, middle, self.joins)

    def changed(self, areas: list[Area], lo: int, hi: int, **attributes: Any) -> list[Area]:
        return changed(areas, lo, hi, self.joins, **attributes)

    def note(self, row: str) -> None:
        """Hears which row of a table of docs/MODEL.md decides; coverage.py counts them."""

    def by(self, row: str, reply: Anything) -> Anything:
        """A reply, by the row that gives it."""
        self.note(row)
        return reply

    def keep(self, areas: list[Area], reply: Reply, row: str, objects: int = 0) -> Reply:
        """Makes this the list, unless it has too many areas: then nothing changes. `row` is that of a call that is done."""
        if len(areas) > self.most_areas:
            return self.by(f"{row.split('/')[0]}/too-many", "ENOMEM")
        if len(areas) == self.most_areas:
            self.note("limit/reached")
        self.areas = areas
        self.objects = objects or self.objects
        return self.by(row, reply)

    def has_sealed(self, lo: int, hi: int) -> bool:
        return any(area.sealed for area in areas_in(self.areas, lo, hi))

    def unless_sealed(
        self, areas: list[Area], reply: Reply, row: str, *ranges: tuple[int, int], objects: int = 0
    ) -> Reply:
        """Keeps the list, unless it has too many areas, or a page that it changes is sealed."""
        if len(areas) <= self.most_areas and any(self.has_sealed(lo, hi) for lo, hi in ranges):
            return self.by(f"{row.split('/')[0]}/sealed", "EPERM")
        return self.keep(areas, reply, row, objects)

    # Placement

    def hinted_place(self, hint: int, pages: int) -> int | None:
        """At the hint, rounded down, and raised to the lowest page. A hint on page 0 is none."""
        start = max(hint // PAGE, self.min)
        end = self.limit if self.is_high(hint) else WINDOW_END
        fits = hint >= PAGE and start + pages <= end and is_free(self.areas, start, start + pages)
        return start if fits else None

    def is_high(self, hint: int) -> bool:
        """Whether a hint asks for memory above the window, where there is such memory."""
        return self.limit > WINDOW_END and max(hint // PAGE, self.min) >= WINDOW_END and hint >= PAGE

    def highest_below(self, end: int, pages: int) -> int | None:
        """From a page down, as high as there is room."""
        for area in reversed(self.areas):
            if end - area.hi >= pages:
                break
            end = min(end, area.lo)
        return end - pages if end - pages >= self.min else None

    def low_place(self, pages: int) -> int | None:
        """The second search: from the floor up, as low as there is room."""
        start = max(FLOOR, self.min)
        for area in self.areas:
            if area.lo - start >= pages:
                break
            start = max(start, area.hi)
        return start if start + pages <= WINDOW_END else None

    def place(self, pages: int, hint: int = 0) -> int | None:
        which = "high" if self.is_high(hint) else "window"
        start = self.hinted_place(hint, pages)
        if start is not None:
            return self.by(f"placement/{which}-hint", start)
        row = "high-search" if which == "high" else "first-search"
        start = self.highest_below(self.limit if which == "high" else self.top, pages)
        if start is None and which == "window":
            row = "second-search"
            start = self.low_place(pages)
        return self.by(f"placement/{which}-none" if start is None else f"placement/{row}", start)

    # Calls. In each the first test that holds decides.

    def mmap(self, address: int, length: int, prot: int, flags: int, descriptor: int, offset: int) -> Reply:
        anonymous, shared = bool(flags & MAP["MAP_ANONYMOUS"]), bool(flags & MAP["MAP_SHARED"])
        number, file = (0, None) if anonymous else self.files.get(descriptor, (0, None))
        pages, grows = pages_of(length), bool(flags & MAP["MAP_GROWSDOWN"])
        refusal = self.mmap_refusal(length, prot, flags, file, offset) or self.misplaced(address, pages, flags)
        if refusal:
            return self.by(*refusal)
        start = address // PAGE if flags & FIXED else self.place(pages, address)
        if start is None:  # nowhere is so much room
            return self.by("mmap/no-place", "ENOMEM")
        if not file:  # shared anonymous memory has the next number, each time
            number = self.objects + 1 if shared else 0
        # A shared mapping of a file that is not open for writing may never be written.
        most = READ | EXEC if file and shared and "w" not in file.mode else ALL
        first = offset // PAGE if file else 0
        area = Area(start, start + pages, prot, most, shared, grows, False, False, number, first)
        after, objects = self.replaced(self.areas, area.lo, area.hi, [area]), max(self.objects, number)
        return self.unless_sealed(after, start * PAGE, "mmap/done", (area.lo, area.hi), objects=objects)

    def mmap_refusal(self, length: int, prot: int, flags: int, file: File | None, offset: int) -> Refusal | None:
        """Why an mmap is refused, wherever it would lie."""
        anonymous, shared = bool(flags & MAP["MAP_ANONYMOUS"]), bool(flags & MAP["MAP_SHARED"])
        pages = pages_of(length)
        if offset % PAGE:  # an offset inside of a page
            return "mmap/odd-offset", "EINVAL"
        if not anonymous and file is None:  # a descriptor that is no file's
            return "mmap/no-file", "EBADF"
        if length == 0:
            return "mmap/no-length", "EINVAL"
        if pages > self.limit:  # longer than user memory
            return "mmap/longer-than-memory", "ENOMEM"
        if file and offset + PAGE * pages > 2**63 - 1:  # past the end of all offsets
            return "mmap/offset-overflows", "EOVERFLOW"
        if shared == bool(flags & MAP["MAP_PRIVATE"]):  # both shared and private, or neither
            return "mmap/sharing", "EINVAL"
        if flags & MAP["MAP_GROWSDOWN"] and (not anonymous or shared):  # only private anonymous memory grows
            return "mmap/cannot-grow", "EINVAL"
        if file and ("r" not in file.mode or "w" not in file.mode and shared and prot & WRITE):  # not open for this
            return "mmap/denied", "EACCES"
        return None

    def misplaced(self, address: int, pages: int, flags: int) -> Refusal | None:
        """Why an mmap is refused that asks for exactly this place."""
        start = address // PAGE
        if not flags & FIXED:
            return None
        if address % PAGE:
            return "mmap/odd-place", "EINVAL"
        if start < self.min:
            return "mmap/below-min", "EPERM"
        if start + pages > self.limit:  # it ends past user memory
            return "mmap/past-limit", "ENOMEM"
        if flags & MAP["MAP_FIXED_NOREPLACE"] and not is_free(self.areas, start, start + pages):
            return "mmap/taken", "EEXIST"
        return None

    def munmap(self, address: int, length: int) -> Reply:
        start, end = address // PAGE, address // PAGE + pages_of(length)
        if address % PAGE:
            return self.by("munmap/odd-address", "EINVAL")
        if length == 0:
            return self.by("munmap/no-length", "EINVAL")
        if end > self.limit:
            return self.by("munmap/past-limit", "EINVAL")
        return self.unless_sealed(
            self.replaced(self.areas, start, end, []), 0, "munmap/done", (start, end)
        )  # which need not be mapped

    def mprotect(self, address: int, length: int, prot: int) -> Reply:
        start, end = address // PAGE, address // PAGE + pages_of(length)
        if address % PAGE:
            return self.by("mprotect/odd-address", "EINVAL")
        if length == 0:
            return self.by("mprotect/no-length", 0)
        if end * PAGE >= 2**64:  # it ends past all addresses
            return self.by("mprotect/past-all", "ENOMEM")
        if self.has_sealed(start, end):
            return self.by("mprotect/sealed", "EPERM")
        # The stop is the first page that is not mapped, or that may never have this protection. The pages before it get it.
        stop, reply = self.stop_of(start, end, prot)
        row = {"ENOMEM": "not-mapped", "EACCES": "may-not-have"}.get(str(reply), "done")
        return self.keep(self.changed(self.areas, start, stop, prot=prot), reply, f"mprotect/{row}")

    def stop_of(self, start: int, end: int, prot: int) -> tuple[int, Reply]:
        while start < end:
            area = area_at(self.areas, start)
            if area is None:
                return start, "ENOMEM"
            if prot & ~area.most:
                return start, "EACCES"
            start = min(area.hi, end)
        return end, 0

    def mremap(self, address: int, old_length: int, new_length: int, flags: int, new_address: int = 0) -> Reply:
        refusal = self.mremap_refusal(address, old_length, new_length, flags, new_address)
        if refusal:
            return self.by(*refusal)
        to_fixed = bool(flags & MREMAP["MREMAP_FIXED"])
        old, olds, new, news = address // PAGE, pages_of(old_length), new_address // PAGE, pages_of(new_length)
        old_end, grows, area = old + olds, news > olds, area_at(self.areas, old)
        if area is None:  # nothing is mapped at the old address
            return self.by("mremap/not-mapped", "EFAULT")
        if (to_fixed or grows) and old + min(olds, news) > area.hi:  # what stays does not lie in one area
            return self.by("mremap/leaves-area", "EFAULT")
        if grows and area.object and index_of(area, old) + news > MOST_OBJECT_PAGES:  # past the end of all objects
            return self.by("mremap/object-overflows", "EINVAL")
        guarded = [(old, old_end)] + ([(new, new + news)] if to_fixed else [])
        if not to_fixed and not grows:  # shrinks in place
            after = self.replaced(self.areas, old + news, old_end, []) if news < olds else self.areas
            return self.unless_sealed(after, address, "mremap/shorter", *guarded)
        if not to_fixed and old + news <= self.limit and is_free(self.areas, old_end, old + news):  # grows in place
            after = self.replaced(self.areas, old_end, old + news, [piece(area, old_end, old + news)])
            return self.unless_sealed(after, address, "mremap/longer-in-place", *guarded)
        found = new if to_fixed else self.place(news) if flags & MREMAP["MREMAP_MAYMOVE"] else None
        if found is None:  # it may not move, or there is no room
            return self.by("mremap/no-room", "ENOMEM")
        moved = area._replace(lo=found, hi=found + news, offset=index_of(area, old))
        after = self.replaced(self.replaced(self.areas, found, found + news, [moved]), old, old_end, [])
        row = "mremap/to-place" if to_fixed else "mremap/longer-elsewhere"
        return self.unless_sealed(after, found * PAGE, row, *guarded)

    def mremap_refusal(
        self, address: int, old_length: int, new_length: int, flags: int, new_address: int
    ) -> Refusal | None:
        """Why an mremap is refused, whatever is mapped."""
        to_fixed = bool(flags & MREMAP["MREMAP_FIXED"])
        old, new, news = address // PAGE, new_address // PAGE, pages_of(new_length)
        old_end = old + pages_of(old_length)
        if flags & MREMAP["MREMAP_DONTUNMAP"]:  # a flag that is refused
            return "mremap/other-flag", "EINVAL"
        if to_fixed and not flags & MREMAP["MREMAP_MAYMOVE"]:
            return "mremap/may-not-move", "EINVAL"
        if address % PAGE:
            return "mremap/odd-address", "EINVAL"
        if new_length == 0:
            return "mremap/no-new-length", "EINVAL"
        if old_length == 0:
            return "mremap/no-old-length", "EINVAL"
        if old_end > self.limit:  # the old range ends past user memory
            return "mremap/past-limit", "EFAULT"
        if to_fixed and (new_address % PAGE or new + news > self.limit):  # the new one does, or is inside of a page
            return "mremap/new-misplaced", "EINVAL"
        if to_fixed and new < self.min:
            return "mremap/below-min", "EPERM"
        if to_fixed and new < old_end and old < new + news:  # the two share a page
            return "mremap/overlap", "EINVAL"
        return None

    def brk(self, address: int) -> int:
        """The break after the call. It stays where the call cannot be done."""
        if not self.heap or address < self.heap * PAGE:
            return self.by("brk/no-heap" if not self.heap else "brk/below-heap", self.break_)
        old, new = pages_of(self.break_), pages_of(address)
        if new == old:
            self.break_ = address
            return self.by("brk/same-page", address)
        if new < old:
            row, refusal = "brk/lower", "brk/lower-sealed" if self.has_sealed(new, old) else ""
            after = self.replaced(self.areas, new, old, [])
        else:
            # The page above the break has to be free as well.
            has_room = new + 1 <= self.limit and is_free(self.areas, old, new + 1)
            row, refusal = "brk/higher", "" if has_room else "brk/higher-no-room"
            heap = Area(old, new, READ | WRITE, ALL, False, False, False, True, 0, 0)
            after = self.replaced(self.areas, old, new, [heap]) if has_room else self.areas
        if not refusal and len(after) > self.most_areas:
            refusal = f"{row}-too-many"
        if not refusal:
            self.areas, self.break_ = after, address
        return self.by(refusal or row, self.break_)

    def mseal(self, address: int, length: int, flags: int) -> Reply:
        start, end = address // PAGE, address // PAGE + pages_of(length)
        if flags:
            return self.by("mseal/flag", "EINVAL")
        if address % PAGE:
            return self.by("mseal/odd-address", "EINVAL")
        if end * PAGE >= 2**64:
            return self.by("mseal/past-all", "EINVAL")
        if length == 0:
            return self.by("mseal/no-length", 0)
        if sum(min(area.hi, end) - max(area.lo, start) for area in areas_in(self.areas, start, end)) < end - start:
            return self.by("mseal/hole", "ENOMEM")  # a page is not mapped
        return self.keep(self.changed(self.areas, start, end, sealed=True), 0, "mseal/done")

    # Faults and reads

    def grower(self, page: int) -> Area | None:
        """The area that would grow into a page, if one would: it begins right above, and the page below is free too."""
        above = area_at(self.areas, page + 1)
        is_one = (
            above
            and above.grows
            and above.lo == page + 1
            and page >= self.min
            and is_free(self.areas, page - 1, page + 1)
        )
        return above if is_one else None

    def grow(self, address: int, access: str) -> Area | None:
        """The area that a fault has grown, if it grows one: then the fault is a call."""
        page = address // PAGE
        area = self.grower(page)
        if area is None or not permits(area, access):
            return None
        self.note("touch/grows")
        grown = area._replace(lo=page)
        self.areas = [grown if other is area else other for other in self.areas]
        return grown

    def fault(self, address: int, access: str) -> str:
        """The verdict on an access, which grows no area, to the byte at an address."""
        page = address // PAGE
        area = area_at(self.areas, page)
        if area is None:
            return (
                self.by("fault/grower-denies", "SIGSEGV SEGV_ACCERR")
                if self.grower(page)
                else self.by("fault/not-mapped", "SIGSEGV SEGV_MAPERR")
            )
        if not permits(area, access):
            return self.by("fault/denied", "SIGSEGV SEGV_ACCERR")
        index, file = index_of(area, page), self.file_of.get(area.object)
        if file and index >= pages_of(file.size):  # past the end of the file
            return self.by("fault/past-end", "SIGBUS BUS_ADRERR")
        return self.by("fault/served", f"served {permissions(area)} page {index}")

    def answer(self, line: Line) -> tuple[list[str], bool]:
        return answer(self, line)

    def maps(self) -> list[str]:
        """The list, as lines."""
        return [f"maps {len(self.areas)}", *map(self.maps_line, self.areas)]

    def maps_line(self, area: Area) -> str:
        return line_of(area, self.file_of.get(area.object))


def line_of(area: Area, file: File | None) -> str:
    """The line of an area in a list, and of the file that it maps, if it maps one."""
    if file:
        major, minor, inode, name = file.major, file.minor, file.inode, file.name
    elif area.object:
        major, minor, inode, name = 0, 1, area.object, "/dev/zero (deleted)"
    else:
        major, minor, inode, name = 0, 0, 0, "[heap]" if area.heap else ""
    front = f"{permissions(area)} {area.offset * PAGE:08x} {major:02x}:{minor:02x} {inode} "
    # A name begins in column 74, or after one more space where the line is longer than that already.
    return front + " " * max(73 - len(front), 1) + name if name else front


def permits(area: Area, access: str) -> bool:
    """Whether a protection allows an access. A read takes any of the three."""
    return bool(area.prot & {"r": ALL, "w": WRITE, "x": EXEC}[access])


def answer(space: Space, line: Line) -> tuple[list[str], bool]:
    """Does what a line asks for, a fork apart: the lines of its result, and whether it was a call."""
    if line.word == "maps":
        return space.maps(), False
    if line.word == "fault":
        grown = space.grow(*line.arguments)
        return [f"served {permissions(grown)} page 0" if grown else space.fault(*line.arguments)], bool(grown)
    return [reply_text(line.word, getattr(space, line.word)(*line.arguments))], True


def reply_text(word: str, reply: Reply) -> str:
    if isinstance(reply, str):
        return f"-1 {reply}"
    return hex(reply) if reply or word == "brk" else "0"
