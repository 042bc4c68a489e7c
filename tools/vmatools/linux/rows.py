"""Where the profile and Linux answer otherwise, by name: the rows of docs/KERNEL.md, or the beginning that the names of
several have in common.

Both answers are there, as the two models give them. So a row is named only for an answer that Linux gives.
"""

from collections.abc import Callable, Sequence
from typing import NamedTuple, Optional

from ..model import MOST_OBJECT_PAGES, Area, Space, area_at, areas_in, index_of, pages_of
from ..outputs import Difference, areas_of, facts_at
from ..systems.empty import OWN, OWN_END
from ..traces import MAP, MREMAP, PAGE, PROT, Line, Trace
from .areas import GUARD, HUGE
from .kernel import Kernel
from .space import LinuxSpace

HINT_MIN = 0x10  # the page below which a hint is raised, as kernels are built mostly
MUCH = 2**33  # bytes that may be more than a machine has
STACK_PAGES = 2048  # how large a stack gets: 8 MiB
VSYSCALL = 0xFFFFFFFFFF600  # the page of [vsyscall], which is none of the process
SPARE = 6  # areas that a moving mremap wants to be left, and one
SHARED, PRIVATE, FIXED, ANONYMOUS = (MAP[f"MAP_{name}"] for name in ("SHARED", "PRIVATE", "FIXED", "ANONYMOUS"))


class Seen:
    """A difference: the line and its arguments, both answers, and both spaces before the line."""

    def __init__(self, line: Line, space: Space, linux: LinuxSpace, difference: Difference) -> None:
        self.line, self.space, self.linux, self.difference = line, space, linux, difference
        self.word, self.arguments, self.here, self.there = line.word, line.arguments, difference.here, difference.there
        self.areas: list[Area] = space.areas

    def is_of(self, word: str, here: str = "", there: str = "") -> bool:
        return self.word == word and self.here.startswith(here) and self.there.startswith(there)

    def told(self, side: str) -> int:
        """The address that a side answers, or -1."""
        lines = self.difference.here_lines if side == "here" else self.difference.there_lines
        word = lines[0].rsplit(" ", 1)[-1] if lines else ""
        return int(word, 16) if word.startswith("0x") else -1

    def pages(self) -> tuple[int, int]:
        """The range that the first two arguments name, as pages."""
        start = self.arguments[0] // PAGE
        return start, start + pages_of(self.arguments[1])

    @property
    def lists_differ(self) -> bool:
        return self.here.startswith("list: ")

    @property
    def fixed(self) -> Optional[int]:
        """The fixed address of an mmap or mremap."""
        if self.word == "mmap":
            return self.arguments[0] if self.arguments[3] & (FIXED | MAP["MAP_FIXED_NOREPLACE"]) else None
        return self.arguments[4] if self.word == "mremap" and len(self.arguments) > 4 else None

    @property
    def new_pages(self) -> int:
        return pages_of(self.arguments[1 if self.word == "mmap" else 2]) if self.word in ("mmap", "mremap") else 0

    def has_sealed(self) -> bool:
        return len(self.arguments) > 1 and self.word != "fault" and self.space.has_sealed(*self.pages())


class Case(NamedTuple):
    """A name, a sentence, and a test of what the line is about."""

    name: str
    says: str
    test: Callable[[Seen], bool]


def is_moved(line: Line) -> bool:
    return line.word == "mremap" and bool(line.arguments[3] & MREMAP["MREMAP_FIXED"])


def is_mremap(test: Callable[[Seen], bool], here: str = "-1 E", there: str = "") -> Callable[[Seen], bool]:
    """A case of mremap whose answers begin so and whose arguments pass a test."""
    return lambda seen: seen.is_of("mremap", here, there) and test(seen)


def has_dontunmap(seen: Seen) -> bool:
    return bool(seen.arguments[3] & MREMAP["MREMAP_DONTUNMAP"])


def begins_sealed(seen: Seen) -> bool:
    area = area_at(seen.areas, seen.pages()[0])
    return area is not None and area.sealed


def has_several(seen: Seen) -> bool:
    lo, hi = seen.pages()
    area = area_at(seen.areas, lo)
    return seen.fixed is not None and hi - lo == seen.new_pages and area is not None and area.hi < hi


def is_past_object(seen: Seen) -> bool:
    area = area_at(seen.areas, seen.pages()[0])
    return area is not None and area.object > 0 and index_of(area, seen.pages()[0]) + seen.new_pages > MOST_OBJECT_PAGES


def is_cut_first(seen: Seen) -> bool:
    return seen.lists_differ and is_moved(seen.line) and seen.new_pages < pages_of(seen.arguments[1])


def is_border_refused(seen: Seen) -> bool:
    """Linux has a border within the range that the profile has not."""
    if not seen.is_of("mremap", there="-1 EFAULT") or seen.here.startswith("-1 EINVAL"):
        return False
    lo, hi = seen.pages()
    ours = {area.lo for area in seen.areas}
    return any(lo < vma.lo < hi and vma.lo not in ours for vma in seen.linux.vmas)


def is_heap_joined(seen: Seen) -> bool:
    """The range lies in one VMA of Linux, where the profile has the heap beside plain memory."""
    if not seen.is_of("mremap", "-1 EFAULT", "an address"):
        return False
    lo, hi = seen.pages()
    vma = seen.linux.vma_lookup(lo)
    return vma is not None and hi <= vma.hi and len({area.heap for area in areas_in(seen.areas, lo, hi)}) > 1


def is_aligned(seen: Seen) -> bool:
    return (
        seen.word in ("mmap", "mremap") and seen.here == "an address" and seen.fixed is None and seen.new_pages >= HUGE
    )


def is_overcommit(seen: Seen) -> bool:
    if seen.word == "brk":
        return seen.told("here") - seen.told("there") >= MUCH
    if is_two_errors(seen):
        return False
    place = {"mmap": 1, "mprotect": 1, "mremap": 2}.get(seen.word)
    return place is not None and seen.arguments[place] >= MUCH and (seen.there == "-1 ENOMEM" or seen.lists_differ)


def is_shared_validate(seen: Seen) -> bool:
    both = SHARED | PRIVATE
    is_refused_here = seen.is_of("mmap", "-1 EINVAL") and seen.there in ("an address", "-1 EOPNOTSUPP")
    return is_refused_here and seen.arguments[3] & both == both and not seen.arguments[3] & ANONYMOUS


def is_own_place(seen: Seen) -> bool:
    place = seen.told("here") if seen.word in ("mmap", "mremap") and seen.fixed is None else -1
    return 0 <= place < OWN_END and place + seen.new_pages * PAGE > OWN


def is_hint_min(seen: Seen) -> bool:
    """Hints have a lowest address of their own, with which the kernel was built."""
    return (
        seen.is_of("mmap", "an address", "another address")
        and seen.fixed is None
        and PAGE <= seen.arguments[0] < 0x10000
    )


def is_hint_crossing(seen: Seen) -> bool:
    """A hint at the end of 47 bits, or whose range passes it, where user memory goes on above."""
    end = PAGE * 0x7FFFFFFFF
    has_hint = seen.is_of("mmap") and seen.fixed is None and seen.space.limit * PAGE > end
    return has_hint and seen.arguments[0] <= end < seen.arguments[0] + seen.arguments[1] + PAGE


def is_near_end(seen: Seen) -> bool:
    return seen.word == "mmap" and seen.fixed is not None and seen.fixed > 2**64 - PAGE


def is_below_min(seen: Seen) -> bool:
    return seen.fixed is not None and seen.fixed < seen.space.min * PAGE and seen.here == "-1 EPERM" and not is_two_errors(seen)


def is_two_errors(seen: Seen) -> bool:
    return seen.here.startswith("-1 E") and seen.there.startswith("-1 E")


# Faults and growing areas


def area_of_fault(seen: Seen) -> Optional[Area]:
    return area_at(seen.areas, seen.arguments[0] // PAGE) if seen.is_of("fault") else None


def is_exec_only(seen: Seen) -> bool:
    area = area_of_fault(seen)
    return area is not None and area.prot == PROT["PROT_EXEC"] and seen.there == "SIGSEGV SEGV_PKUERR"


def is_vsyscall(seen: Seen) -> bool:
    return seen.is_of("fault") and bool(seen.arguments[0] // PAGE == VSYSCALL)


def is_shared_grown(seen: Seen) -> bool:
    area = area_of_fault(seen)
    return area is not None and area.object > len(seen.space.files) and seen.there == "SIGBUS BUS_ADRERR"


class Growth(NamedTuple):
    """Of a fault at a page that is not mapped, with a growing area next above it: how far that is, it, and the next
    area below."""

    distance: int
    above: Area
    below: Optional[Area]


def growth(seen: Seen) -> Optional[Growth]:
    if not seen.is_of("fault"):
        return None
    page = seen.arguments[0] // PAGE
    above = next((area for area in seen.areas if area.hi > page), None)
    below = next((area for area in reversed(seen.areas) if area.lo < page), None)
    return Growth(above.lo - page, above, below) if above and above.lo > page and above.grows else None


def is_growth(test: Callable[[Growth], bool]) -> Callable[[Seen], bool]:
    def holds(seen: Seen) -> bool:
        found = growth(seen)
        return found is not None and test(found)

    return holds


def is_near(found: Growth) -> bool:
    below = found.below
    return (
        below is not None
        and bool(below.prot)
        and not below.grows
        and found.above.lo - found.distance - below.hi < GUARD
    )


def has_none_below(found: Growth) -> bool:
    below = found.below
    return below is not None and below.hi == found.above.lo - found.distance and (below.prot == 0 or below.grows)


def is_below_hints(found: Growth) -> bool:
    return found.above.lo - found.distance < HINT_MIN


def is_large(found: Growth) -> bool:
    return found.above.hi - found.above.lo + found.distance > STACK_PAGES


def is_near_growing(seen: Seen, end: int) -> bool:
    """Whether a growing area begins within the guard above a page."""
    return any(area.grows and end <= area.lo < end + GUARD for area in seen.areas)


def is_grow_hint(seen: Seen) -> bool:
    if not seen.is_of("mmap", "an address", "another address") or seen.fixed is not None or seen.arguments[0] < PAGE:
        return False
    place = max(seen.arguments[0] // PAGE, seen.space.min)
    return seen.told("here") // PAGE == place and is_near_growing(seen, place + seen.new_pages)


def is_grow_search(seen: Seen) -> bool:
    is_placed = seen.word in ("mmap", "mremap") and (seen.told("here") >= 0 or seen.lists_differ) and seen.fixed is None
    return is_placed and any(area.grows for area in seen.areas)


# The break, seals and the limit


def is_brk(seen: Seen) -> bool:
    return seen.is_of("brk", "an address", "another address")


def is_brk_none(seen: Seen) -> bool:
    """Every process has a break, which may be anywhere."""
    return is_brk(seen) and not seen.space.heap


def is_grow_brk(seen: Seen) -> bool:
    return (
        is_brk(seen) and seen.told("here") > seen.told("there") and is_near_growing(seen, pages_of(seen.told("here")))
    )


def is_brk_unmapped(seen: Seen) -> bool:
    here, there = seen.told("here"), seen.told("there")
    return is_brk(seen) and here < there and not areas_in(seen.areas, pages_of(here), pages_of(there))


def is_brk_limit(seen: Seen) -> bool:
    return is_brk(seen) and seen.told("there") > seen.told("here") and pages_of(seen.told("there")) == seen.space.limit


def is_seal_split(seen: Seen) -> bool:
    """A refused call, other than mprotect, that has left a border where its range begins."""
    if seen.here not in ("list: joined", "list: name") or seen.word not in ("mmap", "munmap", "mremap", "brk"):
        return False
    if seen.word == "brk":
        return seen.space.has_sealed(pages_of(seen.arguments[0]), pages_of(seen.space.break_))
    to_sealed = is_moved(seen.line) and seen.space.has_sealed(
        seen.arguments[4] // PAGE, seen.arguments[4] // PAGE + seen.new_pages
    )
    return seen.has_sealed() or to_sealed


def is_limit(seen: Seen) -> bool:
    """There are about as many areas as there may be, and one side says that there are too many, or lets the break stay
    for it."""
    if len(seen.areas) + SPARE < seen.space.most_areas:
        return False
    return is_brk(seen) if seen.word == "brk" else has_limit_answer(seen)


def has_limit_answer(seen: Seen) -> bool:
    """A refusal, or what one left: other VMAs, or some that are sealed."""
    return "-1 ENOMEM" in (seen.here, seen.there) or seen.lists_differ or seen.there == "-1 EPERM"


CASES: list[Case] = [
    Case("own-addresses", "a place among the addresses of `vma kernel` itself", is_own_place),
    Case("heap-joined", "mremap over the border of the heap and plain memory, which Linux joined", is_heap_joined),
    Case("seal-split", "a call that a seal refuses leaves the first area split", is_seal_split),
    Case(
        "seal-dontunmap",
        "MREMAP_DONTUNMAP of a sealed area",
        lambda seen: seen.is_of("mremap", "-1 EINVAL", "-1 EPERM") and has_dontunmap(seen) and seen.has_sealed(),
    ),
    Case(
        "mremap-dontunmap",
        "MREMAP_DONTUNMAP",
        is_mremap(has_dontunmap),
    ),
    Case("mremap-old-zero", "mremap with an old length of 0", is_mremap(lambda seen: bool(seen.arguments[1] == 0))),
    Case(
        "mremap-old-wraps",
        "mremap with an old length that wraps",
        is_mremap(lambda seen: bool(pages_of(seen.arguments[1]) * PAGE >= 2**64)),
    ),
    Case(
        "mremap-past-limit",
        "mremap whose old range passes the limit",
        is_mremap(lambda seen: seen.pages()[1] > seen.space.limit, "-1 EFAULT"),
    ),
    Case(
        "mremap-too-long",
        "mremap to a length above user memory",
        is_mremap(lambda seen: seen.new_pages > seen.space.limit, "-1 ENOMEM"),
    ),
    Case("mremap-object-end", "mremap of a file past page 2^51 - 1", is_mremap(is_past_object, "-1 EINVAL")),
    Case(
        "seal-several",
        "mremap of several areas to a fixed place, one of them sealed",
        lambda seen: seen.is_of("mremap", "-1 EFAULT", "-1 EPERM") and has_several(seen) and seen.has_sealed(),
    ),
    Case(
        "seal-other-error",
        "mremap of a sealed area that fails for another reason too",
        lambda seen: seen.is_of("mremap", "-1 E", "-1 EPERM") and seen.has_sealed(),
    ),
    Case(
        "mremap-several",
        "mremap of several areas, or of one and a hole behind it, to a fixed place",
        is_mremap(has_several, "-1 EFAULT"),
    ),
    Case(
        "seal-fixed-cut",
        "mremap to a fixed place with a smaller size, a sealed page in what is cut",
        lambda seen: seen.lists_differ and is_moved(seen.line) and seen.has_sealed(),
    ),
    Case("mremap-cut-first", "mremap to a fixed place with a smaller size, refused", is_cut_first),
    Case(
        "seal-kept",
        "mremap with a sealed page in what stays",
        lambda seen: seen.is_of("mremap", "-1 EPERM", "an address") and seen.has_sealed(),
    ),
    Case("border-refused", "mremap over a border that only the kernel has", is_border_refused),
    Case(
        "seal-denied",
        "mprotect of a sealed area whose file denies the access",
        lambda seen: seen.is_of("mprotect", "-1 EPERM", "-1 EACCES") and begins_sealed(seen),
    ),
    Case(
        "seal-hole",
        "mprotect of a range with a hole or a refused area before the sealed one",
        lambda seen: seen.is_of("mprotect", "-1 EPERM", "-1 E") and seen.has_sealed(),
    ),
    Case(
        "seal-prefix",
        "mprotect of several areas, a later one sealed",
        lambda seen: seen.is_of("mprotect") and seen.lists_differ and seen.has_sealed(),
    ),
    Case("limit", "a call at the greatest number of areas", is_limit),
    Case("overcommit", "more memory than there is", is_overcommit),
    Case("grow-hint", "a hint within 256 pages below a growing area", is_grow_hint),
    Case("hint-min", "a hint below 0x10000", is_hint_min),
    Case("hint-47", "a hint at or over the end of 47 bits, under version 2", is_hint_crossing),
    Case("grow-search", "a place within 256 pages below a growing area, or one that is full of them", is_grow_search),
    Case("aligned", "a place that is aligned to 2 MiB", is_aligned),
    Case("shared-validate", "a file with MAP_SHARED and MAP_PRIVATE together", is_shared_validate),
    Case("near-end", "a fixed address in the last page of all addresses", is_near_end),
    Case("below-min", "a fixed address below the lowest", is_below_min),
    Case("error", "two tests hold, and each side tells the other's error", is_two_errors),
    Case("fault-exec-only", "an access to an area that may only be executed", is_exec_only),
    Case(
        "fault-exec-past-end",
        "an execution past a file's end",
        lambda seen: seen.is_of("fault", "SIGSEGV SEGV_ACCERR", "SIGBUS BUS_ADRERR") and seen.arguments[1] == "x",
    ),
    Case(
        "fault-not-canonical",
        "an access at an address that is not canonical",
        lambda seen: seen.is_of("fault", "", "SIGSEGV SI_KERNEL"),
    ),
    Case("fault-vsyscall", "an access to the page of [vsyscall]", is_vsyscall),
    Case("fault-shared-grown", "a page past the first size of shared anonymous memory", is_shared_grown),
    Case("grow-large", "an area that grows past the stack limit", is_growth(is_large)),
    Case("grow-near", "an area that can be accessed within 256 pages below a growing one", is_growth(is_near)),
    Case(
        "grow-none", "an area without access, or one that grows, right below a growing one", is_growth(has_none_below)
    ),
    Case("grow-min", "an area that would grow below 0x10000", is_growth(is_below_hints)),
    Case("grow-far", "an access two or more pages below a growing area", is_growth(lambda found: found.distance > 1)),
    Case(
        "grow-moved",
        "a growing area that was written at a low address and moved up",
        lambda seen: growth(seen) is not None and seen.there == "SIGSEGV SEGV_MAPERR",
    ),
    Case(
        "grow-denied",
        "an access that a growing area's protection does not allow",
        lambda seen: growth(seen) is not None and seen.lists_differ,
    ),
    Case("brk-none", "a break without `heap`", is_brk_none),
    Case("grow-brk", "a break within 256 pages below a growing area", is_grow_brk),
    Case("brk-limit", "a break at the end of user memory", is_brk_limit),
    Case("brk-unmapped", "a break that goes back over pages that are not mapped", is_brk_unmapped),
]
# These have no test of a line.
SAYS = {case.name: case.says for case in CASES} | {
    "border": "the same pages, in VMAs with other borders",
    "brk-name": "which VMAs are named [heap], and what joins them",
}


# Borders

Lists = list[tuple[int, int, tuple[str, int, str, str, str]]]


def parsed(lines: Sequence[str]) -> Optional[Lists]:
    """The VMAs of a list whose first line ends with `maps N`, or none where it is no list."""
    areas = areas_of(list(lines[1:])) if lines and "maps " in lines[0] else None
    return areas if areas is not None and lines[0].split(" ")[-1] == str(len(areas)) else None


def nameless(areas: Lists, page: int) -> Optional[tuple[str, int, str, str, str]]:
    """What a list has at a page, whatever is named [heap]."""
    area = next((area for area in areas if area[0] <= page < area[1]), None)
    if area is None:
        return None
    permissions, offset, device, inode, name = facts_at(area, page)
    return permissions, offset, device, inode, "" if name == "[heap]" else name


def border_name(seen: Seen) -> Optional[str]:
    """The name where the lists, or the VMAs that serve a fault, have the same pages in other VMAs."""
    if seen.here.startswith("served") and seen.there.startswith("served"):
        sides = [lines[0].split()[-3:] for lines in (seen.difference.here_lines, seen.difference.there_lines)]
        return "border" if sides[0] == sides[1] else None
    ours, theirs = parsed(seen.difference.here_lines), parsed(seen.difference.there_lines)
    if ours is None or theirs is None:
        return None
    pages = {page for lo, hi, _ in [*ours, *theirs] for page in (lo, hi)}
    if any(nameless(ours, page) != nameless(theirs, page) for page in pages):
        return None
    more = {area[0] for area in ours} - {area[0] for area in theirs}
    has_heap = any(area[2][4] == "[heap]" for area in [*ours, *theirs])
    return "brk-name" if has_heap and (more or len(ours) == len(theirs)) else "border"


# The row of a difference


def spaces_before(trace: Trace, kernel: Kernel, number: int) -> tuple[Space, LinuxSpace]:
    """Both spaces before a line, of the child that it is of."""
    spaces: dict[int, tuple[Space, LinuxSpace]] = {}
    first = Space(trace), LinuxSpace(trace, kernel)
    for line in trace.lines:
        ours, theirs = spaces.get(line.thread, first)
        if line.number == number:
            return ours, theirs
        if line.word == "fork":
            spaces[line.arguments[0]] = ours.child(), theirs.child()
        else:
            ours.answer(line)
            theirs.answer(line)
    return first


def name_of(trace: Trace, kernel: Kernel, difference: Difference) -> Optional[str]:
    """The row of a difference of the profile (here) and a kernel (there), or none."""
    line = next((line for line in trace.lines if line.number == difference.number), None)
    seen = Seen(line or Line(0, 0, "maps", [], None), *spaces_before(trace, kernel, difference.number or 0), difference)
    if line and line.word not in ("maps", "fork"):
        found = next((case.name for case in CASES if case.test(seen)), None)
        if found:
            return found
    return border_name(seen)
