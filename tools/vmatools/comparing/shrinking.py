"""Makes a trace small: as few lines as can be, and as small and round numbers."""

from collections.abc import Callable, Iterable, Iterator, Sequence
from typing import Any, Optional

from ..model import Area, Space, answer
from ..traces import FORMS, MAP, MREMAP, PAGE, PROT, TABLES, USER_PAGES, File, Line, Trace

BASE = 0x10  # the page at which the lowest range of a small trace begins
HINT_COST = 1000  # a hint tells a reader less than a fixed place, or than none
ODD_COST = 256  # a number of bytes tells a reader less than one of pages
ROUNDS = 8
CLUSTER = 0x10000  # points that are no more pages apart belong together
LAST_PAGE = USER_PAGES[2] + 16  # numbers above it are no places
PROTS = [PROT["PROT_READ"], PROT["PROT_READ"] | PROT["PROT_WRITE"], 0, PROT["PROT_WRITE"], PROT["PROT_EXEC"]]
SIZES = ("LEN", "OLDLEN", "NEWLEN", "OFF")
ROUND = (0x1000000, 0x100000, 0x10000, 0x1000, 0x100, 0x10)  # pages, of which a place that is easy to read is a multiple
FIXED, NOREPLACE, ANONYMOUS = MAP["MAP_FIXED"], MAP["MAP_FIXED_NOREPLACE"], MAP["MAP_ANONYMOUS"]


# What a trace costs to read


def number_cost(value: int) -> int:
    """Less for a number with fewer digits other than trailing zeros, in hexadecimal, then with fewer other than zero, and then
    for a smaller one."""
    digits = hex(value)[2:].rstrip("0")
    return 64 * len(digits) + 4 * (len(digits) - digits.count("0")) + value.bit_length()


def is_hint(line: Line) -> bool:
    return line.word == "mmap" and bool(line.arguments[0] > 0 and not line.arguments[3] & (FIXED | NOREPLACE))


def cost(trace: Trace) -> tuple[int, int, int, int, int]:
    """By this a trace is smaller than another one: by its lines, then its numbers, as they read, then its flags, then its
    numbers as such."""
    numbers, flags, values = 0, 0, 0
    for line in trace.lines:
        for kind, value in zip(FORMS[line.word], line.arguments):
            if kind == "PROT":
                flags += PROTS.index(value) if value in PROTS else len(PROTS) + value
            elif kind in TABLES:
                flags += 8 * bin(value).count("1")
                flags += bin(value & (MAP["MAP_SHARED"] | NOREPLACE)).count("1") if kind == "MAP" else 0
            elif kind == "ACCESS":
                flags += "rwx".index(value)
            else:
                values += value
                numbers += number_cost(abs(value)) + (ODD_COST if kind in SIZES and value % PAGE else 0)
        numbers += line.thread + (HINT_COST if is_hint(line) else 0) + (HINT_COST if line.after is not None else 0)
    settings = sum(number_cost(value) for value in trace.settings.values())
    files = sum(
        number_cost(file.size)
        + number_cost(file.inode)
        + file.major
        + file.minor
        + file.descriptor
        + len(file.name + file.mode)
        for file in trace.files
    )
    return len(trace.lines), len(trace.settings) + len(trace.files), numbers + settings + files, flags, values


# Places: the pages at which ranges begin and end


def ranges_of(line: Line) -> list[tuple[int, Optional[int]]]:
    """The ranges that a line names: for each the place of its address among the arguments, and that of its length or
    None."""
    named: dict[str, list[tuple[int, Optional[int]]]] = {
        "mmap": [(0, 1)],
        "munmap": [(0, 1)],
        "mprotect": [(0, 1)],
        "mseal": [(0, 1)],
        "fault": [(0, None)],
        "brk": [(0, None)],
        "mremap": [(0, 1), (0, 2), (4, 2)],
    }
    return [
        (address, length)
        for address, length in named.get(line.word, [])
        if address < len(line.arguments) and line.arguments[address] >= PAGE
    ]


def ends_of(line: Line, address: int, length: Optional[int]) -> tuple[int, int]:
    """First page of a range, and the page behind it."""
    start = line.arguments[address] // PAGE
    return start, start + (-(-line.arguments[length] // PAGE) if length is not None else 1)


def points_of(trace: Trace) -> list[int]:
    points = {page for line in trace.lines for pair in ranges_of(line) for page in ends_of(line, *pair)}
    points |= {value // PAGE for name, value in trace.settings.items() if name != "limit"}
    return sorted(page for page in points if page <= LAST_PAGE)


def moved(trace: Trace, to: dict[int, int]) -> Trace:
    """The trace in which each range begins and ends at the page to which `to` maps its own."""
    settings = {
        name: value if name == "limit" else to.get(value // PAGE, value // PAGE) * PAGE
        for name, value in trace.settings.items()
    }
    lines = []
    for line in trace.lines:
        arguments = list(line.arguments)
        for address, length in ranges_of(line):
            start, end = ends_of(line, address, length)
            if start in to:
                arguments[address] = to[start] * PAGE + line.arguments[address] % PAGE
            if length is not None and start in to and end in to and line.arguments[length]:
                short = -line.arguments[length] % PAGE
                arguments[length] = (to[end] - to[start]) * PAGE - short
        lines.append(line._replace(arguments=arguments))
    small = trace.with_lines(lines)
    small.settings = settings
    return small


def clusters_of(points: list[int]) -> list[list[int]]:
    clusters: list[list[int]] = []
    for point in points:
        if clusters and point - clusters[-1][-1] < CLUSTER:
            clusters[-1].append(point)
        else:
            clusters.append([point])
    return clusters


def narrowed(points: list[int], base: int) -> dict[int, int]:
    """A map of points that lie one page apart, from a base on."""
    return {point: base + place for place, point in enumerate(points)}


def moves_of(trace: Trace) -> Iterator[dict[int, int]]:
    """Ways to move the places of a trace closer to each other, or lower."""
    points = points_of(trace)
    if not points:
        return
    yield narrowed(points, BASE)
    for cluster in clusters_of(points):
        for base in (BASE, cluster[0]):
            yield narrowed(cluster, base)
        for base in (BASE, BASE * 0x10, *(cluster[0] & -pages for pages in ROUND)):
            if base:
                yield {point: point - cluster[0] + base for point in cluster}
        for place in range(1, len(cluster)):
            gap = cluster[place] - cluster[place - 1]
            for less in {gap - 1, gap // 2} - {0}:
                yield {point: point - less for point in cluster[place:]}
                yield {point: point + less for point in cluster[:place]}


# Single words


def plain_values(kind: str, value: Any, is_timed: bool) -> Sequence[Any]:
    """Values that a word could have in place of this one, the plainest first."""
    if kind == "PROT":
        return PROTS
    if kind == "ACCESS":
        return ["r", "w"]
    if kind in TABLES:
        fixed = [value & ~NOREPLACE | FIXED] if kind == "MAP" and value & NOREPLACE else []
        return [value & ~bit for bit in TABLES[kind].values() if value & bit] + fixed
    if kind == "MAPPED_FD":
        return [-1, 3]
    if kind == "C":
        return [1]
    if value <= LAST_PAGE * PAGE:  # a place or a length, which is moved with others: here it is only rounded
        powers = [1 << value.bit_length() - 1, 1 << value.bit_length()] if value > 1 << 32 else []
        smaller = [PAGE * pages for pages in (2, 3, 4, 8, 16)] + ([] if is_timed else halves(value))
        odd = [(value + PAGE - 1) & -PAGE, value & -PAGE, 1, (value & -PAGE) + 1] if value % PAGE else []
        return [0, PAGE, *powers, *odd, *smaller]
    sizes = (1 << value.bit_length() - 1, 1 << 32, PAGE)
    rounded = [*(value & -size for size in sizes), *((value + size - 1) & -size for size in sizes)]
    return [0, 1, PAGE, BASE * PAGE, *([] if is_timed else halves(value)), *rounded]


def halves(value: int) -> list[int]:
    """Numbers of pages on the way down from a large one, the smallest first: what a system does from some size on needs
    no more."""
    found = []
    while value > 16 * PAGE:
        value = (value // 2) & -PAGE
        found.append(value)
    return found[::-1]


def plain_lines(line: Line, is_timed: bool) -> Iterator[Line]:
    """Lines with one word, or words that belong together, made plainer."""
    if line.word == "mmap" and not line.arguments[3] & ANONYMOUS:
        address, length, prot, flags, _, _ = line.arguments
        yield line._replace(arguments=[address, length, prot, flags | ANONYMOUS, -1, 0])
    if line.word == "mmap" and not line.arguments[3] & MAP["MAP_PRIVATE"]:
        address, length, prot, flags, *rest = line.arguments
        yield line._replace(arguments=[address, length, prot, flags & ~MAP["MAP_SHARED"] | MAP["MAP_PRIVATE"], *rest])
    if line.word == "mremap" and len(line.arguments) == 5:
        *first, flags, _ = line.arguments
        yield line._replace(arguments=[*first, flags & ~MREMAP["MREMAP_FIXED"]])
    for place, kind in enumerate(FORMS[line.word][: len(line.arguments)]):
        for value in plain_values(kind, line.arguments[place], is_timed):
            if value != line.arguments[place] and (kind == "ACCESS" or value < 2**64):
                yield line._replace(arguments=[*line.arguments[:place], value, *line.arguments[place + 1 :]])


def fixed_lines(trace: Trace) -> dict[int, Line]:
    """For each mapping without a fixed place, the line that maps at the place that is found for it."""
    space = Space(trace)
    fixed: dict[int, Line] = {}
    for place, line in enumerate(trace.lines):
        if line.word == "fork":
            return fixed  # lines of children are left as they are
        found = answer(space, line)[0][0]
        if line.word == "mmap" and not line.arguments[3] & (FIXED | NOREPLACE) and found.startswith("0x"):
            address, length, prot, flags, *rest = line.arguments
            fixed[place] = line._replace(arguments=[int(found, 16), length, prot, flags | FIXED, *rest])
    return fixed


def rebuilt_prefixes(trace: Trace) -> Iterator[tuple[int, list[Line]]]:
    """For each number of lines at the beginning, lines that map at once what these leave, where they can."""
    space = Space(trace)
    for place, line in enumerate(trace.lines, 1):
        if line.word == "fork":
            return
        answer(space, line)
        if not any(area.sealed or area.heap for area in space.areas):
            yield place, [mapping_of(space, area) for area in space.areas]


def mapping_of(space: Space, area: Area) -> Line:
    """The line that maps an area."""
    file = space.file_of.get(area.object)
    sharing, grows = MAP["MAP_SHARED" if area.shared else "MAP_PRIVATE"], MAP["MAP_GROWSDOWN"] if area.grows else 0
    descriptor, offset, anonymous = (file.descriptor, area.offset, 0) if file else (-1, 0, ANONYMOUS)
    arguments = [
        area.lo * PAGE,
        (area.hi - area.lo) * PAGE,
        area.prot,
        FIXED | sharing | grows | anonymous,
        descriptor,
        offset * PAGE,
    ]
    return Line(0, 0, "mmap", arguments, None)


class Shrinker:
    """Shrinks a trace. `first_same` is given traces, and returns the place of the first that still differs in the same
    way, or None."""

    def __init__(
        self, trace: Trace, first_same: Callable[[list[Trace]], Optional[int]], is_timed: bool = False
    ) -> None:
        """`is_timed` is whether it differs in how long it takes: then no number is made so small that it just does."""
        self.trace, self.first_same, self.is_timed = trace, first_same, is_timed

    def takes(self, candidates: Iterable[Trace]) -> bool:
        """Goes on with the first smaller trace that differs in the same way, if there is one."""
        now = cost(self.trace)
        smaller = [candidate.numbered() for candidate in candidates if cost(candidate) < now]
        found = self.first_same(smaller)
        if found is not None:
            self.trace = smaller[found]
        return found is not None

    def shrink(self) -> Trace:
        """The smallest trace that was found."""
        self.without_lines()
        for _ in range(ROUNDS):
            steps = (
                self.without_settings,
                self.fewer_threads,
                self.without_notes,
                self.closer,
                self.rebuilt,
                self.plain,
                self.same_ranges,
                self.fixed,
                self.closer,
                self.plain_files,
                self.single_lines,
            )
            if not any([step() for step in steps]):
                break
        return self.trace

    def repeated(self, candidates_of: Callable[[Trace], Iterable[Trace]]) -> bool:
        """Takes what it can again and again. Says whether it took anything."""
        count = 0
        while self.takes(candidates_of(self.trace)):
            count += 1
        return count > 0

    def without_lines(self) -> None:
        """Leaves lines out: half of them, a quarter, and so on down to single ones."""
        size = len(self.trace.lines)
        while size > 1:
            size = -(-size // 2)
            start = 0
            while start < len(self.trace.lines):
                lines = self.trace.lines
                starts = range(start, len(lines), size)
                candidates = [self.trace.with_lines(lines[:at] + lines[at + size :]).numbered() for at in starts]
                found = self.first_same(candidates)
                if found is None:
                    break
                # What stands before the gap was tried.
                self.trace, start = candidates[found], starts[found]

    def single_lines(self) -> bool:
        """Leaves single lines out again, alone or with one area less that is allowed."""

        def candidates(trace: Trace) -> Iterator[Trace]:
            for place in range(len(trace.lines)):
                fewer = trace.with_lines(trace.lines[:place] + trace.lines[place + 1 :])
                yield fewer
                if trace.settings.get("limit", 1) > 1:
                    yield with_settings(fewer, limit=trace.settings["limit"] - 1)

        return self.repeated(candidates)

    def rebuilt(self) -> bool:
        """Mappings in place of the lines that made them: as many lines at the beginning as can be."""

        def candidates(trace: Trace) -> Iterator[Trace]:
            for place, mappings in reversed(list(rebuilt_prefixes(trace))):
                yield trace.with_lines(mappings + trace.lines[place:])

        return self.repeated(candidates)

    def without_settings(self) -> bool:
        def candidates(trace: Trace) -> Iterator[Trace]:
            for name in trace.settings:
                yield with_settings(trace, **{name: None})
            for file in trace.files:
                fewer = trace.with_lines(trace.lines)
                fewer.files = [other for other in trace.files if other is not file]
                yield fewer
            if trace.version == 2:
                first = trace.with_lines(trace.lines)
                first.version = 1
                yield first

        return self.repeated(candidates)

    def fewer_threads(self) -> bool:
        """The lines of two threads as those of one, of all threads first; and the next numbers for threads and children."""

        def candidates(trace: Trace) -> Iterator[Trace]:
            threads = threads_of(trace)
            yield with_threads(trace, dict.fromkeys(threads, 0))
            to = {thread: place for place, thread in enumerate(threads)}
            for place in range(1, len(threads)):
                for other in range(place):
                    yield with_threads(trace, {thread: joined(to[thread], place, other) for thread in threads})
            yield with_threads(trace, to)

        return self.repeated(candidates)

    def without_notes(self) -> bool:
        """Lines that name no line: all of them first."""

        def candidates(trace: Trace) -> Iterator[Trace]:
            places = [place for place, line in enumerate(trace.lines) if line.after is not None]
            for some in [places, *([place] for place in places)]:
                yield trace.with_lines(
                    line._replace(after=None) if place in some else line for place, line in enumerate(trace.lines)
                )

        return self.repeated(candidates)

    def same_ranges(self) -> bool:
        """The range of a line in the place of that of another one."""

        def candidates(trace: Trace) -> Iterator[Trace]:
            ranges = {tuple(line.arguments[:2]) for line in trace.lines if (0, 1) in ranges_of(line)}
            for place, line in enumerate(trace.lines):
                for address, length in ranges if (0, 1) in ranges_of(line) else ():
                    other = line._replace(arguments=[address, length, *line.arguments[2:]])
                    yield trace.with_lines([*trace.lines[:place], other, *trace.lines[place + 1 :]])

        return self.repeated(candidates)

    def plain(self) -> bool:
        def candidates(trace: Trace) -> Iterator[Trace]:
            for place, line in enumerate(trace.lines):
                for plainer in plain_lines(line, self.is_timed):
                    yield trace.with_lines(trace.lines[:place] + [plainer] + trace.lines[place + 1 :])
            for name, value in trace.settings.items():
                for number in range(1, min(value, 9)) if name == "limit" else ():
                    yield with_settings(trace, limit=number)

        return self.repeated(candidates)

    def fixed(self) -> bool:
        """Mappings at places that were found, at fixed ones."""
        fixed = fixed_lines(self.trace)
        choices = [fixed] + [{place: line} for place, line in fixed.items()] if fixed else []
        candidates = []
        for choice in choices:
            there = self.trace.with_lines(choice.get(place, line) for place, line in enumerate(self.trace.lines))
            candidates += [moved(there, to) for to in moves_of(there)]
        return self.takes(candidates)

    def closer(self) -> bool:
        return self.repeated(lambda trace: [moved(trace, to) for to in moves_of(trace)])

    def plain_files(self) -> bool:
        def candidates(trace: Trace) -> Iterator[Trace]:
            for place, file in enumerate(trace.files):
                for other in plain_files(file):
                    lines = [with_descriptor(line, file.descriptor, other.descriptor) for line in trace.lines]
                    fewer = trace.with_lines(lines)
                    fewer.files = trace.files[:place] + [other] + trace.files[place + 1 :]
                    yield fewer

        return self.repeated(candidates)


def plain_files(file: File) -> list[File]:
    """A file made plainer, the plainest first."""
    plain = File(3, "rw", PAGE, 0, 0, 1, "/f")
    return [
        plain,
        plain._replace(mode="r"),
        plain._replace(mode=file.mode, size=file.size),
        plain._replace(mode=file.mode, size=file.size, major=file.major, minor=file.minor, inode=file.inode),
        file._replace(descriptor=3),
        *(file._replace(mode=mode) for mode in ("r", "rw")),
        *(file._replace(size=size) for size in (0, 1, PAGE, 2 * PAGE)),
    ]


def with_descriptor(line: Line, old: int, new: int) -> Line:
    """The line with another descriptor in the place of one."""
    if line.word != "mmap" or line.arguments[4] != old:
        return line
    return line._replace(arguments=[*line.arguments[:4], new, line.arguments[5]])


def with_settings(trace: Trace, **settings: Optional[int]) -> Trace:
    other = trace.with_lines(trace.lines)
    other.settings = {name: value for name, value in (trace.settings | settings).items() if value is not None}
    return other


def threads_of(trace: Trace) -> list[int]:
    """The threads that are no children, in the order in which they come."""
    children = {line.arguments[0] for line in trace.lines if line.word == "fork"}
    return list(dict.fromkeys(line.thread for line in trace.lines if line.thread not in children))


def joined(number: int, place: int, other: int) -> int:
    """The number of a thread where the one at a place has become another one, below it."""
    return other if number == place else number - (number > place)


def with_threads(trace: Trace, to: dict[int, int]) -> Trace:
    """The trace with these numbers for its threads, and the next ones for children. No line waits for one of its own thread."""
    children = [line.arguments[0] for line in trace.lines if line.word == "fork"]
    numbers = to | {child: place for place, child in enumerate(children, max(to.values(), default=0) + 1)}
    thread_of = {line.number: numbers[line.thread] for line in trace.lines}
    return trace.with_lines(
        line._replace(
            thread=numbers[line.thread],
            arguments=[numbers[line.arguments[0]]] if line.word == "fork" else line.arguments,
            after=None if line.after is None or thread_of.get(line.after) == numbers[line.thread] else line.after,
        )
        for line in trace.lines
    )
