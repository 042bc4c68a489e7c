"""A run as a picture: some versions of its list by address, beside the calls and faults of each thread."""
from __future__ import annotations

import math
from typing import Any

from ..model import ATTRIBUTES, Area, area_at, index_of
from ..traces import MAP, PAGE, File, Line
from .axis import Axis
from .runs import Item, Run
from .svg import Attributes, COLOURS, FAINT, INK, RULE, circle, number, path, picture_of, rect, svg_front, words

ROW, HEAD, LANE, NARROW_LANE, PAD = 24, 30, 22, 14, 14
WIDTH, LEAST_CALL_WIDTH, MOST_CALL_WIDTH = 830, 250, 428
MARGIN = 66  # right of the map: the last address, slanted, and the edge
CHUNK = 25  # versions in one part of a page
MONO = "ui-monospace,SFMono-Regular,Menlo,Consolas,'DejaVu Sans Mono',monospace"
FILLS: dict[str, str] = {
    "---": "#e4e6ea",
    "r--": "#bcd7f5",
    "rw-": "#bfe5c4",
    "r-x": "#f9d8a8",
    "rwx": "#f5b5b0",
    "-w-": "#dcecb4",
    "--x": "#e6ccf2",
    "-wx": "#f3c4dc",
}
EDGES = {
    "---": "#9aa1ab",
    "r--": "#4f86c6",
    "rw-": "#4d9e5a",
    "r-x": "#cf8a2e",
    "rwx": "#c9524a",
    "-w-": "#8ca636",
    "--x": "#9b62b8",
    "-wx": "#b9578a",
}
RED = "#c62f2f"
MIDDLE: Attributes = {"text_anchor": "middle"}
HEADING: Attributes = {"fill": FAINT, "font_size": 10}
CHANGED: Attributes = {"stroke": INK, "stroke_width": 1.8}
UNMAPPED: Attributes = {"fill": "#fff5f5", "stroke": RED, "stroke_width": 1.2, "stroke_dasharray": "3 2.5"}


def thread_colour(thread: int) -> str:
    return COLOURS[thread % len(COLOURS)]


def prot_letters(prot: int) -> str:
    return "".join(letter if prot & bit else "-" for letter, bit in (("r", 1), ("w", 2), ("x", 4)))


def amount(length: int) -> str:
    for unit, size in (("TiB", 2**40), ("GiB", 2**30), ("MiB", 2**20), ("KiB", 2**10)):
        if length >= size and length % size == 0:
            return f"{length // size} {unit}"
    return f"{length} B"


def at(value: int) -> str:
    return hex(value) if value else "0"


def short_call(line: Line, files: Files) -> str:
    """A line in few words: sizes in units, protections as letters."""
    word, a = line.word, line.arguments
    if word == "mmap":
        known = {"FIXED": "fixed", "FIXED_NOREPLACE": "noreplace", "SHARED": "shared", "GROWSDOWN": "grows"}
        names = [said for name, said in known.items() if a[3] & MAP[f"MAP_{name}"]]
        file = files.get(a[4])
        source = [] if a[3] & MAP["MAP_ANONYMOUS"] else [file.name.rsplit("/", 1)[-1][:24] if file else f"fd {a[4]}"]
        offset = [f"+{at(a[5])}"] if source and a[5] else []
        return " ".join(
            ["mmap", *([at(a[0])] if a[0] else []), amount(a[1]), prot_letters(a[2]), *names, *source, *offset]
        )
    if word in ("munmap", "mseal"):
        return f"{word} {at(a[0])} {amount(a[1])}"
    if word == "mprotect":
        return f"mprotect {at(a[0])} {amount(a[1])} {prot_letters(a[2])}"
    if word == "mremap":
        to = f" to {at(a[4])}" if len(a) > 4 else " may move" if a[3] & 1 else ""
        return f"mremap {at(a[0])} {amount(a[1])} → {amount(a[2])}{to}"
    if word == "fault":
        return f"{ {'r': 'read', 'w': 'write', 'x': 'execute'}[a[1]] } {at(a[0])}"
    return f"{word} {at(a[0])}" if word == "brk" else f"fork child {a[0]}" if word == "fork" else "read of the list"


def short_result(item: Item) -> str:
    """What an item resulted in, in few words."""
    if item.result.startswith("served"):
        return "served, grew" if item.is_call else "served"
    return item.result.removeprefix("SIGSEGV ").removeprefix("SIGBUS ").removeprefix("-1 ")


def fitted(text: str, width: float, letter: float) -> str:
    """The text, cut to a width."""
    most = int(width / letter)
    return text if len(text) <= most else text[: max(most - 1, 0)] + "…" if most > 2 else ""


Files = dict[int, File]  # by descriptor
Span = tuple[int, int, bool]  # pages, and whether they are mapped


class Picture:
    """Some versions of a run as an SVG."""

    def __init__(self, run: Run, first: int, last: int, files: Files) -> None:
        self.run, self.first, self.last, self.files = run, first, last, files
        self.items = [item for item in run.items if first <= item.version <= last]
        self.lists = run.lists[max(first - 1, 0) : last + 1]
        self.list_from = max(first - 1, 0)
        self.threads = sorted({item.line.thread for item in self.items})
        self.lane = LANE if len(self.threads) <= 12 else NARROW_LANE
        faults = [item.line.arguments[0] // PAGE for item in self.items if item.line.word == "fault"]
        self.out: list[str] = []
        self.lanes_x = PAD + 46
        self.text_x = self.lanes_x + self.lane * len(self.threads) + 6
        self.call_width = min(max(map(self.text_width, self.items), default=0), MOST_CALL_WIDTH)
        self.call_width = max(self.call_width, LEAST_CALL_WIDTH)
        self.map_x = self.text_x + self.call_width + 26
        self.axis = Axis(self.lists, faults, WIDTH - self.map_x - MARGIN)

    # Where things stand

    def text_width(self, item: Item) -> float:
        """The room that a line takes with its result."""
        label = 6.5 * max(len(f"L{item.line.number}"), 3) + 8
        result = short_result(item) + (f"  ≠ {item.expected}" if item.expected is not None else "")
        return label + 6.7 * len(short_call(item.line, self.files)) + 6.2 * len(result) + 14

    def lay_out(self) -> None:
        spaces = sorted(self.axis.x.items())
        longest = max((len(f"{page * PAGE:x}") for page in self.axis.x), default=4)
        self.slanted = any(
            after[1] - before[1] < (len(f"{before[0] * PAGE:x}") + len(f"{after[0] * PAGE:x}")) * 3.1 + 8
            for before, after in zip(spaces, spaces[1:])
        )
        self.width = self.map_x + self.axis.width + (longest * 4.2 if self.slanted else longest * 3.1) + PAD
        self.top = PAD + HEAD + (longest * 4.9 if self.slanted else 14)
        self.rows: list[float] = []
        version: int | None = None
        y = self.top
        for item in self.items:
            if version is not None and item.version != version:
                y += 4
            version = item.version
            self.rows.append(y)
            y += ROW
        self.bottom = y
        self.height = y + PAD
        # Each version's list is seen from its call down to the next.
        self.begins: dict[int, float] = {}
        for item, row in zip(self.items, self.rows):
            self.begins.setdefault(item.version, row)

    def version_top(self, version: int) -> float:
        later = [row for shown, row in self.begins.items() if shown >= version]
        return min(later) if later else self.bottom

    # The parts

    def box(self, *place: Any, **values: Any) -> None:
        self.out.append(rect(*place, **values))

    def say(self, *place: Any, **values: Any) -> None:
        self.out.append(words(*place, **values))

    def line(self, *points: Any, **values: Any) -> None:
        self.out.append(path(*points, **values))

    def draw(self) -> str:
        self.lay_out()
        self.version_bands()
        self.lanes()
        self.addresses()
        self.areas()
        self.changes()
        for item, row in zip(self.items, self.rows):
            self.item(item, row)
        label = f"Versions {self.first} to {self.last} of the list of VMAs, by address, with the calls and faults of each thread"
        return picture_of(self.width, self.height, label, self.out)

    def version_bands(self) -> None:
        for version, row in self.begins.items():
            end = self.version_top(version + 1)
            if end == self.bottom:
                end += 4
            fill = "#f7f8fa" if version % 2 else "#fff"
            self.box(PAD - 6, row - 2, self.width - 2 * PAD + 12, end - row, rx=5, fill=fill)
            self.say(PAD, row + 15.5, f"v{version}", font_weight="600", font_size="12")

    def lanes(self) -> None:
        for place, thread in enumerate(self.threads):
            x, colour = self.lanes_x + self.lane * (place + 0.5), thread_colour(thread)
            line = f"M{number(x)} {number(self.top - 8)}V{number(self.bottom - 4)}"
            self.line(line, stroke=colour, stroke_width=1.6, opacity=0.35)
            name, size = (f"t{thread}", 11) if self.lane == LANE else (str(thread), 8)
            bold = {**MIDDLE, "font_size": size, "font_weight": "600"}
            self.say(x, self.top - 13, name, f"thread {thread}", **bold, fill=colour)
        self.say(PAD, self.top - 13, "version", **HEADING)
        self.say(self.text_x, self.top - 13, "what each thread does", **HEADING)
        self.say(self.text_x + self.call_width, self.top - 13, "what it results in", **HEADING, text_anchor="end")
        if self.axis.cells:
            self.say(self.map_x, PAD + 6, "VMAs by address →", **HEADING)

    def addresses(self) -> None:
        """A rule where a VMA begins or ends, and its address where there is room."""
        last = -1e9
        for page, x in sorted(self.axis.x.items()):
            x += self.map_x
            self.line(f"M{number(x)} {number(self.top - 8)}V{number(self.bottom)}", stroke=RULE)
            text, room = f"{page * PAGE:x}", 11 if self.slanted else len(f"{page * PAGE:x}") * 6.2 + 6
            if x - last < room:
                continue
            last = x
            turn = {"transform": f"rotate(-50 {number(x)} {number(self.top - 12)})"} if self.slanted else MIDDLE
            self.say(x, self.top - 12, text, font_family=MONO, font_size=10, fill="#59616d", **turn)
        for start, (lo, hi, weight, quiet) in zip(self.axis.starts, self.axis.cells):
            if weight is None:
                self.folded(self.map_x + start, quiet)

    def folded(self, x: float, quiet: int) -> None:
        """A gap, or areas that stay as they are."""
        said = f"{quiet} VMAs that stay as they are" if quiet else "a gap, folded"
        width = self.axis.fold
        middle = x + width / 2
        zigzag = "".join(f"l{'4' if step % 2 else '-4'} 6" for step in range(int((self.bottom - self.top + 4) // 6)))
        fill = "#f0f1f4" if quiet else "#fff"
        self.box(x + 3, self.top - 6, width - 6, self.bottom - self.top + 6, said, fill=fill, opacity=0.9)
        self.line(f"M{number(middle + 2)} {number(self.top - 6)}{zigzag}", fill="none", stroke="#c9ced6", stroke_width=1)
        if quiet:
            self.say(middle, self.top - 12, f"+{quiet}", said, **MIDDLE, font_size=9, fill=FAINT)

    def areas(self) -> None:
        """Each area is one box, from the version that made it to the one that ended it."""
        alive: dict[Area, int] = {}
        for place, areas in enumerate(self.lists + [[]]):
            version = self.list_from + place
            here = {area for area in areas if area in self.axis.shown}
            for area in sorted(set(alive) - here):
                self.area(area, alive.pop(area), version)
            for area in here:
                alive.setdefault(area, version)

    def area(self, area: Area, since: int, until: int) -> None:
        """An area that is there from one version until another."""
        y = self.version_top(since) if since >= self.first else self.top
        end = self.version_top(until) if until <= self.last else self.bottom + 2
        if end <= y or area.lo not in self.axis.x:
            return
        x, letters = self.map_x + self.axis.x[area.lo], prot_letters(area.prot)
        width, height = self.map_x + self.axis.x[area.hi] - x, end - y - 3
        title = f"{self.run.space.maps_line(area)}\nfrom version {since} to {until - 1}"
        dash: Attributes = {"stroke_dasharray": "5 2"} if area.shared else {}
        edge: Attributes = {"stroke": EDGES[letters], "stroke_width": 1.8 if area.sealed else 1, **dash}
        self.box(x + 1, y, width - 2, height, title, rx=3, fill=FILLS[letters], **edge)
        if area.object:
            self.box(x + 1, y, min(4, width / 3), height, rx=1.5, fill=EDGES[letters])
        self.labels(area, letters, x, y, width, height)

    def labels(self, area: Area, letters: str, x: float, y: float, width: float, height: float) -> None:
        perms = letters + ("s" if area.shared else "p")
        marks = [name for name in ("grows", "sealed", "heap") if getattr(area, name)]
        file = self.run.file_of.get(area.object)
        name = file.name.rsplit("/", 1)[-1] if file else "shared memory" if area.object else ""
        lines = [perms + "".join(f" {mark}" for mark in marks), name]
        if width < 6.4 * len(lines[0]) + 4 and marks:
            lines = [perms, *marks, name]
        step = 0
        for place, text in enumerate(lines):
            shown = fitted(text, width - (8 if area.object else 4), 6.3)
            is_cut = shown != text and (place == 0 or len(shown) < 5)
            if not shown or is_cut or 16 + step > height + 1:
                continue
            middle, size = x + width / 2 + (1.5 if area.object else 0), 10.5 if place == 0 else 9.5
            how: Attributes = {"font_family": MONO, "font_size": size, "fill": "#27303b", "pointer_events": "none"}
            self.say(middle, y + 15.5 + step, shown, **MIDDLE, **how)
            step += 16 if place == 0 else 13

    def changes(self) -> None:
        """What each call changed: outlined where something is mapped, dashed where it was unmapped."""
        for item, row in zip(self.items, self.rows):
            if not item.is_call or item.version < 1:
                continue
            before, after = self.run.lists[item.version - 1], self.run.lists[item.version]
            if before == after:
                continue
            for lo, hi, is_mapped in self.changed_spans(before, after):
                x, end = self.map_x + self.axis.x[lo], self.map_x + self.axis.x[hi]
                if is_mapped:
                    outline: Attributes = {"rx": 3, "fill": "none", **CHANGED, "pointer_events": "none"}
                    self.box(x + 1.5, row + 0.5, end - x - 3, ROW - 4, **outline)
                else:
                    said = f"unmapped in version {item.version}"
                    self.box(x + 2, row + 1, end - x - 4, ROW - 5, said, rx=3, **UNMAPPED)

    def changed_spans(self, before: list[Area], after: list[Area]) -> list[Span]:
        """The runs of cells that a call changed, each with whether it is mapped afterwards."""
        spans: list[Span] = []
        for lo, hi, _, _ in self.axis.cells:
            if lo is None or hi is None:
                continue
            old, new = (self.mapped(areas, lo) for areas in (before, after))
            if old == new:
                continue
            if spans and spans[-1][1] == lo and spans[-1][2] == bool(new):
                spans[-1] = (spans[-1][0], hi, bool(new))
            else:
                spans.append((lo, hi, bool(new)))
        return spans

    @staticmethod
    def mapped(areas: list[Area], page: int) -> tuple[Any, ...] | None:
        area = area_at(areas, page)
        return (area[ATTRIBUTES], index_of(area, page)) if area else None

    def item(self, item: Item, row: float) -> None:
        line = item.line
        place = self.threads.index(line.thread)
        x, y, colour = self.lanes_x + self.lane * (place + 0.5), row + ROW / 2 - 2, thread_colour(line.thread)
        title = f"line {line.number}, thread {line.thread}, version {item.version}: {item.text}\n= {item.result}"
        title += f"\n{self.run.right}: {item.expected}" if item.expected else ""
        wrong = item.expected is not None
        if wrong:
            self.box(self.text_x - 4, row, self.call_width + 12, ROW - 4, rx=3, fill="#fde7e7", stroke=RED)
        dot, radius = RED if item.was_refused else colour, 4 if self.lane == LANE else 3
        if item.is_call:
            self.out.append(circle(x, y, radius + 1, title, fill=dot, stroke="#fff", stroke_width=1.5))
        else:
            self.out.append(circle(x, y, radius, title, fill="#fff", stroke=dot, stroke_width=1.8))
        result = short_result(item) + (f"  ≠ {item.expected}" if wrong else "")
        label = f"L{line.number}"
        self.say(self.text_x, row + 14.5, label, font_size=10, fill=FAINT)
        begin = self.text_x + 6.5 * max(len(label), 3) + 8
        room = self.text_x + self.call_width - begin - 6.2 * len(result) - 14
        said = fitted(short_call(line, self.files), room, 6.7)
        weight, ink = "500" if item.is_call else "400", RED if item.was_refused or wrong else "#44505e"
        self.say(begin, row + 14.5, said, title, font_family=MONO, font_size=11, font_weight=weight)
        end: Attributes = {"text_anchor": "end", "font_family": MONO, "font_size": 10.5, "fill": ink}
        self.say(self.text_x + self.call_width, row + 14.5, result, title, **end)
        if line.word == "fault":
            self.fault(item, row, title)

    def fault(self, item: Item, row: float, title: str) -> None:
        """A fault points to the address of its access, and to the area that serves it."""
        x = self.axis.place(item.line.arguments[0] // PAGE)
        if x is None:
            return
        x, y = x + self.map_x, row + ROW / 2 - 2
        colour = RED if item.was_refused else thread_colour(item.line.thread)
        dotted: Attributes = {"stroke_width": 1.1, "stroke_dasharray": "2 3", "opacity": 0.75, "fill": "none"}
        front = number(self.text_x + self.call_width + 5)
        self.line(f"M{front} {number(y)}H{number(x - 6)}", stroke=colour, **dotted)
        if item.was_refused:
            cross = f"M{number(x - 4)} {number(y - 4)}l8 8m0 -8l-8 8"
            self.line(cross, title, stroke=RED, stroke_width=2.2, fill="none")
        else:
            arrow = f"M{number(x - 6)} {number(y - 4.5)}l8 4.5l-8 4.5z"
            self.line(arrow, title, fill=colour, stroke="#fff", stroke_width=0.8)


def legend(runs: list[Run]) -> tuple[list[str], int]:
    """What the colours and marks mean, of those that occur, and how wide that is."""
    areas = [area for run in runs for areas in run.lists for area in areas]
    seen = {prot_letters(area.prot) for area in areas}
    plain: Attributes = {"fill": "#fff", "stroke": "#8a93a0"}
    # Each sign with its word, and how much room it takes.
    signs = [
        ([rect(0, 5, 26, 15, rx=3, fill=FILLS[letters], stroke=EDGES[letters])], 32, letters)
        for letters in FILLS
        if letters in seen
    ]
    if any(area.object for area in areas):
        signs.append(([rect(0, 5, 26, 15, rx=3, **plain), rect(0, 5, 4, 15, rx=1.5, fill="#8a93a0")], 32, "file"))
    if any(area.shared for area in areas):
        signs.append(([rect(0, 5, 26, 15, rx=3, **plain, stroke_dasharray="5 2")], 32, "shared"))
    signs += [
        ([rect(0, 5.5, 26, 14, rx=3, fill="none", **CHANGED)], 32, "changed by the call"),
        ([rect(0, 5.5, 26, 14, rx=3, **UNMAPPED)], 32, "unmapped by it"),
        ([circle(6, 12.5, 5, fill=COLOURS[0])], 18, "call"),
        ([circle(6, 12.5, 4, fill="#fff", stroke=COLOURS[0], stroke_width=1.8)], 18, "read or fault"),
        ([circle(6, 12.5, 5, fill=RED)], 18, "refused"),
    ]
    out: list[str] = []
    x: float = PAD
    for shapes, begin, word in signs:
        family: Attributes = {"font_family": MONO} if word in FILLS else {}
        out.append(
            f'<g transform="translate({number(x)} 0)">{"".join(shapes)}{words(begin, 17, word, font_size=11, **family)}</g>'
        )
        x += begin + 6.3 * len(word) + 18
    return out, math.ceil(x)


def legend_picture(runs: list[Run]) -> str:
    out, width = legend(runs)
    return "".join([svg_front(width, 26, "What the colours and marks mean"), *out, "</svg>"])


def parts_of(run: Run) -> list[tuple[int, int]]:
    """The versions of a run, in parts that can be read at a glance: at most so many versions and twice so many items."""
    counts: dict[int, int] = {}
    for item in run.items:
        counts[item.version] = counts.get(item.version, 0) + 1
    last = len(run.lists) - 1
    parts, first, items = [], 0, 0
    for version in range(last + 1):
        if version > first and (version - first >= CHUNK or items + counts.get(version, 0) > 2 * CHUNK):
            parts.append((first, version - 1))
            first, items = version, 0
        items += counts.get(version, 0)
    return parts + [(first, last)]


def picture(runs: list[Run], files: Files) -> str:
    """All runs as one SVG: the legend, and each part below the one above."""
    key, legend_width = legend(runs)
    width: float = legend_width
    parts: list[str] = []
    y = 32
    for run in runs:
        if len(runs) > 1:
            parts.append(words(PAD, y + 18, run.title, font_size=14, font_weight="600"))
            y += 24
        for first, last in parts_of(run):
            drawn = Picture(run, first, last, files)
            text = drawn.draw()
            parts.append(text.replace("<svg ", f'<svg y="{y}" ', 1).rstrip("\n"))
            y += math.ceil(drawn.height)
            width = max(width, drawn.width)
    return picture_of(width, y, "The VMAs of a run, version by version", [*key, *parts])
