"""What `steps` answers to a script.

It is written from docs/SCRIPTS.md and docs/MODEL.md alone, but for the words of a row, which are those of the crate mm_types, and
has nothing of the program's code.
"""

from collections.abc import Callable
from typing import NamedTuple

from .. import model, traces
from ..traces import BadLine, Line
from .sessions import text_of

MOST_LINES = 10_000
MOST_PARTS = 8
FIELDS = 4
CORES = ("lock", "grace")
CALLS = ("mmap", "munmap", "mprotect", "mremap")
# The words behind the name of each event.
FORMS = {
    "lock": {"add": "RP", "look": "R", "field": "RI", "sub": "R", "begin": "", "mark": "P", "store": "PIX", "end": "T"},
    "grace": {"open": "R", "close": "R", "root": "R", "word": "RP", "fill": "PX", "publish": "XP", "scan": "R"},
}
ATTACHED, AREA_END = 1 << 15, 2**45

Row = tuple[int, ...]

DETACHED: Row = (0, 0, 0, 0)


class Event(NamedTuple):
    """An event: its line, its name, its numbers, and the call of an `end`."""

    line: int
    name: str
    numbers: list[int]
    call: Line | None = None


class Refused(Exception):
    """Why an event is refused."""


def refuse(reason: str, holds: bool) -> None:
    if holds:
        raise Refused(reason)


# Reading


class Script:
    """A script while its lines are read."""

    def __init__(self) -> None:
        self.core = ""
        self.readers = self.parts = 0
        self.events: list[Event] = []

    def add(self, number: int, text: str) -> None:
        words = traces.words_of(text)
        if number == 1:
            if words != ["vmasteps", "1"]:
                raise BadLine("Header", "header")
        elif words and not words[0].startswith("#"):
            self.say(number, words)
        if number > MOST_LINES:
            raise BadLine("TooMany", "lines")

    def say(self, number: int, words: list[str]) -> None:
        if self.core:
            self.events.append(self.event(number, words[0], words[1:]))
            return
        if words[0] not in CORES:
            raise BadLine("Word", "core")
        if len(words) != 3:
            raise BadLine("Arity", "core")
        self.readers, self.parts = (number_of(word, 1, MOST_PARTS) for word in words[1:])
        self.core = words[0]

    def event(self, number: int, name: str, words: list[str]) -> Event:
        form = FORMS[self.core].get(name)
        if form is None:
            raise BadLine("Word", "event")
        if name == "end":
            return self.end(number, words)
        if name == "publish":
            form += "P" * (len(words) - 2)
        if len(words) != len(form):
            raise BadLine("Arity", "event")
        most = {"R": self.readers - 1, "P": self.parts - 1, "I": FIELDS - 1, "X": traces.MOST_NUMBER}
        return Event(number, name, [number_of(word, 0, most[kind]) for kind, word in zip(form, words)])

    @staticmethod
    def end(number: int, words: list[str]) -> Event:
        if len(words) < 2:
            raise BadLine("Arity", "end")
        thread, name = traces.thread_of(words[0]), words[1]
        if thread is None:
            raise BadLine("Number", "thread")
        if name not in CALLS:
            raise BadLine("Word", "call")
        arguments = traces.Reader.arguments(name, words[2:])
        if name == "mremap" and bool(arguments[3] & traces.MREMAP["MREMAP_FIXED"]) != (len(arguments) == 5):
            raise BadLine("Arity", "NEW")
        return Event(number, "end", [], Line(number, thread, name, arguments, None))


def number_of(word: str, least: int, most: int) -> int:
    value = traces.number_of(word)
    if value is None or not least <= value <= most:
        raise BadLine("Number", "number")
    return value


def read(data: bytes) -> Script:
    """The script that an input is. Raises BadLine at the first line that is bad."""
    script = Script()
    *lines, rest = data.split(b"\n")
    for number, raw in enumerate(lines + [rest] * bool(rest), 1):
        try:
            script.add(number, text_of(raw, number <= len(lines)))
        except BadLine as bad:
            bad.line = number
            raise
    if not script.core:
        raise BadLine("Header", "core")
    return script


# The lock core


def words_of(area: model.Area) -> Row:
    """The row of an area."""
    flags = (area.shared, area.grows, area.sealed, area.heap)
    bits = area.prot | area.most << 3 | sum(flag << place for place, flag in enumerate(flags, 6))
    return bits | ATTACHED | area.lo << 16, area.hi, area.object, area.offset


def first_page(row: Row) -> int:
    """Where the area of a row begins; a row of no area stands behind all areas."""
    first, hi, object, offset = row
    lo, prot, most, is_shared = first >> 16, first & 7, first >> 3 & 7, first >> 6 & 1
    fits = lo < hi <= AREA_END and not prot & ~most and first & 0xFC00 == ATTACHED
    if object == 0:
        fits = fits and offset == 0 and not is_shared
    else:
        fits = fits and object < 2**32 and offset + hi - lo <= model.MOST_OBJECT_PAGES
    return lo if fits else AREA_END


class LockCore:
    def __init__(self, script: Script) -> None:
        self.seq = 2
        self.marks = [0] * script.parts
        self.rows: list[Row] = [DETACHED] * script.parts
        self.held: list[tuple[int, int] | None] = [None] * script.readers  # the slot, and the lock sequence found there
        self.space = model.Space(traces.Trace())

    def count(self, slot: int) -> int:
        return sum(held is not None and held[0] == slot for held in self.held)

    def hold(self, reader: int) -> tuple[int, int]:
        held = self.held[reader]
        if held is None:
            raise Refused("4 NotHeld")
        return held

    def is_open(self) -> bool:
        return self.seq % 2 == 1

    def add(self, reader: int, slot: int) -> str:
        refuse("7 AlreadyHeld", self.held[reader] is not None)
        self.held[reader] = slot, self.marks[slot]
        return f"found {self.marks[slot]}"

    def look(self, reader: int) -> str:
        held = self.held[reader]
        is_marked = held is not None and held[1] == self.seq
        return f"seq {self.seq} " + ("marked" if is_marked else f"version {self.seq // 2 - 1}")

    def field(self, reader: int, place: int) -> str:
        return f"word {self.rows[self.hold(reader)[0]][place]:#x}"

    def sub(self, reader: int) -> str:
        self.hold(reader)
        self.held[reader] = None
        return "ok"

    def begin(self) -> str:
        refuse("6 AlreadyOpen", self.is_open())
        self.seq += 1
        return "ok"

    def mark(self, slot: int) -> str:
        refuse("1 NotOpen", not self.is_open())
        refuse(f"2 ReadersLeft {self.count(slot)}", self.count(slot) > 0)
        self.marks[slot] = self.seq
        return "ok"

    def store(self, slot: int, place: int, word: int) -> str:
        refuse("1 NotOpen", not self.is_open())
        refuse("3 NotMarked", self.marks[slot] != self.seq)
        row = self.rows[slot]
        self.rows[slot] = (*row[:place], word, *row[place + 1 :])
        return "ok"

    def end(self, call: Line) -> str:
        refuse("1 NotOpen", not self.is_open())
        after = self.space.child()
        model.answer(after, call)
        rows = sorted((row for row in self.rows if row != DETACHED), key=first_page)
        wanted = [words_of(area) for area in after.areas]
        if rows != wanted:
            same = next((n for n, (a, b) in enumerate(zip(rows, wanted)) if a != b), min(len(rows), len(wanted)))
            raise Refused(f"8 NotTheList {same}")
        self.space, self.seq = after, self.seq + 1
        return "ok"

    def shown(self) -> str:
        slots = (f" {slot}:{mark}/{self.count(slot)}" for slot, mark in enumerate(self.marks))
        return f"S {self.seq} M{''.join(slots)}"


# The grace core


class Tree(NamedTuple):
    number: int
    rows: list[int]
    words: list[int]  # of all rows, when it was published


class GraceCore:
    def __init__(self, script: Script) -> None:
        self.words = [0] * script.parts
        self.tree = Tree(0, [0], list(self.words))
        self.since = [0] * script.parts  # the tree that left the row out last
        self.pins = [0] * script.readers
        self.snapshots: list[Tree | None] = [None] * script.readers
        # Of the scans of a reader: the tree up to which they cleared it, the last pin, and the tree of the last scan.
        self.cleared, self.found, self.scanned = ([0] * script.readers for _ in range(3))
        self.passed = 0

    def waits(self, row: int) -> bool:
        return row not in self.tree.rows and self.since[row] > self.passed

    def is_free(self, row: int) -> bool:
        return row not in self.tree.rows and self.since[row] <= self.passed

    def turn(self, reader: int) -> str:
        self.pins[reader] += 1
        self.snapshots[reader] = None
        return "ok"

    def open(self, reader: int) -> str:
        refuse("5 AlreadyOpen", self.pins[reader] % 2 == 1)
        return self.turn(reader)

    def close(self, reader: int) -> str:
        refuse("1 NotOpen", self.pins[reader] % 2 == 0)
        return self.turn(reader)

    def root(self, reader: int) -> str:
        refuse("1 NotOpen", self.pins[reader] % 2 == 0)
        self.snapshots[reader] = self.tree
        return f"tree {self.tree.number} row {self.tree.rows[0]}"

    def word(self, reader: int, row: int) -> str:
        refuse("1 NotOpen", self.pins[reader] % 2 == 0)
        snapshot = self.snapshots[reader]
        if snapshot is None or row not in snapshot.rows:
            raise Refused(f"3 RowNotShown {row}")
        return f"word {snapshot.words[row]:#x}"

    def fill(self, row: int, word: int) -> str:
        refuse(f"2 RowNotFree {row}", not self.is_free(row))
        self.words[row] = word
        return "ok"

    def publish(self, number: int, *rows: int) -> str:
        refuse(f"4 WrongTree {number}", number != self.tree.number + 1)
        for row in rows:
            refuse(f"2 RowNotFree {row}", self.waits(row) or rows.count(row) > 1)
        for row in self.tree.rows:
            if row not in rows:
                self.since[row] = number
        self.tree = Tree(number, list(rows), list(self.words))
        self.elapse()
        return "ok"

    def scan(self, reader: int) -> str:
        pin = self.pins[reader]
        if pin % 2 == 0:
            self.cleared[reader] = self.tree.number
        elif pin != self.found[reader]:
            self.cleared[reader] = self.scanned[reader]
        self.found[reader], self.scanned[reader] = pin, self.tree.number
        self.elapse()
        return f"pin {pin}"

    def elapse(self) -> None:
        self.passed = max(self.passed, min(self.tree.number, *self.cleared))

    def shown(self) -> str:
        pins = "".join(f" {reader}:{pin}" for reader, pin in enumerate(self.pins))
        free, waits = (
            "".join(f" {row}" for row in range(len(self.words)) if holds(row)) for holds in (self.is_free, self.waits)
        )
        return f"T {self.tree.number} root {self.tree.rows[0]} P{pins} free{free} wait{waits}"


def steps(data: bytes) -> tuple[int, bytes, bytes]:
    """Status, standard output and standard error of `steps`."""
    try:
        script = read(data)
    except BadLine as bad:
        return 3, b"", f"trace {bad}\n".encode()
    core: LockCore | GraceCore = LockCore(script) if script.core == "lock" else GraceCore(script)
    lines = []
    for event in script.events:
        make: Callable[..., str] = getattr(core, event.name)
        try:
            result = make(event.call) if event.call else make(*event.numbers)
        except Refused as refused:
            result = f"refused {refused}"
        lines.append(f"L{event.line} {result} | {core.shown()}\n")
    return 0, "".join(lines).encode(), b""
