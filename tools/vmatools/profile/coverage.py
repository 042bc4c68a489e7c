"""Which rows of the tables of docs/MODEL.md traces reach, and how often.

Rows are named by their test. The model tells which row decides (`Space.note`), and a space that counts them stands in
its place here.
"""
from __future__ import annotations

from collections import Counter
from collections.abc import Iterator

from ..model import Area, Space, index_of, joins
from ..traces import Trace
from .serial import serial_output

# Of each table its rows: what the model notes behind the name of the table, and the test or the case as the table has
# it.
TABLES: dict[str, dict[str, str]] = {
    "mmap": {
        "odd-offset": "the offset is not a multiple of 4096",
        "no-file": "the descriptor is no file's",
        "no-length": "the length is 0",
        "longer-than-memory": "the length has more pages than user memory",
        "offset-overflows": "the offset and the length exceed 2^63 - 1",
        "sharing": "both or none of MAP_SHARED and MAP_PRIVATE",
        "cannot-grow": "MAP_GROWSDOWN, and not private anonymous memory",
        "denied": "the file is not open for it",
        "odd-place": "a fixed place that is not a multiple of 4096",
        "below-min": "a fixed place below `min`",
        "past-limit": "a fixed place, and the end lies past the limit",
        "taken": "MAP_FIXED_NOREPLACE, and a page of the range is mapped",
        "no-place": "no fixed place, and placement finds none",
        "too-many": "too many areas",
        "sealed": "a page of the range is sealed",
        "done": "the new area is put at its place",
    },
    "munmap": {
        "odd-address": "the address is not a multiple of 4096",
        "no-length": "the length is 0",
        "past-limit": "the end lies past the limit",
        "too-many": "too many areas",
        "sealed": "a page of the range is sealed",
        "done": "the range is cut out",
    },
    "mprotect": {
        "odd-address": "the address is not a multiple of 4096",
        "no-length": "the length is 0",
        "past-all": "the end is 2^64 or more",
        "sealed": "a page of the range is sealed",
        "too-many": "too many areas",
        "done": "all pages have the protection",
        "not-mapped": "the stop is not mapped",
        "may-not-have": "the stop may not have the protection",
    },
    "mremap": {
        "other-flag": "a flag other than MREMAP_MAYMOVE and MREMAP_FIXED",
        "may-not-move": "MREMAP_FIXED without MREMAP_MAYMOVE",
        "odd-address": "the old address is not a multiple of 4096",
        "no-new-length": "the new length is 0",
        "no-old-length": "the old length is 0",
        "past-limit": "the end of the old range lies past the limit",
        "new-misplaced": "it moves to a place that is odd, or past the limit",
        "below-min": "it moves to a place below `min`",
        "overlap": "it moves to a range that shares a page with the old one",
        "not-mapped": "the first page of the old range is not mapped",
        "leaves-area": "what stays of the old range is not in one area",
        "object-overflows": "the index at its end exceeds 2^51 - 1",
        "no-room": "it has no room in place, and may not move or finds no place",
        "too-many": "too many areas",
        "sealed": "a page of either range is sealed",
        "to-place": "it moves to a place",
        "shorter": "it does not get longer",
        "longer-in-place": "it gets longer in place",
        "longer-elsewhere": "it gets longer elsewhere",
    },
    "brk": {
        "no-heap": "there is no heap",
        "below-heap": "the address lies below `heap`",
        "same-page": "the page is that of the break",
        "lower-sealed": "lower: a page that is given back is sealed",
        "lower-too-many": "lower: too many areas",
        "lower": "lower",
        "higher-no-room": "higher: the pages and the one after them are not free",
        "higher-too-many": "higher: too many areas",
        "higher": "higher",
    },
    "mseal": {
        "flag": "a flag is set",
        "odd-address": "the address is not a multiple of 4096",
        "past-all": "the end is 2^64 or more",
        "no-length": "the length is 0",
        "hole": "a page of the range is not mapped",
        "too-many": "too many areas",
        "done": "the pages are sealed",
    },
    "touch": {"grows": "an area grows into the page and allows the access"},
    "fault": {
        "not-mapped": "no area has the page, and none would grow into it",
        "grower-denies": "one would grow into it, and denies the access",
        "denied": "the protection does not allow the access",
        "past-end": "the page is past the end of the file",
        "served": "the area serves it",
    },
    "placement": {
        "window-hint": "at the hint",
        "first-search": "the first search: below the top",
        "second-search": "the second search: above the floor",
        "window-none": "none",
        "high-hint": "a high call: at the hint",
        "high-search": "a high call: below the limit",
        "high-none": "a high call: none",
    },
    "merge": {
        "private": "neighbours join: private anonymous memory",
        "object": "neighbours join: an object whose offset runs on",
        "prot": "they stay apart: another protection",
        "most": "they stay apart: another most",
        "shared": "they stay apart: shared or not",
        "grows": "they stay apart: growing or not",
        "sealed": "they stay apart: sealed or not",
        "heap": "they stay apart: heap or not",
        "object-differs": "they stay apart: another object",
        "offset": "they stay apart: the offset does not run on",
    },
    "limit": {"reached": "a call leaves as many areas as there may be"},
    "fork": {"fork": "a child begins with what the parent has"},
}
ROWS = [f"{table}/{row}" for table, rows in TABLES.items() for row in rows]


def merge_row(first: Area, second: Area) -> str:
    """The row by which two neighbours that touch join or stay apart."""
    for name in ("prot", "most", "shared", "grows", "sealed", "heap"):
        if getattr(first, name) != getattr(second, name):
            return name
    if first.object != second.object:
        return "object-differs"
    if second.offset != index_of(first, first.hi):
        return "offset"
    return "object" if first.object else "private"


class Noted(Space):
    """A space that counts the rows that decide."""

    rows: Counter[str] = Counter()

    def note(self, row: str) -> None:
        self.rows[row] += 1

    def joins(self, first: Area, second: Area) -> bool:  # type: ignore[override]
        if first.hi == second.lo:
            self.note(f"merge/{merge_row(first, second)}")
        return joins(first, second)

    def child(self) -> Noted:
        self.note("fork/fork")
        return super().child()


def rows_of(trace: Trace) -> Counter[str]:
    """How often a trace reaches each row."""
    rows: Counter[str] = Counter()
    serial_output(trace, type("NotedHere", (Noted,), {"rows": rows}))
    return rows


def report(rows: Counter[str]) -> Iterator[str]:
    """The lines of a report: each row with how often it was reached, and how many were not."""
    missing = [name for name in ROWS if not rows[name]]
    for table, tests in TABLES.items():
        yield f"{table}:"
        for row, test in tests.items():
            count = rows[f"{table}/{row}"]
            yield f"  {count or '-':>8}  {test}"
    yield f"{len(ROWS) - len(missing)} of {len(ROWS)} rows reached"
    for name in missing:
        table, row = name.split("/")
        yield f"not reached: {table}: {TABLES[table][row]}"
