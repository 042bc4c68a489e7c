"""Where a trace may act in a system: in an empty space, or in a window of addresses beside the system's own memory."""

from collections.abc import Iterator
from dataclasses import dataclass

from .. import console
from ..traces import MAP, PAGE, USER_PAGES, Line, Trace

USER_END, WIDE_END = (USER_PAGES[version] * PAGE for version in (1, 2))
PAST_ALL = (1 << 48) + (1 << 32)  # what ends above is past user memory in every system, wherever the window lies
ANY_FIXED = MAP["MAP_FIXED"] | MAP["MAP_FIXED_NOREPLACE"]
BELOW_HEAP, ABOVE_HEAP = 48 * PAGE, 64 * PAGE  # what a trace with a heap may use, around the beginning of the heap


class Refused(console.Failure):
    """A trace is not run: with the status that the command ends with, and the cause."""

    def __init__(self, status: int, why: str) -> None:
        super().__init__(why, status)


@dataclass(frozen=True)
class Window:
    """The addresses from `low` up to `high`, which a trace uses, and what is added to them in the system."""

    low: int
    high: int
    shift: int = 0

    def of(self, trace: Trace) -> tuple[int, int]:
        """The addresses that a trace may use: those from its `min` up to its `top`, which the system has not. With a heap
        they lie around it, as the window does around the break."""
        low = max(self.low, trace.settings.get("min", 0))
        high = min(self.high, trace.settings.get("top", USER_END))
        heap = trace.settings.get("heap")
        if not heap:
            return low, high
        return max(low, heap - BELOW_HEAP), min(high, heap + ABOVE_HEAP)


def ranges(line: Line) -> Iterator[tuple[int, int]]:
    """The ranges of addresses that a line names, as pairs of address and bytes."""
    values = line.arguments
    if line.word == "mmap":
        if values[0] >= PAGE or values[3] & ANY_FIXED:
            yield values[0], values[1]
    elif line.word == "mremap":
        yield values[0], max(values[1], values[2])
        if len(values) > 4:
            yield values[4], values[2]
    elif line.word in ("munmap", "mprotect", "mseal"):
        yield values[0], values[1]
    elif line.word in ("fault", "brk"):
        yield values[0], 1


def end_of(address: int, length: int) -> int:
    return address + -(-length // PAGE) * PAGE


def leaves(line: Line, low: int, high: int) -> bool:
    """Whether a line names an address outside of a window. A range that ends past all memory is refused by any system."""
    if line.word == "brk" and not line.arguments[0]:
        return False
    ends = ((address, end_of(address, length)) for address, length in ranges(line))
    return any(not low <= address < high or high < end <= PAST_ALL for address, end in ends)


NOT_EMPTY = "it leaves the place to the system, which is not empty outside the window; give it one, as with MAP_FIXED"


def finds_place(line: Line) -> bool:
    """Whether a line may leave it to the system where memory comes to lie."""
    values = line.arguments
    return (
        line.word == "mmap"
        and not values[3] & ANY_FIXED
        or line.word == "mremap"
        and len(values) == 4
        and values[3] & 1 == 1
    )


def check_window(trace: Trace, window: Window) -> None:
    """Refuses a trace that does not keep to a window."""
    low, high = window.of(trace)
    if "limit" in trace.settings:
        raise Refused(4, "`limit areas` counts the areas of the system itself too, so it cannot be set in a window")
    for line in trace.lines:
        if line.word == "mmap" and not line.arguments[3] & ANY_FIXED and line.arguments[0] < PAGE:
            raise Refused(4, f"line {line.number}: {NOT_EMPTY}")
        if line.word == "brk" and "heap" not in trace.settings:
            raise Refused(4, f"line {line.number}: brk in a window takes a `heap`")
        if leaves(line, low, high):
            raise Refused(4, f"line {line.number}: it leaves the window from {low:#x} to {high:#x}")
