"""Makes the trace of a kind of difference small, as long as it still differs in the same way, while a comparison goes on."""

import time
from collections.abc import Callable
from concurrent.futures import Executor
from dataclasses import dataclass, field
from typing import Optional

from .. import outputs
from ..traces import Trace, read_trace
from . import shrinking
from .comparison import HANGS, Sides, is_trace, may_answer
from .findings import Finding


@dataclass
class Smaller:
    """What makes traces small: both sides, workers, how many traces are tried at once, and how long each may take."""

    sides: Sides
    workers: Executor
    jobs: int
    seconds: float  # that COMMAND may take
    short: float  # the same while a trace is made small on which it does not end
    kind_seconds: float  # for all traces that are tried of a kind
    is_over: Callable[[], bool]
    keeps: Callable[[Trace], bool] = field(default=lambda trace: True)  # whether the system can run it

    def finding(self, found: Finding) -> Optional[Finding]:
        """The finding on the smallest trace of its kind; none where it differs now and then only."""
        is_hang = outputs.kind_of(found.difference)[2] in HANGS
        limits = [self.short] if is_hang and self.short < self.seconds else []
        for seconds in [*limits, self.seconds]:
            search = Search(self, found, seconds)
            small, difference = search.smallest()
            if self.is_over():
                break
            # With all the time that COMMAND may take it has to differ as well.
            difference = self.sides.same_kind(small, search.kind, self.seconds)
            if difference and (difference.there in HANGS) == is_hang:
                self.sides.confirm_smallest(small)
                return found.on(difference, small.text())
        # What was found until the time was over has differed, in the time that it was given.
        return found.on(difference, small.text()) if difference and not is_hang and self.is_over() else None


class Search:
    """The search for the smallest trace of one kind, in which a run may take so many seconds."""

    def __init__(self, smaller: Smaller, found: Finding, seconds: float) -> None:
        self.smaller, self.found, self.seconds = smaller, found, seconds
        self.kind = outputs.kind_of(found.difference)
        self.known: dict[str, Optional[outputs.Difference]] = {}
        self.end = time.monotonic() + smaller.kind_seconds

    def smallest(self) -> tuple[Trace, Optional[outputs.Difference]]:
        """The smallest trace that was found in the time, and its difference if it was tried."""
        trace, number = read_trace(self.found.trace.encode()), self.found.difference.number
        places = [place for place, line in enumerate(trace.lines) if line.number == number]
        if places:
            cut = trace.with_lines(trace.lines[: places[0] + 1])
            trace = cut if self.is_same(cut) else trace
        small = shrinking.Shrinker(trace, self.first_same, self.kind[2] in HANGS).shrink()
        return small, self.known.get(small.text())

    @property
    def is_over(self) -> bool:
        return self.smaller.is_over() or time.monotonic() > self.end

    def first_same(self, traces: list[Trace]) -> Optional[int]:
        """The first of some traces that differs in the same way."""
        for start in range(0, len(traces), self.smaller.jobs):
            if self.is_over:
                break
            same = list(self.smaller.workers.map(self.is_same, traces[start : start + self.smaller.jobs]))
            if True in same:
                return start + same.index(True)
        return None

    def is_same(self, trace: Trace) -> bool:
        text = trace.text()
        if text not in self.known and not self.smaller.is_over():
            self.known[text] = self.difference(trace)
        return self.known.get(text) is not None

    def difference(self, trace: Trace) -> Optional[outputs.Difference]:
        """The difference of a trace, if it is one of the same kind that no rule sets aside."""
        if not (is_trace(trace) and self.smaller.keeps(trace) and may_answer(trace, self.kind, self.smaller.sides.oracle)):
            return None
        found = self.smaller.sides.same_kind(trace, self.kind, self.seconds)
        if found is None or outputs.kind_of(found) != self.kind:
            return None
        return None if self.smaller.sides.rules.pattern_of(found) else found
