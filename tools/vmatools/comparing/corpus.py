"""Traces that grow by what they reach: those with a pair that is new are kept and changed, and others are drawn beside them.

A trace depends on the seed, the profiles and the traces with lower numbers, and on nothing that a system answers.
"""

import random
from collections.abc import Callable, Collection, Iterable, Sequence

from ..model import Space
from ..traces import Trace
from . import generator
from .changes import Changer, Entry, State
from .pairs import Pair, Watched

TURNS = 20  # of so many traces the first is drawn, and the others are kept ones changed, of which some are measured
MEASURED = (3, 8, 13, 18)
MOST_LINES = 60


class GivenUp(Exception):
    """A trace isn't made any more, since the whole run ends."""


class Corpus:
    """What was kept, and the traces that are made of it. `told` is given each trace that is kept."""

    def __init__(
        self,
        seed: int,
        lines: int,
        profiles: Sequence[str],
        seeds: Iterable[tuple[str, Trace]],
        is_fitted: bool = False,
        told: Callable[[Trace], None] = lambda trace: None,
    ) -> None:
        self.seed, self.lines, self.profiles, self.is_fitted = seed, lines, profiles, is_fitted
        self.seeds, self.told = seeds, told
        self.random = random.Random(f"corpus {seed}")
        self.changer = Changer(self.random, lines, MOST_LINES)
        self.known: set[Pair] = set()
        self.of_seeds: dict[str, Trace] = {}
        self.before = 0  # pairs that the seeds reach
        self.entries: list[Entry] = []
        self.number = 0
        self.is_over: Callable[[], bool] = lambda: False  # whether nobody wants more traces
        self.reached: list[int] = []  # how many pairs were known before each trace

    @property
    def late(self) -> int:
        """Pairs that the last tenth of the traces reached first."""
        return len(self.known) - self.reached[len(self.reached) * 9 // 10] if self.reached else 0

    def reached_of(self, names: Collection[str]) -> tuple[int, int, int]:
        """How many pairs were reached where of the seeds these alone were run: all, those of these, and those of the last tenth
        of the traces. Where seeds were not run, a pair of theirs isn't counted for a trace that reached it again."""
        ran = [trace for name, trace in self.of_seeds.items() if name in names]
        before = self.before
        if len(ran) < len(self.of_seeds):
            known: set[Pair] = set()
            for trace in ran:
                entry_of(trace, known)
            before = len(known)
        return len(self.known) - self.before + before, before, self.late

    def trace(self, number: int) -> tuple[Trace, str]:
        """The trace of a number that is none of those that were made, and in words what it was made of."""
        while self.number < number:
            self.next()
        return self.next()

    def next(self) -> tuple[Trace, str]:
        if self.is_over():
            raise GivenUp
        if not self.number:
            self.begin()
        turn, number = self.number % TURNS, self.number
        self.number += 1
        self.reached.append(len(self.known))
        if turn == 0 or not self.entries:
            name = self.profiles[number // TURNS % len(self.profiles)]
            return self.drawn(name, number), f"profile {name}"
        trace = self.changer.changed(self.entry(), self.entry)
        if turn in MEASURED:
            self.measure(trace, self.told)
        return trace.numbered(), "a change of others"

    def begin(self) -> None:
        self.of_seeds = dict(self.seeds)
        for trace in self.of_seeds.values():
            self.measure(trace)
        self.before = len(self.known)

    def entry(self) -> Entry:
        """One that was kept, more often a new one."""
        count = len(self.entries)
        return self.entries[max(self.random.randrange(count), self.random.randrange(count))]

    def drawn(self, name: str, number: int) -> Trace:
        """A trace of the generator."""
        trace = generator.Generator(name, f"{self.seed} {number}", self.lines, 0, self.is_fitted).draw()
        if len(trace.lines) <= MOST_LINES:  # a longer one isn't kept
            self.measure(trace, self.told)
        return trace

    def measure(self, trace: Trace, told: Callable[[Trace], None] = lambda trace: None) -> None:
        """Keeps a trace that reaches a new pair."""
        entry = entry_of(trace, self.known)
        if 0 < len(entry.trace.lines) <= MOST_LINES:
            self.entries.append(entry)
            told(entry.trace)


def entry_of(trace: Trace, known: set[Pair]) -> Entry:
    """A trace up to the last of its lines that reached a new pair, with its states. All pairs that it reaches are known then."""
    parent, states = Watched(trace, known), list[State]()
    behind, children = (parent.areas, parent.break_), dict[int, Watched]()
    for place, line in enumerate(trace.lines, 1):
        space = children.get(line.thread, parent)
        states.append((space.areas, space.break_))
        if line.word == "fork":
            children[line.arguments[0]] = space.child()
        else:
            space.answer(line._replace(number=place))
        if parent.fresh[0] == place:
            behind = (parent.areas, parent.break_)
    last = parent.fresh[0]
    return Entry(trace.with_lines(trace.lines[:last]), [*states[:last], behind], Space(trace))
