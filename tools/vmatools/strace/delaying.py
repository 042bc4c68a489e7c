"""An order of calls that ran at once, found without tries: what makes room is done late, and all else as soon as it answers
as the kernel did."""

import bisect
from collections.abc import Iterator
from typing import NamedTuple

from ..console import Progress
from ..model import Space as Model, first_above, is_free, pages_of
from ..traces import PAGE
from .order import FIXED, Calls, Order, Step, answers_alike, followed

MOST_DEPTH = 12  # calls of which each has to wait for the next
MOST_STATES = 500  # the calls back to which it may go
MOST_PLACED, LEAST_PLACED = 1, 2_000  # how often calls are placed: so often each, and so often in all
Pages = tuple[int, int]  # from the first up to, but not including, the second


def is_placed(step: Step) -> bool:
    """Whether it is a mapping that the kernel placed."""
    return step.line.word == "mmap" and not step.answer.startswith("-1") and not step.line.arguments[3] & FIXED


def makes_room(step: Step) -> bool:
    """Whether a place may be free after a call, or be taken that no search chose."""
    return step.line.word in ("munmap", "mremap") or step.line.word == "mmap" and not is_placed(step)


def pages_at(step: Step) -> Pages:
    """The pages that a call is about: those that it maps, for a mapping."""
    values = step.line.arguments
    if step.line.word == "mmap" and not step.answer.startswith("-1"):
        first = int(step.answer, 16) // PAGE
        return first, first + pages_of(values[1])
    return values[0] // PAGE, values[0] // PAGE + pages_of(values[1] if len(values) > 1 else 0)


def overlap(one: Pages, other: Pages) -> bool:
    return one[0] < other[1] and other[0] < one[1]


def may_answer(model: Model, step: Step) -> bool:
    """Whether a mapping that was placed can have been so: its pages are free, and nothing is free right above them."""
    if not is_placed(step) or step.line.arguments[0]:
        return True
    first, end = pages_at(step)
    place = first_above(model.areas, first)
    above = model.areas[place].lo if place < len(model.areas) else None
    return end in (above, model.top) and is_free(model.areas, first, end)


One = tuple[int, int]  # when a call returned, and its place among all


class State(NamedTuple):
    """Before a call was placed: the model, and the next call of each thread, the first to return first."""

    model: Model
    heads: list[One]


class Delaying:
    """Makes an order of calls, one after the other. Where a call can't answer as the kernel did, it may go back to the one that
    is in the way, which then waits for it. It ends where it has found that `most` or more calls are answered otherwise."""

    def __init__(self, calls: Calls, most: int) -> None:
        self.steps, self.most = calls.steps, most
        self.first = sorted((self.steps[thread[0]].end, thread[0]) for thread in calls.threads)
        self.behind = {one: other for thread in calls.threads for one, other in zip(thread, thread[1:])}
        self.different = 0
        self.order: list[int] = []
        self.states: list[State | None] = []  # before each call of the order; old ones are let go
        self.done: set[int] = set()
        self.waits_for: dict[int, set[int]] = {}
        self.left = MOST_PLACED * len(self.steps) + LEAST_PLACED

    def found(self, model: Model) -> list[int]:
        """All places, in the order that was made; fewer where it has ended early."""
        state, progress = State(model, self.first), Progress()
        while state.heads and self.different < self.most:
            self.left -= 1
            ones = self.next_ones(state)
            wanted, stuck = self.wanted(ones), set[int]()
            chosen = self.chosen(state.model, [one for one in ones if not self.waiting(one)], wanted, stuck)
            if chosen is None:
                earlier = self.earlier(state.model, stuck)
                if earlier is not None:
                    state = self.back_to(earlier)
                    continue
                self.different += 1
                chosen = ones[0], followed(state.model, self.steps[ones[0]])
            state = self.place(state, *chosen)
            progress.tell(f"{len(self.order)} of {len(self.steps)} calls put in order, delaying what makes room")
        progress.clear()
        return self.order

    def next_ones(self, state: State) -> list[int]:
        """The calls that may come next, the first to return first: each began before all others that are left have returned."""
        end = state.heads[0][0]
        return [place for at, place in state.heads if self.steps[place].begin < end or at == end]

    def place(self, state: State, place: int, model: Model) -> State:
        """Places a call, after which the model is this one."""
        self.order.append(place)
        self.states.append(state)
        self.done.add(place)
        if len(self.states) > MOST_STATES:
            self.states[-MOST_STATES - 1] = None
        heads = [one for one in state.heads if one[1] != place]
        if place in self.behind:
            bisect.insort(heads, (self.steps[self.behind[place]].end, self.behind[place]))
        return State(model, heads)

    def back_to(self, number: int) -> State:
        """Takes the calls from one on out of the order."""
        state = self.states[number]
        assert state
        self.done.difference_update(self.order[number:])
        del self.order[number:], self.states[number:]
        return state

    def waiting(self, place: int) -> set[int]:
        waits = self.waits_for.get(place)
        return waits - self.done if waits else set()

    def wanted(self, ones: list[int]) -> int:
        """The call that has to come soon: the first to return, or the one for which that waits."""
        one, seen = ones[0], set[int]()
        while one not in seen:
            seen.add(one)
            waits = self.waiting(one)
            one = next((other for other in ones if other in waits), one)
        return one

    def earlier(self, model: Model, stuck: set[int]) -> int | None:
        """Where in the order the last call is that is in the way of another, and can come behind it; it waits from now on."""
        if self.left <= 0:
            return None
        obstacles = [(place, pages) for place in stuck for pages, _ in self.obstacles(model, self.steps[place])]
        for number in range(len(self.order) - 1, max(len(self.order) - MOST_STATES, -1), -1):
            other = self.order[number]
            step, pages = self.steps[other], pages_at(self.steps[other])
            for place, wanted in obstacles:
                is_new = step.end > self.steps[place].begin and place not in self.waits_for.get(other, ())
                if is_new and overlap(pages, wanted) and other not in self.waits_for.get(place, ()):
                    self.waits_for.setdefault(other, set()).add(place)
                    return number
        return None

    def chosen(self, model: Model, ones: list[int], wanted: int, stuck: set[int]) -> tuple[int, Model] | None:
        """The call that comes next, and the model after it: one that makes no room; else the one that is wanted, or for what it
        waits. None where that can't answer as the kernel did; `stuck` has what can't then."""
        for place in ones:
            moved = None if makes_room(self.steps[place]) else self.after(model, place)
            if moved:
                return place, moved
        return self.way_to(model, ones, wanted, MOST_DEPTH, stuck)

    def after(self, model: Model, place: int) -> Model | None:
        """The model after a call that it answers as the kernel did."""
        if not may_answer(model, self.steps[place]):
            return None
        moved = model.child()
        return moved if answers_alike(moved, self.steps[place]) else None

    def way_to(
        self, model: Model, ones: list[int], place: int, depth: int, seen: set[int]
    ) -> tuple[int, Model] | None:
        """A call that answers as the kernel did and brings another nearer to that, or the call itself, and the model after it."""
        if place in seen or not depth:
            return None
        seen.add(place)
        moved = self.after(model, place)
        if moved:
            return place, moved
        for pages, is_taken in self.obstacles(model, self.steps[place]):
            for other in ones:
                if makes_room(self.steps[other]) == is_taken and overlap(pages_at(self.steps[other]), pages):
                    found = self.way_to(model, ones, other, depth - 1, seen)
                    if found:
                        return found
        return None

    def obstacles(self, model: Model, step: Step) -> Iterator[tuple[Pages, bool]]:
        """Pages that keep the model from the kernel's answer, and whether they are taken, or free."""
        first, end = pages_at(step)
        if not is_placed(step):
            yield (first, end), False
            return
        if not is_free(model.areas, first, end):
            yield (first, end), True
        yield from ((gap, False) for gap in self.gaps_above(model, first, end))

    def gaps_above(self, model: Model, first: int, end: int) -> Iterator[Pages]:
        """What is free right above some pages, and each gap above in which they have room."""
        areas = model.areas
        place = bisect.bisect_left(areas, (end,))
        at = max(end, areas[place - 1].hi if place else 0)
        for number in range(place, len(areas) + 1):
            above = areas[number].lo if number < len(areas) else model.top
            above = min(above, model.top)
            if above > at and (at == end or above - at >= end - first):
                yield at, above
            if number == len(areas) or above == model.top:
                return
            at = max(at, areas[number].hi)


class Found(NamedTuple):
    """An order of calls: all places; how many calls the model answers otherwise; and whether its search was ended early."""

    places: list[int]
    different: int
    was_ended: bool


def best_order(steps: list[Step], model: Model) -> Found:
    """The order that explains the most, of a search, and of one that delays what makes room where that doesn't explain all."""
    calls = Calls(steps)
    order = Order(calls)
    best = Found(order.found(model), order.different, order.was_ended)
    delaying = Delaying(calls, best.different)
    places = delaying.found(model)
    if len(places) < len(steps):
        return best
    was_ended = best.was_ended or delaying.left <= 0
    return Found(places, delaying.different, was_ended and delaying.different > 0)
