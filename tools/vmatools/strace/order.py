"""The order of calls of several threads that ran at once, of which a log says only when they began and returned."""

from collections.abc import Iterator
from typing import NamedTuple

from ..console import Progress
from ..model import Space as Model, answer
from ..traces import MAP, MREMAP, Line

HUGE = 2 * 1024 * 1024  # the kernel aligns mappings of this size and more, where it can be one page
# The bounds of a search: the tries without success from one place, and the calls at once; and all tries, besides those of each
# call.
MOST_STEPS, MOST_PATH, MOST_TRIES = 3_000, 400, 40_000
LEAST_STEPS = 60  # the tries from one place where few are left
FIXED = MAP["MAP_FIXED"] | MAP["MAP_FIXED_NOREPLACE"]

Heads = tuple[int, ...]  # how many calls of each thread are placed


class Step(NamedTuple):
    """A call: when it began and returned, its thread, its line, and what the kernel answered."""

    begin: int
    end: int
    pid: int
    line: Line
    answer: str


def answers_alike(model: Model, step: Step) -> bool:
    """Does a call in the model; whether it answers as the kernel did. A fork changes nothing."""
    return step.line.word == "fork" or answer(model, hinted(step))[0][0] == step.answer


def followed(model: Model, step: Step) -> Model:
    """The model after a call that it answers otherwise: a mapping is where the kernel put it."""
    line, moved = step.line, model.child()
    if step.answer.startswith("-1") or line.word == "fork":
        return moved
    if line.word == "mmap":
        _, length, prot, flags, *rest = line.arguments
        line = line._replace(arguments=[int(step.answer, 16), length, prot, flags | MAP["MAP_FIXED"], *rest])
    elif line.word == "mremap":
        to_fixed = line.arguments[3] | MREMAP["MREMAP_MAYMOVE"] | MREMAP["MREMAP_FIXED"]
        line = line._replace(arguments=[*line.arguments[:3], to_fixed, int(step.answer, 16)])
    answer(moved, line)
    return moved


def after(model: Model, step: Step) -> tuple[Model, bool]:
    """The model after a call, as the kernel did it, and whether it answered alike."""
    tried = model.child()
    if answers_alike(tried, step):
        return tried, True
    return followed(model, step), False


class Calls:
    """Some calls, and which of them may come next where some of each thread are placed."""

    def __init__(self, steps: list[Step]) -> None:
        self.steps = steps
        self.of_thread: dict[int, list[int]] = {}  # the places of each thread's calls, in their order
        for place, step in enumerate(steps):
            self.of_thread.setdefault(step.pid, []).append(place)
        self.threads = list(self.of_thread.values())

    def first_heads(self) -> Heads:
        return (0,) * len(self.threads)

    def next_ones(self, heads: Heads) -> list[tuple[int, int]]:
        """The calls that may come next, the first to return first: each began before all others that are left have returned."""
        left = [
            (which, thread[head]) for which, (thread, head) in enumerate(zip(self.threads, heads)) if head < len(thread)
        ]
        end = min((self.steps[place].end for _, place in left), default=0)
        ones = [one for one in left if self.steps[one[1]].begin < end or self.steps[one[1]].end == end]
        return sorted(ones, key=lambda one: self.steps[one[1]].end)


class Order:
    """Looks for an order of calls: each comes after those that returned before it began, and the model answers what the kernel
    answered. Where there is none, one call is a difference, and the model goes on from what the kernel did."""

    def __init__(self, calls: Calls) -> None:
        self.calls, self.steps = calls, calls.steps
        self.tries = MOST_TRIES + 2 * len(self.steps)
        self.different = 0  # the calls that the model answers otherwise, in the order that was found

    @property
    def was_ended(self) -> bool:
        """Whether the search was ended before all was tried."""
        return self.tries <= 0

    def found(self, model: Model) -> list[int]:
        """All places, in the order that was found."""
        order: list[int] = []
        heads, progress = self.calls.first_heads(), Progress()
        while len(order) < len(self.steps):
            path: list[int] = []
            if not self.was_ended:
                path, model, heads = self.search(model, heads)
            if not path:
                path, model, heads = self.one(model, heads)
            order += path
            progress.tell(f"{len(order)} of {len(self.steps)} calls put in order")
        progress.clear()
        return order

    def one(self, model: Model, heads: Heads) -> tuple[list[int], Model, Heads]:
        """The first call that answers as the kernel did; else the first that returned, which is the difference."""
        ones = self.calls.next_ones(heads)
        for which, place in ones[:4]:
            moved = model.child()
            if answers_alike(moved, self.steps[place]):
                return [place], moved, advanced(heads, which)
        which, place = ones[0]
        self.different += 1
        return [place], followed(model, self.steps[place]), advanced(heads, which)

    def search(self, model: Model, heads: Heads) -> tuple[list[int], Model, Heads]:
        """The longest order from here on in which all answers are equal, as far as few tries tell; model and place then."""
        path: list[int] = []
        best: tuple[list[int], Model, Heads] = ([], model, heads)
        left = most = min(MOST_STEPS, max(LEAST_STEPS, self.tries // 20))
        stack: list[tuple[Model, Heads, Iterator[tuple[int, int]]]] = [(model, heads, iter(self.calls.next_ones(heads)))]
        while left and self.tries > 0 and len(path) < MOST_PATH:
            model, heads, ones = stack[-1]
            one = next(ones, None)
            if one is None:
                if len(path) > len(best[0]):
                    best, left = (list(path), model, heads), most
                stack.pop()
                if not stack or sum(heads) == len(self.steps):
                    break
                path.pop()
                continue
            left, self.tries, moved = left - 1, self.tries - 1, model.child()
            if answers_alike(moved, self.steps[one[1]]):
                path.append(one[1])
                stack.append((moved, advanced(heads, one[0]), iter(self.calls.next_ones(advanced(heads, one[0])))))
        return (path, *stack[-1][:2]) if stack and len(path) > len(best[0]) else best


def advanced(heads: Heads, which: int) -> Heads:
    return heads[:which] + (heads[which] + 1,) + heads[which + 1 :]


# Places that the kernel aligned


def hinted(step: Step) -> Line:
    """The line with the kernel's place as its hint, where the kernel aligned it."""
    line = step.line
    if line.word == "mmap" and is_aligned(line.arguments, step.answer):
        return line._replace(arguments=[int(step.answer, 16), *line.arguments[1:]])
    if line.word == "mremap" and is_moved_aligned(line.arguments, step.answer):
        return line._replace(
            arguments=[*line.arguments[:3], line.arguments[3] | MREMAP["MREMAP_FIXED"], int(step.answer, 16)]
        )
    return line


def is_placed(arguments: list[int], answer: str) -> bool:
    """Whether the kernel chose where an mmap is."""
    return not answer.startswith("-1") and not arguments[3] & FIXED


def is_aligned(arguments: list[int], answer: str) -> bool:
    """Whether the kernel aligned a mapping to 2 MiB, as far as its place tells: a file by the offset that is mapped there."""
    address, length, _, flags, _, offset = arguments
    if not is_placed(arguments, answer) or address or length < HUGE:
        return False
    return (int(answer, 16) - (0 if flags & MAP["MAP_ANONYMOUS"] else offset)) % HUGE == 0


def is_moved(arguments: list[int], answer: str) -> bool:
    """Whether the kernel chose another place for an mremap."""
    old, flags = arguments[0], arguments[3]
    return not answer.startswith("-1") and not flags & MREMAP["MREMAP_FIXED"] and int(answer, 16) != old


def is_moved_aligned(arguments: list[int], answer: str) -> bool:
    """Whether the kernel aligned the new place of an mremap to 2 MiB, as far as the place tells."""
    return is_moved(arguments, answer) and arguments[2] >= HUGE and int(answer, 16) % HUGE == 0
