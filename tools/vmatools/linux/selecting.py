"""The traces of the recorded vectors: drawn, and chosen where two versions answer otherwise."""

from collections import Counter
from collections.abc import Iterator
from itertools import pairwise

from ..oracles import Oracle
from ..traces import Trace, read_trace
from .areas import NotModelled
from .generators import drawn, with_lists
from .kernel import Kernel, Settings, kernel_of
from .versions import table, text_of

LINES = 30
MEMORY = 245_000  # pages: less than any of the amounts that are far too much
KINDS = ("hard", "written", "sealed", "hard", "written", "hard-limit", "written", "written-limit")


def kernels() -> list[Kernel]:
    """One for each set of rules, the oldest first."""
    settings, found = Settings(memory=MEMORY), dict[object, Kernel]()
    for version, rules in table().items():
        found.setdefault(rules, kernel_of(text_of(version), settings))
    return list(found.values())


def apart(trace: Trace, among: list[Kernel]) -> list[int]:
    """Between which kernels, next to each other in the list, a trace tells."""
    outputs = []
    for kernel in among:
        try:
            outputs.append(Oracle(kernel).output(trace))
        except NotModelled:
            outputs.append("")
    return [place for place, (one, two) in enumerate(pairwise(outputs)) if one and two and one != two]


def chosen(count: int) -> Iterator[tuple[str, Trace]]:
    """So many traces, the same ones each time. Each tells two versions apart that few others tell apart."""
    among, told, number, left = kernels(), Counter[int](), 0, count
    while left:
        kind, kernel = KINDS[number % len(KINDS)], among[number // len(KINDS) % len(among)]
        trace = with_lists(drawn(kind, f"vectors {number}", LINES, kernel))
        found = apart(read_trace(trace.text().encode()), among)
        if found and min(told[place] for place in found) < max(count // 3, 1):
            told.update(found)
            left -= 1
            yield f"{kind}-{number}", trace
        number += 1
