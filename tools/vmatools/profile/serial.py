"""Runs a trace over a model in the order of its lines, as `serial` does, and writes the output."""
from __future__ import annotations

from collections.abc import Callable
from dataclasses import dataclass, field
from typing import Protocol

from ..linux.areas import NotModelled
from ..model import Area, Space
from ..traces import Line, Trace


class AnySpace(Protocol):
    """An address space."""

    def answer(self, line: Line) -> tuple[list[str], bool]:
        """Does what a line asks for, a fork apart: the lines of its result, and whether it was a call."""

    def child(self) -> AnySpace:
        """The space of a child."""

    def maps(self) -> list[str]:
        """The list, as lines."""


class ModelSpace(AnySpace, Protocol):
    """One of a model: the profile's, or one of Linux."""

    @property
    def areas(self) -> list[Area]:
        """The list."""

    def child(self) -> ModelSpace:
        """The space of a child."""

    def maps_line(self, area: Area) -> str:
        """The line of an area in the list."""


@dataclass
class Run:
    """One space and its results so far: each as (version, a thread for a read and -1 for a call, lines), in their order."""

    space: AnySpace
    head: str = ""  # of a child: the line above its results
    version: int = 0
    items: list[tuple[int, int, list[str]]] = field(default_factory=list)

    def step(self, line: Line) -> Run | None:
        """Answers a line. Returns the child's run where it is a fork."""
        child = None
        try:
            if line.word == "fork":
                number = line.arguments[0]
                child = Run(self.space.child(), f"child {number} of L{line.number} v{self.version}")
                result, is_call = [f"child {number} areas {self.space.maps()[0].split()[1]}"], False
            else:
                result, is_call = self.space.answer(line)
        except NotModelled as gap:
            raise NotModelled(gap.why, line.number) from None
        self.version += is_call
        start = f"L{line.number} t{line.thread} v{self.version} = "
        self.items.append((self.version, -1 if is_call else line.thread, [start + result[0], *result[1:]]))
        return child

    def lines(self) -> list[str]:
        # Stable: the reads of one version stand by thread, and those of one thread in the order of their lines.
        items = sorted(self.items, key=lambda item: item[:2])
        head = [self.head] if self.head else []
        return head + [text for item in items for text in item[2]] + self.space.maps()


def serial_output(trace: Trace, space_of: Callable[[Trace], AnySpace] = Space) -> str:
    """The output of a trace, whose first space this makes."""
    parent = Run(space_of(trace))
    children: dict[int, Run] = {}
    for line in trace.lines:
        child = children.get(line.thread, parent).step(line)
        if child:
            children[line.arguments[0]] = child
    runs = [parent, *(children[number] for number in sorted(children))]
    return "".join(text + "\n" for run in runs for text in run.lines())
