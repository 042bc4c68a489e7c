"""Whether an output is one of the legal ones for its trace, and else its first line that is wrong.

It is written from docs/TRACE.md and docs/MODEL.md alone, as the model is by which it says so. The order in which the items of
an output stand decides all else that it says. So the judge goes down the output: each item has to answer its thread's next
line, has to stand where it may, behind the line that it names, and has to say what the model says after the calls above it.
Then the list after all calls has to follow, then each child in the same way, and nothing else.
"""

import io
import re
from collections.abc import Iterator
from dataclasses import dataclass, field
from typing import NoReturn

from ..console import Progress, printable
from ..oracles import PROFILE, Oracle
from ..profile.serial import AnySpace
from ..traces import Line, Source, Trace

ITEM = re.compile("L([0-9]{1,20}) t([0-9]{1,20}) v([0-9]{1,20}) = ")
MOST_LINE = 16_384  # no output has a line of so many bytes
BLOCK = 1 << 20


class Illegal(Exception):
    """The line of the output, counted from 1, that is wrong, and why."""

    def __init__(self, line: int, why: str) -> None:
        super().__init__(line, why)
        self.line, self.why = line, why


def lines_of(source: Source) -> Iterator[tuple[str, bool]]:
    """The lines of an output, each with whether a newline ends it; of a line that is too long the beginning."""
    stream = io.BytesIO(source) if isinstance(source, bytes) else source
    rest = b""
    while block := stream.read1(BLOCK):
        *lines, rest = (rest + block).split(b"\n")
        for raw in lines:
            yield raw.decode("utf-8", "surrogateescape"), True
        if len(rest) > MOST_LINE:
            break
    if rest:
        yield rest[:MOST_LINE].decode("utf-8", "surrogateescape"), False


class Output:
    """The lines of an output, read as they are wanted, and how many of them were passed."""

    def __init__(self, source: Source) -> None:
        self.lines = lines_of(source)
        self.at = 0  # lines that were passed
        self.coming: tuple[str, bool] | None = next(self.lines, None)

    def line(self) -> str:
        if self.coming is None:
            self.wrong("it ends here" if self.at else "it is empty")
        text, is_ended = self.coming
        if not is_ended:
            self.wrong("no newline ends it" if len(text) < MOST_LINE else f"it has more than {MOST_LINE:,} bytes")
        return text

    def wrong(self, why: str) -> NoReturn:
        raise Illegal(self.at + 1, why)

    def passes(self, wanted: list[str]) -> None:
        """These lines stand here."""
        for line in wanted:
            given = self.line()
            if given != line:
                has_return = given.rstrip("\r") == line
                why = ": a carriage return stands at its end" if has_return else f" and not `{printable(line)}`"
                self.wrong(f"it is `{printable(given)}`{why}")
            self.step()

    def step(self) -> None:
        self.at += 1
        self.coming = next(self.lines, None)

    def ends(self) -> None:
        """Nothing stands here any more."""
        if self.coming is not None:
            self.wrong("something stands below the last list")


def first_wrong(trace: Trace, output: Source, oracle: Oracle = PROFILE) -> Illegal | None:
    """Nothing where an output is legal for a trace; else its first wrong line, and why."""
    given = Output(output)
    try:
        pass_all(trace, given, oracle)
    except Illegal as wrong:
        return wrong
    return None


def pass_all(trace: Trace, given: Output, oracle: Oracle) -> None:
    """Passes the parent, then each child, and then the end."""
    forks = {line.arguments[0]: line for line in trace.lines if line.word == "fork"}
    parent = Judged(oracle.space(trace))
    parent.pass_lines([line for line in trace.lines if line.thread not in forks], given)
    for child in sorted(forks):
        space, version = parent.children[child]
        given.passes([f"child {child} of L{forks[child].number} v{version}"])
        Judged(space).pass_lines([line for line in trace.lines if line.thread == child], given)
    given.ends()


@dataclass
class Judged:
    """One space, and what was passed of it."""

    space: AnySpace
    version: int = 0
    last_reader: int = 0
    coming: dict[int, list[Line]] = field(default_factory=dict)
    passed: set[int] = field(default_factory=set)
    children: dict[int, tuple[AnySpace, int]] = field(default_factory=dict)

    def pass_lines(self, lines: list[Line], given: Output) -> None:
        """Passes the items of these lines and the list after them."""
        progress = Progress()
        for line in reversed(lines):
            self.coming.setdefault(line.thread, []).append(line)
        for count in range(len(lines)):
            self.pass_item(given)
            if count % 1024 == 0:
                progress.tell(f"{count:,} of {len(lines):,} lines judged")
        progress.clear()
        given.passes(self.space.maps())

    def pass_item(self, given: Output) -> None:
        item = ITEM.match(given.line())
        if item is None:
            given.wrong(f"no item stands here, and some line has none yet: it is `{printable(given.line(), 80)}`")
        number, thread, said = map(int, item.groups())
        line = self.next_line(number, thread, given)
        if line.after is not None and line.after not in self.passed:
            given.wrong(f"it answers line {number}, which comes after line {line.after}, and that has no answer yet")
        result, is_call = self.answer(line)
        # Reads of one version stand by thread, after its call.
        if not is_call and thread < self.last_reader:
            given.wrong(f"the read of thread {thread} stands below one of thread {self.last_reader}")
        self.last_reader = 0 if is_call else thread
        if said != self.version:
            given.wrong(f"its version is {said}, and there were {self.version} calls up to it")
        given.passes([f"L{number} t{thread} v{self.version} = {result[0]}", *result[1:]])
        self.passed.add(number)

    def next_line(self, number: int, thread: int, given: Output) -> Line:
        """A thread's lines are answered in their order, each once."""
        coming = self.coming.get(thread)
        if not coming or coming[-1].number != number:
            following = f"line {coming[-1].number}" if coming else "none"
            given.wrong(f"it answers line {number} of thread {thread}, whose next is {following}")
        return coming.pop()

    def answer(self, line: Line) -> tuple[list[str], bool]:
        """Does what a line asks for: the lines of its result, and whether it was a call."""
        if line.word == "fork":
            self.children[line.arguments[0]] = self.space.child(), self.version
            return [f"child {line.arguments[0]} areas {self.space.maps()[0].split()[1]}"], False
        result, is_call = self.space.answer(line)
        self.version += is_call
        return result, is_call
