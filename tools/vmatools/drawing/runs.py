"""A run that is to be drawn: what a trace asks for, what an output says of it, and what is right, version by version."""

import re
from collections.abc import Iterator
from dataclasses import dataclass, field

from ..comparing import judging
from ..console import Failure, counted, printable
from ..linux.areas import NotModelled
from ..model import Area
from ..oracles import PROFILE, Oracle
from ..profile.serial import ModelSpace
from ..traces import File, Line, Reader, Source, Trace

RESULT = re.compile(r"L([0-9]{1,20}) t([0-9]{1,20}) v([0-9]{1,20}) = (.*)", re.DOTALL)
CHILD = re.compile(r"child ([0-9]{1,20}) of L[0-9]{1,20} v[0-9]{1,20}")
COUNT = re.compile(r"maps ([0-9]{1,6})")
MOST_RUBBISH = 1_000  # lines of no form, or answers too many, behind which an output is read no further


@dataclass
class Item:
    """One operation: its line, its version, what the output says of it, and what is right where that is another."""

    line: Line
    text: str
    version: int
    result: str = ""
    expected: str | None = None
    is_call: bool = False
    was_refused: bool = False


@dataclass
class Run:
    """What was done in one space: its items in their order, and its list after each version."""

    title: str
    space: ModelSpace
    file_of: dict[int, File]  # by the objects of areas
    right: str  # who says what is right
    child: int | None = None
    items: list[Item] = field(default_factory=list)
    lists: list[list[Area]] = field(default_factory=list)
    differences: list[str] = field(default_factory=list)

    def maps(self, version: int) -> list[str]:
        """The list after a version, as lines."""
        return [f"maps {len(self.lists[version])}", *map(self.space.maps_line, self.lists[version])]


@dataclass
class Answer:
    """What is said of one line of a trace. Without an output there is neither a version nor a text."""

    line: int
    thread: int
    version: int | None = None
    lines: list[str] | None = None


@dataclass
class Said:
    """What an output says of one space: its answers, and the list at the end."""

    child: int | None = None
    answers: list[Answer] = field(default_factory=list)
    final: list[str] | None = None
    rubbish: list[int] = field(default_factory=list)


def read_numbered(source: Source, most: int | None) -> tuple[Trace, dict[int, str]]:
    """A trace of at most so many operations, and the texts of its lines. Raises BadLine where it is none."""
    reader = Reader(source)
    lines: list[Line] = []
    texts: dict[int, str] = {}
    for line in reader:
        if most is not None and len(lines) == most:
            raise Failure(
                f"the trace has more than {most:,} operations, and a picture of so many is too large to look at: "
                "`--most N` draws up to N, and `--list N` prints the list after version N"
            )
        lines.append(line)
        texts[line.number] = reader.texts.raw.decode()
    return reader.trace.with_lines(lines), texts


# What an output says


def stated(output: bytes, most: int) -> list[Said]:
    """What an output says, of the parent and of each child. After so many answers that are too many it is read no further."""
    said, numbered = [Said()], enumerate(text for text, is_ended in judging.lines_of(output) if is_ended)
    answers = rubbish = 0
    for place, text in numbered:
        result, child = RESULT.fullmatch(text), CHILD.fullmatch(text)
        count = COUNT.fullmatch(result[4] if result else text)
        block = [line for _, (_, line) in zip(range(int(count[1])), numbered)] if count else []
        if result:
            number, thread, version = map(int, result.groups()[:3])
            said[-1].answers.append(Answer(number, thread, version, [result[4], *block]))
            answers += 1
        elif child:
            said.append(Said(int(child[1])))
        elif count and said[-1].final is None:
            said[-1].final = [text, *block]
        else:
            said[-1].rubbish.append(place + 1)
            rubbish += 1
        if rubbish > MOST_RUBBISH or answers > most + MOST_RUBBISH or len(said) > MOST_RUBBISH:
            break
    return said


def by_lines(lines: list[Line]) -> list[Said]:
    """For want of an output, the lines in their order: those of the parent, and those of each child by its number."""
    children = sorted({line.arguments[0] for line in lines if line.word == "fork"})
    said = [Said(child) for child in [None, *children]]
    for line in lines:
        place = 1 + children.index(line.thread) if line.thread in children else 0
        said[place].answers.append(Answer(line.number, line.thread))
    return said


# What is right


class Replay:
    """The runs of the parent and of its children, each answered by a model too."""

    def __init__(self, trace: Trace, texts: dict[int, str], oracle: Oracle) -> None:
        self.trace, self.texts, self.oracle = trace, texts, oracle
        self.lines = {line.number: line for line in trace.lines}
        self.forks: dict[int, tuple[Item, ModelSpace]] = {}
        self.runs: list[Run] = []

    def follow(self, said: list[Said]) -> list[Run]:
        for part in said:
            run = self.begun(part.child)
            if run is None:
                self.runs[0].differences.append(f"the output tells of a child {part.child}, which no line forked")
                continue
            self.runs.append(run)
            run.lists.append(run.space.areas)
            for result in part.answers:
                self.take(run, result)
            run.differences += ends(run, part)
        answered = {result.line for part in said for result in part.answers}
        missing = [line.number for line in self.trace.lines if line.number not in answered]
        if missing:
            many, have = counted(len(missing), "line"), "has" if len(missing) == 1 else "have"
            self.runs[0].differences.append(f"{many} of the trace {have} no result, the first of them line {missing[0]}")
        return self.runs

    def begun(self, child: int | None) -> Run | None:
        """The run of the parent or of a child, where a line forked it."""
        title, space = "The space of the trace", None
        if child in self.forks:
            fork, space = self.forks[child]
            title = f"Child {child}, forked by line {fork.line.number} at version {fork.version}"
        elif child is not None:
            return None
        right = self.oracle.name if self.oracle.kernel else "the model"
        return Run(title, space or self.oracle.space(self.trace), dict(enumerate(self.trace.files, 1)), right, child)

    def take(self, run: Run, said: Answer) -> None:
        """Does what one line asks for, and keeps what came of it."""
        line = self.lines.get(said.line)
        if line is None or line.thread != said.thread:
            what = f"line {said.line} of thread {said.thread}"
            run.differences.append(f"the output answers {what}, which the trace does not have")
            return
        item = Item(line, self.texts[line.number], len(run.lists) - 1)
        answered = self.does(run, item)
        item.result = (said.lines or answered)[0]
        if said.lines is not None and (said.lines != answered or said.version != item.version):
            item.expected = f"v{item.version} = {answered[0]}"
            what = f"v{said.version} = {printable(said.lines[0])}"
            other = ", with another list" if said.lines[0] == answered[0] and said.lines != answered else ""
            run.differences.append(f"line {said.line}: the output says {what}, and {run.right} {item.expected}{other}")
        item.was_refused = item.result.startswith(("-1 ", "SIG"))
        run.items.append(item)

    def does(self, run: Run, item: Item) -> list[str]:
        """Does what a line asks for; the lines of its result."""
        line, space = item.line, run.space
        if line.word == "fork":
            self.forks[line.arguments[0]] = (item, space.child())
            return [f"child {line.arguments[0]} areas {len(space.areas)}"]
        try:
            answered, item.is_call = space.answer(line)
        except NotModelled as gap:
            raise NotModelled(gap.why, line.number) from None
        if item.is_call:
            run.lists.append(space.areas)
            item.version += 1
        return answered


def ends(run: Run, said: Said) -> Iterator[str]:
    """What is wrong with the end of what an output says of a space."""
    if said.final is not None and said.final != run.space.maps():
        of_whom = "" if said.child is None else f" of child {said.child}"
        yield f"the list at the end{of_whom} is another than {run.right}'s"
    if said.rubbish:
        many = counted(len(said.rubbish), "line")
        yield f"{many} of the output of no form, the first of them line {said.rubbish[0]}"


def replayed(trace: Trace, texts: dict[int, str], output: bytes | None, oracle: Oracle = PROFILE) -> list[Run]:
    """The runs of a trace, and of each what an output says otherwise than is right: nothing where `judge` says legal."""
    said = by_lines(trace.lines) if output is None else stated(output, len(trace.lines))
    runs = Replay(trace, texts, oracle).follow(said)
    if output is not None and not any(run.differences for run in runs):
        wrong = judging.first_wrong(trace, output, oracle)
        if wrong:
            runs[0].differences.append(f"line {wrong.line} of the output: {wrong.why}")
    return runs
