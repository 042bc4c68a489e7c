"""What a kernel answered to a trace, step by step."""

from dataclasses import dataclass

from vmatools.linux.kernel import Settings
from vmatools.outputs import parts_of
from vmatools.traces import Line, Trace

from . import terms


@dataclass(frozen=True)
class Recording:
    """A trace and the answers of a kernel of this version, on a machine with these settings. The answers name lines of the
    trace's text."""

    name: str
    version: str
    settings: Settings
    trace: Trace
    output: str
    text: str = ""


@dataclass
class Step:
    """An operation: in which address space, what was answered, and the list after it, where it was read."""

    place: int
    line: Line
    answer: str
    maps: list[str] | None = None

    def term(self, trace: Trace) -> str:
        maps = "None"
        if self.maps is not None:
            maps = f"(Some ({terms.listed([terms.maps_line(trace, line) for line in self.maps])}))"
        return f"kernel_step {self.place} ({terms.operation(self.line)}) ({terms.answer(self.answer)}) {maps}"


def steps_of(trace: Trace, output: str) -> list[Step]:
    """The operations of a trace with their answers. A read of the list is no step: it belongs to the one before, and so
    does the list at the end."""
    parts = parts_of(output)
    answers = {part.number: part for part in parts if part.number is not None}
    steps: list[Step] = []
    last: dict[int, Step] = {}
    children: set[int] = set()
    for line in trace.lines:
        place = line.thread if line.thread in children else 0
        part = answers[line.number]
        if line.word == "maps":
            if place in last:
                last[place].maps = part.lines[1:]
            continue
        step = Step(place, line, part.result)
        steps.append(step)
        last[place] = step
        if line.word == "fork":
            children.add(line.arguments[0])
            last.pop(line.arguments[0], None)
    ends = [part for part in parts if part.number is None and part.result.startswith("maps")]
    for place, part in zip([0, *sorted(children)], ends):
        if place in last and last[place].maps is None:
            last[place].maps = part.lines[1:]
    return steps


def term(recording: Recording) -> str:
    """All steps, as the list that the definitions have to give."""
    steps = steps_of(recording.trace, recording.output)
    return "\n    ∷ ".join([step.term(recording.trace) for step in steps] + ["[]"])


def is_sayable(recording: Recording) -> bool:
    """Whether terms say all that was answered: two files of one name, say, can't be told apart."""
    try:
        return bool(term(recording))
    except terms.Unsayable:
        return False


def is_of_the_process(trace: Trace) -> bool:
    """Whether an answer may tell of the process that made the calls: its own break."""
    return "heap" not in trace.settings and any(line.word == "brk" for line in trace.lines)
