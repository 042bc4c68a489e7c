"""One trace on both sides: all differences of it, each by the operation that brings it about, and which of them are set
aside."""

import re
from collections import Counter
from collections.abc import Callable, Iterable, Iterator, Sequence
from dataclasses import dataclass, field
from fnmatch import fnmatchcase
from functools import lru_cache
from itertools import chain, islice
from typing import NamedTuple, Optional, Union

from ..console import Failure
from ..linux.areas import NotModelled
from ..model import Space
from ..oracles import PROFILE, Oracle, without
from ..outputs import Difference, Pair, answer_of, difference_of, end_of, is_list, kind_of, pairs_of, parts_of
from ..profile.serial import serial_output
from ..running import forks
from ..running.program import Ran, run
from ..systems.batch import Adapters, Answer
from ..traces import FORMS, LIMITS, BadLine, Line, Trace, read_trace
from .conformance import CANNOT_RUN, NOT_THERE

PROGRAM_SECONDS = 600
MOST_FINDINGS = 12  # of one trace
NO_END = "does not end"
WRITES_NOTHING = "writes nothing"  # not even the list at the end, which every output has
ENDING = re.compile("hung|killed by signal [0-9]+|ended with status [0-9]+")  # what such an adapter answers
HANGS = (NO_END, "hung")  # the second is what an adapter answers that ends its system itself


class CannotRun(Failure):
    """The program of this repository did not answer a trace, or the system under test says that it runs nowhere
    here."""


class Stopped(Exception):
    """The comparison of a trace was given up, since the whole run ends."""


class Rules:
    """Which differences are set aside, by the rules of --ignore."""

    def __init__(self, patterns: Iterable[str] = ()) -> None:
        patterns = list(patterns)
        self.patterns = [pattern for pattern in patterns if pattern != "list"]
        self.last_lists = "list" not in patterns

    def pattern_of(self, difference: Difference) -> Optional[str]:
        """The rule of --ignore by which a difference is set aside."""
        for pattern in self.patterns:
            both_refuse = difference.here.startswith("-1") and difference.there.startswith("-1")
            if both_refuse if pattern == "errors" else fnmatchcase("/".join(kind_of(difference)), pattern):
                return f"--ignore {pattern}"
        return None


class Seen(NamedTuple):
    """What the system answers to a trace and what is right, as far as that is known before the trace is looked at."""

    there: Optional[Ran] = None
    right: Optional[str] = None


class Sides:
    """What is right, here, and the system under test, there."""

    oracle: Oracle = PROFILE

    def __init__(self, program: str, command: Sequence[str], seconds: float, rules: Rules, short: float = 1) -> None:
        self.program, self.command, self.seconds, self.rules = program, list(command), seconds, rules
        self.is_stopped = False
        self.short = min(short, seconds)  # how long a run may take while the end of a system is looked for
        self.adapters: Optional[Adapters] = None  # processes that answer many traces, in place of one for each
        self.live: Optional[Adapters] = None  # those of the program: sessions with diltzekun-live
        self.shown: Callable[[str], str] = str  # what of an output is compared
        self.lacks: set[str] = set()  # operations that the system hasn't, which are left out of all traces
        self.kept: set[str] = set()  # operations that are never left out

    def here(self, trace: Trace) -> str:
        """What is right. The profile's is what the program answers, or with a batch the model, which `confirm` holds to it."""
        if self.oracle.kernel:
            return self.shown(self.oracle.output(trace))
        return self.shown(serial_output(trace) if self.adapters else self.program_output(trace))

    def right(self, trace: Trace) -> str:
        """The same, by sessions with the program where they can give it: then no model has to."""
        live = self.rights([trace])
        return live[0] if live else self.here(trace)

    def confirm(self, trace: Trace) -> None:
        """Ends the comparison where the model, which stands in for the program, answers a trace otherwise."""
        if self.adapters and not self.oracle.kernel and self.program_output(trace) != serial_output(trace):
            raise CannotRun(f"the model of the tools answers otherwise than the program on this trace:\n{trace.text()}")

    def confirm_smallest(self, trace: Trace) -> None:
        """Ends the comparison where a smallest trace differs from what `serial` answers, whatever stands in for it."""
        self.confirm(trace)
        live = {} if self.oracle.kernel else self.by_sessions([trace])
        if live and live[0] != self.by_serial(trace):
            raise CannotRun(
                "diltzekun-live answers otherwise than the program on this trace; are both of one build?\n"
                f"{trace.text()}"
            )

    def program_output(self, trace: Trace) -> str:
        """What the program answers: by sessions with diltzekun-live where there are some, as that saves a start."""
        live = self.by_sessions([trace])
        return live[0] if live else self.by_serial(trace)

    def by_serial(self, trace: Trace) -> str:
        ran = run([self.program, "serial"], trace.data, PROGRAM_SECONDS)
        if ran.fault:
            raise CannotRun(f"the program {ran.fault} on a trace, with `{ran.message.strip()[:200]}` on standard error")
        return ran.output

    def there(self, trace: Trace, seconds: Optional[float] = None) -> Ran:
        text, limit = trace.data, seconds or self.seconds
        return self.ran(self.adapters.run(text, limit) if self.adapters else run(self.command, text, limit))

    def ran(self, ran: Union[Answer, Ran]) -> Ran:
        return Ran(self.shown(ran.output), ran.fault or (None if ran.output else WRITES_NOTHING), ran.message)

    # Many traces

    def seen(self, traces: Sequence[Trace]) -> list[Seen]:
        """Of some traces what both sides answer to all at once, as far as they can: of all up to one that ends the system."""
        self.go_on()
        if self.adapters is None:
            return [Seen()] * len(traces)
        there = self.adapters.run_all([trace.data for trace in traces], self.seconds)
        rights = self.rights(traces[: len(there)])
        return [Seen(self.ran(answer), rights.get(place)) for place, answer in enumerate(there)]

    def rights(self, traces: Sequence[Trace]) -> dict[int, str]:
        """What is right for those of some traces that sessions answer, by their places."""
        if self.oracle.kernel:
            return {}
        return {place: self.shown(output) for place, output in self.by_sessions(traces).items()}

    def by_sessions(self, traces: Sequence[Trace]) -> dict[int, str]:
        """What sessions with the program answer to some traces at once, by their places. Others are for `serial`."""
        if self.live is None:
            return {}
        texts = [forks.texts_of(trace) for trace in traces]
        answers = iter(self.live.run_all(list(chain.from_iterable(texts)), PROGRAM_SECONDS))
        found = [list(islice(answers, len(some))) for some in texts]
        return {
            place: forks.joined(trace, [answer.output for answer in found[place]])
            for place, trace in enumerate(traces)
            if len(found[place]) == len(texts[place]) and not any(answer.fault for answer in found[place])
        }

    def test_machine(self) -> None:
        """Ends the comparison where COMMAND cannot run any trace on this machine: `vma kernel` says so with status
        5."""
        ran = self.there(Trace())
        if ran.fault == "ends with status 5":
            raise CannotRun(f"COMMAND cannot run here: {ran.message.strip()[:300]}")

    def go_on(self) -> None:
        """Ends the comparison of a trace where the whole run ends."""
        if self.is_stopped:
            raise Stopped

    # The first difference

    def raw_difference(
        self, trace: Trace, seconds: Optional[float] = None, seen: Seen = Seen()
    ) -> Optional[Difference]:
        """The first difference of the outputs as they are."""
        self.go_on()
        there = seen.there or self.there(trace, seconds)
        if there.fault:
            return Difference("run", "an output", there.fault, None, [], there.message.splitlines()[-3:])
        here = self.right(trace) if seen.right is None else seen.right
        if here == there.output:
            return None
        ended = self.end_in(trace, there.output)
        if ended:
            return ended
        self.confirm(trace)
        pair = next(self.unlike_pairs(here, there.output), None)
        if pair:
            return difference_of(pair.here, pair.there, words_of(trace))
        return end_of(here, there.output, words_of(trace))

    def unlike_pairs(self, here: str, there: str) -> Iterator[Pair]:
        """All pairs that differ, without last lists where these are not compared."""
        for pair in pairs_of(here, there):
            is_last = pair.here.number is None and is_list(pair.here) and is_list(pair.there)
            if self.rules.last_lists or not is_last:
                yield pair

    def end_in(self, trace: Trace, output: str) -> Optional[Difference]:
        """The operation in which the system ended, where the adapter says so: it counts more than what differs above."""
        last = next((part for part in parts_of(output) if ENDING.fullmatch(part.result)), None)
        if last is None:
            return None
        here = next((part for part in parts_of(self.here(trace)) if part.number == last.number), None)
        told, lines = (answer_of(here.result), here.lines) if here else ("an answer", [])
        operation = words_of(trace).get(last.number, "output")
        return Difference(operation, told, last.result, last.number, lines, last.lines)

    def located(self, trace: Trace, found: Difference) -> Difference:
        """A difference by the operation that brings it about: after it a list is another one, or the system ends."""
        if ENDING.fullmatch(found.there):
            return found
        if found.operation == "run":
            return self.at_its_end(trace, found)
        return self.with_lists(trace, found) if self.rules.last_lists else found

    def difference(self, trace: Trace, seconds: Optional[float] = None) -> Optional[Difference]:
        """The first difference, by the operation that brings it about."""
        found = self.raw_difference(trace, seconds)
        return self.located(trace, found) if found else None

    # The operation after which lists differ

    def with_lists(self, trace: Trace, found: Difference) -> Difference:
        """The operation after which the lists differ first, if they differ before the answers do: reads of the lists of
        all spaces are put behind operations."""
        return self.first_list(trace, found) or found

    def first_list(self, trace: Trace, found: Optional[Difference]) -> Optional[Difference]:
        places = [
            place
            for place, line in enumerate(trace.lines)
            if found and line.number == found.number and line.word != "maps"
        ]
        low, high, there = 0, places[0] if places else len(trace.lines), None
        spaces = 1 + sum(line.word == "fork" for line in trace.lines)
        while low < high:
            step = -(-(high - low) // max(LIMITS["maps"] // spaces, 1))
            marks = [*range(low + step, high, step), high]  # the lists are read behind so many operations
            told = self.read_behind(trace, marks)
            if told is None:
                return there
            place, there = told
            low, high = max(marks[place] - step, low), marks[place]
            there = there._replace(
                operation=trace.lines[high - 1].word,
                number=trace.lines[high - 1].number,
                here_lines=list_lines(there.here_lines),
                there_lines=list_lines(there.there_lines),
            )
            if step == 1:
                return there
        return there

    def read_behind(self, trace: Trace, marks: list[int]) -> Optional[tuple[int, Difference]]:
        """The first of these places behind which a list is another one, and the difference."""
        self.go_on()
        asked, behind = with_reads(trace, marks)
        there = self.there(asked)
        if there.fault or self.end_in(asked, there.output):
            return None
        words, here = words_of(asked), self.here(asked)
        found: dict[int, Difference] = {}
        for pair in self.unlike_pairs(here, there.output):
            place = behind.get(pair.here.number)
            if place is not None and place not in found and is_list(pair.here) and is_list(pair.there):
                found[place] = difference_of(pair.here, pair.there, words)
        return min(found.items(), key=lambda item: item[0]) if found else None

    # The operation at which a system ends, or goes on for ever

    def at_its_end(self, trace: Trace, found: Difference) -> Difference:
        """The same end of the system, by the operation that first brings it about: found by halves, in a short time
        each."""
        low, high = -1, len(trace.lines)
        while high - low > 1:
            self.go_on()
            middle = (low + high) // 2
            ended = self.there(trace.with_lines(trace.lines[:middle]), self.short).fault == found.there
            low, high = (low, middle) if ended else (middle, high)
        last = trace.lines[high - 1] if high else None
        return found._replace(operation=last.word, number=last.number) if last else found

    def same_kind(self, trace: Trace, kind: tuple[str, str, str], seconds: float) -> Optional[Difference]:
        """The first difference where it is of this kind, with no more runs than that takes."""
        if kind[1] == "an output":
            there = self.there(trace, seconds)
            if not there.fault:
                return None
            last = trace.lines[-1] if trace.lines and kind[0] != "run" else None
            found = Difference("run", "an output", there.fault, None, [], there.message.splitlines()[-3:])
            return found._replace(operation=last.word, number=last.number) if last else found
        if kind[1].startswith("list") and kind[0] != "list":
            return self.first_list(trace, None)
        return self.difference(trace, seconds)


def words_of(trace: Trace) -> dict[Optional[int], str]:
    return {line.number: line.word for line in trace.lines}


def list_lines(lines: list[str]) -> list[str]:
    """The lines of a list without the start of the read that showed it, which no line of the trace is."""
    return [lines[0].rsplit(" = ")[-1], *lines[1:]]


def with_reads(trace: Trace, marks: list[int]) -> tuple[Trace, dict[Optional[int], int]]:
    """The trace up to the last of some places, with a read of the list of each space behind each of them, and of each
    read its place among these, by the number of its line."""
    children = {line.arguments[0] for line in trace.lines if line.word == "fork"}
    parents = [line.thread for line in trace.lines if line.thread not in children]
    spaces = parents[:1]
    lines: list[Line] = []
    behind: dict[int, int] = {}
    for place, line in enumerate(trace.lines[: marks[-1]], 1):
        if line.word != "maps":
            lines.append(line)
        if line.word == "fork":
            spaces.append(line.arguments[0])
        if place in marks:
            behind |= {len(lines) + count: marks.index(place) for count in range(len(spaces))}
            lines += [Line(0, thread, "maps", [], None) for thread in spaces]
    asked = trace.with_lines(lines).numbered()
    return asked, {asked.lines[index].number: place for index, place in behind.items()}


def may_answer(trace: Trace, kind: tuple[str, str, str], oracle: Oracle = PROFILE) -> bool:
    """Whether the model answers an operation of a trace so, as far as a kind says what is answered here."""
    try:
        output = oracle.output(trace)
    except NotModelled:
        return False
    operation, here, _ = kind
    if operation not in FORMS or not (
        here.startswith(("-1", "SIG")) or here in ("0", "an address", "served", "a child")
    ):
        return True
    results = (part for part in parts_of(output) if part.number is not None)
    words = words_of(trace)
    return any(words[part.number] == operation and answer_of(part.result) == here for part in results)


def is_trace(trace: Trace) -> bool:
    try:
        read_trace(trace.text().encode())
        return True
    except BadLine:
        return False


# All differences of a trace


class Found(NamedTuple):
    """A difference that is not set aside, and the trace in which it is the first."""

    difference: Difference
    trace: Trace


@dataclass
class Examined:
    """What there is to say of a trace."""

    findings: list[Found] = field(default_factory=list)
    aside: Counter[str] = field(default_factory=Counter)
    has_more: bool = False  # it has more findings than are looked for
    left_out: Optional[str] = None  # why the system can't run it
    lacks: set[str] = field(default_factory=set)  # operations that the system hasn't


def named_difference(sides: Sides, trace: Trace, seen: Seen) -> tuple[Optional[Difference], Optional[str]]:
    """The first difference, by the operation that brings it about, and the rule that sets it aside, or None."""
    found = sides.raw_difference(trace, seen=seen)
    if found is None or found.there == CANNOT_RUN or is_missing(sides, found):
        return found, None
    found = sides.located(trace, found)
    return found, sides.rules.pattern_of(found)


def is_missing(sides: Sides, found: Difference) -> bool:
    """Whether the system hasn't the operation at all, and nobody wants to see that each time."""
    return found.there.endswith(NOT_THERE) and found.number is not None and found.operation not in sides.kept


def without_all(trace: Trace, words: set[str]) -> Trace:
    """The trace without the lines of some operations."""
    while line := next((line for line in trace.lines if line.word in words), None):
        trace = without(trace, line.number)
    return trace


def why_left_out(found: Difference) -> str:
    """In the words of the adapter, why it can't run a trace, whatever the line."""
    said = found.there_lines[-1].strip() if found.there_lines else ""
    return re.sub(r"^(vma kernel: )?(line \d+: )?", "", said)[:200] or found.there


def examine(
    sides: Sides,
    trace: Trace,
    most: int = MOST_FINDINGS,
    tell: Optional[Callable[[Found], None]] = None,
    seen: Seen = Seen(),
) -> Examined:
    """All differences of a trace: the line of each is taken out, and the rest is run again. Each is told at once."""
    told = Examined()
    while True:
        trace, gaps = sides.oracle.modelled(trace)
        told.aside.update(f"not modelled: {gap.why}" for gap in gaps)
        found, name = named_difference(sides, trace, Seen() if gaps else seen)
        seen = Seen()
        if found is None:
            break
        if found.there == CANNOT_RUN:
            told.left_out = None if told.findings or told.lacks else why_left_out(found)
            break
        if is_missing(sides, found):
            told.lacks.add(found.operation)
            trace = without_all(trace, told.lacks)
            continue
        if name:
            told.aside[name] += 1
        else:
            told.findings.append(Found(found, trace))
            if tell:
                tell(told.findings[-1])
        if found.number is None:
            break
        if len(told.findings) == most:
            told.has_more = True
            break
        trace = without(trace, found.number)
    return told


@lru_cache(maxsize=1024)
def model_output(text: str) -> str:
    """What the model writes for a trace, which is kept since many wrong models are compared with it."""
    return serial_output(trace_of(text))


class InProcess(Sides):
    """The model, here, and one of its kind that is wrong, there."""

    def __init__(self, model: type[Space], rules: Rules) -> None:
        super().__init__("", [], PROGRAM_SECONDS, rules)
        self.model = model

    def here(self, trace: Trace) -> str:
        return model_output(trace.text())

    def there(self, trace: Trace, seconds: Optional[float] = None) -> Ran:
        return Ran(serial_output(trace, self.model), None, "")


def trace_of(text: str) -> Trace:
    """The trace that a text is, as it was written here."""
    return read_trace(text.encode())
