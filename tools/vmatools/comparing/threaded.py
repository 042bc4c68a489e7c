"""Systems that run the threads of a trace at once. Their output says in which order the calls were made, and may be any
that is legal: the program's `check` judges it."""

import io
import re
from collections.abc import Sequence
from typing import Optional

from ..outputs import ITEM, Difference, answer_of
from ..running.program import run
from ..traces import Trace
from .comparison import PROGRAM_SECONDS, CannotRun, Seen, Sides, words_of
from .judging import first_wrong

REPEATS = 3  # runs of one trace, since threads come in another order each time


class Threads(Sides):
    """What is legal, here, and the system under test, there."""

    def seen(self, traces: Sequence[Trace]) -> list[Seen]:
        """Nothing: each trace is run several times."""
        return [Seen()] * len(traces)

    def raw_difference(
        self, trace: Trace, seconds: Optional[float] = None, seen: Seen = Seen()
    ) -> Optional[Difference]:
        """The first output of some runs that is not legal, by its first bad line."""
        for _ in range(REPEATS):
            self.go_on()
            there = self.there(trace, seconds)
            if there.fault:
                return Difference("run", "an output", there.fault, None, [], there.message.splitlines()[-3:])
            place = self.bad_line(trace, there.output)
            if place is not None:
                return illegal(trace, there.output, place)
        return None

    def bad_line(self, trace: Trace, output: str) -> Optional[int]:
        """The number of the first line of an output that no legal one has there, or none where it is legal."""
        ran = run([self.program, "check"], f"{trace.text()}==\n{output}".encode(), PROGRAM_SECONDS)
        verdict = re.fullmatch(r"legal\n|bad ([0-9]+)\n", ran.output)
        if ran.fault or verdict is None:
            raise CannotRun(
                f"the program's `check` {ran.fault or 'answers otherwise'} on a trace: {ran.message.strip()[:200]}"
            )
        return int(verdict[1]) if verdict[1] else None

    def located(self, trace: Trace, found: Difference) -> Difference:
        return self.at_its_end(trace, found) if found.operation == "run" else found

    def same_kind(self, trace: Trace, kind: tuple[str, str, str], seconds: float) -> Optional[Difference]:
        return (
            super().same_kind(trace, kind, seconds) if kind[1] == "an output" else self.raw_difference(trace, seconds)
        )


def illegal(trace: Trace, output: str, place: int) -> Difference:
    """The difference of an output whose line of this number, from 1, is the first bad one."""
    lines = output.splitlines()
    line = lines[place - 1] if place <= len(lines) else None
    item = ITEM.fullmatch(line) if line is not None else None
    words = words_of(trace)
    if line is None:
        return Difference("output", "legal", "illegal: the output ends", None, [], lines[-1:])
    if item is None or int(item[1]) not in words:
        in_list = line.startswith("maps ") or re.match("[0-9a-f]+-", line) is not None
        return Difference(
            "list" if in_list else "output",
            "legal",
            "illegal: a list" if in_list else "illegal: a line",
            None,
            [],
            [line],
        )
    number = int(item[1])
    return Difference(
        words[number], "legal", f"illegal: {answer_of(item[4])}", number, [judged(trace, output, place)], [line]
    )


def judged(trace: Trace, output: str, place: int) -> str:
    """What is wrong with that line, in the words of `vma judge`."""
    wrong = first_wrong(trace, io.BytesIO(output.encode()))
    return wrong.why if wrong and wrong.line == place else f"line {place} is none that a legal output has there"
