"""A trace that forks, for sessions that don't: one for each of its spaces, and what `serial` prints, by what they answer.

The session of a child has the lines that the parent had before, and where the child begins a read of the list. A comment
stands in the place of each other line, so that all have their numbers.
"""
from __future__ import annotations

from collections.abc import Sequence

from ..traces import Line, Trace, line_text
from .live import RESULT, as_serial, results_of


def forks_of(trace: Trace) -> dict[int, int]:
    """Of each child the place of the line that forks it."""
    return {line.arguments[0]: place for place, line in enumerate(trace.lines) if line.word == "fork"}


def texts_of(trace: Trace) -> list[bytes]:
    """The texts of the sessions, the parent's first."""
    forks = forks_of(trace)
    if not forks:
        return [trace.data]
    head = trace.with_lines([]).text()

    def row(place: int, line: Line, child: int, begin: int) -> str:
        if place == begin:
            return f"{child} maps"
        is_own = line.thread == child if place > begin else line.thread not in forks
        return line_text(line) if is_own and line.word != "fork" else "#"

    spaces = [(-1, len(trace.lines)), *forks.items()]
    rows = [[row(place, line, *space) for place, line in enumerate(trace.lines)] for space in spaces]
    return [(head + "\n".join([*some, ""])).encode() for some in rows]


def joined(trace: Trace, outputs: Sequence[str]) -> str:
    """The output of the trace."""
    if len(outputs) == 1:
        return outputs[0]
    *parent, last = results_of(outputs[0])
    spaces: dict[int, str] = {}
    for (child, place), output in zip(forks_of(trace).items(), outputs[1:]):
        fork, results = trace.lines[place], results_of(output)
        begin = next(result for result in results if result.startswith(f"L{fork.number} "))
        version, count = version_of(begin), begin.split("\n")[0].rsplit(" ", 1)[1]
        parent.append(f"L{fork.number} t{fork.thread} v{version} = child {child} areas {count}\n")
        own = [counted_from(version, result) for result in results[:-1] if number_of(result) > fork.number]
        spaces[child] = "".join([f"child {child} of L{fork.number} v{version}\n", *own, results[-1]])
    in_order = sorted(parent, key=number_of)
    return as_serial("".join([*in_order, last])) + "".join(spaces[child] for child in sorted(spaces))


def number_of(result: str) -> int:
    return int(result[1 : result.index(" ")])


def version_of(result: str) -> int:
    found = RESULT.match(result)
    return int(found[2]) if found else 0


def counted_from(version: int, result: str) -> str:
    """A result of a child, whose versions count from its fork on."""
    front, _, rest = result.partition(" v")
    number, _, answer = rest.partition(" = ")
    return f"{front} v{int(number) - version} = {answer}"
