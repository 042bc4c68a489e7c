"""Answers that an empty system would give otherwise: places that were searched beside memory of the system's own."""

from collections.abc import Sequence

from ..model import Space, answer
from ..traces import Line, Trace
from .empty import OWN, TOP
from .places import NOT_EMPTY, USER_END, Refused, Window, finds_place

ERROR = 2**64 - 4095


def check_searches(trace: Trace, texts: Sequence[str], window: Window | None) -> None:
    """Refuses a trace in which a search came to memory that is not the trace's: of the runner, or outside of the window."""
    lines = {line.number: line for line in trace.lines if finds_place(line)}
    asked = None
    for text in texts if lines else ():
        words = text.split()
        line = lines.get(int(words[1], 16)) if words[0] == "reply" else None
        if line is None or not is_doubtful(line, int(words[2], 16), window):
            continue
        asked = asked or answers_of_model(trace)
        if window and is_place_of_search(line, asked[line.number]):
            raise Refused(4, f"line {line.number}: {NOT_EMPTY}")
        if window is None and reaches_own(line, asked[line.number], int(words[2], 16)):
            raise Refused(
                4,
                f"line {line.number}: a search for a place comes to the addresses from {OWN:#x} on, which are this tool's own",
            )


def is_doubtful(line: Line, value: int, window: Window | None) -> bool:
    """Whether an answer may be another one than in an empty space."""
    if window:
        return value != line.arguments[0] // 4096 * 4096 and value < ERROR
    length = line.arguments[1 if line.word == "mmap" else 2]
    return OWN <= value < ERROR or value == 2**64 - 12 and length <= USER_END - TOP


def is_place_of_search(line: Line, told: str) -> bool:
    """Whether the model too finds another place than the one that is named."""
    return told.startswith("0x") and int(told, 16) != line.arguments[0] // 4096 * 4096


def reaches_own(line: Line, told: str, value: int) -> bool:
    length = line.arguments[1 if line.word == "mmap" else 2]
    return OWN <= value < ERROR or told.startswith("0x") and int(told, 16) + length > OWN


def answers_of_model(trace: Trace) -> dict[int, str]:
    """What the model answers, by the numbers of the lines."""
    spaces: dict[int, Space] = {}
    parent, answers = Space(trace), {}
    for line in trace.lines:
        space = spaces.get(line.thread, parent)
        if line.word == "fork":
            spaces[line.arguments[0]] = space.child()
        else:
            answers[line.number] = answer(space, line)[0][0]
    return answers
