"""Traces for diltzekun-live, one after the other in one process: what it answers, in the order in which `serial` prints it."""

import re
from collections.abc import Sequence

from ..comparing.conformance import CANNOT_RUN
from ..systems.batch import Adapter, Answer, text_of

NEW = b"new\n"
# Behind each trace, in an address space of its own: the answer to `query` is that of no line of a trace.
MARK = b"vmatrace 1\nquery 0\nnew\n"
MARKED = b"none\nmaps 0"
# The lines that a session has and a trace has not. `serial` refuses them.
OWN_LINE = re.compile(rb"^[ \t]*(new[ \t]*$|query[ \t])", re.MULTILINE)
RESULT = re.compile(r"L\d+ t(\d+) v(\d+) = ")
BAD_LINE = re.compile(r"trace line (\d+) cause \d+ (\w+)")
BAD_TRACE = "ends with status 3"  # as `serial` does


def results_of(output: str) -> list[str]:
    """The answers to the operations of a trace, in the order of their lines, and the list at its end."""
    results: list[str] = []
    for line in output.splitlines(keepends=True):
        if RESULT.match(line) or BAD_LINE.match(line) or line.startswith("maps "):
            results.append(line)
        elif results:
            results[-1] += line  # of a list
        else:
            results.append(line)
    return results


def as_serial(output: str) -> str:
    """The answers to a trace in the order of `serial`: by version, the call first, then the reads by ascending thread."""
    if output.count(" t0 v") == output.count("\nL") + output.startswith("L"):  # of one thread they're in it
        return output
    keyed: list[tuple[tuple[int, bool, int], str]] = []
    before = 0
    *results, last = results_of(output) or [""]
    for result in results:
        found = RESULT.match(result)
        if found is None:
            return output
        version = int(found[2])
        is_read = version == before
        keyed.append(((version, is_read, int(found[1]) if is_read else 0), result))
        before = version
    return "".join(result for _, result in sorted(keyed, key=lambda pair: pair[0])) + last


def answer_of(output: str) -> Answer:
    """What came of a trace. Where a line was bad, no line behind it counts; a fork is bad here alone."""
    bad = BAD_LINE.search(output)
    if bad is None:
        return Answer(as_serial(output), None, "", True)
    if bad[2] == "Child":
        return Answer("", CANNOT_RUN, f"line {bad[1]}: diltzekun-live doesn't fork", True)
    return Answer("", BAD_TRACE, bad[0], True)


def refusal(text: bytes) -> str:
    """Of a text that a session takes otherwise than `serial`, why that refuses it."""
    own = OWN_LINE.search(text) if b"new" in text or b"query" in text else None
    if own is None and text.endswith(b"\n"):
        return ""
    line = text.count(b"\n", 0, own.start()) + 1 if own else text.count(b"\n") + 1
    return f"line {line}: no line of a trace is so"


class LiveAdapter(Adapter):
    """A session with diltzekun-live, in which each trace has an address space of its own."""

    GRACE = 0.0

    def run_all(self, texts: Sequence[bytes], seconds: float) -> list[Answer]:
        refused = next((place for place, text in enumerate(texts) if refusal(text)), len(texts))
        return super().run_all(texts[:refused], seconds) if refused else [Answer("", BAD_TRACE, refusal(texts[0]), True)]

    def request(self, number: int, text: bytes, seconds: float) -> bytes:
        return text + NEW + MARK

    def mark(self, number: int) -> bytes:
        return MARKED

    def answered(self, data: bytes, last: bytes) -> Answer:
        return answer_of(text_of(data))
