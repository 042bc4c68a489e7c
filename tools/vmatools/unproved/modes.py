"""What each mode of docs/diltzekun.1 answers: status, standard output and standard error.

It is written from docs/TRACE.md and that page alone, and has nothing of the program's code.
"""

import re
import sys
from collections.abc import Callable

from ..comparing import judging
from ..profile import loads
from ..profile.serial import serial_output
from ..texts import maps_texts
from ..traces import LIMITS, MOST_NUMBER, BadLine, Line, Reader, Trace, number_of, read_trace
from . import scripts

Answer = tuple[int, bytes, bytes]

WORDS: Answer = 2, b"", b"words\n"
MOST_GENERATED = 400_000
MOST_JUDGED = 268_435_456  # bytes of a text that is checked
# At most one byte more than any input may have is read.
MOST_READ = LIMITS["bytes"] + MOST_JUDGED + 4


def refused(bad: BadLine) -> Answer:
    return 3, b"", f"trace {bad}\n".encode()


def serial(data: bytes) -> Answer:
    """It has no threads: the order of the lines is one that threads may have too."""
    try:
        return 0, serial_output(read_trace(data)).encode(), b""
    except BadLine as bad:
        return refused(bad)


def check(data: bytes) -> Answer:
    parts = re.split(rb"^==\n", data, maxsplit=1, flags=re.MULTILINE)
    try:
        trace = trace_without_forks(parts[0], is_whole=len(parts) == 2)
    except BadLine as bad:
        return refused(bad)
    given = parts[1]
    if len(given) > MOST_JUDGED:
        return refused(at_line(parts[0].count(b"\n") + 2 + given.count(b"\n", 0, MOST_JUDGED), "TooLong"))
    wrong = judging.first_wrong(trace, given)
    return 0, f"bad {wrong.line}\n".encode() if wrong else b"legal\n", b""


def trace_without_forks(data: bytes, is_whole: bool) -> Trace:
    """The trace above the line `==`, which is missing where the trace isn't whole."""
    lines: list[Line] = []
    reader = Reader(data)
    for line in reader:
        if line.word == "fork":
            raise at_line(line.number, "Child")
        lines.append(line)
    if not is_whole:
        raise at_line(data.count(b"\n") + 1, "NoEnd")
    return reader.trace.with_lines(lines)


def at_line(number: int, cause: str) -> BadLine:
    bad = BadLine(cause, "check")
    bad.line = number
    return bad


def generate(count: str, seed: str) -> Answer:
    if not all(re.fullmatch("[0-9]{1,20}", word) for word in (count, seed)):
        return WORDS
    if int(count) > MOST_GENERATED or int(seed) > MOST_NUMBER:
        return WORDS
    text = "".join(line + "\n" for line in loads.load(int(count), int(seed)))
    told = loads.summary(serial_output(read_trace(text.encode())).splitlines())
    return 0, "".join(line + "\n" for line in told).encode(), b""


READING: dict[str, Callable[[bytes], Answer]] = {
    "serial": serial,
    "threads": serial,
    "check": check,
    "retrace": maps_texts.retrace,
    "steps": scripts.steps,
}


def answered(words: list[str], read: Callable[[], bytes]) -> Answer:
    """What a run with these words gives, which reads its input where the mode has one."""
    name, rest = (words[0], words[1:]) if words else ("", [])
    if name == "generate" and len(rest) == 2:
        return generate(*rest)
    if name == "query" and len(rest) == 1:
        address = number_of(rest[0])
        return WORDS if address is None else maps_texts.query(read(), address)
    return READING[name](read()) if name in READING and not rest else WORDS


def main(words: list[str]) -> int:
    """Runs a mode, and returns its status."""
    try:
        status, output, message = answered(words, lambda: sys.stdin.buffer.read(MOST_READ + 1))
    except OSError:
        status, output, message = 4, b"", b"read fault\n"
    except MemoryError:
        status, output, message = 6, b"", b"no memory\n"
    try:
        sys.stdout.buffer.write(output)
        sys.stdout.buffer.flush()
    except OSError:
        status, message = 5, b"write fault\n"
    sys.stderr.buffer.write(message)
    return status
