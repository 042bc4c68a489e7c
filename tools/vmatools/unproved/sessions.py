"""What diltzekun-live answers to an input.

It is written from docs/diltzekun-live.1 alone, and has nothing of the program's code. `vma live --as` has the calls of a session
answered by a model of Linux.
"""

import os
import sys
from collections.abc import Callable

from .. import model, traces
from ..linux.areas import NotModelled
from ..profile.serial import ModelSpace
from ..traces import BadLine, Line, Trace

PIECE = 65_536  # bytes of a read


class Session:
    """A session, which answers the lines of one address space after another."""

    def __init__(self, space_of: Callable[[Trace], ModelSpace] = model.Space) -> None:
        self.space_of = space_of
        self.begin()

    def begin(self) -> None:
        """Before a header."""
        self.reader = traces.Reader(b"")
        self.number = 0  # of the last line; 0 until a header comes
        self.opened: ModelSpace | None = None
        self.version = 0

    def space(self) -> ModelSpace:
        return self.opened or self.space_of(self.reader.trace)

    def answer(self, raw: bytes, is_ended: bool = True) -> list[str]:
        """The lines of the answer to a line."""
        number, settings = self.number + 1, dict(self.reader.setting_lines)
        try:
            answer = self.answer_words(text_of(raw, is_ended), number)
        except BadLine as bad:
            self.reader.setting_lines = settings  # a bad line changes nothing but the number of the next
            self.number += 1 if self.number else 0
            bad.line = number
            return [f"trace {bad}"]
        return answer

    def answer_words(self, text: str, number: int) -> list[str]:
        words = traces.words_of(text)
        if words == ["new"]:
            answer = self.closing()
            self.begin()
            return answer
        answer = self.answer_line(words, text, number)
        self.number = number
        return answer

    def answer_line(self, words: list[str], text: str, number: int) -> list[str]:
        is_operation = number > 1 and words and "0" <= words[0][0] <= "9"
        if number > 1 and words[:1] == ["query"]:
            return self.query(words[1:])
        if is_operation and words[1:2] == ["fork"]:
            raise BadLine("Child", "fork")
        line = self.read(words, text, number)
        if line is None:
            return []
        self.opened = self.space()
        return self.result(line)

    def read(self, words: list[str], text: str, number: int) -> Line | None:
        """The operation that a line is, if it is one."""
        self.reader.texts.number = number
        try:
            return self.reader.pass_line(text)
        except BadLine as bad:
            thread = traces.thread_of(words[0]) if words[1:] == ["maps"] else None
            if bad.cause != "TooMany" or thread is None:
                raise
            return Line(number, thread, "maps", [], None)  # more than a trace may have, answered all the same

    def query(self, words: list[str]) -> list[str]:
        if len(words) != 1:
            raise BadLine("Arity", "query")
        address = traces.number_of(words[0])
        if address is None:
            raise BadLine("Number", "query")
        space = self.space()
        place = model.first_above(space.areas, address // traces.PAGE)
        return [space.maps_line(space.areas[place]).rstrip(" ")] if place < len(space.areas) else ["none"]

    def result(self, line: Line) -> list[str]:
        try:
            result, is_call = self.space().answer(line)
        except NotModelled as gap:
            return [f"trace line {line.number} not modelled: {gap.why}"]
        self.version += is_call
        return [f"L{line.number} t{line.thread} v{self.version} = {result[0]}", *result[1:]]

    def closing(self) -> list[str]:
        return self.space().maps() if self.number else []


def text_of(raw: bytes, is_ended: bool) -> str:
    """The text of a line that passes the tests of its bytes."""
    if len(raw) > traces.LIMITS["line"]:
        raise BadLine("TooLong", "line")
    if not is_ended:
        raise BadLine("NoEnd", "end")
    try:
        return raw.decode()
    except UnicodeDecodeError:
        raise BadLine("Utf8", "bytes") from None


def bytes_of(answer: list[str]) -> bytes:
    return "".join(text + "\n" for text in answer).encode()


def answers(data: bytes, has_end: bool = True) -> bytes:
    """All that a session writes to an input, which ends, or whose next read fails."""
    session = Session()
    *lines, rest = data.split(b"\n")
    written = b"".join(bytes_of(session.answer(line)) for line in lines)
    if has_end and rest:
        written += bytes_of(session.answer(rest, is_ended=False))
    return written + bytes_of(session.closing()) if has_end else written


def main(words: list[str], space_of: Callable[[Trace], ModelSpace] = model.Space) -> int:
    """A session on standard input, whose lines are answered as they come, and its status."""
    if words:
        sys.stderr.write("words\n")
        return 2
    session, rest = Session(space_of), b""
    try:
        while piece := os.read(0, PIECE):
            *lines, rest = (rest + piece).split(b"\n")
            give(b"".join(bytes_of(session.answer(line)) for line in lines))
        last = session.answer(rest, is_ended=False) if rest else []
        give(bytes_of(last + session.closing()))
    except OSError as error:
        sys.stderr.write("write fault\n" if isinstance(error, WriteFault) else "read fault\n")
        return 5 if isinstance(error, WriteFault) else 4
    return 0


class WriteFault(OSError):
    """Standard output can't be written."""


def give(answers: bytes) -> None:
    try:
        while answers:
            answers = answers[os.write(1, answers) :]
    except OSError as error:
        raise WriteFault(*error.args) from None
