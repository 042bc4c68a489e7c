"""Many traces for one process, one after the other: the protocol of `--batch`, from both sides.

To the adapter go a line `trace N SECONDS`, the lines of the trace, and a line `end N`. From it come the lines of the
output, and a line `end N`; or `end N STATUS WHY` where it cannot run the trace. Before its first answer it may write a line
`has WORD..`, as capabilities.py says. N counts the traces. SECONDS is how
long the trace may take: an adapter that can end its system earlier does so, and answers `hung`.
"""

import contextlib
import os
import re
import select
import signal
import subprocess
import threading
import time
from collections.abc import Iterator, Sequence
from dataclasses import dataclass
from typing import IO

from .. import console
from ..running import children
from ..running.program import busy, run, why_not_run
from .capabilities import PROBE, Capabilities, split
from .running import ended, read_some

MOST_OUTPUT = 64 << 20
END_SECONDS = 2.0  # for an adapter to end by itself, with what it started
LOOK_SECONDS = 0.5  # between two looks at how much is on standard error
FIRST_SECONDS = 10.0  # for a command to say what it has
DOES_NOT_END = "does not end"
HEAD = re.compile(rb"trace ([0-9]{1,20}) ([0-9]+(?:\.[0-9]+)?(?:e[+-]?[0-9]{1,2})?)\n")  # how a trace begins


@dataclass(frozen=True)
class Answer:
    """What came of a trace: the output, how the adapter failed in words or None, and what it said."""

    output: str
    fault: str | None
    message: str
    is_told: bool = False  # whether the adapter itself says so, and runs on


class Adapter:
    """One process that answers traces. It is started at the first, and anew where it ended or was too slow."""

    GRACE = 5.0  # seconds that it has beyond those of a trace, to end its system itself

    def __init__(self, command: Sequence[str]) -> None:
        self.command, self.number = command, 0
        self.process: subprocess.Popen[bytes] | None = None
        self.errors: IO[bytes] | None = None
        self.has: Capabilities | None = None  # as it says before its first answer, if it does

    def run(self, text: bytes, seconds: float) -> Answer:
        return self.run_all([text], seconds)[0]

    def run_all(self, texts: Sequence[bytes], seconds: float) -> list[Answer]:
        """What comes of some traces, which are sent at once: of all up to one at which the process fails."""
        process, first = self.process or self.begin(), self.number + 1
        self.number += len(texts)
        numbers = range(first, self.number + 1)
        sent = b"".join(self.request(number, text, seconds) for number, text in zip(numbers, texts))
        answers = self.exchange(process, sent, [self.mark(number) for number in numbers], seconds + self.GRACE)
        if answers[-1].fault and not answers[-1].is_told:
            self.close()
        return answers

    def request(self, number: int, text: bytes, seconds: float) -> bytes:
        """What the process is sent for a trace."""
        return b"trace %d %g\n%send %d\n" % (number, seconds, text, number)

    def mark(self, number: int) -> bytes:
        """The words with which the last line of an answer begins."""
        return b"end %d" % number

    def answered(self, data: bytes, last: bytes) -> Answer:
        """An answer, by what stands above its last line, and that line."""
        has, output = split(data)
        self.has = has or self.has
        return answer_of(output, last.decode("utf-8", "replace").split(maxsplit=3))

    def begin(self) -> subprocess.Popen[bytes]:
        errors = console.scratch()
        try:
            self.process = children.start(self.command, stdin=subprocess.PIPE, stdout=subprocess.PIPE, stderr=errors)
        except OSError as error:
            errors.close()
            raise console.Failure(why_not_run(self.command[0], error)) from None
        assert self.process.stdin is not None
        os.set_blocking(self.process.stdin.fileno(), False)
        self.errors = errors
        return self.process

    def said(self) -> str:
        """The end of what the process wrote on standard error."""
        if self.errors is None:
            return ""
        self.errors.seek(max(self.errors.seek(0, 2) - 10_000, 0))
        return self.errors.read().decode("utf-8", "replace").lstrip("\0")

    def bound_errors(self) -> None:
        """Lets go of what the process wrote on standard error, where it is so much that it may fill a disk."""
        if self.errors and os.fstat(self.errors.fileno()).st_blocks * 512 > MOST_OUTPUT:
            os.ftruncate(self.errors.fileno(), 0)  # what follows is written behind a hole

    def exchange(self, process: subprocess.Popen[bytes], sent: bytes, marks: list[bytes], seconds: float) -> list[Answer]:
        """The answers with these marks, each of which has so many seconds. The process may write before it has read all."""
        assert process.stdin is not None and process.stdout is not None
        left, data, at, answers = memoryview(sent), bytearray(b"\n"), 1, list[Answer]()
        end = time.monotonic() + seconds
        while len(answers) < len(marks):
            wanted = [process.stdin] if left else []
            rest = max(end - time.monotonic(), 0)
            ready, free, _ = select.select([process.stdout], wanted, [], min(rest, LOOK_SECONDS))
            self.bound_errors()
            left = left[written(process.stdin.fileno(), left) :] if free else left
            piece = read_some(process.stdout.fileno()) if ready else b""
            since = len(data)
            data += piece
            while len(answers) < len(marks) and (found := lines_of(data, at, since, marks[len(answers)])):
                answers.append(self.answered(bytes(data[at : found[0]]), bytes(data[slice(*found)])))
                at, end = found[1], time.monotonic() + seconds
            is_idle = not ready and not free and rest <= LOOK_SECONDS
            if len(answers) < len(marks) and (fault := self.fault(process, bool(ready), is_idle, piece, len(data) - at)):
                return [*answers, Answer(text_of(data[at:]), fault, self.said())]
        return answers

    def fault(self, process: subprocess.Popen[bytes], is_ready: bool, is_idle: bool, piece: bytes, size: int) -> str | None:
        """How the process fails, by what came of it just now, and by how much came of a trace."""
        if size > MOST_OUTPUT:
            return "writes on and on"
        if is_ready and not piece:
            return fault_of(ended(process))
        return DOES_NOT_END if is_idle else None

    def end_input(self) -> None:
        """Tells the process that no more traces come."""
        if self.process and self.process.stdin:
            with contextlib.suppress(OSError):
                self.process.stdin.close()

    def close(self, seconds: float = END_SECONDS) -> None:
        """Ends the process: by the end of its input, and where it goes on for so many seconds, by a signal."""
        if self.process is None:
            return
        self.end_input()
        with contextlib.suppress(subprocess.TimeoutExpired):
            self.process.wait(seconds)
        if self.process.returncode is None:
            children.stop(self.process)
        children.end(self.process)
        for stream in (self.process.stdin, self.process.stdout, self.errors):
            if stream is not None:
                with contextlib.suppress(OSError):
                    stream.close()
        self.process = self.errors = None


def written(descriptor: int, data: memoryview) -> int:
    """How much of it a pipe takes now: all where the process is gone, as its output tells."""
    try:
        return os.write(descriptor, data)
    except BlockingIOError:
        return 0
    except OSError:
        return len(data)


def lines_of(data: bytearray, at: int, since: int, mark: bytes) -> tuple[int, int] | None:
    """Where the last line of an answer begins and ends: a mark, alone or with more words, in what is new `since` then."""
    begin = min(data.rfind(b"\n", 0, since), since - len(mark) - 1)
    last = data.find(b"\n" + mark, max(begin, at - 1)) + 1
    while last and data[last + len(mark) : last + len(mark) + 1] not in (b"\n", b" "):
        last = data.find(b"\n" + mark, last) + 1
    newline = data.find(b"\n", last + len(mark)) if last else -1
    return None if newline < 0 else (last, newline + 1)


def text_of(data: bytes | bytearray) -> str:
    return bytes(data).decode("utf-8", "replace")


def answer_of(output: bytes | bytearray, last: Sequence[str]) -> Answer:
    """The answer that ends with a line of these words."""
    if len(last) > 2 and last[2] != "0":
        return Answer("", f"ends with status {last[2]}", last[3].strip() if len(last) > 3 else "", True)
    return Answer(text_of(output), None, "", True)


def fault_of(ending: str) -> str:
    """The end of a process, in the words that a run of its own has for it."""
    if ending.startswith("killed by signal "):
        return f"ends by signal {signal.Signals(int(ending.rsplit(' ', 1)[1])).name}"
    return ending.replace("ended", "ends")


class Adapters:
    """As many processes as run traces at the same time: each thread has one of its own."""

    def __init__(self, command: Sequence[str], kind: type[Adapter] = Adapter) -> None:
        self.command, self.kind, self.idle, self.lock = command, kind, list[Adapter](), threading.Lock()

    def run(self, text: bytes, seconds: float) -> Answer:
        return self.run_all([text], seconds)[0]

    def run_all(self, texts: Sequence[bytes], seconds: float) -> list[Answer]:
        with self.lock:
            adapter = self.idle.pop() if self.idle else self.kind(self.command)
        try:
            return adapter.run_all(texts, seconds)
        finally:
            with self.lock:
                self.idle.append(adapter)

    def capabilities(self, seconds: float) -> Capabilities | None:
        """What an adapter says that it has, in its answer to a trace without a line. Ends the tool where it has none in time."""
        begin, adapter = time.monotonic(), self.kind(self.command)
        answer = adapter.run(PROBE, max(seconds - adapter.GRACE, 0.1))
        if answer.is_told:
            self.idle.append(adapter)
            return adapter.has
        sent = " / ".join(adapter.request(adapter.number, PROBE, seconds).decode().splitlines())
        came = f"`{console.printable(answer.output)}`" if answer.output else "nothing"
        last = answer.message.strip().splitlines()[-1:]
        said = f", with `{console.printable(last[0])}` on standard error" if last else ""
        why = busy() if answer.fault == DOES_NOT_END else ""
        raise console.Failure(
            f"the adapter {answer.fault} in {time.monotonic() - begin:.0f} seconds: `{sent}` was sent, and {came} came{said}; "
            f"does it speak --batch? (docs/COMPARE.md){'; ' * bool(why)}{why}"
        )

    def close(self) -> None:
        """Ends them all: each has the same time to end by itself."""
        end = time.monotonic() + END_SECONDS
        with self.lock:
            for adapter in self.idle:
                adapter.end_input()
            for adapter in self.idle:
                adapter.close(max(end - time.monotonic(), 0))


def capabilities_of(command: Sequence[str], seconds: float) -> Capabilities | None:
    """What a command that is run for each trace says that it has, where it answers many traces too and says so then."""
    seconds = min(seconds, FIRST_SECONDS)
    asked = run(command, b"trace 1 %g\n%send 1\n" % (seconds, PROBE), seconds)
    return split(asked.output.encode())[0]


@dataclass(frozen=True)
class Request:
    """A trace that an adapter is given: its number, how long it may take, and its bytes."""

    number: str
    seconds: float
    text: bytes


def requests(stream: IO[bytes]) -> Iterator[Request]:
    """The traces that come on a stream, for an adapter. Ends it where they are none, or end within one."""
    while head := stream.readline():
        found = HEAD.fullmatch(head)
        if not found:
            shown = console.printable(text_of(head.rstrip(b"\n")))
            raise console.Failure(f"`{shown}` begins no trace: `trace N SECONDS` does (docs/COMPARE.md)")
        number, seconds, last, lines = found[1].decode(), float(found[2]), b"end %s\n" % found[1], list[bytes]()
        while (line := stream.readline()) != last:
            if not line:
                raise console.Failure(f"the input ends within trace {number}: no line `end {number}` came")
            lines.append(line)
        yield Request(number, seconds, b"".join(lines))
