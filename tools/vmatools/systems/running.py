"""Runs the runner: once for each script, or as a process that serves many."""

import contextlib
import ctypes
import os
import resource
import select
import signal
import struct
import subprocess
import sys
import time
from collections.abc import Callable, Sequence
from dataclasses import dataclass, field
from pathlib import Path
from typing import IO, Protocol

from .. import console
from ..running import children
from .places import Refused

NO_RANDOMISATION = 0x0040000
LIBRARY = ctypes.CDLL(None)  # the C library
MOST_OUTPUT = 256 << 20
HUNG = "hung"


@dataclass(frozen=True)
class Ran:
    """What a run wrote, as lines; how the system ended before the trace did, or None; and what it said on standard error."""

    texts: list[str]
    ending: str | None
    message: str


class Runner(Protocol):
    """What runs scripts."""

    def run(self, script: bytes, seconds: float) -> Ran:
        """Runs one script, for so many seconds at most."""

    def close(self) -> None:
        """Ends what still runs."""


def turn_randomisation_off() -> None:
    """What is executed from now on has the same addresses in each run. Where that is forbidden, the runner says so."""
    if sys.platform != "linux":
        return  # where the runner is not compiled either
    now = LIBRARY.personality(ctypes.c_ulong(0xFFFFFFFF))
    if now >= 0:
        LIBRARY.personality(ctypes.c_ulong(now | NO_RANDOMISATION))


def make_first_to_go(process: subprocess.Popen[bytes]) -> None:
    """Where memory runs out, this process is the one to be killed."""
    with contextlib.suppress(OSError):
        Path(f"/proc/{process.pid}/oom_score_adj").write_text("1000", encoding="ascii")


def prepare_processes() -> None:
    """Sets what all processes that are started have: addresses that are the same in each run, and no dumps."""
    turn_randomisation_off()
    resource.setrlimit(resource.RLIMIT_CORE, (0, 0))


def ending_of(status: int) -> str | None:
    """How a process ended, by what `subprocess` tells, in the words of an answer."""
    if status < 0:
        return f"killed by signal {-status}"
    return f"ended with status {status}" if status else None


def whole_lines(data: bytes) -> list[str]:
    """The lines of an output, without one that has no end."""
    return data.decode(errors="surrogateescape").split("\n")[:-1]


def contents(file: IO[bytes]) -> bytes:
    file.seek(0)
    return file.read(MOST_OUTPUT)


@dataclass
class Once:
    """A fresh process for each script."""

    command: Sequence[str]
    environment: dict[str, str] | None = None
    descriptors: Sequence[int] = ()

    def run(self, script: bytes, seconds: float) -> Ran:
        with console.scratch() as source, console.scratch() as output, console.scratch() as errors:
            source.write(script)
            source.seek(0)
            try:
                process = children.start(
                    self.command,
                    stdin=source,
                    stdout=output,
                    stderr=errors,
                    env=self.environment,
                    pass_fds=self.descriptors,
                )
            except OSError as error:
                raise Refused(5, f"{self.command[0]} cannot be run: {error.strerror}") from None
            try:
                make_first_to_go(process)
                ending = HUNG if not has_ended(process, seconds) else ending_of(process.returncode)
            finally:
                children.end(process)
            return Ran(whole_lines(contents(output)), ending, contents(errors).decode(errors="replace"))

    def close(self) -> None:
        """Nothing runs on."""


def has_ended(process: subprocess.Popen[bytes], seconds: float) -> bool:
    """Waits for the end of a process, for so many seconds at most."""
    handle = os.pidfd_open(process.pid)
    try:
        ready, _, _ = select.select([handle], [], [], seconds)
    finally:
        os.close(handle)
    if ready:
        process.wait()
    return bool(ready)


@dataclass
class Port:
    """A process that serves scripts, the descriptors of the bytes to it and from it, what it says on standard error,
    and what has to stay as long as it runs."""

    process: subprocess.Popen[bytes]
    input: int
    output: int
    errors: IO[bytes]
    kept: list[object] = field(default_factory=list)
    burst: int = 0  # how many bytes are sent at once, or all; the runner asks for `more`


def started(command: Sequence[str]) -> Port:
    """Starts a process that serves scripts on its standard input and output."""
    errors = console.scratch()
    try:
        process = children.start(command, stdin=subprocess.PIPE, stdout=subprocess.PIPE, stderr=errors)
    except OSError as error:
        raise Refused(5, f"{command[0]} cannot be run: {error.strerror}") from None
    assert process.stdin is not None and process.stdout is not None
    make_first_to_go(process)
    return Port(process, process.stdin.fileno(), process.stdout.fileno(), errors)


class Served:
    """A process that serves scripts, each in a child of its own. It is started anew where it hung or ended."""

    def __init__(self, start: Callable[[], Port], begin_seconds: float, grace: float = 0) -> None:
        self.start, self.begin_seconds, self.grace = start, begin_seconds, grace
        self.port: Port | None = None

    def run(self, script: bytes, seconds: float) -> Ran:
        port = self.port or self.begin()
        try:
            self.send(port, script, seconds + self.grace)
        except OSError:  # it ended since the last script
            self.close()
            port = self.begin()
            self.send(port, script, seconds + self.grace)
        texts, ending = self.read_answers(port, seconds + self.grace)
        message = contents(port.errors).decode(errors="replace")[-10_000:] if ending else ""
        if texts and texts[-1].startswith("done "):
            status = int(texts.pop().split()[1], 16)
            ending = (
                HUNG if status & 127 == signal.SIGALRM else ending_of(-(status & 127) if status & 127 else status >> 8)
            )
        else:
            self.close()
        return Ran(texts, ending, message)

    def send(self, port: Port, script: bytes, seconds: float) -> None:
        """Hands a script on, in bursts where the way to the process is a serial line."""
        write_all(port.input, struct.pack("<Q", len(script)))
        step = port.burst or max(len(script), 1)
        for start in range(0, len(script), step):
            write_all(port.input, script[start : start + step])
            if start + step < len(script):
                _, ending = self.read_answers(port, seconds, "more")
                if ending:
                    raise OSError(f"the script is not taken: {ending}")

    def begin(self) -> Port:
        """Starts the process, and waits until it is ready."""
        self.port = self.start()
        texts, ending = self.read_answers(self.port, self.begin_seconds, "ready")
        if ending:
            said = contents(self.port.errors).decode(errors="replace").strip() or "\n".join(texts)
            self.close()
            raise Refused(5, f"the system does not begin ({ending}): {said[-600:]}")
        return self.port

    def read_answers(self, port: Port, seconds: float, last: str = "done") -> tuple[list[str], str | None]:
        """The lines up to one with this first word, which is among them; and how the process ended, if it did or hangs."""
        data, end, ending = bytearray(), time.monotonic() + seconds, None
        while not is_complete(data, last.encode()) and ending is None:
            ready, _, _ = select.select([port.output], [], [], max(end - time.monotonic(), 0))
            piece = read_some(port.output) if ready else b""
            data += piece
            if not piece or len(data) > MOST_OUTPUT:
                ending = ended(port.process) if ready and not piece else HUNG
        return [text.rstrip("\r") for text in whole_lines(bytes(data))], ending

    def close(self) -> None:
        if self.port is None:
            return
        children.end(self.port.process)
        for stream in (self.port.process.stdin, self.port.process.stdout, self.port.errors):
            if stream is not None:
                with contextlib.suppress(OSError):
                    stream.close()
        self.port = None  # what it kept is gone with it


def is_complete(data: bytearray, mark: bytes) -> bool:
    """Whether the last line is whole, and a mark is its first word."""
    begin = data.rfind(b"\n", 0, len(data) - 1) + 1
    return data.endswith(b"\n") and data[begin : begin + len(mark) + 1].rstrip() == mark


def read_some(descriptor: int) -> bytes:
    try:
        return os.read(descriptor, 1 << 20)
    except OSError:
        return b""


def write_all(descriptor: int, data: bytes) -> None:
    view = memoryview(data)
    while view:
        view = view[os.write(descriptor, view) :]


def ended(process: subprocess.Popen[bytes]) -> str:
    """How a process ended whose output did."""
    try:
        status = process.wait(5)
    except subprocess.TimeoutExpired:
        return HUNG
    return ending_of(status) or "ended with status 0"
