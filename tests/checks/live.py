"""Holds sessions with diltzekun-live through pipes, and compares each answer with the line that `serial` gives.

A client sends random lines one at a time, and each has to be answered before the next is sent. Then: the session that
docs/TOUR.md shows, a client that reads late, one that closes its end, a line that comes in parts, one of 60 MiB, a million
address spaces in the memory of one, an interruption, words behind the program's name, the clients of examples/live, the
conformance suite by `vma conform --live`, and `vma compare --live`.
"""

import argparse
import json
import os
import re
import shlex
import shutil
import signal
import subprocess
import sys
import tempfile
import threading
import time
from collections.abc import Iterator
from contextlib import contextmanager, suppress
from pathlib import Path

from checking import TOP, WAIT, answer, bytes_of, check_ended, compare, fail, live_of, passed, skipped

from vmatools.comparing import conformance
from vmatools.comparing.conformance import Verdict
from vmatools.comparing.generator import PROFILES, Generator

VMA = [sys.executable, str(TOP / "tools/vma")]
LINES = 10_000
OPERATIONS = 400  # of a trace
SPACES = 1_000_000
SECONDS = 20
MIB = 2**20
LONG = 60  # MiB of a line
FEWEST = 1024  # bytes of a read, on average
ASKED = re.compile(rb"vmatrace |new$|query |\d+ [a-z]")
MAP = "0 mmap {0:#x} 4096 PROT_READ MAP_PRIVATE|MAP_ANONYMOUS|MAP_FIXED -1 0"


class Client:
    """The other end of a session."""

    def __init__(self, name: str, live: str) -> None:
        self.name = name
        self.process = subprocess.Popen(
            [live], stdin=subprocess.PIPE, stdout=subprocess.PIPE, stderr=subprocess.PIPE, bufsize=0
        )
        assert self.process.stdin and self.process.stdout and self.process.stderr
        self.ask, self.answers, self.errors = self.process.stdin, self.process.stdout, self.process.stderr
        self.held = b""

    def send(self, text: bytes) -> None:
        while text:
            text = text[self.ask.write(text) or 0 :]

    def send_all(self, text: bytes) -> None:
        """Sends a text and ends the input; where the session ends before, its reader sees that."""
        with suppress(BrokenPipeError):
            self.send(text)
        self.ask.close()

    def line(self) -> bytes:
        """The next line of the answers."""
        signal.alarm(WAIT * SECONDS)
        while b"\n" not in self.held:
            piece = self.answers.read(65_536)
            if not piece:
                fail(self.name, f"the answers end behind {self.held!r}")
            self.held += piece
        line, _, self.held = self.held.partition(b"\n")
        return line + b"\n"

    def result(self) -> bytes:
        """The next answer: a line, and behind one of `maps` its list."""
        first = self.line()
        count = re.fullmatch(rb"(?:L\d+ t\d+ v\d+ = )?maps (\d+)\n", first)
        return first + b"".join(self.line() for _ in range(int(count[1]) if count else 0))

    def end(self, status: int = 0, message: bytes = b"") -> bytes:
        """What comes once the input ends."""
        signal.alarm(WAIT * SECONDS)
        self.ask.close()
        rest = self.held + self.answers.read()
        done = subprocess.CompletedProcess([], self.process.wait(), b"", self.errors.read())
        check_ended(self.name, done, status, message)
        return rest


@contextmanager
def session(name: str, live: str) -> Iterator[Client]:
    """A session, in which the check fails where an answer does not come in time."""

    def is_late(*_: object) -> None:
        fail(name, f"has not answered after {WAIT * SECONDS} seconds")

    client = Client(name, live)
    signal.signal(signal.SIGALRM, is_late)
    signal.alarm(WAIT * SECONDS)
    try:
        yield client
    finally:
        signal.alarm(0)
        client.process.kill()
        client.process.wait()
        for stream in (client.ask, client.answers, client.errors):
            stream.close()


def results_by_line(output: bytes) -> dict[int, bytes]:
    """The result of each line of a trace, by its number, and at 0 the last list."""
    starts = [found.start() for found in re.finditer(rb"(?m)^(?:L\d+ t\d+ v\d+ = |maps \d+\n)", output)]
    pieces = [output[start:end] for start, end in zip(starts, [*starts[1:], len(output)])]
    return {int(piece[1 : piece.index(b" ")]) if piece.startswith(b"L") else 0: piece for piece in pieces}


def random_traces() -> Iterator[list[str]]:
    """Traces of all profiles, without forks, with so many lines together."""
    left, seed = LINES, 1
    while left > 0:
        for profile in PROFILES:
            lines = Generator(profile, f"live {seed}", OPERATIONS, 4).draw().text().splitlines()
            if not any(line.split()[1:2] == ["fork"] for line in lines):
                yield lines
                left -= len(lines)
        seed += 1


def check_lines(program: str, live: str) -> None:
    """Line by line, space by space."""
    name, asked = "random lines one at a time", 0
    with session(name, live) as client:
        for trace in random_traces():
            done, _ = answer(name, [program, "serial"], SECONDS, input=bytes_of(trace))
            check_ended(name, done, 0)
            wanted = results_by_line(done.stdout)
            for number, line in enumerate(trace, 1):
                client.send(line.encode() + b"\n")
                if number in wanted:
                    compare(f"{name}: {line}", client.result(), wanted[number])
            asked += len(trace)
            client.send(b"new\n")
            compare(f"{name}: new", client.result(), wanted[0])
        compare(name, client.end(), b"")
    passed(f"{asked} {name}")


def shown_session() -> list[bytes]:
    """The lines of the session that the tour shows, of both sides."""
    page = (TOP / "docs/TOUR.md").read_text(encoding="utf-8")
    shown = re.search(r"<!-- session of diltzekun-live -->\n```\n(.*?)```\n", page, re.DOTALL)
    if not shown:
        fail("docs/TOUR.md", "it shows no session")
    return shown[1].encode().splitlines(keepends=True)


def check_shown(live: str) -> None:
    """Each line that the tour shows as an answer comes, and no other does."""
    name = "the session of docs/TOUR.md"
    with session(name, live) as client:
        for line in shown_session():
            if ASKED.match(line):
                client.send(line)
            else:
                compare(name, client.line(), line)
        compare(name, client.end(), b"")
    passed(name)


def check_late_reader(live: str) -> None:
    """A client that reads only once it has sent much: all answers come in their order."""
    name, count = "a reader that is late", 20_000
    with session(name, live) as client:
        sender = threading.Thread(target=client.send_all, args=(b"vmatrace 1\n" + b"0 munmap 0x10000 4096\n" * count,))
        sender.start()
        time.sleep(1)
        wanted = b"".join(f"L{n + 2} t0 v{n + 1} = 0\n".encode() for n in range(count)) + b"maps 0\n"
        compare(name, client.answers.read(), wanted)
        sender.join()
        compare(name, client.end(), b"")
    passed(name)


def check_closed(live: str) -> None:
    """A client that closes its end of the answers."""
    name = "a closed pipe"
    with session(name, live) as client:
        client.answers.close()
        client.send(b"vmatrace 1\n0 maps\n")
        done = subprocess.CompletedProcess([], client.process.wait(), b"", client.errors.read())
        check_ended(name, done, 5, b"write fault\n")
    passed(name)


def check_parts(live: str) -> None:
    """A line that comes byte by byte is answered once its newline comes, and a last one without a newline is bad."""
    name = "a line in parts"
    with session(name, live) as client:
        client.send(b"vmatrace 1\n")
        for byte in b"0 munmap 0x10000 4096":
            client.send(bytes([byte]))
            time.sleep(0.001)
        os.set_blocking(client.answers.fileno(), False)
        if client.answers.read(1):
            fail(name, "it was answered before its end came")
        os.set_blocking(client.answers.fileno(), True)
        client.send(b"\n")
        compare(name, client.line(), b"L2 t0 v1 = 0\n")
        client.send(b"0 maps")
        compare(name, client.end(), b"trace line 3 cause 11 NoEnd\nmaps 0\n")
    passed(name)


def number_in(client: Client, file: str, field: str) -> int:
    """The number of a field of a file of /proc about the process of a session."""
    text = Path(f"/proc/{client.process.pid}/{file}").read_text()
    return int(re.findall(rf"{field}:\s+(\d+)", text)[0])


def memory_of(client: Client) -> int:
    """The bytes of memory that the process of a session has at most had."""
    return number_in(client, "status", "VmHWM") * 1024


def seconds_of(client: Client) -> float:
    """The processor time that the process of a session has taken."""
    fields = Path(f"/proc/{client.process.pid}/stat").read_text().rpartition(")")[2].split()
    return (int(fields[11]) + int(fields[12])) / os.sysconf("SC_CLK_TCK")


def check_long(live: str) -> None:
    """A line of 60 MiB takes time in proportion to its bytes, the memory of one that is kept, and reads of many bytes."""
    name, parts = f"a line of {LONG} MiB", []
    with session(name, live) as client:
        client.send(b"vmatrace 1\n" + b"#" * MIB)
        first = memory_of(client)
        for _ in range(2):
            before = seconds_of(client)
            for _ in range(LONG // 2):
                client.send(b"#" * MIB)
            parts.append(seconds_of(client) - before)
        client.send(b"\n")
        compare(name, client.line(), b"trace line 2 cause 2 TooLong\n")
        if parts[1] > 3 * parts[0] + 1:
            fail(name, f"its halves take {parts[0]:.2f} and {parts[1]:.2f} seconds")
        if memory_of(client) > first + MIB:
            fail(name, f"takes {memory_of(client)} bytes of memory, and {first} for the first mebibyte")
        reads = number_in(client, "io", "syscr")
        if reads > LONG * MIB // FEWEST:
            fail(name, f"takes {reads} reads")
        client.send(b"0 maps\n")
        compare(name, client.result(), b"L3 t0 v0 = maps 0\n")
        client.send(b"#" * MIB)
        compare(name, client.end(), b"trace line 4 cause 2 TooLong\nmaps 0\n")
    passed(name)


def check_spaces(live: str, spaces: int) -> None:
    """As many short traces as a fuzzer makes, in the memory of the first thousand."""
    name = f"{spaces} spaces in the memory of one"
    trace = bytes_of(["vmatrace 1", "limit areas 16", MAP.format(0x10000), "new"])
    wanted = b"L3 t0 v1 = 0x10000\nmaps 1\n00010000-00011000 r--p 00000000 00:00 0 \n"
    with session(name, live) as client:
        since, first = time.monotonic(), 0
        for _ in range(spaces // 1000):
            signal.alarm(WAIT * SECONDS)
            client.send(trace * 1000)
            got = b""
            while len(got) < 1000 * len(wanted):
                got += client.answers.read(1000 * len(wanted) - len(got)) or fail(name, "the answers end")
            compare(name, got, wanted * 1000)
            first = first or memory_of(client)
        last = memory_of(client)
        if last > first + MIB:
            fail(name, f"takes {last} bytes of memory, and {first} for the first thousand")
        compare(name, client.end(), b"")
        took = time.monotonic() - since
    passed(name, took)


def check_interrupted(live: str) -> None:
    name = "an interruption"
    with session(name, live) as client:
        client.send(b"vmatrace 1\n0 munmap 0x10000 4096\n")
        compare(name, client.line(), b"L2 t0 v1 = 0\n")
        client.process.send_signal(signal.SIGINT)
        if client.process.wait() != -signal.SIGINT:
            fail(name, "does not end it")
    passed(name)


def check_clients(live: str) -> None:
    """The clients of examples/live, each where its language is installed."""
    folder = TOP / "examples/live"
    with tempfile.TemporaryDirectory() as work:
        clients: list[tuple[str, str, list[str], list[str]]] = [
            ("client.c", "cc", ["cc", "-o", f"{work}/client", f"{folder}/client.c"], [f"{work}/client"]),
            ("client.py", "python3", [], [f"{folder}/client.py"]),
            ("client.go", "go", ["go", "build", "-o", f"{work}/go-client", f"{folder}/client.go"], [f"{work}/go-client"]),
        ]
        for name, needs, build, run in clients:
            if not shutil.which(needs):
                skipped(f"examples/live/{name}", f"{needs} is not installed")
                continue
            if build:
                subprocess.run(build, check=True)
            done = subprocess.run([*run, live], capture_output=True, timeout=WAIT * SECONDS)
            check_ended(f"examples/live/{name}", done, 0)
            compare(f"examples/live/{name}", done.stdout, b"1000 calls: no difference\n")
            passed(f"examples/live/{name} on this kernel")


def check_words(live: str) -> None:
    words: tuple[str | bytes, ...] = ("serial", "", b"\xff")
    for word in words:
        done, _ = answer(f"the word {word!r}", [live, word], SECONDS, input=b"")
        check_ended(f"the word {word!r}", done, 2, b"words\n")
    passed("words behind the name are refused")


def check_suite(live: str) -> None:
    """Each case of the suite passes, but for those that fork, which are left out."""
    name = "vma conform --live"
    done = subprocess.run([*VMA, "conform", "--json", "-", "--live", live], capture_output=True)
    check_ended(name, done, 0)
    results = {result["case"]: result["verdict"] for result in map(json.loads, done.stdout.splitlines())}
    for case in conformance.read_suite():
        forks = any(line.split()[1:2] == ["fork"] for line in case.trace.splitlines())
        wanted = Verdict.LEFT_OUT if forks else Verdict.PASSED
        if results.pop(case.where) != wanted.value:
            fail(name, f"{case.where} is not {wanted.value}")
    compare(name, "".join(results).encode(), b"")
    passed(name)


def check_comparison(program: str, live: str) -> None:
    """Sessions stand in for the program where traces don't fork, and one that answers otherwise is found out."""
    words = ["compare", "--program", program, "--no-suite", "--runs", "60", "--live"]
    done = subprocess.run([*VMA, *words, live, "--", program, "serial"], capture_output=True)
    # It says how far it is, where that takes long.
    done.stderr = re.sub(rb"vma compare: [0-9]+ of [0-9]+ traces, [0-9]+ differ in [0-9]+ kinds\n", b"", done.stderr)
    check_ended("vma compare --live", done, 0)
    compare("vma compare --live", b"".join(done.stdout.splitlines(keepends=True)[-1:]), b"60 traces, 0 differ\n")
    with tempfile.TemporaryDirectory() as work:
        wrong = Path(work, "wrong")
        wrong.write_text(f"#!/bin/sh\n{shlex.quote(live)} | sed -u 's/= -1 E.*/= 0/'\n")
        wrong.chmod(0o755)
        done = subprocess.run([*VMA, *words, str(wrong), "--", program, "serial"], capture_output=True)
    if done.returncode != 2 or b"diltzekun-live answers otherwise than the program" not in done.stderr:
        fail("vma compare --live", f"a wrong session is not found out: status {done.returncode}, {done.stderr[-300:]!r}")
    passed("vma compare --live")


def check(options: argparse.Namespace) -> None:
    live = live_of(options.live)
    check_lines(options.program, live)
    check_shown(live)
    check_late_reader(live)
    check_closed(live)
    check_parts(live)
    check_long(live)
    check_interrupted(live)
    check_words(live)
    check_clients(live)
    check_suite(live)
    check_comparison(options.program, live)
    check_spaces(live, options.spaces)


def add_arguments(parser: argparse.ArgumentParser) -> None:
    parser.add_argument("--spaces", type=int, default=SPACES, help="how many spaces one process holds (a million)")
