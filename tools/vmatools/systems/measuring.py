"""How much of what a system answers is as the program, and as the running kernel, answer: a table in Markdown."""
from __future__ import annotations

import platform
import shutil
import subprocess
import time
from collections.abc import Iterator, Sequence
from dataclasses import dataclass, field, replace
from pathlib import Path

from .. import console
from ..comparing import windows
from ..comparing.generator import Generator
from ..outputs import is_list, parts_of
from ..running import program
from ..traces import LIMITS, PAGE, Line, Trace
from . import known, machines
from .adapter import Adapter
from .building import compiler_name
from .known import Boot, System
from .places import Refused

LINES = 30
READS = 8  # lists that are read on the way, of each trace
PROGRAM_SECONDS = 600.0
VERSIONS = {
    "uml": ["linux.uml", "--version"],
    "valgrind": ["valgrind", "--version"],
    "gvisor": ["runsc", "--version"],
    "qemu-x86_64": ["qemu-x86_64-static", "--version"],
    "qemu-aarch64": ["qemu-aarch64-static", "--version"],
}


def missing(system: System) -> str | None:
    """What has to be installed for a system, or None where it is there."""
    words = list(system.under[:1])
    if system.boots:
        words = ["linux.uml" if system.boots == Boot.USER_MODE else "qemu-system-x86_64"]
    words.append(compiler_name(system.processor or platform.machine()))
    if any(not shutil.which(word) for word in words):
        return system.packages or "gcc"
    try:
        if system.boots == Boot.KERNEL and not system.image:
            machines.newest_image()
    except Refused:
        return system.packages
    return None


def version_of(system: System) -> str:
    """The version of a system that is installed, as it says it."""
    if system.boots == Boot.KERNEL:
        return machines.version_of(system.image or machines.newest_image())
    if system.name not in VERSIONS:
        return " ".join(Path("/proc/sys/kernel/osrelease").read_text(encoding="ascii").split())
    try:
        done = subprocess.run(VERSIONS[system.name], capture_output=True, text=True, timeout=60)
    except (OSError, subprocess.TimeoutExpired):
        return "?"
    words = (done.stdout + done.stderr).split()
    numbers = (word.removeprefix("release-").removeprefix("valgrind-") for word in words)
    return next((word for word in numbers if word[:1].isdigit()), "?")


@dataclass
class Count:
    """How many of some answers are equal."""

    equal: int = 0
    all: int = 0

    def percent(self, digits: int) -> str:
        return f"{100 * self.equal / self.all:.{digits}f}" if self.all else "-"


@dataclass
class Score:
    """The replies and the lists of some traces, beside those of another side."""

    replies: Count = field(default_factory=Count)
    lists: Count = field(default_factory=Count)

    def take(self, wanted: str, given: str) -> None:
        """Counts the parts of a wanted output that the given one has as well, whatever the versions."""
        there = {key: lines for key, lines in keyed(given)}
        for key, lines in keyed(wanted):
            count = self.lists if is_list_of(lines) else self.replies
            count.all += 1
            count.equal += there.get(key) == lines

    def add(self, other: Score) -> None:
        for mine, more in ((self.replies, other.replies), (self.lists, other.lists)):
            mine.equal += more.equal
            mine.all += more.all

    def text(self) -> str:
        return f"{self.replies.percent(1)} / {self.lists.percent(0)}"


def is_list_of(lines: tuple[str, ...]) -> bool:
    return lines[0].startswith("maps ")


def keyed(output: str) -> Iterator[tuple[tuple[int | None, int], tuple[str, ...]]]:
    """The parts of an output, each by its line, or by its place where it has none."""
    last = 0
    for part in parts_of(output):
        last += part.number is None
        if part.number is not None or is_list(part):
            yield (part.number, last if part.number is None else 0), (part.result, *part.lines[1:])


@dataclass
class Result:
    """What a system's traces gave: by profile, as the program answers; and in all, as the running kernel does."""

    system: System
    version: str
    profiles: dict[str, Score] = field(default_factory=dict)
    as_program: Score = field(default_factory=Score)
    as_linux: Score = field(default_factory=Score)
    traces: int = 0
    refused: int = 0


def with_reads(trace: Trace) -> Trace:
    """The trace with some more reads of the list, of the parent, behind its calls."""
    children = {line.arguments[0] for line in trace.lines if line.word == "fork"}
    room = min(READS, LIMITS["maps"] - sum(line.word == "maps" for line in trace.lines))
    step = max(len(trace.lines) // max(room, 1), 1)
    lines: list[Line] = []
    for place, line in enumerate(trace.lines, 1):
        lines.append(line)
        if place % step == 0 and line.thread not in children and line.word != "maps" and place // step <= room:
            lines.append(Line(0, line.thread, "maps", [], None))
    return trace.with_lines(lines).numbered()


def fit_of(system: System, lacks: Sequence[str]) -> windows.Fit | windows.EmptyFit:
    """How the traces of a comparison become such as the system can run."""
    return (
        windows.Fit(system.window, lacks)
        if system.window
        else windows.EmptyFit(max(system.kernel().lowest, PAGE), lacks)
    )


def lacks_of(adapter: Adapter) -> list[str]:
    """The calls that a system has not."""
    page = "0 mmap 0x100000 4096 PROT_READ MAP_PRIVATE|MAP_ANONYMOUS|MAP_FIXED -1 0"
    try:
        adapter.answer(f"vmatrace 1\n{page}\n0 mseal 0x100000 4096 0\n".encode())
    except Refused as refused:
        if refused.status == 4:
            return ["mseal"]
        raise
    return []


class Measuring:
    """One system that is measured."""

    def __init__(self, system: System, path: str, runs: int, seed: int) -> None:
        self.system, self.path, self.runs, self.seed = system, path, runs, seed
        self.adapter = Adapter(system, is_served=True)
        linux = replace(known.KNOWN["window"], window=replace(system.window, shift=0)) if system.window else None
        self.linux = Adapter(linux, is_served=True) if linux and system.name != "window" else None
        self.result = Result(system, version_of(system))

    def run(self, progress: console.Progress, seconds: float) -> Result:
        """Runs the traces, for so many seconds at most once the system has begun."""
        lacks = lacks_of(self.adapter)
        until = time.monotonic() + seconds
        fitted = fit_of(self.system, lacks).fitted
        for number in range(self.runs * len(windows.PROFILES)):
            if time.monotonic() > until:
                break
            profile = windows.PROFILES[number % len(windows.PROFILES)]
            progress.tell(f"{self.system.name}: {number} traces")
            self.measure(profile, with_reads(fitted(Generator(profile, f"{self.seed} {number}", LINES).draw())))
        return self.result

    def measure(self, profile: str, trace: Trace) -> None:
        text = trace.text().encode()
        ran = program.run([self.path, "serial"], text, PROGRAM_SECONDS)
        if ran.fault:
            raise console.Failure(f"{self.path} {ran.fault}: {ran.message.strip()[:300]}")
        self.result.traces += 1
        try:
            given = self.adapter.answer(text)
            score = self.result.profiles.setdefault(profile, Score())
            score.take(ran.output, given)
            if self.linux:
                self.result.as_linux.take(self.linux.answer(text), given)
        except Refused as refused:
            if refused.status != 4:
                raise
            self.result.refused += 1

    def close(self) -> None:
        self.adapter.close()
        if self.linux:
            self.linux.close()


def table_of(results: Sequence[Result]) -> list[str]:
    """The table: a row a system, a column a profile."""
    head = ["System", "Version", "Traces", "All", *windows.PROFILES, "As the running Linux"]
    rows = [head, ["---"] * len(head)]
    for result in results:
        whole = Score()
        for score in result.profiles.values():
            whole.add(score)
        cells = [result.profiles.get(profile, Score()).text() for profile in windows.PROFILES]
        rows.append(
            [
                result.system.name,
                result.version,
                str(result.traces - result.refused),
                whole.text(),
                *cells,
                result.as_linux.text(),
            ]
        )
    return ["| " + " | ".join(row) + " |" for row in rows]
