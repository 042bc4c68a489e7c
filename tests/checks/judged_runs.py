"""Runs `threads` on many small random traces, and has each output judged three times.

N is 2,000 by default, S is 1, and FOLDER is judged-runs-failed. Trace K of a seed is always the same: 2 to 8 threads, or T,
a few lines each, over few pages, with areas that grow, a heap, seals, and lines that name others. Every 50th trace is run ten
times, and it is told how many histories came of it: where there is more than one processor, of a third of these traces
several have to come, as threads run at once. One judge is `vma judge`. Two are the program: its mode `check`, which has to
name the same first wrong line; and its mode `serial` over the same lines in the order of the output, which has to write the
same. What `serial` writes for the trace itself has to be legal too. Of every second trace something is changed in an output:
a version, an address, an error, a verdict, a line of a list, a byte, or it ends early. No such output is legal, since the
order of the items decides all that they say. And one item takes another place, with its version: that may be legal or not,
but the judges have to agree. The first run that a judge refuses, or of which the two say different things, ends it, and
leaves trace, output and why in FOLDER.
"""

import argparse
import os
import random
import re
import subprocess
from collections import Counter
from collections.abc import Sequence
from pathlib import Path
from typing import TypeVar

from checking import TOOL, fail, skipped

from vmatools import traces
from vmatools.comparing import judging

Choice = TypeVar("Choice")

PAGE = 4096
LEAST_SEVERAL = 3  # one of so many traces that are run ten times has several histories
FEW = 10  # of so many of them that has to hold
ITEM = re.compile(r"L(\d+) t(\d+) v(\d+) = (.*)")
NOTE = re.compile(r" after=(\d+)$")
ERRORS = ["EINVAL", "ENOMEM", "EACCES", "EBADF", "EEXIST", "EFAULT", "EOVERFLOW", "EPERM"]
CALLS = ["mmap", "munmap", "mprotect", "mremap", "brk", "mseal"]
VERDICTS = ["SIGSEGV SEGV_MAPERR", "SIGSEGV SEGV_ACCERR", "SIGBUS BUS_ADRERR"]


# Random traces


class Trace:
    """Draws a trace, of so many threads if that is told."""

    def __init__(self, seed: str, threads: int | None = None) -> None:
        self.random = random.Random(seed)
        self.threads = threads
        # Most pages of a trace lie close to each other: somewhere, or at a border.
        self.base = self.pick([0x100, 0x100, 0x100, 0xE, 0x2AAAAAAA9, 0x7FFFF7FF7, 0x7FFFFFFF6])
        self.files: list[int] = []
        self.has_heap = self.often(30)
        self.has_seals = self.often(30)

    def pick(self, choices: Sequence[Choice]) -> Choice:
        return self.random.choice(choices)

    def often(self, percent: int) -> bool:
        return self.random.randrange(100) < percent

    def text(self) -> str:
        of, count = range(64) if self.often(20) else range(8), self.random.randint(2, 8)
        threads = self.random.sample(range(64) if self.threads else of, self.threads or count)
        each = self.pick([1, 2, 4] if self.threads else [2, 4, 8, 16, 30])
        settings = self.settings()
        operations = [(thread, self.operation()) for thread in threads for _ in range(self.random.randint(1, each))]
        self.random.shuffle(operations)
        # Several areas at first, so that much of what follows finds something.
        first = [(self.pick(threads), self.mmap()) for _ in range(self.random.randint(1, 5))]
        lines = ["vmatrace 1", *settings]
        calls: list[tuple[int, int]] = []
        for thread, operation in first + operations:
            others = [number for number, caller in calls if caller != thread]
            note = f" after={self.pick(others)}" if others and self.often(5) else ""
            lines.append(f"{thread} {operation}{note}")
            if operation.split()[0] in CALLS:
                calls.append((len(lines), thread))
        return "".join(line + "\n" for line in lines)

    def settings(self) -> list[str]:
        settings: list[str] = []
        if self.often(25):
            settings.append(f"limit areas {self.random.randint(1, 8)}")
        if self.often(20):
            # With a low top there is little room for the first search, or none.
            settings.append(
                f"top {hex(PAGE * self.pick([1, 0x11, 0x14, 0x106, 0x2aaaaaaad, 0x7fffffffa, 0x7ffffffff]))}"
            )
        if self.often(12):
            settings.append(f"min {hex(PAGE * self.pick([1, 0xf, 0x102, 0x2aaaaaaac, 0x7ffffffff]))}")
        if self.has_heap:
            settings.append(f"heap {hex(PAGE * (self.base + self.random.randrange(8)))}")
        for _ in range(self.pick([0, 1, 2, 3])):
            self.files.append(len(self.files) + 3)
            size, inode = self.pick([0, 1, 4096, 5000, 9000, 2**63 - 1]), self.pick([7, 2**64 - 1])
            mode, device = self.pick(["r", "w", "rw"]), self.pick(["8:1", "fff:fffff"])
            settings.append(f"file {self.files[-1]} {mode} {size} {device} {inode} /srv/a \\012 {inode}")
        self.random.shuffle(settings)
        return settings

    def address(self) -> str:
        if self.often(5):
            return hex(
                self.pick([0, 1, 4095, 0x7FFFFFFFF000, 2**63, 2**64 - 4096, 2**64 - 1, self.base * PAGE + 8])
            )
        return hex(PAGE * (self.base + self.random.randrange(8)))

    def length(self, address: str) -> int:
        if self.often(5):
            # Just up to an end of memory, or a page more.
            end = self.pick([0x7FFFFFFFF000, 0x7FFFFFFFF000, 2**64]) - int(address, 16) + self.pick([0, 0, PAGE])
            return max(min(end, 2**64 - 1), 0)
        if self.often(5):
            return self.pick([0, 2**47 - 4096, 2**47, 2**63, 2**64 - 1])
        if self.often(4):
            return self.pick([PAGE * 0x55555553F, 0x7FFFF7FEF000, 0x2AAAAAAAB000, 0x7FFEFFFFF000])
        return self.pick([1, 1, 1, 2, 2, 3, 4]) * PAGE - self.pick([0, 0, 1, 100])

    def prot(self) -> str:
        names = [name for name in traces.PROT if self.often(50)]
        return "|".join(names) or self.pick(["PROT_NONE", "0"])

    def flags(self, table: dict[str, int], weights: dict[str, int]) -> str:
        return "|".join(name for name in table if self.often(weights.get(name, 2))) or "0"

    def mmap(self) -> str:
        kind = self.pick(["MAP_PRIVATE", "MAP_PRIVATE", "MAP_PRIVATE", "MAP_SHARED"])
        weights = {"MAP_FIXED": 55, "MAP_FIXED_NOREPLACE": 10, "MAP_SHARED": 1, "MAP_PRIVATE": 1}
        weights |= {kind: 97, "MAP_ANONYMOUS": 70 if self.files else 92, "MAP_GROWSDOWN": 20}
        # Most are near the start of an object, some near the end of all offsets.
        offset = self.pick([PAGE * self.random.randrange(4)] * 9 + [2**63 - PAGE * self.random.randrange(7)])
        offset = self.pick([1, 2**64 - PAGE]) if self.often(2) else offset
        address = "0x0" if self.often(20) else self.address()
        descriptor = self.pick([*self.files * 4, -1, 9]) if self.files else -1
        return f"mmap {address} {self.length(address)} {self.prot()} {self.flags(traces.MAP, weights)} {descriptor} {offset}"

    def mremap(self) -> str:
        flags = self.flags(traces.MREMAP, {"MREMAP_MAYMOVE": 70, "MREMAP_FIXED": 25})
        old, new = self.address(), self.address()
        last = f" {new}" if "MREMAP_FIXED" in flags else ""
        return f"mremap {old} {self.length(old)} {self.length(new if last else old)} {flags}{last}"

    def operation(self) -> str:
        word = self.pick(
            ["mmap"] * 6
            + ["munmap"] * 2
            + ["mprotect"] * 4
            + ["mremap"] * 5
            + ["fault"] * 7
            + ["maps"]
            + ["brk"] * 4 * self.has_heap
            + ["mseal"] * self.has_seals
        )
        address = self.address()
        if word == "brk":
            return f"brk {hex(min(int(address, 16) + self.pick([0, 0, 1, 2049]), 2**64 - 1))}"
        if word == "mseal":
            return f"mseal {address} {self.length(address)} {self.pick([0, 0, 0, 0, 1])}"
        if word == "mmap":
            return self.mmap()
        if word == "munmap":
            return f"munmap {address} {self.length(address)}"
        if word == "mprotect":
            return f"mprotect {address} {self.length(address)} {self.prot()}"
        if word == "mremap":
            return self.mremap()
        return f"fault {address} {self.pick('rwx')}" if word == "fault" or self.often(60) else "maps"


# Changed outputs


def parts_of(output: str) -> list[str]:
    """The items of an output, each with its list, and the last list."""
    parts: list[str] = []
    for line in output.splitlines(keepends=True):
        if ITEM.match(line) or line.startswith("maps ") or not parts:
            parts.append(line)
        else:
            parts[-1] += line
    return parts


def said_otherwise(draw: random.Random, output: str) -> tuple[str, str]:
    """One thing is said otherwise, and what that was. Nothing of this is legal."""
    lines = output.split("\n")[:-1]
    place = draw.randrange(len(lines))
    item = ITEM.match(lines[place])
    if draw.randrange(4) == 0:
        return broken(draw, output)
    if item is None:
        kind = draw.choice(["list line changed", "list line left out", "list line twice"])
        if kind == "list line changed":
            at = draw.randrange(len(lines[place]))
            lines[place] = lines[place][:at] + chr(ord(lines[place][at]) ^ 1) + lines[place][at + 1 :]
        else:
            lines[place : place + 1] = [lines[place]] * (0 if kind == "list line left out" else 2)
        return kind, "\n".join(lines) + "\n"
    number, thread, version, result = item.groups()
    kind = draw.choice(["result", "result", "version", "thread", "line"])
    if kind == "version":
        version = max(int(version) + draw.choice([-1, 1, 7]), 0) if int(version) else 1
    elif kind == "thread":
        thread = int(thread) ^ draw.choice([1, 2])
    elif kind == "line":
        number = max(int(number) + draw.choice([-1, 1]), 1)
    elif result.startswith("0x"):
        kind, result = "address", draw.choice([hex(int(result, 16) ^ PAGE), f"-1 {draw.choice(ERRORS)}"])
    elif result == "0" or result.startswith("-1"):
        others = ["0", "0x10000", *(f"-1 {name}" for name in ERRORS)]
        kind, result = "error", draw.choice([other for other in others if other != result])
    elif result.startswith("maps"):
        kind, result = "length of a list", f"maps {int(result[5:]) + 1}"
    else:
        others = VERDICTS + [result + "1"] + ([result.replace("rw", "r-", 1)] if "rw" in result else [])
        kind, result = "verdict", draw.choice([other for other in others if other != result])
    lines[place] = f"L{number} t{thread} v{version} = {result}"
    return kind, "\n".join(lines) + "\n"


def broken(draw: random.Random, output: str) -> tuple[str, str]:
    """One byte is another, or the output ends early: in a line, or behind one."""
    kind = draw.choice(["byte changed", "ends in a line", "ends behind a line"])
    at = draw.randrange(len(output))
    if kind == "byte changed":
        return kind, output[:at] + chr(ord(output[at]) ^ draw.choice([1, 2, 8])) + output[at + 1 :]
    if kind == "ends in a line":
        return kind, output[:at]
    return kind, "".join(output.splitlines(keepends=True)[: -draw.randint(1, 3)])


def moved(draw: random.Random, output: str) -> tuple[str, str]:
    """One item takes another place, and the versions are those of their places again. This may be legal."""
    *items, last = parts_of(output)
    item = items.pop(draw.randrange(len(items)))
    items.insert(draw.randint(0, len(items)), item)
    version, text = 0, ""
    for item in items:
        version += not re.match(r"L\d+ t\d+ v\d+ = (served|SIG|maps)", item)
        text += re.sub(r" v\d+ ", f" v{version} ", item, count=1)
    return "item moved", text + last


# The judges


class Refused(Exception):
    """Why a run is not as it should be."""


class Program:
    """The program, as two of the judges."""

    def __init__(self, path: str) -> None:
        self.path = path

    def run(self, mode: str, text: str) -> subprocess.CompletedProcess[bytes]:
        return subprocess.run(
            [self.path, mode], input=text.encode("utf-8", "surrogateescape"), capture_output=True, timeout=60
        )

    def output(self, mode: str, trace: str) -> str:
        done = self.run(mode, trace)
        if done.returncode or done.stderr:
            raise Refused(f"{mode} ends with status {done.returncode} and {done.stderr[:200]!r}")
        return done.stdout.decode("utf-8", "surrogateescape")

    def first_bad(self, trace: str, output: str) -> int | None:
        """What `check` says of an output: nothing where it is legal, else its first bad line."""
        said = self.output("check", f"{trace}==\n{output}").split()
        return None if said == ["legal"] else int(said[1])

    def accepts(self, trace: str, output: str) -> bool:
        """Whether `serial` writes the same for the lines of a trace in the order in which an output answers them."""
        lines = trace.split("\n")[:-1]
        order = [int(item[1]) for item in map(ITEM.match, parts_of(output)) if item]
        asked = [number for number, line in enumerate(lines, 1) if line[0].isdigit()]
        if sorted(order) != asked:
            return False
        # A thread's lines in their order: a sort by thread alone, which keeps that of the output, has them by number.
        by_thread = sorted(order, key=lambda number: int(lines[number - 1].split()[0]))
        if by_thread != sorted(by_thread, key=lambda number: (int(lines[number - 1].split()[0]), number)):
            return False
        above = len(lines) - len(asked)
        now = {number: place for place, number in enumerate(order, above + 1)}
        for number in asked:
            note = NOTE.search(lines[number - 1])
            if note and now[int(note[1])] > now[number]:
                return False
            lines[number - 1] = NOTE.sub(lambda named: f" after={now[int(named[1])]}", lines[number - 1])
        text = (
            "\n".join([line for line in lines if not line[0].isdigit()] + [lines[number - 1] for number in order])
            + "\n"
        )
        written = self.output("serial", text)
        return (
            re.sub(r"^L(\d+)", lambda start: f"L{order[int(start[1]) - above - 1]}", written, flags=re.MULTILINE)
            == output
        )


def judge_says(trace: str, output: str) -> tuple[int, str] | None:
    """Nothing where `vma judge` accepts an output, else its first wrong line, and why."""
    wrong = judging.first_wrong(traces.read_trace(trace.encode()), output.encode("utf-8", "surrogateescape"))
    return (wrong.line, wrong.why) if wrong else None


class Runs:
    """The runs of a seed, and what came of them."""

    def __init__(self, program: Program, seed: int, threads: int | None = None) -> None:
        self.program, self.seed, self.threads = program, seed, threads
        self.runs = self.lines = 0
        self.at = "", ""  # the trace and the output that are judged
        self.results: Counter[str] = Counter()
        self.changes: Counter[str] = Counter()
        self.histories: list[int] = []

    def one(self, number: int) -> None:
        draw = random.Random(f"changes {self.seed} {number}")
        trace = Trace(f"trace {self.seed} {number}", self.threads).text()
        self.at = trace, ""
        self.is_legal(trace, self.program.output("serial", trace), second=False)
        outputs: set[str] = set()
        for _ in range(10 if number % 50 == 0 else 1):
            self.at = trace, ""
            output = self.program.output("threads", trace)
            self.is_legal(trace, output)
            outputs.add(output)
            self.count(output)
        if number % 50 == 0:
            self.histories.append(len(outputs))
        if number % 2 == 0:
            for change in (said_otherwise, moved):
                self.all_say(trace, *change(draw, output), change is moved)

    def is_legal(self, trace: str, output: str, second: bool = True) -> None:
        self.at = trace, output
        wrong, line = judge_says(trace, output), self.program.first_bad(trace, output)
        if wrong:
            raise Refused(f"`vma judge` says: not legal: line {wrong[0]}: {wrong[1]}")
        if line:
            raise Refused(f"check says: bad {line}")
        if second and not self.program.accepts(trace, output):
            raise Refused("the program does not accept it")

    def all_say(self, trace: str, kind: str, output: str, may_be_legal: bool) -> None:
        self.at = trace, output
        wrong, accepted = judge_says(trace, output), self.program.accepts(trace, output)
        if accepted != (wrong is None):
            raise Refused(f"{kind}: the program says {accepted}, and `vma judge` {wrong or 'legal'}")
        line = self.program.first_bad(trace, output)
        if line != (wrong and wrong[0]):
            raise Refused(f"{kind}: check says {line or 'legal'}, and `vma judge` {wrong or 'legal'}")
        if accepted and not may_be_legal:
            raise Refused(f"{kind}: all judges accept it")
        self.changes[f"{kind}, {'legal' if accepted else 'refused'}"] += 1

    def count(self, output: str) -> None:
        self.runs += 1
        for result in (item[4] for item in map(ITEM.match, parts_of(output)) if item):
            self.lines += 1
            kind = "address" if result.startswith("0x") else result
            self.results[result.split()[0] if result.startswith(("served", "maps")) else kind] += 1

    @property
    def several(self) -> int:
        """Of how many traces that were run ten times several histories came."""
        return sum(count > 1 for count in self.histories)

    def check_histories(self) -> None:
        """Fails where threads seem to run one after the other: each trace then has one history."""
        tried = len(self.histories)
        if len(os.sched_getaffinity(0)) < 2:
            return skipped("several histories", "there is one processor")
        if tried < FEW:
            return skipped("several histories", f"{tried} traces were run ten times, and not {FEW}")
        if self.several * LEAST_SEVERAL < tried:
            fail("several histories", f"{self.several} of {tried} traces had them, and not one in {LEAST_SEVERAL}")

    def summary(self) -> None:
        def told(counts: Counter[str]) -> str:
            return ", ".join(f"{name} {count:,}" for name, count in sorted(counts.items()))

        print(f"{TOOL}: {self.runs:,} runs, {self.lines:,} lines: all legal, for `vma judge`, check and serial")
        print(f"{TOOL}: results: {told(self.results)}")
        if self.histories:
            mean = sum(self.histories) / len(self.histories)
            print(
                f"{TOOL}: {len(self.histories)} traces were run ten times: {self.several} had several histories; "
                f"{mean:.1f} in the mean, {max(self.histories)} at most"
            )
        print(f"{TOOL}: {sum(self.changes.values()):,} changed outputs, on which all agreed: {told(self.changes)}")


def keep(runs: Runs, why: Exception, folder: Path) -> None:
    """Leaves a run that was refused in a folder."""
    folder.mkdir(parents=True, exist_ok=True)
    for name, text in zip(("trace", "output", "why"), (*runs.at, f"{why}\n")):
        (folder / name).write_bytes(text.encode("utf-8", "surrogateescape"))


def add_arguments(parser: argparse.ArgumentParser) -> None:
    parser.add_argument("--runs", type=int, default=2_000, metavar="N", help="how many runs (2,000)")
    parser.add_argument("--seed", type=int, default=1, metavar="S", help="the same seed gives the same traces (1)")
    parser.add_argument("--threads", type=int, metavar="T", help="how many threads a trace has, up to 64 (2 to 8)")
    parser.add_argument(
        "--keep", type=Path, default="judged-runs-failed", metavar="FOLDER", help="where a run is left that is refused"
    )


def check(options: argparse.Namespace) -> None:
    runs, number = Runs(Program(options.program), options.seed, options.threads), 0
    # A trace that is run ten times counts as ten runs.
    while runs.runs < options.runs:
        try:
            runs.one(number)
        except (Refused, traces.BadLine, subprocess.TimeoutExpired) as why:
            keep(runs, why, options.keep)
            fail(f"trace {number} of seed {runs.seed}", f"{why}; trace and output are in {options.keep}")
        number += 1
    runs.summary()
    runs.check_histories()
