"""Checks that no run takes more instructions than it is known to take, that none lets other threads run where there is none,
and that a run of a call starts at once.

Both programs are proved ones: a build for trials takes others. Each of some inputs, named in instructions.tsv beside this
file, is run once under `valgrind --tool=callgrind`, which counts the same number for the same program and input whatever else
the machine does. It may be a twentieth more than the number that is kept there. Where it is a twentieth less, that is told,
since the kept number then lets a slower program pass. `--write` keeps the numbers as they are now. A contract says what a run
answers and not what it costs: a reader that reads three times, a run that is made twice and a list that is copied for each
placement meet every clause.
"""

import argparse
import os
import re
import shutil
import subprocess
import tempfile
from collections.abc import Iterator
from pathlib import Path
from typing import NamedTuple

from checking import bytes_of, check_ended, fail, live_of, passed, skipped
from costs import Input, calls, faults, files, given, judged, leaving, moving, named, named_in_turn, nothing, of_child, placed
from costs import reads_of, script, shared, spaces

KEPT = Path(__file__).with_suffix(".tsv")
SECONDS = 120
ALLOWED = 20  # a twentieth
MOST_PAGE_FAULTS = 160  # of a run of one call, which has 101: the program, its stack, and a page or two of each table


class Counted(NamedTuple):
    """A run whose instructions are counted: its words, None of a session, and what makes its input of so many parts."""

    name: str
    words: list[str] | None
    made: Input
    parts: int


COUNTED = [
    Counted("a call", ["serial"], given(calls), 1),
    Counted("a call in threads", ["threads"], given(calls), 1),
    Counted("calls", ["serial"], given(calls), 5_000),
    Counted("calls of many threads", ["serial"], given(shared), 5_000),
    Counted("calls that name calls in threads", ["threads"], given(named_in_turn), 5_000),
    Counted("calls of a child", ["serial"], given(of_child), 2_000),
    Counted("faults", ["serial"], given(faults), 10_000),
    Counted("faults that name a call", ["serial"], given(named), 2_000),
    Counted("areas that come and leave", ["serial"], given(leaving), 4_000),
    Counted("an area that moves past others", ["serial"], given(moving), 2_000),
    Counted("calls that name no place", ["serial"], given(placed), 2_000),
    Counted("reads of many areas", ["serial"], given(reads_of(1_000)), 16),
    Counted("a load", ["generate", "5000", "7"], nothing, 0),
    Counted("a text of calls", ["check"], judged(calls), 2_000),
    Counted("a text of calls that name no place", ["check"], judged(placed), 1_000),
    Counted("a list of files", ["retrace"], given(files), 1_000),
    Counted("a script", ["steps"], given(script), 2_499),
    Counted("calls of a session", None, given(calls), 5_000),
    Counted("reads of many areas in a session", None, given(reads_of(1_000)), 16),
    Counted("spaces of a session", None, given(spaces), 100),
]


def kept_numbers() -> dict[str, int]:
    """The instructions that each run is known to take, by its name."""
    rows = (line.split("\t") for line in KEPT.read_text(encoding="utf-8").splitlines() if not line.startswith("#"))
    return {name: int(number) for name, number in rows}


def keep(numbers: dict[str, int]) -> None:
    rows = "".join(f"{name}\t{number}\n" for name, number in numbers.items())
    KEPT.write_text("# what is run, and the instructions that it takes by callgrind\n" + rows, encoding="utf-8")


def instructions(name: str, command: list[str], text: bytes) -> int:
    """The instructions of a run that has to end well, and in which no caller has another to wait for."""
    with tempfile.TemporaryDirectory() as folder:
        files = [f"--callgrind-out-file={folder}/out", f"--log-file={folder}/log"]
        under = ["valgrind", "--tool=callgrind", "--trace-syscalls=yes", *files, *command]
        done = subprocess.run(under, input=text, stdout=subprocess.DEVNULL, stderr=subprocess.PIPE, timeout=SECONDS)
        check_ended(name, done, 0)
        log = Path(folder, "log").read_text(encoding="utf-8")
    if yields := log.count("sched_yield"):
        fail(name, f"lets other threads run {yields} times")
    found = re.search(r"Collected : (\d+)", log)
    if found is None:
        fail(name, "callgrind tells no count")
    return int(found[1])


def counts(program: str, live: str) -> Iterator[tuple[str, int]]:
    for run in COUNTED:
        command = [live] if run.words is None else [program, *run.words]
        yield run.name, instructions(run.name, command, run.made(program, run.parts))


def compare_counts(program: str, live: str) -> None:
    kept = kept_numbers()
    for name, number in counts(program, live):
        known = kept.get(name)
        if known is None:
            fail(name, f"{KEPT.name} has no number of it; `--write` keeps {number:,}")
        if number > known + known // ALLOWED:
            fail(name, f"{number:,} instructions, and not at most a twentieth more than {known:,}")
        less = "; `--write` keeps the lower number" if number < known - known // ALLOWED else ""
        passed(f"{name}, {number:,} instructions, of {known:,}{less}")


def check_start(program: str) -> None:
    """A run of one call touches little more memory than the program itself."""
    name = "the page faults of a call"
    with subprocess.Popen([program, "serial"], stdin=subprocess.PIPE, stdout=subprocess.DEVNULL) as run:
        assert run.stdin
        run.stdin.write(bytes_of(calls(1)))
        run.stdin.close()
        _, status, used = os.wait4(run.pid, 0)
        run.returncode = os.waitstatus_to_exitcode(status)
    if run.returncode or used.ru_minflt > MOST_PAGE_FAULTS:
        fail(name, f"status {run.returncode}, {used.ru_minflt} page faults, and not at most {MOST_PAGE_FAULTS}")
    passed(f"{name}, {used.ru_minflt} of {MOST_PAGE_FAULTS}")


def check(options: argparse.Namespace) -> None:
    check_start(options.program)
    if shutil.which("valgrind") is None:
        return skipped("instructions", "valgrind is not installed")
    live = live_of(options.live)
    if options.write:
        return keep(dict(counts(options.program, live)))
    compare_counts(options.program, live)


def add_arguments(parser: argparse.ArgumentParser) -> None:
    parser.add_argument("--write", action="store_true", help=f"keep the numbers in {KEPT.name} as they are now")
