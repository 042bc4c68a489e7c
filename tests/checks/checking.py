"""How a check of this folder begins, reports and ends, and runs of the program that are compared in all that they answer.

A check is a module with a function `check(options)`, which calls `passed` for each thing that is as it should be, `skipped` where
the machine cannot try it, and `fail` at the first that is not. Words of its own come by `add_arguments`.
"""

import argparse
import importlib
import os
import resource
import signal
import subprocess
import sys
import time
from collections.abc import Callable, Iterable, Sequence
from pathlib import Path
from typing import Any, NoReturn

TOP = Path(__file__).resolve().parents[2]
sys.dont_write_bytecode = True
sys.path[:0] = [str(TOP / "tools"), str(TOP / "tests"), str(TOP)]
from vmatools import console
from vmatools.running import children, program

TOOL = Path(sys.argv[0]).stem
LIVE = program.LIVE.default
WAIT = 30  # a machine may be so many times as busy

Options = argparse.Namespace
Words = Sequence["str | bytes"]
Done = subprocess.CompletedProcess[bytes]


class Failed(Exception):
    """What is not as it should be."""


# Begin and end


def main() -> NoReturn:
    """Runs the check that the first word names, and ends: with 0 where all is as it should be, and 1 where something is not."""
    global TOOL
    TOOL = sys.argv[1]
    module = importlib.import_module(TOOL)
    parser = argparse.ArgumentParser(f"tests/run {TOOL} --", description=module.__doc__, formatter_class=console.Formatter)
    parser.add_argument("--program", metavar="PATH", help="diltzekun (the one that tests/run finds)")
    parser.add_argument("--live", type=Path, default=LIVE, metavar="PATH", help="diltzekun-live (crates/vma_live/out/vma_live)")
    getattr(module, "add_arguments", id)(parser)
    try:
        module.check(parser.parse_args(sys.argv[2:]))
    except Failed as failed:
        sys.exit(f"{TOOL}: {failed}")
    except KeyboardInterrupt:
        print(f"{TOOL}: interrupted", file=sys.stderr)
        sys.exit(console.INTERRUPTED)
    sys.exit(0)


def live_of(given: Path) -> str:
    """The path of diltzekun-live, or a failure that says how to build it."""
    live = str(given.resolve())
    if not os.access(live, os.X_OK):
        fail("the program", f"{live} is missing; {program.LIVE.builds}")
    return live


# Report


def fail(name: str, what: str) -> NoReturn:
    raise Failed(f"{name}: {what}")


def passed(name: str, seconds: float | None = None) -> None:
    print(f"{TOOL}: {name}: as it should be" + ("" if seconds is None else f", in {seconds:.1f} seconds"), flush=True)


def skipped(name: str, why: str) -> None:
    print(f"{TOOL}: {name}: skipped, as {why}", flush=True)


def compare(name: str, got: bytes, wanted: bytes) -> None:
    if got != wanted:
        gots, wanteds = got.split(b"\n"), wanted.split(b"\n")
        pairs = enumerate(zip(gots, wanteds))
        line = next((n for n, (a, b) in pairs if a != b), min(len(gots), len(wanteds)))
        found, right = (lines[line][:200] if line < len(lines) else None for lines in (gots, wanteds))
        fail(name, f"line {line + 1} is {found!r}, and not {right!r}")


# Runs


def bytes_of(lines: Iterable[str]) -> bytes:
    return "".join(line + "\n" for line in lines).encode()


def limit(kind: int, most: int) -> None:
    """Sets a limit of the process that begins."""
    resource.setrlimit(kind, (most, most))


def nothing() -> None:
    pass


def answer(
    name: str, command: Words, seconds: int, begin: Callable[[], None] = nothing, **streams: Any
) -> tuple[Done, float]:
    """What a run of a command gives, and the processor time that it takes, at most so many seconds. A busy machine has more."""

    def begins() -> None:
        limit(resource.RLIMIT_CPU, seconds)
        begin()

    before, since = used(), time.monotonic()
    ends: dict[str, Any] = {"stdout": subprocess.PIPE, "stderr": subprocess.PIPE, **streams}
    try:
        done: Done = subprocess.run(command, timeout=WAIT * seconds, preexec_fn=begins, **ends)
    except subprocess.TimeoutExpired:
        fail(name, f"has not ended after {time.monotonic() - since:.0f} seconds")
    took = used() - before
    if done.returncode in (-signal.SIGXCPU, -signal.SIGKILL):
        fail(name, f"takes longer than {seconds} seconds of processor time")
    return done, took


def run_kept(command: Sequence[str], **more: Any) -> tuple[int, str]:
    """The status of a command and what it says. It ends with the check, and so does what it has started."""
    process = children.start(command, stdout=subprocess.PIPE, stderr=subprocess.STDOUT, **more)
    try:
        said = process.communicate()[0]
    finally:
        children.end(process)
    return process.returncode, said.decode("utf-8", "replace")


def used() -> float:
    """The processor time of all runs so far."""
    children = resource.getrusage(resource.RUSAGE_CHILDREN)
    return children.ru_utime + children.ru_stime


def expect(
    name: str, command: Words, seconds: int, status: int = 0, message: bytes = b"", output: bytes | None = None, **more: Any
) -> tuple[Done, float]:
    """A run that has to end with this status, this on standard error and, where it is told, this on standard output; what it
    gives, and its processor time. `more` is of `answer`."""
    done, took = answer(name, command, seconds, **more)
    check_ended(name, done, status, message)
    if output is not None:
        compare(f"{name}, standard output", done.stdout or b"", output)
    return done, took


def check_ended(name: str, done: Done, status: int, message: bytes = b"") -> None:
    """A run has this status and this on standard error, where nothing stands, not even a line, where all went well."""
    if done.returncode != status:
        fail(name, f"has status {done.returncode}, and not {status}; on standard error stands {done.stderr[:200]!r}")
    compare(f"{name}, standard error", done.stderr, message)
