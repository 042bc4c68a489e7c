"""Runs the batch protocol with the adapters of examples/batch, and random traces in each system that is installed here.

What a system answers otherwise is no failure: how much of it is equal is printed. A system that is not installed is named and
passed. It fails where the runner does not compile without a warning, where an adapter of examples/batch does not answer as it
should, or where a trace that was fitted to a window is refused for leaving it.
"""

import argparse
import contextlib
import shutil
import subprocess
import sys
import tempfile
import time
from collections.abc import Iterator
from pathlib import Path

from checking import TOOL, fail, passed, skipped

from vmatools import console
from vmatools.comparing import conformance, generator
from vmatools.profile.serial import serial_output
from vmatools.running.program import TOP
from vmatools.systems import batch, building, known, measuring, seen
from vmatools.systems.places import Refused
from vmatools.traces import read_trace

TRACES = 300
WANTED = "L3 t0 v1 = 0\nL6 t0 v1 = maps 0\nL4 t3 v1 = SIGSEGV SEGV_MAPERR\nmaps 0\n"
TRACE = b"vmatrace 1\n# a comment\n0 munmap 0x10000 4096\n3 fault 0x10000 r\n\n0 maps\n"
ADAPTERS = TOP / "examples/batch"
# Where the lowest address, the top of the first search, the floor of the second and the end of memory meet: a lowest address,
# and the lengths of mappings whose place is searched.
BORDERS = {
    "0x7ffff7fff000": ["4096", "0x7fff000", "4096", "4096"],
    "0x7ffff7ffe000": ["8192", "4096", "4096", "0x7ffe000", "4096"],
    "0x7fffffffe000": ["8192", "4096", "1"],
    "0x7ffffffff000": ["1"],
    "0x10000": ["0x7ffff7fef000", "0x7fff000", "4096", "1"],
    "0x2aaaaaaac000": ["0x55554d554000", "0x55554d553000", "0x8000000", "4096"],
}


def adapters(folder: Path) -> Iterator[tuple[str, list[str]]]:
    """The adapters of examples/batch that can be run here, each with its language."""
    yield "Python", [sys.executable, str(ADAPTERS / "adapter.py")]
    compilers = {
        "C": ["cc", "-O2", "-std=c99", "-Wall", "-Wextra", "-Werror", "-o", str(folder / "c"), str(ADAPTERS / "adapter.c")],
        "Rust": ["rustc", "-O", "--edition", "2021", "-D", "warnings", "-o", str(folder / "rust"), str(ADAPTERS / "adapter.rs")],
        "Go": ["go", "build", "-o", str(folder / "go"), str(ADAPTERS / "adapter.go"), str(ADAPTERS / "vma_adapter.go")],
    }
    for language, command in compilers.items():
        if not shutil.which(command[0]):
            skipped(f"the adapter in {language}", f"{command[0]} is not installed")
            continue
        done = subprocess.run(command, capture_output=True, text=True, cwd=folder)
        if done.returncode:
            fail(f"the adapter in {language}", f"does not compile: {done.stderr[:300]}")
        yield language, [command[command.index("-o") + 1]]


def check_runner() -> None:
    """The runner compiles without a warning, for each processor whose compiler is here."""
    for processor in building.PROCESSOR_FLAGS:
        if not shutil.which(building.compiler_name(processor)):
            skipped(f"the runner for {processor}", "its compiler is not installed")
            continue
        flags = [*building.FLAGS, "-Wall", "-Wextra", "-Werror", "-Wl,-Ttext-segment=0x38000000", "-o", "/dev/null"]
        done = subprocess.run(
            [*building.compiler_of(processor), *flags, str(building.SOURCES[0])], capture_output=True, text=True
        )
        if done.returncode:
            fail(f"the runner for {processor}", f"does not compile: {done.stderr[:300]}")
        passed(f"the runner for {processor}, without a warning")


def check_batch() -> None:
    texts = [generator.Generator("few", f"1 {number}", 30).draw().text().encode() for number in range(20)]
    with tempfile.TemporaryDirectory() as folder:
        for language, command in adapters(Path(folder)):
            with contextlib.closing(batch.Adapter(command)) as adapter:
                answer = adapter.run(TRACE, 30)
                if answer.output != WANTED or answer.fault:
                    fail(f"the adapter in {language}", f"answers {answer}")
                check_cases(language, adapter)
                check_borders(language, adapter)
                begin = time.monotonic()
                for number in range(TRACES):
                    if adapter.run(texts[number % len(texts)], 30).fault:
                        fail(f"the adapter in {language}", f"fails on trace {number}")
                print(
                    f"{TOOL}: the adapter in {language}: {TRACES / (time.monotonic() - begin):.0f} traces a second",
                    flush=True,
                )


def check_cases(language: str, adapter: batch.Adapter) -> None:
    """An adapter passes each case of the suite whose calls it has."""
    assert adapter.has
    cases = [case for case in conformance.read_suite() if adapter.has.keeps(read_trace(case.trace.encode()))]
    for case in cases:
        answer = adapter.run(case.trace.encode(), 30)
        if answer.output not in case.right:
            fail(f"the adapter in {language}", f"answers {case.where} by {answer}")
    passed(f"the adapter in {language}, on {len(cases)} cases")


def check_borders(language: str, adapter: batch.Adapter) -> None:
    """An adapter finds each place that there is; and a line that is like the last one of another trace ends none."""
    for lowest, lengths in BORDERS.items():
        lines = [f"0 mmap 0 {length} PROT_READ MAP_PRIVATE|MAP_ANONYMOUS -1 0" for length in lengths]
        text = "\n".join(["vmatrace 1", f"min {lowest}", *lines, ""]).encode()
        answer, right = adapter.run(text, 30), serial_output(read_trace(text))
        if answer.output != right:
            fail(f"the adapter in {language}", f"answers {answer} from {lowest} on, and not {right}")
    answer = adapter.run(b"vmatrace 1\nend 0\n", 30)
    if answer.output not in ("", "maps 0\n") or adapter.run(TRACE, 30).output != WANTED:
        fail(f"the adapter in {language}", f"answers a trace with a line `end 0` by {answer}, or the next one wrongly")
    passed(f"the adapter in {language}, at {len(BORDERS)} borders")


def check_ends() -> None:
    """An adapter that ends, and one that does not answer: each is told, and a fresh one answers the next trace."""
    cases = {
        "ends with status 3": "read line; exit 3",
        "ends by signal SIGKILL": "read line; kill -9 $$",
        batch.DOES_NOT_END: "sleep 100",
    }
    for fault, script in cases.items():
        with contextlib.closing(batch.Adapter(["sh", "-c", script])) as adapter:
            told = (
                [adapter.run(TRACE, 0.5 - adapter.GRACE).fault for _ in range(2)]
                if fault == batch.DOES_NOT_END
                else [adapter.run(TRACE, 30).fault for _ in range(2)]
            )
        if told != [fault, fault]:
            fail("an adapter that ends", f"is told as {told}, and not as {fault}")
    passed("adapters that end, or do not answer")


def check_examples(name: str) -> None:
    """Whether the running kernel answers the examples of other systems as Linux does: it may be another one."""
    others = 0
    for example in seen.examples():
        with contextlib.closing(seen.adapter_of(name)) as adapter:
            now = example.now(adapter)
        if now:
            others += 1
            print(f"{TOOL}: {example.name}: this kernel answers otherwise: line {now.line}: {now.answer}")
    if not others:
        passed("the examples of systems, on the running kernel")


def check_system(system: known.System, path: str, seconds: float) -> None:
    packages = measuring.missing(system)
    if packages:
        return skipped(system.name, f"it is not installed (Debian: apt-get install {packages})")
    try:
        with contextlib.closing(measuring.Measuring(system, path, 2, 1)) as run_of:
            result = run_of.run(console.Progress(), seconds)
    except Refused as refused:
        if refused.status != 5:
            raise
        return skipped(system.name, f"it cannot be run here: {refused}")
    whole = measuring.Score()
    for score in result.profiles.values():
        whole.add(score)
    print(
        f"{TOOL}: {system.name} {result.version}: {result.traces} traces, {result.refused} refused, {whole.text()} %"
        " of replies and lists as the program",
        flush=True,
    )
    if system.name == "window" and result.refused:
        fail(system.name, "refuses traces that were fitted to it")


def add_arguments(parser: argparse.ArgumentParser) -> None:
    parser.add_argument(
        "--for", dest="most", type=float, default=60.0, metavar="SECONDS", help="for all systems together at most (60)"
    )


def check(options: argparse.Namespace) -> None:
    check_runner()
    check_batch()
    check_ends()
    systems = list(known.KNOWN.values())
    until = time.monotonic() + options.most
    for place, system in enumerate(systems):
        try:
            if system.name == "window" and not measuring.missing(system):
                check_examples(system.name)
            check_system(system, options.program, max((until - time.monotonic()) / (len(systems) - place), 3))
        except Refused as refused:
            skipped(system.name, f"it cannot be run here: {refused}")
