"""Makes the calls of a trace for real, on the running Linux or on another system, and writes what was answered, in the form
of `diltzekun serial`.

TRACE is a file, or - for standard input, which is read by default. docs/TRACE.md has the form of both. docs/KERNEL.md lists
where Linux differs from the program, and docs/SYSTEMS.md has emulators, sandboxes and other kernels. The output says what
the system did, right or wrong: it may have `SIGSEGV SEGV_PKUERR`, an error that the manual pages don't name, `hung`, or
`killed by signal 11`.

A small program makes the calls. At first use a C compiler makes it from tools/vmatools/systems/runner.c, in the cache
${XDG_CACHE_HOME:-~/.cache}/diltzekun, or in a folder for temporary files if that can't be written. It runs for this trace
alone, without address randomisation, and unmaps everything but itself before the first line. Lines run one after the other,
whatever their threads. A fork is a real one; the child runs its lines while the parent waits. Accesses are real too. Files
are memory without contents, of the trace's sizes and opened in its modes. With --folder they are sparse files there, so that
its file system matters. The list shows the trace's devices, inodes and names, and for shared anonymous memory the inodes
that the program gives it.

This can't be as in the program:
- The addresses from 0x7fffff000000 to 0x7fffff200000 are this tool's. With `limit areas`, so are those from 0x2aaa90000000 to
  0x2aaaa0000000: the tool fills the list there, until only that many VMAs are left for the trace.
- `top` is set by the stack limit, so it is from 0x155555556000 to 0x7ffff7fff000.
- The lowest address is the machine's vm.mmap_min_addr, for root too. A `min` in the trace has to be that.
- A trace of version 2 runs on a processor without addresses of 57 bits if no line goes past 47 bits.
- A stack may grow up to 8 MiB (RLIMIT_STACK).

With --system, --under or --window, everything else in the system stays mapped, and the trace keeps to the addresses of a
window. With --batch many traces are read, each between a line `trace N SECONDS` and a line `end N`, and answered the
same way: docs/COMPARE.md has the protocol.

Exit statuses, each but 0 with a line on standard error:
  0  the output was written
  2  wrong use, or the trace can't be read
  3  the input is no trace: the first bad line and its cause, as the program names it
  4  the trace asks for what this system can't do: the line, and why
  5  this system can't run any trace: it isn't installed, or there is no compiler, another processor, an older kernel, a
     sandbox that forbids it
  6  the system didn't start the trace in time
"""

import argparse
import contextlib
import os
import re
import sys
from dataclasses import replace
from pathlib import Path
from typing import BinaryIO

from .. import console
from ..systems import batch, known, machines, measuring
from ..systems.adapter import Adapter
from ..systems.places import Refused
from ..systems.words import address_of, window_of
from ..traces import LIMITS, BadLine

SUMMARY = "make the calls of a trace on the Linux under you, or on another system"


def seconds_of(text: str) -> float:
    if not re.fullmatch(r"[0-9]{1,6}(\.[0-9]{1,3})?", text) or float(text) <= 0:
        raise argparse.ArgumentTypeError(f"{text} is no number of seconds")
    return float(text)


def add_arguments(parser: argparse.ArgumentParser) -> None:
    told = "\n".join(f"  {system.name:13} {system.says}" for system in known.KNOWN.values())
    parser.epilog = (
        f"systems:\n{told}\n\n`machine:IMAGE` takes that kernel, and otherwise the newest of {machines.IMAGES}."
    )
    systems = parser.add_mutually_exclusive_group()
    systems.add_argument("--system", metavar="NAME", default="native", help="a system that is known (native)")
    systems.add_argument("--under", metavar="COMMAND", help="a command that runs a static program in your system")
    parser.add_argument(
        "--window",
        metavar="LO-HI",
        type=window_of,
        help="keeps to these addresses (0x10000-0x2000000, but for a kernel)",
    )
    parser.add_argument("--shift", metavar="N", type=address_of, help="the window lies so much higher in the system (0)")
    parser.add_argument(
        "--link", metavar="N", type=address_of, help=f"where the program that makes the calls lies ({known.LOW_LINK:#x})"
    )
    parser.add_argument("--folder", metavar="FOLDER", help="makes the trace's files there (they are gone at the end)")
    parser.add_argument(
        "--seconds", metavar="N", type=seconds_of, help="gives a trace so long (60, in a window 5, in a machine 20)"
    )
    parser.add_argument("--batch", action="store_true", help="answers many traces, one after the other")
    parser.add_argument("trace", nargs="?", metavar="TRACE", default="-", help="the file of the trace (standard input)")


def system_of(options: argparse.Namespace) -> known.System:
    """The system that the options name, with what they change of it."""
    system = known.system_under(options.under) if options.under else known.system_of(options.system)
    window = options.window or system.window
    if options.shift is not None and window is None:
        raise Refused(2, "--shift is of a window: give --window too")
    if options.window and system.window is None:
        system = replace(known.KNOWN["window"], boots=system.boots, image=system.image)
    if window and options.shift is not None:
        window = replace(window, shift=options.shift)
    return replace(
        system,
        window=window,
        link=options.link or system.link,
        seconds=options.seconds or system.seconds,
    )


def folder_of(name: str | None) -> Path | None:
    if name is not None and not os.path.isdir(name):
        raise Refused(2, f"{name} is no folder")
    return Path(name) if name is not None else None


def run(options: argparse.Namespace) -> int:
    """Answers a trace, or many."""
    if options.batch and options.trace != "-":
        raise Refused(2, f"with --batch the traces come on standard input, and not in {console.printable(options.trace)}")
    system = system_of(options)
    packages = measuring.missing(system) if system.packages else None
    if packages:
        raise Refused(5, f"{system.name} is not installed (Debian: apt-get install {packages})")
    adapter = Adapter(system, options.batch, folder_of(options.folder))
    with contextlib.closing(adapter), console.open_input(options.trace) as traces:
        if options.batch:
            return serve(adapter, traces, sys.stdout.buffer)
        with console.reading(options.trace):
            data = traces.read(LIMITS["bytes"] + 1)
        try:
            output = adapter.answer(data)
        except BadLine as bad:
            raise Refused(3, f"trace {bad}") from None
        except OSError as error:
            raise Refused(2, console.reason(error)) from None
        sys.stdout.buffer.write(output.encode(errors="surrogateescape"))
        sys.stdout.flush()
    return 0


def serve(adapter: Adapter, traces: BinaryIO, answers: BinaryIO) -> int:
    """Answers traces until there are no more."""
    for request in batch.requests(traces):
        try:
            output, status = adapter.answer(request.text, request.seconds), ""
        except BadLine as bad:
            output, status = "", f" 3 trace {bad}"
        except console.Failure as failure:
            output, status = "", f" {failure.status} {' '.join(str(failure).split())}"
        answers.write(f"{output}end {request.number}{status}\n".encode(errors="surrogateescape"))
        answers.flush()
    return 0
