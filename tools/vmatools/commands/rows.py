"""Repeats the rows of docs/KERNEL.md: for each a trace of a few lines, what the program answers, and what a kernel does.

examples/kernel-rows.txt has the rows by name: the trace, the program's output, and the one of `vma kernel` on Linux 6.18.
Without a NAME all rows run again, and each that has another answer than in that file is named. With names, these rows are
shown: the trace, and the lines in which the program (-) and the running kernel (+) differ. A NAME that is a file, or - for
standard input, is a trace of yours, which is shown in the same way. A row that this machine can't run, such as one with
another lowest address, is named and passed over.

The directed traces of suite/vectors, which docs/KERNEL.md has too, run where they are named.

With --as Linux of a version answers beside the program, by its model, and no kernel is run; with `--as profile` the program
answers alone.

Exit status: 0 if all rows are as in the file, and both answer a trace of yours alike, 1 if one isn't, 2 on wrong use, or if
a run fails.
"""

import argparse
import contextlib
import difflib
import os

from .. import console, oracles
from ..running import program
from ..systems import rows

SUMMARY = "repeat the known differences of Linux, each on a few lines"


def add_arguments(parser: argparse.ArgumentParser) -> None:
    program.add_arguments(parser)
    parser.add_argument(
        "--system", metavar="NAME", help="another kernel: machine, or machine:IMAGE (native)"
    )
    oracles.add_argument(parser, None, "the kernel of --system")
    parser.add_argument("names", metavar="NAME", nargs="*", help="these rows alone, which are shown")


def is_trace(name: str) -> bool:
    return name == "-" or "/" in name or os.path.isfile(name)


def beside(options: argparse.Namespace) -> rows.Answering | None:
    """What answers beside the program."""
    if options.oracle is None:
        return rows.Kernel(options.system or "native")
    if options.system:
        raise console.Failure("--as stands in the place of the kernel of --system: only one of them can be given")
    return rows.Model(options.oracle.kernel) if options.oracle.kernel else None


def run_all(chosen: list[rows.Row], path: str, kernel: rows.Answering | None) -> list[rows.Row]:
    """The rows with what is answered now."""
    again, progress = [], console.Progress()
    for place, row in enumerate(chosen, 1):
        progress.tell(f"{place} of {len(chosen)} rows: {row.name}")
        again.append(rows.run_again(row, path, kernel))
    progress.clear()
    return again


def run(options: argparse.Namespace) -> int:
    path = program.find(options.program, options.verbose)
    known = rows.read_rows()[1] + (rows.directed_rows() if options.names else [])
    by_name = {row.name: row for row in known}
    own = {name: rows.row_of(name) for name in options.names if name not in by_name and is_trace(name)}
    unknown = [name for name in options.names if name not in by_name | own]
    if unknown:
        near = difflib.get_close_matches(unknown[0], [row.name for row in known], 1)
        hint = f"did you mean {near[0]}?" if near else "docs/KERNEL.md has them"
        raise console.Failure(f"no row has the name {console.printable(unknown[0])}; {hint}")
    kernel = beside(options)
    if own and kernel is None:
        raise console.Failure("a trace of yours runs on both, and `--as profile` leaves Linux out")
    chosen = [(by_name | own)[name] for name in options.names or by_name]
    with contextlib.closing(kernel) if kernel else contextlib.nullcontext():
        again = run_all(chosen, path, kernel)
    for row in again if options.names else []:
        rows.show(row)
    others = sum(
        now.here != now.there if row.name in own else not rows.check(row, now, kernel) for row, now in zip(chosen, again)
    )
    print(f"{len(chosen)} {'row' if len(chosen) == 1 else 'rows'}, {others} otherwise")
    return 1 if others else 0
