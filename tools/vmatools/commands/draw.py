"""Draws a trace and its output, as a page for any browser or as a picture.

Time goes down, by version. On the left is a lane for each thread, with its calls, faults and reads; on the right are the VMAs
by address. A box goes from the version that made a VMA to the one that ended it. Its colour is the protection. Gaps are
folded, and so are VMAs far from any change. What a call changed is outlined, what it unmapped is dashed, and a fault points
to its address. Lines of OUTPUT that differ from the tools' model are marked, with --as those that differ from Linux.

OUTPUT is what `diltzekun serial` or `threads` wrote for TRACE, or another system in this form. Without it, what is right is
drawn. TRACE and OUTPUT are files; one of them may be -, standard input.

Exit status: 0 if OUTPUT is legal, as for `vma judge`, 1 if it isn't (the page is written all the same), 2 on wrong use, or
if a file can't be read.
"""

import argparse
import os
import sys

from .. import console, oracles
from ..drawing.page import page
from ..drawing.picture import picture
from ..drawing.runs import Run, read_numbered, replayed
from ..linux.areas import NotModelled
from ..running import program
from ..texts import explanations
from ..traces import BadLine, File
from ..words import count, number

SUMMARY = "draw a trace and its output, as a page or as a picture"
MOST_TOLD = 20  # differences on standard error
MOST_BYTES = 1 << 28  # of an output


def add_arguments(parser: argparse.ArgumentParser) -> None:
    parser.add_argument("trace", metavar="TRACE", help="the trace")
    parser.add_argument("output", metavar="OUTPUT", nargs="?", help="what was written for it")
    oracles.add_argument(parser)
    parser.add_argument("--svg", action="store_true", help="the picture alone")
    parser.add_argument(
        "--list", metavar="N", type=number, help="prints the list after version N instead, as a maps line would"
    )
    parser.add_argument("--child", metavar="C", type=number, help="of this child alone")
    parser.add_argument(
        "--most", metavar="N", type=count, default=10_000, help="draws traces of up to N operations (10,000)"
    )


def run(options: argparse.Namespace) -> int:
    runs, files = runs_of(options)
    chosen = [run for run in runs if options.child is None or run.child == options.child]
    if not chosen:
        raise console.Failure(f"there is no child {options.child}")
    if options.list is not None:
        text = list_after(chosen[0], options.list)
    elif options.svg:
        text = picture(chosen, files)
    else:
        text = page(chosen, files, title_of(options))
    sys.stdout.write(text)
    sys.stdout.flush()
    if not options.oracle.kernel:
        program.say_unbuilt()
    wrong = [difference for run in runs for difference in run.differences]
    for difference in wrong[:MOST_TOLD]:
        console.say(difference)
    if len(wrong) > MOST_TOLD:
        console.say(f"and {console.counted(len(wrong) - MOST_TOLD, 'more difference')}")
    return console.FOUND if wrong else console.DONE


def title_of(options: argparse.Namespace) -> str:
    title = f"A run of {os.path.basename(console.named(options.trace))}"
    if options.oracle.kernel is None:
        return title
    return f"{title}, {'beside' if options.output else 'as answered by'} {options.oracle.name}"


def runs_of(options: argparse.Namespace) -> tuple[list[Run], dict[int, File]]:
    """The runs of the parent and of its children, and the files by their descriptors."""
    source, *others = console.open_inputs(options.trace, *([options.output] if options.output else []))
    try:
        with source, console.reading(options.trace):
            trace, texts = read_numbered(source, None if options.list is not None else options.most)
    except BadLine as bad:
        raise explanations.refusal(bad, options.trace) from None
    output = None
    for other in others:
        with other, console.reading(options.output):
            output = other.read(MOST_BYTES)
    try:
        return replayed(trace, texts, output, options.oracle), {file.descriptor: file for file in trace.files}
    except NotModelled as gap:
        raise console.Failure(f"{console.named(options.trace)}: {gap}") from None


def list_after(run: Run, version: int) -> str:
    last = len(run.lists) - 1
    if not 0 <= version <= last:
        raise console.Failure(f"there is no version {version}: the last is {last}")
    return "".join(line + "\n" for line in run.maps(version))
