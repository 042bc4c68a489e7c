"""Compares the last list of a run with the kernel's, page by page.

OUTPUT is what `diltzekun serial` wrote for a trace of `vma import`. MAPS is the list that `vma import` wrote beside the
trace (--final, --all), or a saved /proc/PID/maps. What a log can't say is named, and doesn't count as a difference: borders
that the kernel keeps between VMAs that look alike, pages by which faults expanded a stack, and VMAs above user memory, as
[vsyscall]. Names such as [stack] and [vdso] are those of plain memory. Files are compared by name, and by device and inode
if both lists have them.

Exit status: 0 if nothing else differs, 1 if something does, 2 on wrong use, or if a file can't be read.
"""

import argparse

from ..console import Failure, counted, painted, whole_text
from ..strace.areas import Area, area_of, read_sections
from ..strace.lists import compare
from ..words import number

SUMMARY = "compare the last list of a run with the kernel's"


def add_arguments(parser: argparse.ArgumentParser) -> None:
    parser.add_argument("output", metavar="OUTPUT", help="what `serial` wrote for the trace, or - for standard input")
    parser.add_argument("--child", metavar="C", type=number, help="the list of this child, and not that of the parent")
    parser.add_argument("maps", metavar="MAPS", help="the list that the kernel had last")


def last_list(text: str, path: str, child: int | None = None) -> list[Area]:
    """The list with which the part of an output ends that is the parent's, or a child's."""
    front = "" if child is None else f"{child} of "
    part = next((part for part in f"\n{text}".split("\nchild ")[child is not None :] if part.startswith(front)), None)
    if part is None:
        raise Failure(f"{path}: it has no child {child}")
    lines = part.removesuffix("\n").split("\n")
    places = [place for place, line in enumerate(lines) if line.startswith("maps ")]
    if not places:
        raise Failure(f"{path}: it has no list: is it an output of `serial`?")
    areas = [area_of(line) for line in lines[places[-1] + 1 :]]
    if None in areas:
        raise Failure(f"{path}: below `{lines[places[-1]]}` there is a line that is none of a list")
    return [area for area in areas if area]


def run(options: argparse.Namespace) -> int:
    if options.output == "-" and options.maps == "-":
        raise Failure("only one file can be standard input")
    ours = last_list(whole_text(options.output), options.output, options.child)
    theirs = read_sections(whole_text(options.maps), options.maps)[-1].areas
    found = compare(ours, theirs)
    for line in found.told():
        print(line)
    for line in found.others:
        print(painted(line, "red"))
    print(
        f"{counted(len(ours), 'area')} in the run, {counted(len(theirs), 'area')} in the kernel; "
        f"{counted(len(found.others), 'range')} differ"
    )
    return 1 if found.others else 0
