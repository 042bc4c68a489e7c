"""Makes traces of the memory calls of a real program, from a log of strace.

LOG is what `strace -f -e trace=memory,desc,process,shmget -o LOG COMMAND` writes (with -v and -y it says more); `-` is
standard input. `vma record` makes one, with the VMAs that each program begins and ends with. The trace goes to standard
output. It has the calls mmap, munmap, mprotect, mremap, brk and mseal of one address space, a number for each opening of a
file that is mapped, and one for each thread. What a trace can't have is counted and named on standard error.

Calls are in the order in which they returned. If calls of several threads ran at once, the log doesn't say which one the
kernel did first. They are put in an order in which the tools' model gives the kernel's answers; if none is found, `import`
says so.

Each successful execve begins an address space. They are numbered from 1 in the order of the log; 0 is the one that was
there before. A fork copies its parent's. Up to eight forks become `fork` lines, with the child's calls as its lines, if the
child has one thread. Any other child has a trace of its own, which begins with its parent's list: --fork N, or --all.

Without LOG, --maps alone makes a trace of a list, such as that of a running process: calls that you append behave as in
the process.

Exit status: 0 if a trace was written, 1 if the log has no call for it, 2 on wrong use, or if a file can't be read.
"""

import argparse
import sys
from pathlib import Path

from ..console import MOST_BYTES, Failure, NewFile, make_folder, named, printable, replace_file, say, whole_text
from ..model import Space as Model, answer, permissions
from ..texts.explanations import explain
from ..traces import LIMITS, PAGE, BadLine, Line, read_trace
from ..words import number
from .areas import Area, Section, is_of, read_sections, top_of
from .delaying import best_order
from .files import Opening, number_word
from .log import Log, split_arguments
from .order import Step, after
from .processes import Change, Processes, Space
from .reports import report, report_all, report_list
from .writing import Choices, Operation, Trace

MOST_LOG = 1 << 30  # bytes of a log


def text_of(path: str, most: int = MOST_BYTES) -> str:
    """A log or a list, as strace and the kernel write them: each line is ended by a newline alone."""
    text = whole_text(path, most)
    if "\r" in text[: text.find("\n")][-1:]:
        raise Failure(
            f"{named(path)}: line 1: a carriage return stands at the end: lines end with a newline byte alone "
            "(`tr -d '\\r'` takes carriage returns away)"
        )
    return text


def known_files(processes: Processes, areas: list[Area]) -> dict[str, list[Opening]]:
    """All openings of the log that are mapped, by name, and the identities that the lists tell."""
    known: dict[str, list[Opening]] = {}
    for space in processes.spaces:
        for change in space.calls:
            if change.opening:
                known.setdefault(change.opening.path, []).append(change.opening)
    for area in areas:
        if area.is_file:
            opening = Opening(area.name)
            opening.learns_identity((area.major, area.minor, area.inode), "maps")
            known.setdefault(area.name, []).append(opening)
    return known


def first_break(space: Space) -> int | None:
    for change in space.calls:
        if change.call.name == "brk":
            return number_word(change.call.result) if change.words and change.words[0] in ("NULL", "0") else None
    return None


# Lists of areas


def attach(processes: Processes, sections: list[Section], lines: int) -> None:
    """Gives each address space the list that it begins with, and the last one that was read of it."""
    sections = list(sections)
    if sections and sections[0].pid == 0:
        processes.numbered(None).areas = sections.pop(0).areas
    by_process: dict[int, list[Section]] = {}
    for section in sections:
        by_process.setdefault(section.pid, []).append(section)
    for process, lists in by_process.items():
        attach_process(processes, process, lists)
    for space in processes.spaces:
        if space.final and space.final[0] < space.last:
            space.late = sum(change.call.end > space.final[0] for change in space.calls)
            space.final = None  # it goes on after that
        elif space.final:
            add_unended(space, *space.final)


def add_unended(space: Space, line: int, areas: list[Area]) -> None:
    """Adds each munmap that did not return, as of a thread whose process ended meanwhile, if the last list shows that it was
    done."""
    for call in space.unended:
        words = split_arguments(call.text)
        low, size = (number_word(words[0]), number_word(words[1])) if len(words) == 2 else (None, None)
        if call.name != "munmap" or call.begin > line or low is None or not size:
            continue
        if not any(area.lo < low + size and area.hi > low for area in areas):
            space.takes(Change(call._replace(end=line, result="0"), words))
            space.found_done += 1


def attach_process(processes: Processes, process: int, lists: list[Section]) -> None:
    """The lists of a process are in the order of its calls of execve and exit_group, each of which has one."""
    tries = iter([one for one in processes.tries if one.process in (process, 0)])
    current: Space | None = None
    for section in lists:
        if section.when == "begin":
            if current and not current.areas:
                current.areas = section.areas
            continue
        one = next((one for one in tries if (one.call.name == "exit_group") == (section.when == "exit")), None)
        if one is None:
            return
        if section.areas and (one.ends.final is None or one.ends.final[0] <= one.call.begin):
            one.ends.final = (one.call.begin, section.areas)
        current = one.begins or current


# Traces


class Importer:
    """The traces of the address spaces of a log."""

    def __init__(self, choices: Choices, log: Log, processes: Processes, known: dict[str, list[Opening]]) -> None:
        self.choices, self.log, self.processes, self.known = choices, log, processes, known
        self.made: dict[str, Trace] = {}
        self.at_fork: dict[str, tuple[Model, Trace]] = {}
        self.in_lines: set[str] = set()  # the forks that are lines of the trace of their parent

    def trace_of(self, space: Space) -> Trace:
        if space.name() not in self.made:
            trace = Trace(self.choices, self.known, f"What strace saw of {space.label}")
            self.begin(trace, space)
            self.add_calls(trace, space)
            self.add_children(trace, space)
            self.made[space.name()] = trace
            self.settle(trace)
        return self.made[space.name()]

    def begin(self, trace: Trace, space: Space) -> None:
        """The areas that the space begins with: those of a list, or those of the parent at the fork."""
        if space.parent is not None:
            self.trace_of(space.parent)
            if space.name() in self.at_fork:
                trace.beginning = "The areas that its parent had at the fork:"
                begin_as(trace, *self.at_fork[space.name()])
        elif space.areas:
            trace.top = top_of(space.areas)
            heap = [area for area in space.areas if area.name == "[heap]"]
            asked = first_break(space)
            end = heap[-1].hi if heap else None
            if heap and end and asked is not None and -(-asked // PAGE) * PAGE == end:
                end = asked
            trace.begin_with(space.areas, heap[0].lo if heap else None, end)

    def add_calls(self, trace: Trace, space: Space) -> None:
        """The calls in the order in which they returned, and the forks where they began."""
        ended = sorted(self.log.ended, reverse=True)
        forks = sorted((child for child in space.children if has_calls(child)), key=began, reverse=True)
        numbers = self.numbers_of(space, forks)
        for change in space.calls:
            while forks and began(forks[-1]) < change.call.end:
                self.add_fork(trace, forks.pop(), numbers)
            while ended and ended[-1][0] < change.call.end:
                trace.ended.add(ended.pop()[1])
            if self.is_full(trace):
                trace.left_out["calls behind the last that --most takes"] += 1
            else:
                trace.call(change)
        while forks:
            self.add_fork(trace, forks.pop(), numbers)

    def is_full(self, trace: Trace) -> bool:
        return self.choices.most is not None and sum(not step.fork for step in trace.steps) >= self.choices.most

    def numbers_of(self, space: Space, forks: list[Space]) -> dict[str, int]:
        """The thread number of each child that becomes a line: as many as a trace may have."""
        first = len(space.threads | {child.at.pid for child in forks if child.at})
        able = [child for child in reversed(forks) if len(child.threads) == 1]
        most = min(LIMITS["forks"], max(LIMITS["threads"] - first, 0))
        return {child.name(): first + place for place, child in enumerate(able[:most])}

    def add_fork(self, trace: Trace, child: Space, numbers: dict[str, int]) -> None:
        if self.is_full(trace) or child.at is None:
            return
        number, at = numbers.get(child.name()), child.at
        text = "" if number is None else f"fork {number}"
        trace.steps.append(Operation(trace.thread(at.pid), text, "", at.begin, at.begin, at.pid, child))

    def add_children(self, trace: Trace, space: Space) -> None:
        """The lines of each child that a line forks."""
        for step in trace.steps:
            if step.fork is None or not step.text:
                continue
            number = int(step.text.split()[1])
            operations: list[Operation] = []
            for change in step.fork.calls:
                trace.check_room()
                text, said = trace.line(change)
                if text:
                    operations.append(Operation(number, text, said))
            self.in_lines.add(step.fork.name())
            trace.of_children.append((f"What the child did, thread {number}:", operations))

    def settle(self, trace: Trace) -> None:
        """Puts calls that overlap in order, and keeps what the model has at each fork."""
        has_forks = any(step.fork for step in trace.steps)
        is_ordered = self.choices.as_returned or len({step.pid for step in trace.steps}) < 2
        if is_ordered and not has_forks:
            return
        read = read_trace(trace.text().encode())
        lines = iter(read.lines)
        model = Model(read)
        for _ in trace.of_maps:
            answer(model, next(lines))
        steps = [
            Step(op.begin, op.end, op.pid, next(lines) if op.text else Line(0, op.thread, "fork", [0], None), op.answer)
            for op in trace.steps
        ]
        places = list(range(len(steps)))
        if not is_ordered:
            places, trace.different, trace.is_bounded = best_order(steps, model)
        trace.moved = sum(place != at for at, place in enumerate(places))
        trace.steps = [trace.steps[place] for place in places]
        for operation, step in zip(trace.steps, (steps[place] for place in places)):
            model, _ = after(model, step)
            if operation.fork:
                operation.answer = f"child {operation.text.removeprefix('fork ')} areas {len(model.areas)}"
                self.at_fork[operation.fork.name()] = (model, trace)


def has_calls(space: Space) -> bool:
    """Whether a fork, or one of its forks, has calls."""
    return bool(space.calls) or any(map(has_calls, space.children))


def began(space: Space) -> int:
    assert space.at
    return space.at.begin


def begin_as(trace: Trace, model: Model, parent: Trace) -> None:
    """The areas of a model, as a fork has them from its parent, whose trace this is."""
    trace.top, trace.heap = parent.top, parent.heap
    areas: list[Area] = []
    for area in model.areas:
        is_file = 0 < area.object <= len(parent.files)
        name = "[heap]" if area.heap else "/dev/zero (deleted)" if area.object and not is_file else ""
        perms = permissions(area).split()[1]
        opening = parent.files[area.object - 1] if is_file else None
        place = (area.lo * PAGE, area.hi * PAGE, perms, area.offset * PAGE)
        areas.append(Area(*place, 0, 0, 0, name, area.grows, area.sealed, opening))
    trace.begin_with(areas, trace.heap, model.break_ if trace.heap is not None else None)


# The command


def add_arguments(parser: argparse.ArgumentParser) -> None:
    parser.add_argument("log", metavar="LOG", nargs="?", help="what strace wrote, or - for standard input")
    parser.add_argument(
        "--maps",
        metavar="FILE",
        help="/proc/PID/maps of the moment after that execve, or all the lists that record keeps: lines that map these "
        "areas come first",
    )
    parser.add_argument(
        "--replies", metavar="FILE", help="writes there what the kernel answered, in the form of an output"
    )
    parser.add_argument(
        "--final", metavar="FILE", help="writes there the list that the kernel had last, as far as --maps has it"
    )
    parser.add_argument(
        "--hints",
        action="store_true",
        help="where the kernel aligned a mapping to 2 MiB, asks for its address by a hint",
    )
    parser.add_argument(
        "--places", action="store_true", help="asks for the kernel's place in every call that the kernel placed"
    )
    which = parser.add_mutually_exclusive_group()
    which.add_argument(
        "--exec", metavar="N", type=number, help="the address space that the Nth execve of the log began (the first)"
    )
    which.add_argument("--fork", metavar="N", type=number, help="the address space that the Nth fork of the log began")
    which.add_argument(
        "--all", metavar="FOLDER", help="writes a trace of each address space there, with its replies and last list"
    )
    parser.add_argument(
        "--as-returned", action="store_true", help="leaves all calls in the order in which they returned"
    )
    parser.add_argument("--most", metavar="N", type=number, help="the first N calls alone")
    parser.add_argument(
        "--elsewhere",
        action="store_true",
        help="the log is of another machine: its files are not looked up on this one",
    )


def importer_of(options: argparse.Namespace, choices: Choices) -> Importer:
    log = Log(text_of(options.log, MOST_LOG))
    if not log.calls:
        raise Failure(f"{options.log}: no line is a call as strace writes them")
    processes = Processes(log)
    sections = read_sections(text_of(options.maps), options.maps) if options.maps else []
    attach(processes, sections, log.lines)
    areas = [area for section in sections for area in section.areas]
    return Importer(choices, log, processes, known_files(processes, areas))


def run_one(options: argparse.Namespace, importer: Importer) -> int:
    """One address space, to standard output."""
    processes = importer.processes
    space = processes.numbered(options.exec) if options.fork is None else processes.forked(options.fork)
    if space.areas and not is_of(space.areas, space.label, options.elsewhere):
        say(f"{options.maps} has no area of {printable(space.label)}: are these the areas of another program?")
    trace = importer.trace_of(space)
    sys.stdout.write(trace.text())
    write_beside(trace, space, options.replies, options.final)
    sys.stdout.flush()
    report(trace, importer.log, processes, space, importer.in_lines)
    if not trace.count:
        say("the log has no memory call for this address space")
        return 1
    return 0


def write_beside(trace: Trace, space: Space, replies: str | None, final: str | None) -> None:
    """The replies, and the kernel's last list."""
    if replies:
        replace_file(replies, trace.replies())
    if final and space.final:
        write_list(final, space.final[1])
    elif final:
        why = f", as {space.killed_by} ended it" if space.killed_by else ""
        raise Failure(f"{printable(space.label)}: no list is known that the kernel had last{why}: {final} is not written")


def write_list(path: str, areas: list[Area]) -> None:
    text = "".join(f"{area.line()}\n" for area in areas)
    replace_file(path, text.encode("utf-8", "surrogateescape"))


def run_all(options: argparse.Namespace, importer: Importer) -> int:
    """Each address space that has calls, to a folder."""
    folder = Path(options.all)
    written: list[tuple[Space, Trace]] = []
    for space in importer.processes.with_calls():
        if space.name() in importer.in_lines:
            continue
        trace = importer.trace_of(space)
        name = folder / space.name()
        replace_file(name.with_suffix(".trace"), trace.text())
        write_beside(trace, space, f"{name}.kernel", f"{name}.maps" if space.final else None)
        for step in trace.steps:
            if step.fork and step.fork.final and step.text:
                write_list(f"{name}.child{step.text.split()[1]}.maps", step.fork.final[1])
        written.append((space, trace))
    report_all(written, importer.log, importer.processes)
    return 0 if written else 1


def run_list(options: argparse.Namespace, choices: Choices) -> int:
    """A list of areas alone, as of a process that runs."""
    sections = read_sections(text_of(options.maps), options.maps)
    areas = next(section.areas for section in sections if section.areas)
    trace = Trace(choices, {}, f"The areas of {options.maps}")
    trace.beginning = "The areas that it has:"
    trace.top = top_of(areas)
    heap = [area for area in areas if area.name == "[heap]"]
    trace.begin_with(areas, heap[0].lo if heap else None, heap[-1].hi if heap else None)
    text = trace.text()
    model = Model(read_trace(text.encode()))
    for line in read_trace(text.encode()).lines:
        answer(model, line)
    sys.stdout.write(text)
    write_beside(trace, Space(None), options.replies, None)
    sys.stdout.flush()
    report_list(trace, areas, {area.lo * PAGE for area in model.areas})
    return 0


def check_words(options: argparse.Namespace) -> None:
    if options.log is None and not options.maps:
        raise Failure("no LOG, nor --maps")
    if options.log is None and (options.all or options.exec is not None or options.fork is not None or options.final):
        raise Failure("--exec, --fork, --all and --final need a LOG")
    if options.all and (options.replies or options.final):
        raise Failure("--all writes the replies and last lists itself, beside each trace")
    if options.replies and options.replies == options.final:
        raise Failure(f"{printable(options.final)}: it is given twice: each needs a file of its own")
    if options.log == "-" and options.maps == "-":
        raise Failure("only one file can be standard input")


def run(options: argparse.Namespace) -> int:
    check_words(options)
    choices = Choices(options.hints, options.places, options.elsewhere, options.as_returned, options.most)
    try:
        for path in (options.replies, options.final):
            if path:
                NewFile(path).close()  # whether it can be written, before the work
        if options.all:
            make_folder(options.all)
        if options.log is None:
            return run_list(options, choices)
        importer = importer_of(options, choices)
        return run_all(options, importer) if options.all else run_one(options, importer)
    except BadLine as bad:
        source = named(options.log or options.maps)
        raise Failure(f"{source}: what was made of it is no trace: {explain(bad)}") from None
