"""What `vma import` says on standard error: what a trace has, and what was left out."""

from collections import Counter

from ..console import counted, printable, say
from ..texts.linux_calls import ADVICE, CHANGES
from .areas import Area
from .log import Log
from .processes import CALLS, Processes, Space
from .writing import Trace


def tell(title: str, counts: Counter[str]) -> None:
    shown = [f"{name} {count}" for name, count in counts.most_common() if count]
    if shown:
        say(f"{title}: {', '.join(shown)}")


def report(trace: Trace, log: Log, processes: Processes, space: Space, in_lines: set[str]) -> None:
    """What the trace of one address space has, and what was left out."""
    say(headline(trace, space))
    for line in trace.sources():
        say(line)
    report_order(trace)
    report_places(trace)
    report_end(space, "it")
    report_left_out([trace], [space], log)
    for other in processes.spaces:
        if other is not space and other.calls and other.name() not in in_lines:
            report_other(other)
    report_log(log, processes)


def headline(trace: Trace, space: Space) -> str:
    calls = counted(sum(not step.fork for step in trace.steps), "call")
    threads = counted(len(set(trace.threads.values())), "thread")
    begins = "the areas of the maps" if space.parent is None else "the areas at the fork"
    text = f"{printable(space.label)}: {calls} of {threads}, after {len(trace.of_maps)} for {begins}"
    if trace.of_children:
        of_children = sum(len(operations) for _, operations in trace.of_children)
        text += f"; {counted(of_children, 'call')} of {counted(len(trace.of_children), 'child', 'children')}"
    return f"{text}; {counted(len(trace.files), 'opening')} of files"


def report_order(trace: Trace) -> None:
    if trace.hints:
        say(f"the kernel's place was written for {counted(trace.hints, 'call')}, as one that is asked for")
    if trace.moved:
        say(
            f"{counted(trace.moved, 'call')} of threads that ran at once: in another order than that in which they returned"
        )
    if trace.different:
        ended = "; the search was ended early" if trace.is_bounded else ""
        say(f"no order was found that explains {counted(trace.different, 'reply', 'replies')} of the kernel{ended}")
    if trace.of_children:
        say("the number of areas at a fork is in no log: the replies have that of the model")


def report_places(trace: Trace) -> None:
    if trace.held:
        shown = ", ".join(dict.fromkeys(trace.held))
        say(f"plain memory takes the place of {shown}, so that nothing else is put there")


def report_end(space: Space, which: str) -> None:
    """Why there is no list that the kernel had last, and what is known from it alone."""
    if space.late:
        calls = counted(space.late, "call of another thread", "calls of other threads")
        say(f"{which} has no last list: {calls} returned after it was read, while the process waited to end")
    elif space.killed_by and space.final is None:
        say(f"{which} has no last list: {space.killed_by} ended it")
    if space.found_done:
        say(f"{which}: {counted(space.found_done, 'munmap')} did not return, and the last list shows that it was done")


def report_left_out(traces: list[Trace], spaces: list[Space], log: Log) -> None:
    """The counts of what was left out of some traces, with those of the calls that no trace has."""
    other: Counter[str] = sum((space.other for space in spaces), Counter())
    tell("flags taken off", sum((trace.taken_off for trace in traces), Counter[str]()))
    tell("left out, or otherwise", sum((trace.left_out for trace in traces), Counter[str]()))
    tell("left out, and the list is another without them", Counter({name: other[name] for name in CHANGES}))
    tell("left out, as a trace has no word for them", Counter({name: other[name] for name in ADVICE}))
    tell("not of memory", Counter({n: c for n, c in other.items() if n not in CHANGES and n not in ADVICE}))
    tell("did not return", Counter({name: log.without_end[name] for name in CALLS}))
    faults = Counter({name: log.signals[name] for name in ("SIGSEGV", "SIGBUS")})
    tell("left out, as the log does not say how they were made: accesses with the signal", faults)


def report_other(other: Space) -> None:
    which = f"execve {other.number}, " if other.number else ""
    taken = f"--fork {other.fork}" if other.fork else f"--exec {other.number}"
    say(
        f"left out: {counted(len(other.calls), 'call')} of another address space, {which}{printable(other.label)}: "
        f"{taken} takes it"
    )


def report_log(log: Log, processes: Processes) -> None:
    if processes.unexplained:
        say(
            f"threads whose beginning the log does not show, taken for threads of the first process: {len(processes.unexplained)}"
        )
    if log.unreadable:
        say(f"lines that are none of strace: {log.unreadable}")


def report_all(written: list[tuple[Space, Trace]], log: Log, processes: Processes) -> None:
    """A line for each trace that was written, and the counts of all."""
    for space, trace in written:
        say(f"{space.name()}: {headline(trace, space)}")
        report_order(trace)
        report_end(space, space.name())
        for step in trace.steps:
            if step.fork and step.text:
                report_end(step.fork, f"child {step.text.split()[1]} of {space.name()}")
    forks = sum(space.fork is not None and not space.calls for space in processes.spaces)
    if forks:
        say(f"{counted(forks, 'fork')} without a call that a trace has: none is written")
    report_left_out([trace for _, trace in written], [space for space, _ in written], log)
    report_log(log, processes)


def report_list(trace: Trace, areas: list[Area], borders: set[int]) -> None:
    """What is otherwise in the trace of a list alone: which neighbours are one area, and what is left out."""
    say(f"{counted(len(areas), 'area')}: {counted(len(trace.of_maps), 'line')}")
    joined = [area for below, area in zip(areas, areas[1:]) if below.hi == area.lo and area.lo not in borders]
    joined = [area for area in joined if area.name != "[vsyscall]"]
    if joined:
        shown = ", ".join(hex(area.lo) for area in joined[:8]) + (", .." if len(joined) > 8 else "")
        say(f"joined to the area below, which looks alike and which the kernel keeps apart: {len(joined)}, at {shown}")
    report_places(trace)
    shared = [area for area in areas if area.is_shared_memory]
    if shared:
        say(f"shared memory without a file, each with an object of its own: {counted(len(shared), 'area')}")
    if trace.heap is None:
        say("there is no [heap]: where it would begin is not in the list, so brk answers 0")
    else:
        say("the break is taken to be at the end of the last page of [heap]")
    tell("left out, or otherwise", trace.left_out)
