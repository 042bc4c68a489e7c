"""The tables of docs/KERNEL.md: what the profile and each Linux answer to the traces of its rows, as the two models say.

A row is a trace of examples/kernel-rows.txt, a directed one of suite/vectors, or a case of the suite in which versions differ.
"""

import re
from collections.abc import Iterator, Sequence
from dataclasses import dataclass, replace

from ..console import Failure
from ..oracles import PROFILE, Oracle
from ..outputs import Part, areas_of, is_list, parts_of
from ..running.program import TOP
from ..systems.rows import OWN_BREAK, SOME_BREAK, directed_rows, kernel_for, read_rows, recorder
from ..traces import Trace, line_text, read_trace
from . import recorded
from .areas import NotModelled
from .kernel import Kernel, Process
from .versions import table, text_of

TABLES = re.compile(r"(<!-- rows ([a-z ]+), made by dev/kernel-table -->\n).*?(<!-- end of rows -->)", re.DOTALL)
SAME, NONE = "=", "-"
OF_SUITE, DIRECTED = "old", "directed"  # the tables whose rows aren't of examples/kernel-rows.txt
PROCESS = Process(brk=0x7FFFFF17D000)  # some break


@dataclass(frozen=True)
class Told:
    """A row of a table: its name and its case, its trace, and the kernel that the others are compared with."""

    name: str
    case: str
    trace: Trace
    kernel: Kernel

    def outputs(self) -> list[str]:
        """What the profile and each kernel answer, an empty text where the model doesn't say it."""
        found = [PROFILE.output(self.trace)]
        for kernel in kernels(self.kernel):
            try:
                found.append(OWN_BREAK.sub(SOME_BREAK, Oracle(kernel).output(self.trace)))
            except NotModelled:
                found.append("")
        return found

    def cells(self) -> list[str]:
        """The name, the case or the calls, and what each answers."""
        outputs = self.outputs()
        calls, texts = apart(self.trace, [output for output in outputs if output])
        left = iter(texts)
        profile, newest, *told = [next(left) if output else NONE for output in outputs]
        told = [SAME if output == outputs[1] else text for output, text in zip(outputs[2:], told)]
        return [self.name, self.case or "; ".join("`" + call.replace("|", "\\|") + "`" for call in calls), profile, newest, *told]


def kernels(first: Kernel) -> list[Kernel]:
    """A kernel, and the same machine with each other version."""
    return [
        replace(first, version=version, rules=table()[version], process=PROCESS)
        for version in sorted(table(), key=lambda version: (version != first.version, version))
    ]


# What is shown of outputs


def apart(trace: Trace, outputs: Sequence[str]) -> tuple[list[str], list[str]]:
    """The calls that not all answer alike, and what is shown of each output: these answers. Where all are refused, where there
    is none, and where the trace reads lists, also the VMAs at the end that not all have; and where this doesn't tell outputs
    apart that differ, those of all lists. Where all are alike, it is the last answer and the last list."""
    lines = {line.number: line for line in trace.lines}
    places = list(zip(*map(parts_of, outputs)))
    made = [place for place in places if place[0].number and lines[place[0].number].word != "maps"]
    calls = [place for place in made if len({part.result for part in place}) > 1]
    lists = [place for place in places if is_list(place[0]) and len({(*part.lines[1:],) for part in place}) > 1]
    last = [place for place in lists if not place[0].number] or lists[-1:]
    asked = calls or made[-1:]
    if not calls and not lists:
        last = places[-1:]
    told = calls if calls else [place for place in asked if is_refused(place) or not lists]
    is_told = any(not is_refused(place) for place in calls) and all(line.word != "maps" for line in trace.lines)
    wanted = len({re.sub(r" v\d+ ", " ", output) for output in outputs})
    for also in ([] if is_told else last, last, lists):
        shown = [[answer(part.result) for part in place] for place in told] + [vmas(place) for place in also]
        texts = ["; ".join(dict.fromkeys(texts)) for texts in zip(*shown)]
        if len(set(texts)) >= wanted:
            return [line_text(lines[place[0].number or 0]).partition(" ")[2] for place in asked], texts
    raise Failure(f"what is shown of this trace doesn't tell versions apart that differ:\n{trace.text()}")


def is_refused(place: Sequence[Part]) -> bool:
    return all(part.result.startswith("-1") for part in place)


def answer(result: str) -> str:
    """A result in short: an error or a code by its name, what is served by its VMA."""
    served = re.match(r"served ([0-9a-f]+-[0-9a-f]+ [rwxps-]{4})", result)
    if served:
        return f"served {short(served[1] + ' 00000000 00:00 0')}"
    return re.sub(r"^(-1|SIGSEGV|SIGBUS) ", "", result)


def vmas(place: Sequence[Part]) -> list[str]:
    """Of each list the VMAs that not all have, or all."""
    lists = [part.lines[1:] for part in place]
    common = set(lists[0]).intersection(*lists) if any(one != lists[0] for one in lists) else set()
    return [", ".join(short(line) for line in one if line not in common) or "none" for one in lists]


def short(line: str) -> str:
    """A line of a list, by pages."""
    ((lo, hi, facts),) = areas_of([line]) or [(0, 0, ("", 0, "", "", ""))]
    return f"{lo:x}-{hi:x} {facts[0]}" + (" [heap]" if facts[4] == "[heap]" else "")


# The tables


def rows_of(words: Sequence[str]) -> Iterator[Told]:
    """The rows of a table: those whose names begin with one of its words."""
    head, rows = read_rows()
    kernel = recorder(head)
    for row in directed_rows() if words == [DIRECTED] else rows:
        if row.name.split("-")[0] in words or words == [DIRECTED]:
            yield Told(row.name, row.case, read_trace(row.trace.encode()), kernel_for(row.name, kernel))
    for path in sorted(TOP.glob("suite/*/*.linux")) if words == [OF_SUITE] else ():
        name = recorded.read(path)[0].row
        if name.startswith(OF_SUITE):
            case = f"{path.parent.name}/{path.stem}"
            yield Told(name, f"[{case}](../suite/{case}.trace)", read_trace(path.with_suffix(".trace").read_bytes()), kernel)


def lines(rows: Sequence[Told]) -> list[str]:
    """A table."""
    versions = [text_of(kernel.version) for kernel in kernels(rows[0].kernel)]
    head = ["Name", "Case", "Program", *versions]
    return ["| " + " | ".join(cells) + " |" for cells in (head, ["---"] * len(head), *(row.cells() for row in rows))]


def put(page: str) -> str:
    """The page with each table between its marks. Each row of the file has to be in one."""
    names: list[str] = []

    def made(marks: re.Match[str]) -> str:
        rows = list(rows_of(marks[2].split()))
        if not rows:
            raise Failure(f"docs/KERNEL.md: there are no rows {marks[2]}")
        names.extend(row.name for row in rows)
        return "\n".join([marks[1], *lines(rows), "", marks[3]])

    page = TABLES.sub(made, page)
    wrong = [row.name for row in read_rows()[1] if names.count(row.name) != 1]
    if wrong:
        raise Failure(f"docs/KERNEL.md has not one table for each of the rows {', '.join(wrong)}")
    return page
