"""Says what is wrong with a trace, in a sentence, and marks the word.

TRACE is a file, or - for standard input. The line and the cause are those that the program names, as `trace line N cause K
Name`, when it ends with status 3. Words are counted from 1; the thread of an operation is the first. Of a maps text it says
whether `diltzekun retrace` takes it, and if not, why.

With --as it says, too, which lines of a trace Linux of a version answers otherwise than the profile, with their rows of
docs/KERNEL.md, and of which its model says nothing.

Exit status: 0 if TRACE is a trace, or a maps text that `retrace` takes, 1 if a line is bad, 2 on wrong use, or if TRACE
can't be read.
"""

import argparse

from .. import console, oracles, traces
from ..comparing import answers
from ..linux.kernel import Kernel
from ..texts import explanations, maps_texts

SUMMARY = "say what is wrong with a trace, and mark the word"
WIDTH = 110  # a longer line is shown in part


def add_arguments(parser: argparse.ArgumentParser) -> None:
    parser.add_argument("trace", metavar="TRACE", help="the file of the trace, or - for standard input")
    oracles.add_argument(parser)


def run(options: argparse.Namespace) -> int:
    with console.open_input(options.trace) as source, console.reading(options.trace):
        if maps_texts.seems_one(source.peek(maps_texts.MOST_LINE)):
            return explain_maps(source.read(traces.LIMITS["bytes"] + 1))
        return explain_trace(traces.Reader(source), options.oracle.kernel)


def explain_trace(reader: traces.Reader, kernel: Kernel | None) -> int:
    progress, count = console.Progress(), 0
    lines: list[traces.Line] = []
    texts: dict[int, str] = {}
    try:
        for count, line in enumerate(reader, 1):
            if kernel:
                lines.append(line)
                texts[line.number] = reader.texts.raw.decode()
            if count % 10_000 == 0:
                progress.tell(f"{count:,} operations read")
    except traces.BadLine as bad:
        place = f"line {bad.line}" + (f", word {bad.word}" if bad.word else "")
        show(f"{place}: {explanations.explain(bad)}", *explanations.marked_span(bad))
        print(f"(cause {traces.CAUSES[bad.cause]}, {bad.cause}, in docs/TRACE.md)")
        return console.FOUND
    finally:
        progress.clear()
    print(f"a trace of version {reader.trace.version}, with {count} operations: no line is bad")
    if kernel:
        explain_linux(reader.trace.with_lines(lines), kernel, texts)
    return console.DONE


def explain_linux(trace: traces.Trace, kernel: Kernel, texts: dict[int, str]) -> None:
    """Says where a kernel answers otherwise than the profile."""
    found = 0
    for found, (number, says) in enumerate(answers.parts(trace, kernel), 1):
        print(f"line {number}, {says}" if number else f"at the end, {says}")
        if number:
            print(f"    {shown_line(texts[number].rstrip(), 0, 0)[0]}")
    if not found:
        print(f"{kernel.name} answers each of them as the profile does")


def explain_maps(data: bytes) -> int:
    """What `retrace` says of a maps text, and why."""
    try:
        rows = maps_texts.rows_of(data)
        maps_texts.traced(rows)
    except maps_texts.Refused as refused:
        who = (
            "`retrace` makes no trace of this maps text"
            if refused.cause == "NotOurs"
            else "this is a maps text with a bad line"
        )
        text = data.split(b"\n", refused.line)[refused.line - 1][: maps_texts.MOST_LINE].decode("utf-8", "replace")
        show(f"line {refused.line}: {who}: {refused.why}", text, (0, max(len(text), 1)))
        print(f"(cause {maps_texts.CAUSES[refused.cause]}, {refused.cause}, in docs/TRACE.md)")
        if refused.cause == "NotOurs":
            print("`vma import --maps` makes a trace of it all the same, which goes on as the process would")
        return console.FOUND
    areas = console.counted(len(rows), "area")
    print(f"a maps text with {areas}, and no trace: `retrace` makes a trace of it, and `query` reads it")
    return console.DONE


def show(sentence: str, text: str, span: tuple[int, int]) -> None:
    print(sentence)
    line, marks = shown_line(text, *span)
    print(f"    {line}")
    print(f"    {console.painted(marks, 'red', 'bold')}")


def shown_line(text: str, start: int, end: int) -> tuple[str, str]:
    """A line and the marks below it, where it is long only what stands around them. A tab is a blank, other controls are dots."""
    first = max(min(start - WIDTH // 2, len(text) - WIDTH), 0)
    part = "".join(
        " " if letter == "\t" else letter if letter.isprintable() else "·" for letter in text[first : first + WIDTH]
    )
    front = "… " if first else ""
    marks = " " * (len(front) + start - first) + "^" * min(max(end - start, 1), WIDTH)
    return f"{front}{part}{' …' if first + WIDTH < len(text) else ''}", marks
