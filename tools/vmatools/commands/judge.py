"""Judges the output of a system with threads: is it one of the legal outputs of its trace?

The tools' model judges. It was written from docs/TRACE.md and docs/MODEL.md, and shares no code with the program. An output
of `diltzekun serial` is legal too. With --as Linux of a version says what each call answers, in the order of the output. TRACE
and OUTPUT are files; one of them may be -, standard input.

Prints `legal`, or `not legal: line N: why` for the first line of OUTPUT that is wrong.

Exit status: 0 if OUTPUT is legal, 1 if it isn't, 2 on wrong use, if a file can't be read, and if TRACE is no trace.
"""

import argparse

from .. import console, oracles
from ..comparing import judging
from ..linux.areas import NotModelled
from ..running import program
from ..texts import explanations

SUMMARY = "say whether the output of a system with threads is legal"


def add_arguments(parser: argparse.ArgumentParser) -> None:
    parser.add_argument("trace", metavar="TRACE", help="the file of the trace")
    parser.add_argument("output", metavar="OUTPUT", help="the file of the output")
    oracles.add_argument(parser)


def run(options: argparse.Namespace) -> int:
    if not options.oracle.kernel:
        program.say_unbuilt()
    trace, output = console.open_inputs(options.trace, options.output)
    with trace, output, console.reading(options.output):
        read = explanations.read(trace, options.trace)
        try:
            wrong = judging.first_wrong(read, output, options.oracle)
        except NotModelled as gap:
            raise console.Failure(f"{console.named(options.trace)}: {gap}") from None
    if wrong is None:
        print(console.painted("legal", "green"))
        return console.DONE
    print(f"{console.painted('not legal', 'red')}: line {wrong.line}: {wrong.why}")
    return console.FOUND
