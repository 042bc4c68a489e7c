"""The modes of the program as subcommands: each takes files, and says in words what the program's status means."""

import argparse
import os
import re
import select
import shutil
import signal
from collections.abc import Callable, Iterator
from dataclasses import dataclass
from typing import IO, NoReturn

from .. import console, oracles
from ..linux.areas import NotModelled
from ..running import children, program
from ..texts import explanations, maps_texts
from ..traces import LIMITS, number_of
from ..unproved import sessions
from ..unproved.modes import MOST_GENERATED, MOST_READ
from ..words import count, number

BAD_LINE = re.compile(r"trace line (\d+) cause (\d+) (\w+)\n")
PIECE = 1 << 20
READS = "FILE is a file, or - for standard input, which is also read without a FILE. "
ANSWERS = """The program answers, or where it isn't built the tools' model, which is not proved: a line on standard error says so.
"""
ENDS = """
Exit status: 0 if the output is written, 2 on wrong use, if FILE can't be read, or if a line of it is bad.
"""

Options = argparse.Namespace


@dataclass(frozen=True)
class Mode:
    """A mode: what its help says, its words beside those of all, what it does, and why its input was refused."""

    SUMMARY: str
    says: str
    add_words: Callable[[argparse.ArgumentParser], None]
    work: Callable[[Options], int]
    ends: str = ENDS
    reads: str = READS

    @property
    def __doc__(self) -> str:  # type: ignore[override]
        return "\n".join([self.says, self.reads + ANSWERS + self.ends])

    def add_arguments(self, parser: argparse.ArgumentParser) -> None:
        self.add_words(parser)
        program.add_arguments(parser)

    def run(self, options: Options) -> int:
        return self.work(options)


# What is run


def command_of(options: Options, words: list[str]) -> list[str]:
    """What answers in this mode."""
    return [program.find(options.program, options.verbose), *words]


def answered(options: Options, words: list[str], source: IO[bytes], output: IO[bytes] | None = None) -> tuple[int, str]:
    """Runs the program over an input, with standard output as its own where no other is given: its status and its message."""
    console.flush_output()
    with program.begin(command_of(options, words), source, output) as process:
        try:
            _, message = process.communicate()
        finally:
            children.end(process)
    return process.returncode, message.decode("utf-8", "replace")


def check_status(status: int, message: str, why: Callable[[], None]) -> None:
    """Ends a run that is not done, in words. `why` ends it where the input is bad, as far as it knows why."""
    if status == 0:
        return
    if status == 3:
        why()
    not_read_on = console.Failure("standard output: nobody reads on", console.NOT_READ_ON)
    not_written = console.Failure("standard output: not all of it could be written", console.NOT_WRITTEN)
    ends = {
        -signal.SIGPIPE: not_read_on,
        -signal.SIGINT: console.Failure("interrupted", console.INTERRUPTED),
        5: not_read_on if is_other_end_gone(1) else not_written,
        6: console.Failure("out of memory: what was written is a beginning of the output", console.FAULT),
    }
    raise ends.get(status) or console.Failure(f"the program ends with status {status}: {console.printable(message.strip())}")


def is_other_end_gone(descriptor: int) -> bool:
    """Whether it is a pipe, a socket or a terminal without its other end, which a poll says unasked."""
    poll = select.poll()
    poll.register(descriptor, 0)
    return bool(poll.poll(0))


# Inputs


def opened(path: str) -> IO[bytes]:
    """A file, or what standard input has, so that it can be read again."""
    source: IO[bytes] = console.open_input(path)
    if source.seekable():
        return source
    kept = console.scratch()
    with console.reading(path), source:
        left = MOST_READ + 1
        while left and (piece := source.read(min(left, PIECE))):
            kept.write(piece)
            left -= len(piece)
    kept.seek(0)
    return kept


def each_file(options: Options) -> Iterator[tuple[str, IO[bytes]]]:
    """Each FILE, below its name where there are several."""
    paths = options.files or ["-"]
    if paths.count("-") > 1:
        raise console.Failure("only one file can be standard input")
    for place, path in enumerate(paths):
        with opened(path) as source:
            if len(paths) > 1:
                print(f"{chr(10) if place else ''}==> {console.printable(console.named(path))} <==")
            yield path, source


def add_files(parser: argparse.ArgumentParser, what: str = "a trace") -> None:
    parser.add_argument(
        "files", metavar="FILE", nargs="*", help=f"{what}, or - for standard input; several have their names above"
    )


def explain_trace(path: str, source: IO[bytes]) -> None:
    """Ends with what is wrong with a trace, if the tools find that too."""
    source.seek(0)
    explanations.read(source, path)  # type: ignore[arg-type]


def explain_maps(path: str, source: IO[bytes]) -> None:
    source.seek(0)
    try:
        maps_texts.traced(maps_texts.rows_of(source.read(LIMITS["bytes"] + 1)))
    except maps_texts.Refused as refused:
        raise console.Failure(f"{console.named(path)}: line {refused.line}: {refused.why}") from None


def explain_cause(path: str, message: str, page: str) -> None:
    """Ends with the cause alone."""
    found = BAD_LINE.fullmatch(message)
    if found:
        raise console.Failure(f"{console.named(path)}: line {found[1]} is bad: cause {found[2]}, {found[3]} ({page})")


# The modes


def replay(words: list[str]) -> Callable[[Options], int]:
    """Runs traces in a mode of these words."""

    def work(options: Options) -> int:
        for path, source in each_file(options):
            status, message = answered(options, words, source)
            check_status(status, message, lambda: explain_trace(path, source))
        return console.DONE

    return work


def run_serial(options: Options) -> int:
    """The program, or the model of Linux where --as names it."""
    if options.oracle.kernel is None:
        return replay(["serial"])(options)
    for path, source in each_file(options):
        trace = explanations.read(source, path)  # type: ignore[arg-type]
        try:
            print(options.oracle.output(trace), end="")
        except NotModelled as gap:
            raise console.Failure(f"{console.named(path)}: {gap}") from None
    return console.DONE


def add_serial(parser: argparse.ArgumentParser) -> None:
    add_files(parser)
    oracles.add_argument(parser)


def run_steps(options: Options) -> int:
    for path, source in each_file(options):
        status, message = answered(options, ["steps"], source)
        check_status(status, message, lambda: explain_cause(path, message, "docs/SCRIPTS.md"))
    return console.DONE


def run_maps(options: Options) -> int:
    words = ["query", hex(options.address)] if hasattr(options, "address") else ["retrace"]
    for path, source in each_file(options):
        status, message = answered(options, words, source)
        check_status(status, message, lambda: explain_maps(path, source))
    return console.DONE


def run_generate(options: Options) -> int:
    with open(os.devnull, "rb") as nothing:
        status, message = answered(options, ["generate", str(options.count), str(options.seed)], nothing)
    check_status(status, message, lambda: None)
    return console.DONE


def run_check(options: Options) -> int:
    with joined(options.trace, options.output) as text, console.scratch() as verdict:
        status, message = answered(options, ["check"], text, verdict)
        check_status(status, message, lambda: explain_check(options, text, message))
        verdict.seek(0)
        said = verdict.read().decode()
    print(said, end="")
    if said == "legal\n":
        return console.DONE
    console.say(f"no legal output has that line there, given those above it; `tools/vma judge {judge_words(options)}` says why")
    return console.FOUND


def judge_words(options: Options) -> str:
    return f"{options.trace} {options.output}" if options.output else "TRACE OUTPUT"


def joined(trace: str, output: str | None) -> IO[bytes]:
    """A trace, a line `==` and an output: as one text that is given, or made of two files."""
    if output is None:
        return opened(trace)
    if trace == output == "-":
        raise console.Failure("only one file can be standard input")
    text = console.scratch()
    with opened(trace) as first, opened(output) as second:
        with console.reading(trace):
            head = first.read(LIMITS["bytes"] + 1)
        if re.search(rb"^==$", head, re.MULTILINE):
            name = console.named(trace)
            raise console.Failure(f"{name}: it has a line `==`, which no trace has: give OUTPUT or that, not both")
        text.write(head + b"==\n")
        with console.reading(output):
            shutil.copyfileobj(second, text)
    text.seek(0)
    return text


def explain_check(options: Options, text: IO[bytes], message: str) -> None:
    text.seek(0)
    name = console.named(options.trace)
    head, mark, _ = text.read(LIMITS["bytes"] + 4).partition(b"==\n")
    if head.endswith(b"\n") or not mark:
        explanations.read(head, options.trace)
    if " Child\n" in message:
        raise console.Failure(f"{name}: it forks, and `check` judges no such trace; `tools/vma judge` does")
    if not mark:
        raise console.Failure(f"{name}: no line `==` parts the trace from its output; give OUTPUT as a second file")
    explain_cause(options.trace, message, "docs/TRACE.md")


def run_live(options: Options) -> int:
    """Becomes diltzekun-live, which answers from then on, and whose status it is. The model of Linux answers where --as names
    it."""
    path = None if options.oracle.kernel else program.find(options.live, options.verbose, program.LIVE)
    if options.file != "-":
        source = console.open_input(options.file)
        os.dup2(source.fileno(), 0)
    if path is None:
        return sessions.main([], options.oracle.space)
    become(path)


def become(path: str) -> NoReturn:
    console.flush_output()
    try:
        os.execv(path, [path])
    except OSError as error:
        raise console.Failure(program.why_not_run(path, error)) from None


# Their words


def generated_count(text: str) -> int:
    value = count(text)
    if value > MOST_GENERATED:
        raise argparse.ArgumentTypeError(f"{text} is more than {MOST_GENERATED:,}")
    return value


def address_of(text: str) -> int:
    address = number_of(text)
    if address is None:
        raise argparse.ArgumentTypeError(f"{text[:40]} is no address: decimal digits, or 0x and hexadecimal ones")
    return address


def add_check(parser: argparse.ArgumentParser) -> None:
    parser.add_argument("trace", metavar="TRACE", nargs="?", default="-", help="the trace, or without OUTPUT both in one")
    parser.add_argument("output", metavar="OUTPUT", nargs="?", help="the output; either may be - for standard input")


def add_generate(parser: argparse.ArgumentParser) -> None:
    parser.add_argument("count", metavar="COUNT", type=generated_count, help=f"operations, at most {MOST_GENERATED:,}")
    parser.add_argument("seed", metavar="SEED", type=number, help="the same seed gives the same trace")


def add_query(parser: argparse.ArgumentParser) -> None:
    parser.add_argument("address", metavar="ADDRESS", type=address_of, help="in bytes, decimal or 0x and hexadecimal")
    add_files(parser, "a text of /proc/PID/maps")


def add_live(parser: argparse.ArgumentParser) -> None:
    parser.add_argument("file", metavar="FILE", nargs="?", default="-", help="lines to answer, or - for standard input")
    parser.add_argument("--live", metavar="PATH", help=f"diltzekun-live (${program.LIVE.variable}, or where the program is)")
    oracles.add_argument(parser)


MODES = {
    "serial": Mode(
        "replay a trace: the result of each call, and the VMAs at the end",
        "Replays traces in the order of their lines, and prints the result of each call and fault and the VMAs at the end.",
        add_serial,
        run_serial,
    ),
    "threads": Mode(
        "replay a trace with its threads at once: one of the results that are possible",
        "Replays traces, each thread's lines in a thread of its own, and prints one of the outputs that are legal.\n\n"
        "The tools' model has no threads: it makes the calls in the order of their lines, which is legal too.",
        add_files,
        replay(["threads"]),
    ),
    "check": Mode(
        "say whether an output of threads is legal, as `threads` may print it",
        "Says whether OUTPUT is legal for TRACE: `legal`, or `bad N` for its first line that no legal output has there.\n\n"
        "Without OUTPUT, TRACE has both, with a line `==` between them. No line of the trace may fork.",
        add_check,
        run_check,
        "\nExit status: 0 if OUTPUT is legal, 1 if it is bad, 2 on wrong use, if a file can't be read, or if TRACE is none.\n",
    ),
    "generate": Mode(
        "replay a generated trace, and print a summary",
        "Replays a generated trace as `serial` does, and prints how many calls and faults it had, but not the trace.",
        add_generate,
        run_generate,
        "\nExit status: 0 if the output is written, 2 on wrong use.\n",
        "",
    ),
    "query": Mode(
        "find the VMA at an address in a maps text, or the next one above",
        "Prints the line of the first VMA of a maps text that ends above an address, or `none`. It need not contain it.",
        add_query,
        run_maps,
    ),
    "retrace": Mode(
        "make a trace that makes the VMAs of a maps text",
        "Prints a trace that makes exactly the VMAs of a maps text, as a run leaves it.",
        lambda parser: add_files(parser, "a maps text"),
        run_maps,
    ),
    "steps": Mode(
        "make single atomic steps of readers and a writer",
        "Makes the steps of scripts (docs/SCRIPTS.md), and prints what each finds and the state after it.",
        lambda parser: add_files(parser, "a script"),
        run_steps,
    ),
    "live": Mode(
        "answer line by line, as a session",
        "Answers a trace line by line, as diltzekun-live does: a session for sandboxes, fuzzers and tests.\n\n"
        "With --as Linux of a version answers, and a line of which its model says nothing by `trace line N not modelled: why`.",
        add_live,
        run_live,
        "\nExit status: that of diltzekun-live: 0 if all was answered, 5 if a write failed or nobody reads on.\n",
    ),
}
