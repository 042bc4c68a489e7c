"""Writes random traces into a folder, for other fuzzers and tests: those of `vma compare`, or those of `diltzekun generate`.

Each trace is a file, PROFILE-SEED-NUMBER.trace, or generate-COUNT-SEED.trace. The same options give the same files. With --as
the right answer is beside each, as NAME.out; that of Linux begins with a comment, its version and settings.

Example: tools/vma emit --runs 1000 --profile few,mremap seeds/
"""

import argparse
from collections.abc import Iterator
from pathlib import Path

from .. import console, oracles
from ..comparing.campaign import Settings, sources
from ..profile import loads
from ..traces import read_trace
from .compare import add_traces
from .modes import generated_count

SUMMARY = "write random traces into a folder, for other fuzzers"


def add_arguments(parser: argparse.ArgumentParser) -> None:
    add_traces(parser)
    parser.add_argument(
        "--generate",
        type=generated_count,
        metavar="COUNT",
        help="the traces of `diltzekun generate COUNT SEED`, for --runs seeds from --seed on, in place of those of profiles",
    )
    oracles.add_argument(parser, None, "no answers")
    parser.add_argument(
        "folder", type=Path, metavar="FOLDER", help="where the files come; it is made if it isn't there"
    )


def traces_of(options: argparse.Namespace) -> Iterator[tuple[str, str]]:
    """The name of each file, and the trace."""
    runs = options.runs or 200
    if options.generate:
        for seed in range(options.seed, options.seed + runs):
            yield f"generate-{options.generate}-{seed}", "\n".join(loads.load(options.generate, seed)) + "\n"
        return
    settings = Settings([], options.profile, runs, options.lines, options.seed, threads=options.threads)
    for source in sources(settings):
        name = settings.profiles[source.number % len(settings.profiles)]
        yield f"{name}-{options.seed}-{source.number}", source.draw().text()


def answered(text: str, oracle: oracles.Oracle) -> tuple[str, str]:
    """The trace without what isn't modelled, and the right answer: of Linux below a comment with its version and settings."""
    trace, _ = oracle.modelled(read_trace(text.encode()))
    head = f"# {oracle.words()}\n" if oracle.kernel else ""
    return trace.text(), head + oracle.output(read_trace(trace.text().encode()))


def run(options: argparse.Namespace) -> int:
    written, progress = 0, console.Progress()
    try:
        console.make_folder(options.folder)
        for name, text in traces_of(options):
            if options.oracle:
                text, answer = answered(text, options.oracle)
                console.replace_file(options.folder / f"{name}.out", answer)
            console.replace_file(options.folder / f"{name}.trace", text)
            written += 1
            progress.tell(f"{written} traces written")
    finally:
        progress.clear()
    print(f"{written} traces in {options.folder}")
    return 0
