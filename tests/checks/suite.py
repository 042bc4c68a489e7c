"""Checks the conformance suite: beside each trace is what the program and the tools' model make of it; each row of each
table of docs/MODEL.md decides two cases or more; each test of the model, changed a little, is noticed by a case; the changes
that no case has to notice are noticed by no random trace either; and each answer of Linux that differs has a row of
docs/KERNEL.md.
"""

import argparse
import re
from collections import Counter
from collections.abc import Iterator, Sequence
from concurrent.futures import ProcessPoolExecutor, ThreadPoolExecutor
from pathlib import Path

from checking import TOP, fail, passed

from models import cases, mutations
from vmatools import traces, words
from vmatools.comparing import conformance
from vmatools.linux import recorded
from vmatools.linux.versions import WrongOracle
from vmatools.profile import coverage

LEAST = 2  # cases that each row decides
SEEDS = 60  # of random traces
AT_ONCE = 100  # seeds of one process


def check_files(program: str, paths: list[Path]) -> Iterator[str]:
    """Traces with a fault, and files that are missing, too many, or not what the program gives."""
    yield from cases.faults_of({cases.where(path): path.read_text(encoding="utf-8") for path in paths})
    with ThreadPoolExecutor() as pool:
        made = dict(pair for files in pool.map(lambda path: cases.beside(program, path), paths) for pair in files.items())
    for path, text in made.items():
        if not path.exists() or path.read_text(encoding="utf-8") != text:
            yield f"{path}: is not what `dev/suite-case {path.with_suffix('.trace')}` makes"
    own = {path.with_suffix(".linux") for path in paths} | made.keys()
    for path in sorted(path for ending in (".out", ".legal", ".linux") for path in conformance.SUITE.glob(f"*/*{ending}")):
        if path not in own:
            yield f"{path}: no case has this file"


def check_coverage(suite: Sequence[traces.Trace]) -> Iterator[str]:
    """Rows of the tables that too few cases reach."""
    reached: Counter[str] = Counter()
    for trace in suite:
        reached.update(set(coverage.rows_of(trace)))
    for row in coverage.ROWS:
        if reached[row] < LEAST:
            yield f"docs/MODEL.md: the row {row} decides {reached[row]} cases, and not {LEAST}"


def check_alike(seeds: int) -> Iterator[str]:
    """Changes of the model that are said to change no answer, and that a random trace notices."""
    parts = [range(first, min(first + AT_ONCE, seeds + 1)) for first in range(1, seeds + 1, AT_ONCE)]
    with ProcessPoolExecutor() as pool:
        yield from {fault: None for faults in pool.map(mutations.noticed_at_random, parts) for fault in faults}


def check_linux(suite: Path = conformance.SUITE) -> Iterator[str]:
    """Answers of Linux with no version and settings, with a row that docs/KERNEL.md doesn't have, or that are the program's."""
    told = set(re.findall(r"[a-z]+(?:-[a-z]+)+", (TOP / "docs/KERNEL.md").read_text(encoding="utf-8")))
    for path in sorted(suite.glob("*/*.linux")):
        try:
            parts = recorded.read(path)
        except WrongOracle as wrong:
            yield str(wrong)
            continue
        rows, versions = {part.row for part in parts}, [kernel.version for part in parts for kernel in part.kernels]
        if len(rows) != 1 or not rows <= told:
            yield f"{path}: each part has to name one row of docs/KERNEL.md, and has {', '.join(sorted(rows))}"
        elif len(set(versions)) < len(versions) or recorded.written(parts) != path.read_text(encoding="utf-8"):
            yield f"{path}: is not as dev/suite-case writes it, each version once and the newest first"
        elif {part.answer for part in parts} == {path.with_suffix(".out").read_text(encoding="utf-8")}:
            yield f"{path}: no version answers otherwise than the program"


def add_arguments(parser: argparse.ArgumentParser) -> None:
    parser.add_argument(
        "--random", type=words.count, default=SEEDS, metavar="N", help=f"seeds, each of three random traces ({SEEDS})"
    )


def check(options: argparse.Namespace) -> None:
    paths = sorted(conformance.SUITE.glob("*/*.trace"))
    wrong = list(check_files(options.program, paths))
    if not wrong:
        suite = [traces.read_trace(path.read_bytes()) for path in paths]
        wrong += [*check_coverage(suite), *mutations.unnoticed(suite), *check_alike(options.random), *check_linux()]
    if wrong:
        fail("the cases", "\n".join(wrong))
    passed(f"{len(paths)} cases are as the program answers, each row decides {LEAST}, each change is noticed")
