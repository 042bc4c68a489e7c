"""Gives the programs hostile inputs: mutated and random ones, with numbers at borders, long lines and bytes that are no text.

Of N inputs of each mode, all of which come from the seed S, status, standard output and standard error have to be those that
the models of tools/vmatools give, of `threads` an output that `vma judge` accepts; words that are none of the modes' are
refused. `vma explain` has a sentence and a mark for each bad line. 10 N times an input is an address space of a session, each
of which has to answer as its model does, and as `serial` does where it is a trace. A run that takes too long fails. The first
input that differs is left in FOLDER.
"""

import argparse
import random
from collections import Counter
from collections.abc import Callable
from pathlib import Path

import hostile_inputs as inputs
from checking import Failed, compare, expect, fail, live_of, passed

from vmatools import traces
from vmatools.comparing import judging
from vmatools.running import live
from vmatools.texts import explanations
from vmatools.unproved import modes, sessions

SECONDS = 10
TOGETHER = 250  # address spaces of a session
ADDRESSES = [0, 0xFFFF, 0x100000, 0x101FFF, 0x7FFFFFFFEFFF, 0x7FFFFFFFF000, 2**64 - 1]
WORDS = ["serial", "threads", "check", "query", "generate", "retrace", "steps", "--help", "", " serial", "Serial", "é"]


class Runs:
    """Runs of the program on the inputs of a seed."""

    def __init__(self, program: str, seed: int, count: int, folder: Path) -> None:
        self.program, self.seed, self.count, self.folder = program, seed, count, folder

    def draws(self, mode: str) -> list[random.Random]:
        return [random.Random(f"{mode} {self.seed} {number}") for number in range(self.count)]

    def gives(self, name: str, words: list[str], data: bytes) -> int:
        """The status of a run, which has to answer as the model does."""
        status, output, message = modes.answered(words, lambda: data)
        try:
            expect(name, [self.program, *words], SECONDS, status, message, output, input=data)
        except Failed as failed:
            self.leave(data, failed)
        return status

    def leave(self, data: bytes, failed: Failed) -> None:
        self.folder.mkdir(parents=True, exist_ok=True)
        (self.folder / "input").write_bytes(data)
        fail(str(failed), f"its input is in {self.folder}")

    def check(self, mode: str, drawn: Callable[[random.Random], bytes]) -> None:
        """The runs of a mode."""
        statuses: Counter[int] = Counter()
        for number, draw in enumerate(self.draws(mode)):
            data = drawn(draw)
            words = [mode, draw.choice([*map(hex, ADDRESSES), *inputs.NUMBERS])] if mode == "query" else [mode]
            statuses[self.gives(f"{' '.join(words)}, input {number} of seed {self.seed}", words, data)] += 1
        passed(f"{self.count} inputs of {mode}, {statuses[3]} of them bad")

    def check_threads(self) -> None:
        for number, draw in enumerate(self.draws("threads")):
            data, name = inputs.trace(draw), f"threads, input {number} of seed {self.seed}"
            if modes.serial(data)[0]:
                self.gives(name, ["threads"], data)
                continue
            try:
                done, _ = expect(name, [self.program, "threads"], SECONDS, input=data)
                wrong = judging.first_wrong(traces.read_trace(data), done.stdout)
                if wrong:
                    fail(name, f"line {wrong.line}: {wrong.why}")
            except Failed as failed:
                self.leave(data, failed)
        passed(f"{self.count} inputs of threads")

    def check_words(self) -> None:
        """Words of which few are those of a mode, over an empty input."""
        for draw in self.draws("words"):
            words = [draw.choice(WORDS), *draw.choices([*WORDS, *inputs.NUMBERS], k=draw.choice([0, 1, 1, 2, 2, 3, 50]))]
            self.gives(f"the words {words}", words, b"")
        passed("words that are none of a mode's are refused")


# Sessions


def check_sessions(session: str, runs: Runs) -> None:
    """Many address spaces in one process each, of which the last may have no end."""
    spaces = 0
    while spaces < 10 * runs.count:
        draw = random.Random(f"session {runs.seed} {spaces}")
        data = b"".join(inputs.session(draw) for _ in range(TOGETHER)) + inputs.trace(draw)
        name = f"the sessions from {spaces} of seed {runs.seed}"
        try:
            expect(name, [session], SECONDS, output=sessions.answers(data), input=data)
        except Failed as failed:
            runs.leave(data, failed)
        spaces += TOGETHER
    passed(f"{spaces} address spaces of sessions")


def check_beside_serial(session: str, runs: Runs) -> None:
    """What a session answers to a trace is what `serial` prints."""
    asked = [data for data in map(inputs.valid_trace, runs.draws("beside")) if b" fork " not in data]
    given = expect("traces in a session", [session], SECONDS, input=b"new\n".join([*asked, b""]))[0].stdout
    for data in asked:
        printed, _ = expect("serial", [runs.program, "serial"], SECONDS, input=data)
        part, given = given[: len(printed.stdout)], given[len(printed.stdout) :]
        compare("a session beside serial", live.as_serial(part.decode()).encode(), printed.stdout)
    passed(f"{len(asked)} traces in a session, beside serial")


def check_explained(runs: Runs) -> None:
    """Of each bad line a sentence is there, and a word or more is marked."""
    causes: set[str] = set()
    for number, draw in enumerate(runs.draws("serial")):
        data = inputs.trace(draw)
        try:
            traces.read_trace(data)
        except traces.BadLine as bad:
            causes.add(bad.cause)
            text, (start, end) = explanations.marked_span(bad)
            if not explanations.explain(bad) or not 0 <= start < end:
                runs.leave(data, Failed(f"explain, input {number}: {bad}: no sentence or no mark for {text[:100]!r}"))
    passed(f"bad lines explained, of {len(causes)} causes")


def add_arguments(parser: argparse.ArgumentParser) -> None:
    parser.add_argument("--runs", type=int, default=100, metavar="N", help="how many inputs of each mode (100)")
    parser.add_argument("--seed", type=int, default=1, metavar="S", help="the same seed gives the same inputs (1)")
    parser.add_argument(
        "--keep", type=Path, default="hostile-failed", metavar="FOLDER", help="where an input is left that differs"
    )


def check(options: argparse.Namespace) -> None:
    session = live_of(options.live)
    runs = Runs(options.program, options.seed, options.runs, options.keep)
    runs.check("serial", inputs.trace)
    runs.check("check", inputs.answered_trace)
    runs.check("retrace", inputs.maps_text)
    runs.check("query", inputs.maps_text)
    runs.check("steps", inputs.script)
    runs.check_threads()
    runs.check_words()
    check_explained(runs)
    check_sessions(session, runs)
    check_beside_serial(session, runs)
