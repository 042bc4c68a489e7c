"""The conformance suite: its cases, how a system's answer to one is judged, and the table of what came of all."""

import difflib
import json
import re
from collections import Counter
from collections.abc import Iterable, Iterator, Sequence
from dataclasses import dataclass
from enum import Enum
from itertools import zip_longest
from pathlib import Path

from ..console import Failure
from ..linux import recorded
from ..linux.areas import NotModelled
from ..linux.recorded import PART
from ..linux.versions import WrongOracle
from ..oracles import PROFILE, Oracle
from ..outputs import Difference, first_difference
from ..running.program import TOP, Ran
from ..traces import read_trace
from . import junit, ranking

SUITE = TOP / "suite"
# How an adapter ends that can't make its system run a case, as one that asks for addresses that the system has itself.
CANNOT_RUN = "ends with status 4"
# How an adapter of many traces answers whose system can't be run at all, as where a package is missing.
NO_SYSTEM = "ends with status 5"
NOT_THERE = "-1 ENOSYS"  # what a system answers to an operation that it hasn't
MOST_LINES = 12  # of a trace or an answer that is shown
COMMENT = "#"  # what a comment of a trace, and the first line of what Linux answers, begins with


class Verdict(Enum):
    """What came of a case."""

    PASSED = "passed"
    FAILED = "failed"
    CRASHED = "crashed"
    HUNG = "hung"
    LEFT_OUT = "left out"


@dataclass(frozen=True)
class Case:
    """A case of the suite: its group and name, the sentence that it shows, its trace, and the outputs that are right."""

    group: str
    name: str
    says: str
    trace: str
    right: tuple[str, ...]
    gap: str = ""  # why nothing is right, where the model doesn't say what a kernel answers

    @property
    def where(self) -> str:
        return f"{self.group}/{self.name}"


@dataclass(frozen=True)
class Result:
    """What a system made of a case: the first line that is wrong, as it is and as it should be."""

    case: Case
    verdict: Verdict
    line: int = 0
    found: str = ""
    wanted: str = ""
    message: str = ""
    difference: Difference | None = None
    was_run: bool = True

    @property
    def rank(self) -> int:
        """Where it stands among those that aren't as they should be: a hang first, a place last."""
        if self.verdict in (Verdict.HUNG, Verdict.CRASHED) or self.difference is None:
            return ranking.RANKS.index("hang" if self.verdict is Verdict.HUNG else "crash")
        return ranking.rank_of(self.difference)

    @property
    def missing_call(self) -> str | None:
        """The operation that the system hasn't, if that is what is wrong."""
        return self.difference.operation if self.difference and self.difference.there == NOT_THERE else None

    @property
    def why(self) -> str:
        """In one line what is wrong."""
        if self.verdict is Verdict.FAILED:
            return f"line {self.line} is `{self.found[:120]}` and not `{self.wanted[:120]}`"
        return self.message.strip().splitlines()[-1][:200] if self.message.strip() else str(self.verdict.value)


def sentence(trace: str) -> str:
    """The sentence of a case: its first comment."""
    comments = [line[1:].strip() for line in trace.splitlines() if line.startswith(COMMENT)]
    return comments[0] if comments else ""


def right_as_linux(path: Path, trace: str, oracle: Oracle) -> tuple[str, ...]:
    """What is right for Linux: what such a kernel was recorded to answer, else what is computed."""
    try:
        seen = recorded.answer_of(recorded.read(path.with_suffix(".linux")), oracle.kernel) if oracle.kernel else None
    except WrongOracle as wrong:
        raise Failure(str(wrong)) from None
    return (seen or oracle.output(read_trace(trace.encode())),)


def read_case(path: Path, oracle: Oracle = PROFILE) -> Case:
    """The case of a trace of the suite. What threads may give is the profile's, where Linux wasn't seen to answer otherwise."""
    trace, legal, linux = path.read_text(encoding="utf-8"), path.with_suffix(".legal"), path.with_suffix(".linux")
    right: tuple[str, ...]
    gap = ""
    if legal.exists() and not (oracle.kernel and linux.exists()):
        right = tuple(legal.read_text(encoding="utf-8").split(PART))
    elif oracle.kernel:
        try:
            right = right_as_linux(path, trace, oracle)
        except NotModelled as why:
            right, gap = (), str(why)
    else:
        right = (path.with_suffix(".out").read_text(encoding="utf-8"),)
    return Case(path.parent.name, path.stem, sentence(trace), trace, right, gap)


def read_suite(folder: Path = SUITE, names: Sequence[str] = (), oracle: Oracle = PROFILE) -> list[Case]:
    """The cases of a suite, of these groups and names alone where some are given. Each name has to have a case."""
    named = {path: {path.parent.name, f"{path.parent.name}/{path.stem}"} for path in sorted(folder.glob("*/*.trace"))}
    known = {name for own in named.values() for name in own}
    for name in names if named else ():
        if name not in known:
            near = difflib.get_close_matches(name, known, 1)
            hint = f"did you mean {near[0]}?" if near else "`tools/vma conform --list` has them"
            raise Failure(f"no case and no group has the name {name}; {hint}")
    return [read_case(path, oracle) for path, own in named.items() if not names or own & set(names)]


def cases_in_order(has_wide: bool, folder: Path = SUITE) -> list[Path]:
    """The traces of the cases that have one right output each, one of each group after the other; those of addresses of 57
    bits only where they are wanted."""
    groups: dict[str, list[Path]] = {}
    for path in sorted(folder.glob("*/*.trace")):
        if not path.with_suffix(".legal").exists() and (has_wide or path.parent.name != "wide"):
            groups.setdefault(path.parent.name, []).append(path)
    return [path for turn in zip_longest(*groups.values()) for path in turn if path]


def first_wrong(output: str, right: str) -> tuple[int, str, str]:
    """The first line, from 1, at which two outputs differ, and what is there in each."""
    one, other = output.splitlines(), right.splitlines()
    line = next((place for place, pair in enumerate(zip(one, other)) if pair[0] != pair[1]), min(len(one), len(other)))
    return line + 1, one[line] if line < len(one) else "(nothing)", other[line] if line < len(other) else "(nothing)"


def judged(case: Case, ran: Ran) -> Result:
    """What a run of a system over a case comes to."""
    if ran.fault == "does not end":
        return Result(case, Verdict.HUNG, message="does not end")
    if ran.fault == CANNOT_RUN or not case.right:
        return Result(case, Verdict.LEFT_OUT, message=case.gap or ran.message)
    if ran.fault:
        return Result(case, Verdict.CRASHED, message=f"{ran.message.strip()} ({ran.fault})".strip())
    if ran.output in case.right:
        return Result(case, Verdict.PASSED)
    # Of several right outputs the one that goes along the longest.
    right = max(case.right, key=lambda right: first_wrong(ran.output, right)[0])
    words: dict[int | None, str] = {line.number: line.word for line in read_trace(case.trace.encode()).lines}
    difference = first_difference(right, ran.output, words)
    return Result(case, Verdict.FAILED, *first_wrong(ran.output, right), difference=difference)


def not_run(case: Case, why: str) -> Result:
    """What a report says of a case that wasn't run, since the run ended before it."""
    return Result(case, Verdict.CRASHED, message=f"not run: {why}", was_run=False)


def table(results: Iterable[Result]) -> list[str]:
    """A line a group: how many cases, and how many of them passed, failed, crashed, hung and were left out."""
    groups: dict[str, list[Verdict]] = {}
    for result in results:
        groups.setdefault(result.case.group, []).append(result.verdict)
    everything = [verdict for verdicts in groups.values() for verdict in verdicts]
    lines = [f"{'group':12}{'cases':>6}" + "".join(f"{verdict.value:>10}" for verdict in Verdict)]
    for name, verdicts in [*groups.items(), ("all", everything)]:
        lines.append(f"{name:12}{len(verdicts):6}" + "".join(f"{verdicts.count(verdict):10}" for verdict in Verdict))
    return lines


def left_out(results: Iterable[Result]) -> list[str]:
    """Why cases were left out, each reason with how many, the most first."""
    whys = Counter(
        re.sub(r"^line \d+: ", "", result.why) for result in results if result.verdict is Verdict.LEFT_OUT
    )
    return [f"left out: {count}: {why}" for why, count in whys.most_common()]


def wrong_ones(results: Iterable[Result]) -> list[Result]:
    """The cases that aren't as they should be, what counts most first."""
    wrong = (result for result in results if result.verdict not in (Verdict.PASSED, Verdict.LEFT_OUT))
    return sorted(wrong, key=lambda result: result.rank)


def described(result: Result) -> list[str]:
    """What a case that isn't as it should be shows: its trace, and both answers."""
    lines = result.case.trace.splitlines()
    more = [f"... ({len(lines)} lines)"] if len(lines) > MOST_LINES else []
    told = [("the trace", [*lines[:MOST_LINES], *more])]
    if result.difference:
        told += [("right", result.difference.here_lines[:MOST_LINES]), ("yours", result.difference.there_lines[:MOST_LINES])]
    else:
        told += [("yours", result.message.strip().splitlines()[-3:])]
    return [text for head, own in told for text in (f"  {head}:", *(f"    {line[:300]}" for line in own or ["(nothing)"]))]


def as_tap(results: Sequence[Result]) -> Iterator[str]:
    """The Test Anything Protocol, version 13."""
    yield "TAP version 13"
    yield f"1..{len(results)}"
    for number, result in enumerate(results, 1):
        passed = result.verdict in (Verdict.PASSED, Verdict.LEFT_OUT)
        skip = f" # SKIP {result.why}" if result.verdict is Verdict.LEFT_OUT else ""
        yield f"{'ok' if passed else 'not ok'} {number} - {result.case.where}{skip}"
        if not passed:
            yield f"  # {result.why}"


def as_json(results: Sequence[Result]) -> Iterator[str]:
    """A line a case."""
    for result in results:
        yield json.dumps(
            {
                "case": result.case.where,
                "says": result.case.says,
                "verdict": result.verdict.value,
                "line": result.line,
                "found": result.found,
                "wanted": result.wanted,
                "message": result.message,
            }
        )


def as_junit(results: Sequence[Result]) -> Iterator[str]:
    """JUnit's XML."""
    suite = junit.Suite("diltzekun")
    for result in results:
        if result.verdict is Verdict.PASSED:
            suite.add(result.case.group, result.case.name)
        elif result.verdict is Verdict.LEFT_OUT:
            suite.add(result.case.group, result.case.name, "skipped", result.why)
        else:
            came = "failure" if result.was_run else "error"
            suite.add(result.case.group, result.case.name, came, result.why, "\n".join(described(result)))
    yield suite.text().rstrip("\n")
