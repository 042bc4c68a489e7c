"""What a comparison has found: kinds of differences, which of them are known, and all of it as lines of JSON and as
JUnit's XML."""
from __future__ import annotations

import json
from collections import Counter
from collections.abc import Iterable, Iterator
from dataclasses import dataclass, field, replace
from fnmatch import fnmatchcase
from pathlib import Path
from typing import Any, NamedTuple, Optional

from ..console import Failure, counted, printable, whole
from ..outputs import Difference
from . import junit, ranking
from .answers import Answers

MOST_SHOWN = 10  # kinds whose traces are made small and printed; of others, a line and the command that shows them
Name = tuple[str, str, str]


@dataclass
class Finding:
    """A difference as it was found: in which trace, by its number or its file, and the command that repeats it."""

    name: str
    difference: Difference
    trace: str
    source: str
    repeat: str
    answers: Optional[Answers] = None

    def on(self, difference: Difference, trace: str) -> Finding:
        """The same on another trace."""
        return replace(self, difference=difference, trace=trace)

    def event(self, what: str, **more: Any) -> dict[str, Any]:
        difference, answers = self.difference, self.answers
        return {
            "event": what,
            "name": self.name,
            "line": difference.number,
            "program": difference.here_lines,
            "yours": difference.there_lines,
            "trace": self.trace,
            "source": self.source,
            "repeat": self.repeat,
            **({"answers": answers.sides, "says": answers.says} if answers else {}),
            **more,
        }


@dataclass
class Kind:
    """The differences of one kind: in how many traces there is one, and one of the shortest of these."""

    shortest: Finding
    count: int = 0
    is_shrunk: bool = False
    is_once: bool = False  # it did not come again on its trace
    is_shown: bool = False  # its trace was printed

    def add(self, finding: Finding) -> None:
        self.count += 1
        if not self.is_shrunk and finding.trace.count("\n") < self.shortest.trace.count("\n"):
            self.shortest = finding


# Known differences


@dataclass
class Known:
    """A line of a baseline: a name, in which `*` stands for anything, the reason, and how often it came."""

    pattern: str
    reason: str
    place: int
    count: int = 0


class Baseline:
    """The differences that are known, by name, with a reason each."""

    def __init__(self, lines: Iterable[Known] = ()) -> None:
        self.known = list(lines)

    @classmethod
    def read(cls, path: Path) -> Baseline:
        """Of a file whose lines are `NAME # REASON`, or empty, or begin with `#`."""
        return cls(cls.lines(path, utf8_of(path)))

    @staticmethod
    def lines(path: Path, text: str) -> Iterator[Known]:
        for place, line in enumerate(text.splitlines(), 1):
            pattern, mark, reason = line.partition(" #")
            if not line.strip() or line.lstrip().startswith("#"):
                continue
            if pattern.count("/") < 2 and "*" not in pattern:
                raise Failure(
                    f"{path}: line {place}: `{printable(pattern.strip())}` is no name of a difference, OPERATION/PROGRAM/YOURS"
                )
            if not mark or not reason.strip():
                raise Failure(f"{path}: line {place}: a reason is missing behind ` # `")
            yield Known(pattern.strip(), reason.strip(), place)

    def of(self, name: str) -> Optional[Known]:
        return next((known for known in self.known if fnmatchcase(name, known.pattern)), None)

    @property
    def stale(self) -> list[Known]:
        """Those that did not come."""
        return [known for known in self.known if not known.count]


# All that a run has found


class Pairs(NamedTuple):
    """How many pairs traces have reached, as far as they were measured: all, those of the suite's cases and kept traces that were
    run, and those that the last tenth of the others reached first."""

    all: int = 0
    before: int = 0
    late: int = 0

    def __str__(self) -> str:
        late = f"{self.late} by the last tenth of the run"
        if not self.before:
            return f"{self.all} pairs reached beyond those of the suite, which was not run, {late}"
        return f"{self.all} pairs reached, {self.before} of them by the suite and what was kept, {late}"


@dataclass
class Findings:
    """What some traces have shown."""

    baseline: Baseline = field(default_factory=Baseline)
    kinds: dict[str, Kind] = field(default_factory=dict)
    aside: Counter[str] = field(default_factory=Counter)
    coverage: Counter[str] = field(default_factory=Counter)
    pairs: Pairs = Pairs()
    seconds: float = 0.0  # that the run took
    traces: int = 0
    differing: int = 0
    known_alone: int = 0  # traces that differ in known ways alone
    is_cut: bool = False  # a trace had more findings than were looked for
    cases_left: int = 0  # of the suite, not come to
    left_out: Counter[str] = field(default_factory=Counter)  # traces that the system can't run, by the reason
    lacks: set[str] = field(default_factory=set)  # operations that the system hasn't
    kept: dict[str, str] = field(default_factory=dict)  # what an earlier run has kept and this one hasn't run: file and kind
    agree: list[str] = field(default_factory=list)  # what an earlier run has kept and is no difference now

    def add(self, findings: list[Finding], aside: Counter[str]) -> None:
        """Counts a trace."""
        self.traces += 1
        self.aside.update(aside)
        self.differing += bool(findings)
        self.known_alone += bool(findings) and all(self.baseline.of(finding.name) for finding in findings)
        for finding in {finding.name: finding for finding in reversed(findings)}.values():
            self.count(finding)

    def count(self, finding: Finding) -> None:
        self.kinds.setdefault(finding.name, Kind(finding)).add(finding)
        known = self.baseline.of(finding.name)
        if known:
            known.count += 1

    def in_order(self) -> list[tuple[str, Kind]]:
        """The kinds that are not known, what counts most first, and then the most frequent."""
        new = [(name, kind) for name, kind in self.kinds.items() if not self.baseline.of(name)]
        return sorted(new, key=lambda item: (ranking.rank_of(item[1].shortest.difference), -item[1].count, item[0]))

    def first_to_show(self) -> list[tuple[str, Kind]]:
        """Of the kinds whose trace was not printed the first ones, where few were."""
        shown = sum(kind.is_shown for kind in self.kinds.values())
        return [item for item in self.in_order() if not item[1].is_shown][: max(MOST_SHOWN - shown, 0)]

    @property
    def has_new_kinds(self) -> bool:
        return any(not self.baseline.of(name) for name in self.kinds)

    @property
    def not_run(self) -> dict[str, str]:
        """What was kept, isn't known, and was not run again."""
        return {path: name for path, name in self.kept.items() if name and not self.baseline.of(name)}

    @property
    def has_new(self) -> bool:
        return self.has_new_kinds or bool(self.not_run)

    def told_lines(self) -> Iterator[str]:
        """What is said of known differences, of what was kept, and of what was left out."""
        for known in self.baseline.known:
            came = f"{known.count} traces" if known.count else "did not come"
            yield f"known: {came}: {known.pattern} # {known.reason}"
        for path in self.agree:
            yield f"kept: {path}: no difference now"
        for path, name in self.not_run.items():
            yield f"kept: {path}: {name}, which was not run again"
        for why, count in self.left_out.most_common():
            yield f"left out: {counted(count, 'trace')}: {why}"
        if self.left_out.total() > self.traces:
            yield f"left out: more than half of all traces, {self.left_out.total()} of {self.left_out.total() + self.traces}"
        if self.lacks:
            yield f"left out of all traces: {', '.join(sorted(self.lacks))}, which is not there"
        if self.is_cut:
            yield "some traces have more differences than --most allows"
        if self.cases_left:
            yield f"{counted(self.cases_left, 'case')} of the suite not run: the run ended before"

    def end_event(self, status: int, stopped: Optional[str]) -> dict[str, Any]:
        known = {line.pattern: {"count": line.count, "reason": line.reason} for line in self.baseline.known}
        return {
            "event": "end",
            "traces": self.traces,
            "differ": self.differing,
            "known_alone": self.known_alone,
            "aside": dict(self.aside),
            "coverage": dict(self.coverage),
            **({"pairs": self.pairs._asdict()} if self.pairs.all else {}),
            "known": known,
            "left_out": dict(self.left_out),
            "lacks": sorted(self.lacks),
            "kept": self.not_run,
            "order": [name for name, _ in self.in_order()],
            "status": status,
            "stopped": stopped,
        }


def utf8_of(path: Path) -> str:
    """The text of a file, which has to be UTF-8."""
    try:
        return whole(str(path)).decode()
    except UnicodeDecodeError:
        raise Failure(f"{path}: it is not UTF-8") from None


class Journal:
    """Lines of JSON that are written as things come, each of them whole."""

    def __init__(self, stream: Any) -> None:
        self.stream = stream

    def write(self, event: dict[str, Any]) -> None:
        self.stream.write(json.dumps(event, ensure_ascii=False) + "\n")
        self.stream.flush()


# JUnit


def junit_of(findings: Findings, is_strict: bool, stopped: Optional[str]) -> str:
    """The report as JUnit's XML: a case for each kind, for each known difference, and for the run."""
    suite, group = junit.Suite("vma compare"), "vma.compare"
    for name, kind in findings.in_order():
        finding, difference = kind.shortest, kind.shortest.difference
        message = f"{difference.operation}: program {difference.here}, yours {difference.there} ({kind.count} traces)"
        sides = ["program:", *difference.here_lines, "yours:", *difference.there_lines]
        sides += [finding.answers.says] if finding.answers else []
        suite.add(group, name, "failure", message, "\n".join([finding.trace, *sides, finding.repeat]))
    for known in findings.baseline.known:
        name = f"known: {known.pattern}"
        if known.count:
            suite.add(group, name, "skipped", f"{known.reason} ({known.count} traces)")
        elif is_strict:
            suite.add(group, name, "failure", f"it did not come: {known.reason}")
        else:
            suite.add(group, name).set("status", "it did not come")
    for path, name in findings.not_run.items():
        suite.add(group, name, "failure", f"kept in {path}, and not run again")
    suite.add(group, f"{findings.traces} traces", "error" if stopped else "", f"stopped by {stopped}")
    return suite.text()
