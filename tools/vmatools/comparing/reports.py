"""What `vma compare` prints: each kind of difference when it is first seen, its smallest trace when that is found, and at the
end what counts most."""

from collections.abc import Iterator
from typing import TextIO

from .. import console, outputs
from ..oracles import PROFILE, PROFILE_NAME, Oracle
from ..profile import coverage
from . import ranking
from .conformance import NOT_THERE
from .findings import Finding, Findings, Kind

PROGRAM = "program"  # the profile's side
MOST_LINES = 12  # of an answer


# Of WRONG_MODELS by rule, how many a run of so many seconds with a fast adapter missed: `dev/wrong-models --only rule --for ..`.
WRONG_MODELS = 361
MISSED = [(30, "30 seconds", "0 or 1"), (120, "two minutes", "0"), (600, "ten minutes", "0")]


def missed_by(seconds: float) -> str:
    """What a run as long as this one misses, as far as was measured."""
    _, length, missed = next((row for row in MISSED[::-1] if row[0] <= seconds + 1), MISSED[0])
    shorter = "; this one was shorter" if seconds + 1 < MISSED[0][0] else ""
    return f"a run of {length} with a fast adapter missed {missed} of {WRONG_MODELS} wrong models{shorter}"


class Report:
    """The text of a report, as it comes."""

    def __init__(self, stream: TextIO, oracle: Oracle = PROFILE) -> None:
        self.stream, self.right = stream, oracle.name if oracle.kernel else PROGRAM
        self.places: dict[str, int] = {}  # of each kind its number

    def line(self, text: str) -> None:
        print(text, file=self.stream, flush=True)

    def title(self, name: str, kind: Kind) -> str:
        operation, here, there = outputs.kind_of(kind.shortest.difference)
        place = self.places.setdefault(name, len(self.places) + 1)
        return console.painted(f"{place}. {operation}: {self.right} {here}, yours {there}", "bold")

    def seen(self, name: str, kind: Kind) -> None:
        """A kind that is new."""
        self.line(f"{self.title(name, kind)} ({kind.shortest.source})")

    def lacks(self, operation: str) -> None:
        self.line(f"{operation}: not there, left out of all traces ({NOT_THERE}); `--with {operation}` keeps it")

    def small(self, name: str, kind: Kind) -> None:
        """The smallest trace of a kind, or the one that there is."""
        finding = kind.shortest
        title = "the smallest trace" if kind.is_shrunk else "a trace, which was not made small"
        title = "a trace, which did not differ again" if kind.is_once else title
        self.line(f"{self.title(name, kind)} (--ignore '{name}')\n   {title}:")
        self.line("\n".join(f"     {line}" for line in finding.trace.splitlines()))
        for side, answer, lines, colour in (
            (self.right, finding.difference.here, finding.difference.here_lines, "green"),
            ("yours", finding.difference.there, finding.difference.there_lines, "red"),
        ):
            self.line(f"   {console.painted(side, colour)}: {answer}")
            for line in lines[:MOST_LINES]:
                self.line(f"     {line[:300]}")
        self.third(finding)
        self.line(f"   found in {finding.source}; again:\n     {finding.repeat}\n")

    def third(self, finding: Finding) -> None:
        """The third answer, beside the right one and yours, and who is right."""
        if finding.answers is None:
            return
        told = {self.right: finding.difference.here_lines, "yours": finding.difference.there_lines}
        for side, lines in finding.answers.sides.items():
            if side in told or side == PROFILE_NAME and self.right == PROGRAM:
                continue
            like = next((f"as {name}" for name, others in told.items() if list(lines) == list(others)), "")
            self.line(f"   {side}: {like or 'otherwise'}")
            for line in lines[:MOST_LINES] if not like else []:
                self.line(f"     {line[:300]}")
        self.line(f"   {finding.answers.says}")

    def ranked(self, findings: Findings) -> Iterator[str]:
        """All kinds, what counts most first, and below a kind those that vanish without its operation."""
        kinds = dict(findings.in_order())
        above = ranking.above({name: kind.shortest for name, kind in kinds.items() if kind.is_shrunk})
        for name in [name for name in kinds if name not in above]:
            yield f"  {ranking.name_of(kinds[name].shortest.difference):20}{self.counted(name, kinds[name])}"
            if not kinds[name].is_shown:
                yield f"  {'':20}  {kinds[name].shortest.repeat}"
            for other in [other for other in kinds if above.get(other) == name]:
                yield f"  {'':20}  {self.counted(other, kinds[other])}, which vanishes with it"

    def counted(self, name: str, kind: Kind) -> str:
        return f"{self.title(name, kind)} ({console.counted(kind.count, 'trace')})"

    def end(self, findings: Findings, has_coverage: bool, stopped: str | None) -> None:
        """All that there is to say at the end."""
        for name, kind in findings.first_to_show():
            self.small(name, kind)
            kind.is_shown = True
        if findings.has_new_kinds:
            self.line("\n".join(["what counts most first:", *self.ranked(findings), ""]))
        for name, number in sorted(findings.aside.items()):
            self.line(f"set aside: {number} times {name}")
        for line in findings.told_lines():
            self.line(line)
        if has_coverage:
            self.line("\n".join(coverage.report(findings.coverage)))
        if findings.pairs.all:
            self.line(str(findings.pairs))
        if findings.pairs.before and not findings.differing:
            self.line(missed_by(findings.seconds))
        if stopped:
            self.line(f"stopped by {stopped}")
        known_alone = f", {findings.known_alone} of them in known ways alone" if findings.known_alone else ""
        differ = "1 differs" if findings.differing == 1 else f"{findings.differing} differ"
        self.line(f"{console.counted(findings.traces, 'trace').replace(',', '')}, {differ}{known_alone}")
