"""Who is right: of a difference the answers of the profile and of Linux by version, beside yours, and a sentence about them."""

from collections.abc import Callable, Iterator, Sequence
from dataclasses import fields, replace
from typing import NamedTuple, Optional

from ..linux import rows
from ..linux.areas import NotModelled
from ..linux.kernel import Kernel, kernel_of
from ..linux.versions import Rules as LinuxRules, table, text_of
from ..oracles import PROFILE, Oracle, left
from ..outputs import Difference, is_list, parts_of
from ..running.program import Ran
from ..traces import Trace
from .comparison import PROGRAM_SECONDS, Rules, Sides, list_lines, with_reads

Lines = Sequence[str]
Shown = Callable[[str], str]


class Answers(NamedTuple):
    """What each side answers, as lines by its name, and one sentence."""

    sides: dict[str, Lines]
    says: str


class Models(Sides):
    """The profile here, and a kernel there."""

    def __init__(self, kernel: Kernel) -> None:
        super().__init__("", [], PROGRAM_SECONDS, Rules())
        self.linux = Oracle(kernel)

    def here(self, trace: Trace) -> str:
        return PROFILE.output(trace)

    def there(self, trace: Trace, seconds: Optional[float] = None) -> Ran:
        return Ran(self.linux.output(trace), None, "")


def row_of(trace: Trace, kernel: Kernel) -> Optional[str]:
    """The row of docs/KERNEL.md of the first difference of profile and kernel in a trace.

    There is none where they agree in it, or where the model of Linux has no answer to one of its lines.
    """
    try:
        found = Models(kernel).difference(trace)
    except NotModelled:
        return None
    return found and (rows.name_of(trace, kernel, found) or "of no name")


def parts(trace: Trace, kernel: Kernel) -> Iterator[tuple[Optional[int], str]]:
    """Each line that a kernel answers otherwise than the profile, or that isn't modelled: its number, and a sentence.

    The line is taken out, and the rest runs again. So what follows from an earlier difference isn't one."""
    models = Models(kernel)
    while True:
        gap = models.linux.gap(trace)
        found = None if gap else models.difference(trace)
        number = gap.line if gap else found.number if found else None
        if gap:
            yield number, f"not modelled: {gap.why}"
        elif found:
            yield number, difference_of(trace, kernel, found)
        if number is None:
            return
        trace = left(trace, number)


def difference_of(trace: Trace, kernel: Kernel, found: Difference) -> str:
    """A difference of profile and kernel in words, with its row."""
    row = rows.name_of(trace, kernel, found)
    named = f" ({row}: {rows.SAYS[row]})" if row in rows.SAYS else f" ({row})" if row else ""
    return f"{found.operation}: profile {found.here}, {kernel.name} {found.there}{named}"


class Place(NamedTuple):
    """Where a difference shows: in which trace, which part of an output, and whether its lines are those of a list."""

    trace: Trace
    number: Optional[int]
    last: int  # of the parts without a number, the last lists
    is_list: bool

    def lines(self, output: str) -> Lines:
        parts = [part for part in parts_of(output) if part.number == self.number and (self.number or is_list(part))]
        found = parts[self.last] if self.last < len(parts) else None
        if found is None:
            return []
        return list_lines(found.lines) if self.is_list else found.lines


def place_of(trace: Trace, difference: Difference, output: str) -> Optional[Place]:
    """Where a difference shows, by the output of the right side."""
    if difference.number is None:
        lists = [part for part in parts_of(output) if part.number is None and is_list(part)]
        last = next((place for place, part in enumerate(lists) if part.lines == difference.here_lines), None)
        return None if last is None else Place(trace, None, last, False)
    if not difference.here.startswith("list") or difference.operation == "maps":
        return Place(trace, difference.number, 0, False)
    at = next(place for place, line in enumerate(trace.lines, 1) if line.number == difference.number)
    asked, behind = with_reads(trace, [at])
    return Place(asked, min(number for number in behind if number is not None), 0, True)


def answers_of(trace: Trace, difference: Difference, right: Oracle, shown: Shown = str) -> Optional[Answers]:
    """The three answers of a difference; nothing where it is none of answers, as where a system crashes."""
    place = place_of(trace, difference, shown(right.output(trace)))
    if place is None or difference.here in ("an output", "an answer", "the end") or not difference.there_lines:
        return None
    shows = of_space(place, difference, right, shown)

    def lines(oracle: Oracle) -> Lines:
        try:
            return shows.lines(shown(oracle.output(shows.trace)))
        except NotModelled as gap:
            return [f"not modelled: {gap.why}"]

    kernels = versions_of(right)
    by_version = {kernel: lines(Oracle(kernel)) for kernel in kernels}
    newest = right.kernel or kernels[-1]
    sides = {newest.name: lines(Oracle(newest)), "profile": lines(PROFILE), "yours": difference.there_lines}
    others = {word: replace(newest, settings=settings) for word, settings in newest.settings.others()}
    is_known = difference.there_lines in by_version.values()
    word = next((word for word in others if not is_known and lines(Oracle(others[word])) == difference.there_lines), "")
    return Answers(sides, sentence(trace, right, sides, by_version, word))


def of_space(place: Place, difference: Difference, right: Oracle, shown: Shown) -> Place:
    """A list is read of each space: the place of that which differs."""
    if not place.is_list:
        return place
    parts = parts_of(shown(right.output(place.trace)))
    same = (part.number for part in parts if is_list(part) and list_lines(part.lines) == difference.here_lines)
    return place._replace(number=next((number for number in same if number and number >= (place.number or 0)), place.number))


def versions_of(right: Oracle) -> list[Kernel]:
    """A kernel of each version, on the machine of the right side."""
    if right.kernel is None:
        return [kernel_of(text_of(version)) for version in table()]
    return [replace(right.kernel, version=version, rules=rules) for version, rules in table().items()]


def sentence(trace: Trace, right: Oracle, sides: dict[str, Lines], by_version: dict[Kernel, Lines], setting: str = "") -> str:
    """Who is right. The setting is one with which Linux answers as yours, where no version does without it."""
    yours, profile = sides["yours"], sides["profile"]
    as_yours = [kernel for kernel, lines in by_version.items() if lines == yours]
    as_profile = [kernel for kernel, lines in by_version.items() if lines == profile]
    row = row_of(trace, right.kernel or list(by_version)[-1])
    named = f" (row {row})" if row else ""
    if setting:
        linux = right.name if right.kernel else list(sides)[0]
        return f"{linux} doesn't answer as yours; with {setting} it does."
    if right.kernel is None:
        if len(as_yours) == len(by_version):
            return f"Every Linux answers as yours; the profile differs from it{named}."
        if as_yours:
            others = f", and {series(as_profile)} as the profile" if as_profile else ""
            return f"As yours: {series(as_yours)}{others}; the profile differs from these{named}."
        if len(as_profile) == len(by_version):
            return "Every Linux answers as the profile, and none as yours."
        return f"No Linux answers as yours, nor does the profile; these two differ{named}."
    if as_yours:
        rule = rule_between(trace, right.kernel, as_yours[-1])
        does = "does" if len(as_yours) == 1 else "do"
        return f"{right.name} doesn't answer as yours; {series(as_yours)} {does}{f' ({rule})' if rule else ''}."
    if yours == profile:
        return f"Yours is the profile's answer, and no Linux gives it{named}."
    also = "the profile answers as Linux" if profile == sides[right.name] else f"the profile differs from it too{named}"
    return f"No Linux answers as yours; {also}."


def rule_between(trace: Trace, right: Kernel, other: Kernel) -> Optional[str]:
    """The one rule by which two versions part in a trace that both answer, if it is one."""
    differing = [one.name for one in fields(LinuxRules) if getattr(other.rules, one.name) != getattr(right.rules, one.name)]
    try:
        wanted = Oracle(replace(right, rules=other.rules)).output(trace)
        for name in differing:
            rules = replace(right.rules, **{name: getattr(other.rules, name)})
            if Oracle(replace(right, rules=rules)).output(trace) == wanted:
                return name
    except NotModelled:
        return None
    return None


def series(kernels: Sequence[Kernel]) -> str:
    """Versions in words: the numbers of a series, or of a version where its series has several."""
    often = [version[:2] for version in table()]
    names = [text_of(one.version[:2] if often.count(one.version[:2]) == 1 else one.version) for one in kernels]
    if not names:
        return ""
    return "Linux " + (names[0] if len(names) == 1 else f"{', '.join(names[:-1])} and {names[-1]}")
