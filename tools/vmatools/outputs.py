"""Outputs of `serial` compared: where two part first, and in which way."""

import re
from collections.abc import Iterator
from itertools import pairwise
from typing import NamedTuple

from .traces import PAGE

ITEM = re.compile(r"L([0-9]{1,20}) t([0-9]{1,20}) v([0-9]{1,20}) = (.*)")
AREA = re.compile(
    r"([0-9a-f]{8,16})-([0-9a-f]{8,16}) ([r-][w-][x-][sp]) ([0-9a-f]{8,16}) ([0-9a-f]{2,8}:[0-9a-f]{2,8}) "
    r"([0-9]{1,20}) *(.*)"
)
RESULT = re.compile(
    r"0|0x[0-9a-f]+|-1 E[A-Z0-9]+|SIG[A-Z]+ [A-Z_]+|signal [0-9]+ code -?[0-9]+|"
    r"served( [0-9a-f]+-[0-9a-f]+ [rwxsp-]{4} page [0-9]+)?|child [0-9]+ areas [0-9]+|maps [0-9]+|"
    r"hung|killed by signal [0-9]+|ended with status [0-9]+|a place outside"
)
FACTS = ["permissions", "offset", "device", "inode", "name"]  # of a page in a list

# Of a difference: its operation, and what is answered here and there.
Kind = tuple[str, str, str]
# An area of a list: its first and last page, and the facts.
ListedArea = tuple[int, int, tuple[str, int, str, str, str]]


class Part(NamedTuple):
    """A result, a list or the head of a child, with its lines. `number` is a line of the trace, none for a last list."""

    number: int | None
    thread: int | None
    version: int | None
    result: str
    lines: list[str]


class Difference(NamedTuple):
    """How two outputs part: the operation, what is answered here and there, the line of the trace, and the lines of both."""

    operation: str
    here: str
    there: str
    number: int | None
    here_lines: list[str]
    there_lines: list[str]


def kind_of(difference: Difference) -> Kind:
    return difference[:3]


def parts_of(output: str) -> list[Part]:
    """The parts of an output. A line that is of no form stands for itself."""
    lines = output.split("\n")
    if lines[-1] == "":
        lines.pop()
    parts: list[Part] = []
    for line in lines:
        item = ITEM.fullmatch(line)
        if item:
            number, thread, version, result = item.groups()
            parts.append(Part(int(number), int(thread), int(version), result, [line]))
        elif AREA.fullmatch(line) and parts and parts[-1].result.startswith("maps"):
            parts[-1].lines.append(line)
        else:
            parts.append(Part(None, None, None, line, [line]))
    return parts


class Pair(NamedTuple):
    """Two parts of the outputs of both sides that stand at the same place and differ, and the child whose space they
    are of, if one."""

    space: int | None
    here: Part
    there: Part


def pairs_of(here: str, there: str) -> Iterator[Pair]:
    """All places at which two outputs differ, as far as both have a part there."""
    space: int | None = None
    for right, given in zip(parts_of(here), parts_of(there)):
        if right.number is None and right.result.startswith("child "):
            space = int(right.result.split()[1])
        if right != given:
            yield Pair(space, right, given)


def end_of(here: str, there: str, words: dict[int | None, str]) -> Difference | None:
    """How two outputs differ that are equal as far as both go."""
    heres, theres = parts_of(here), parts_of(there)
    if len(theres) < len(heres):
        right = heres[len(theres)]
        return Difference(words.get(right.number, "list"), "an answer", "the output ends", right.number, right.lines, [])
    if len(theres) > len(heres):
        return Difference("output", "the end", "the output goes on", None, [], theres[len(heres)].lines)
    if not there.endswith("\n"):
        last = theres[-1].lines[-1:] if theres else []
        return Difference("output", "a newline", "no newline at the end", None, [], last)
    return None


def first_difference(here: str, there: str, words: dict[int | None, str]) -> Difference | None:
    """The first difference of two outputs, as texts. `words` has the operation of each line of the trace."""
    if here == there:
        return None
    pair = next(pairs_of(here, there), None)
    return difference_of(pair.here, pair.there, words) if pair else end_of(here, there, words)


def is_list(part: Part) -> bool:
    return part.result.startswith("maps ")


def difference_of(right: Part, given: Part, words: dict[int | None, str]) -> Difference:
    operation = words.get(right.number, "list" if is_list(right) else "output")

    def told(here: str, there: str) -> Difference:
        return Difference(operation, here, there, right.number, right.lines, given.lines)

    if given.number is None and (right.number is not None or is_list(right) != is_list(given)):
        is_known = is_list(given) or given.result.startswith("child ")
        return told("an answer", "the output goes on with something else" if is_known else "a line of no known form")
    if (right.number, right.thread) != (given.number, given.thread):
        return told("an answer", "the answer to another line")
    if not RESULT.fullmatch(given.result) and right.number is not None:
        return told("an answer", "a line of no known form")
    if right.lines[1:] == given.lines[1:] and right.result == given.result:
        return told("a version", "another version")
    if is_list(right) and is_list(given):
        return told(*list_difference(right.lines[1:], given.lines))
    return told(*answers_of(right.result, given.result))


def answers_of(here: str, there: str) -> tuple[str, str]:
    """Two results that are not equal, in words that do not depend on addresses."""
    short = [answer_of(result) for result in (here, there)]
    if short[0] == short[1] == "served":
        return "served", "served otherwise"
    return short[0], short[1] if short[0] != short[1] else re.sub("^an? ", "another ", short[1])


def answer_of(result: str) -> str:
    for start, short in (("0x", "an address"), ("served", "served"), ("child", "a child"), ("maps", "a list")):
        if result.startswith(start):
            return short
    return result


# Lists


def areas_of(lines: list[str]) -> list[ListedArea] | None:
    """The areas that lines of a list tell: first and last page and the facts, or None where they are no list."""
    areas: list[ListedArea] = []
    for line in lines:
        fields = AREA.fullmatch(line)
        if fields is None:
            return None
        lo, hi, permissions, offset, device, inode, name = fields.groups()
        areas.append(
            (int(lo, 16) // PAGE, int(hi, 16) // PAGE, (permissions, int(offset, 16) // PAGE, device, inode, name))
        )
    return areas


def facts_at(area: ListedArea, page: int) -> tuple[str, int, str, str, str]:
    """What an area says of one of its pages. Its offset runs on where it maps an object."""
    permissions, offset, device, inode, name = area[2]
    is_plain = inode == "0" and name in ("", "[heap]")
    return permissions, offset if is_plain else offset + page - area[0], device, inode, name


def list_difference(here: list[str], there: list[str]) -> tuple[str, str]:
    """How two lists part: by what a page is mapped to, or by the borders of areas alone."""
    count, *there = there
    ours, theirs = areas_of(here), areas_of(there)
    if ours is None or theirs is None or count.split(" ")[-1] != str(len(there)):
        return "a list", "a list of no known form"
    if any(lo >= hi for lo, hi, _ in theirs) or any(first[0] > second[0] for first, second in pairwise(theirs)):
        return "a list", "list: out of order"
    if any(first[1] > second[0] for first, second in pairwise(theirs)):
        return "a list", "list: overlap"
    pages = sorted({page for side in (ours, theirs) for lo, hi, _ in side for page in (lo, hi)})
    for page in pages:
        found = [
            next((facts_at(area, page) for area in side if area[0] <= page < area[1]), None) for side in (ours, theirs)
        ]
        if found[0] != found[1]:
            return fact_difference(*found)
    if len(ours) != len(theirs):
        joined = len(ours) < len(theirs)
        return ("list: joined", "list: apart") if joined else ("list: apart", "list: joined")
    return (
        ("list: a border", "list: another border") if ours != theirs else ("a list", "list: the same in other letters")
    )


Facts = tuple[str, int, str, str, str]


def fact_difference(here: Facts | None, there: Facts | None) -> tuple[str, str]:
    if here is None or there is None:
        return ("list: not mapped", "list: mapped") if here is None else ("list: mapped", "list: not mapped")
    fact = next(name for name, *facts in zip(FACTS, here, there) if facts[0] != facts[1])
    return f"list: {fact}", f"list: other {fact}"
