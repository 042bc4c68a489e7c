"""In which order findings are shown: what a user has to know first stands first."""
from __future__ import annotations

import re
from collections.abc import Mapping
from typing import TYPE_CHECKING

from ..outputs import Difference
from ..traces import CALLS, MAP, read_trace

if TYPE_CHECKING:
    from .findings import Finding

RANKS = ("hang", "crash", "lost or wrong data", "protection", "list", "reply", "place")
ENDS = (0, 1)  # the places of a system that ends, or doesn't
HANGS = ("does not end", "hung", "writes on and on")
CRASH = re.compile("(ends|killed) by signal .*|(ends|ended) with status .*|ends")
NO_OUTPUT = ("writes nothing", "the output ends", "a line of no known form", "the output goes on", "no newline at the end")
WRONG_DATA = ("mapped", "not mapped", "offset", "device", "inode", "overlap")


def rank_of(difference: Difference) -> int:
    """The place among RANKS of what a difference shows."""
    return RANKS.index(name_of(difference))


def name_of(difference: Difference) -> str:
    operation, here, there = difference[:3]
    there = there.removeprefix("illegal: ")  # as in a run of threads
    if there in HANGS:
        return "hang"
    if CRASH.fullmatch(there) or there.startswith(NO_OUTPUT):
        return "crash"
    if there.startswith("list: "):
        fact = there.removeprefix("list: ").removeprefix("other ")
        return "lost or wrong data" if fact in WRONG_DATA else "protection" if fact == "permissions" else "list"
    if operation == "fault" and "served" in (here, there) or there == "served otherwise":
        return "protection" if "SEGV_ACCERR" in here + there else "lost or wrong data"
    if there.startswith("a list"):
        return "list"
    return "place" if there in ("another address", "a place outside") else "reply"


def above(findings: Mapping[str, Finding]) -> dict[str, str]:
    """Of each finding that vanishes where the operation of another one is left out, that other one. The findings come in their
    order, each on its smallest trace, from which no line can be left out."""
    found: dict[str, str] = {}
    for name, finding in findings.items():
        for other, theirs in findings.items():
            if other == name:
                break
            if other not in found and vanishes(finding, theirs):
                found[name] = other
                break
    return found


def vanishes(finding: Finding, other: Finding) -> bool:
    """Whether a finding's smallest trace has the operation of another one, or is that operation, with the same answer."""
    wanted = operation_of(other, other.difference.number)
    if wanted is None:
        return False
    lines = read_trace(finding.trace.encode()).lines
    if operation_of(finding, finding.difference.number) == wanted:
        pairs = zip(finding.difference[1:3], other.difference[1:3])
        return any(mine == theirs for mine, theirs in pairs)
    return any(operation_of(finding, line.number) == wanted for line in lines)


def operation_of(finding: Finding, number: int | None) -> tuple[str, int] | None:
    """What a line of a finding's trace calls, with the flags that make it another call; none where other lines need it."""
    line = next((line for line in read_trace(finding.trace.encode()).lines if line.number == number), None)
    if line is None or line.word not in CALLS:
        return None
    flags = line.arguments[3] & MAP["MAP_FIXED_NOREPLACE"] if line.word == "mmap" else 0
    return None if line.word == "mmap" and not flags else (line.word, flags)
