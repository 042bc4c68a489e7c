"""Wrong rules, one each: planted in the definitions, each has to make a recorded trace's statement false. They stand in
planted.txt: the file and the version whose traces are tried, the rule that goes wrong, and the text before and after. A line
with `=` says why one changes nothing: then no trace may notice it.
"""

import re
from pathlib import Path
from typing import NamedTuple

FILE = Path(__file__).with_name("planted.txt")
HEAD = re.compile(r"^== (\w+) ([\d.]+): (.*)\n", re.M)


class Planted(NamedTuple):
    """A rule in words, the file of definitions, the text that says it, what stands in its place, and why nothing notices it."""

    rule: str
    file: str
    old: str
    new: str
    version: str
    reason: str = ""


def part(lines: list[str], mark: str) -> str:
    return "\n".join(line[2:] for line in lines if line.startswith(mark))


def read(text: str) -> list[Planted]:
    """All wrong rules."""
    pieces = HEAD.split(text)[1:]
    found = []
    for file, version, rule, body in zip(*(pieces[place::4] for place in range(4))):
        lines = body.splitlines()
        found.append(Planted(rule, file, part(lines, "- "), part(lines, "+ "), version, part(lines, "= ")))
    return found


PLANTED = read(FILE.read_text(encoding="utf-8"))
