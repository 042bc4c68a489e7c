"""Plants wrong rules in the definitions of Linux, one at a time, and prints how many statements notice, and the shortest: the
recorded traces of the rule's version in linux_rules, and the rows of linux_beside. They do where the definitions then compute
another answer. For a rule that changes nothing it prints why.

The definitions are evaluated in Python, since the prover would take hours.
"""

import argparse
import sys

from . import rows
from .choosing import chosen
from .evaluating import Definitions
from .planted import PLANTED, Planted
from .planting import TOP, changed, is_noticed, unchanged
from .recordings import Recording


def row_recordings(version: str) -> list[Recording]:
    """The rows as a version answers them."""
    found = rows.read(TOP / "examples" / "kernel-rows.txt")
    return [row.linux[version] for row in found if version in row.linux]


def said(planted: Planted, traces: list[Recording], of_rows: list[Recording]) -> str:
    """The line of a rule: how many notice it, and the shortest of them, or why none does."""
    shortest = min([*traces, *of_rows], key=lambda one: len(one.trace.lines), default=None)
    by = shortest.name if shortest else f"changes nothing: {planted.reason}" if planted.reason else "nothing notices it"
    return f"{len(traces):3} traces {len(of_rows):2} rows  {planted.version:8} {planted.file:9} {planted.rule}: {by}"


def main() -> int:
    parser = argparse.ArgumentParser(prog="plant-linux-rules", description=__doc__)
    parser.add_argument("words", nargs="*", help="only rules with one of these words")
    options = parser.parse_args()
    sys.setrecursionlimit(100_000)
    recorded, right = chosen(), unchanged(TOP)
    of_rows = {version: row_recordings(version) for version in recorded}
    every = [one for some in [*recorded.values(), *of_rows.values()] for one in some]
    wrong = [f"{one.version} {one.name}" for one in every if is_noticed(right, one)]
    if wrong:
        print(f"these don't hold as the definitions are: {', '.join(wrong)}", file=sys.stderr)
        return 1
    left = 0
    for planted in PLANTED:
        if not options.words or any(word in planted.rule for word in options.words):
            definitions = Definitions(TOP, changed(TOP, planted))
            traces = [one for one in recorded.get(planted.version, []) if is_noticed(definitions, one)]
            rows_too = [one for one in of_rows.get(planted.version, []) if is_noticed(definitions, one)]
            left += bool(traces or rows_too) == bool(planted.reason)
            print(said(planted, traces, rows_too), flush=True)
    print(f"{left} not as they should be")
    return 1 if left else 0


if __name__ == "__main__":
    sys.exit(main())
