"""Makes the statements of crates/linux_rules from suite/vectors, those of crates/linux_beside from examples/kernel-rows.txt, and
docs/linux; or checks that they are what would be made, and that the versions are those of the table. A row that is new is no
theorem until the statements are made again."""

import argparse
import sys
from pathlib import Path

from . import choosing, pages, rows, statements, versions

TOP = Path(__file__).resolve().parents[2]
KEPT = (("crates/linux_rules/specs", "Linux_*.antt"), ("crates/linux_beside/specs", "Rows*.antt"), ("docs/linux", "*.md"))


def made(top: Path, only: set[str] | None = None) -> dict[Path, str]:
    """All that is made, by its paths below the repository; of rows all, or some."""
    return statements.files(top, choosing.chosen()) | rows.files(top, only) | pages.files(top)


def differences(top: Path, wanted: dict[Path, str]) -> list[str]:
    """What is missing, too much or otherwise, and what the versions have otherwise than the table."""
    found = versions.compare(top)
    kept = {path.relative_to(top) for folder, pattern in KEPT for path in (top / folder).glob(pattern)}
    found += [f"{path}: nothing makes this" for path in sorted(kept - wanted.keys())]
    for path, text in wanted.items():
        file = top / path
        if not file.is_file() or file.read_text(encoding="utf-8") != text:
            found.append(f"{path}: isn't what dev/make-linux-rules makes")
    return found


def main() -> int:
    parser = argparse.ArgumentParser(prog="make-linux-rules", description=__doc__)
    parser.add_argument("--check", action="store_true", help="change nothing; status 1 where something is otherwise")
    parser.add_argument("--choose", nargs="*", metavar="VERSION", help="first choose the recorded traces anew: some minutes")
    parser.add_argument("--vectors", type=Path, default=TOP / "suite/vectors", metavar="FOLDER", help="recorded vectors")
    options = parser.parse_args()
    sys.setrecursionlimit(100_000)
    if options.choose is not None:
        choosing.choose(TOP, options.vectors, options.choose)
    wanted = made(TOP, rows.standing(TOP) if options.check else None)
    if options.check:
        found = differences(TOP, wanted)
        print("\n".join(found) if found else "nothing to mend")
        return 1 if found else 0
    for path, text in wanted.items():
        (TOP / path).parent.mkdir(parents=True, exist_ok=True)
        (TOP / path).write_text(text, encoding="utf-8")
    for fault in versions.compare(TOP):
        print(fault, file=sys.stderr)
    return 0


if __name__ == "__main__":
    sys.exit(main())
