"""Makes a page of each crate from the sources: its public items with their contracts, its definitions and its planted bugs.

The pages go into OUT, which is docs/reference if none is given. What has no comment is listed; in the crates of tests it
may have none.

Exit status: 0 if all has a comment, 1 if something has none, 2 on wrong use, or if OUT can't be written.
"""

import argparse
import sys
from pathlib import Path

from .pages import faults, pages

TOP = Path(__file__).resolve().parents[2]


def write(folder: Path, made: dict[str, str]) -> None:
    """Leaves exactly these pages in a folder."""
    folder.mkdir(parents=True, exist_ok=True)
    for path in folder.glob("*.md"):
        if path.name not in made:
            path.unlink()
    for name, text in made.items():
        (folder / name).write_text(text, encoding="utf-8")


def main() -> int:
    parser = argparse.ArgumentParser(
        prog="make-reference", description=__doc__, formatter_class=argparse.RawDescriptionHelpFormatter
    )
    parser.add_argument("out", metavar="OUT", nargs="?", type=Path, default=TOP / "docs/reference", help="a folder for the pages")
    out = parser.parse_args().out.resolve()
    try:
        write(out, pages(TOP, out))
    except OSError as error:
        parser.exit(2, f"make-reference: {error.filename}: {error.strerror}\n")
    found = faults(TOP)
    print("\n".join([*found, f"{out}/README.md"]))
    return 1 if found else 0


if __name__ == "__main__":
    sys.exit(main())
