"""Which version of the project this is, which program answers, and whether that is one that was proved."""

import hashlib
from pathlib import Path

from . import VERSION
from .running import program

# The sums of the programs that a full check proved: .ci/run leaves them in a checkout, and a package of those programs has them.
SUMS = program.TOP / "proved.sha256"


def told() -> list[str]:
    """What `vma --version` prints."""
    lines = [f"diltzekun {VERSION}"]
    for named in (program.PROGRAM, program.LIVE):
        place, source = named.place()
        path = Path(program.existing(place, named.ways))
        lines.append(f"{named.on_path}: {path} ({source}): {standing(path, named)}")
    return lines


def standing(path: Path, named: program.Named) -> str:
    """What is known of the program that is there."""
    if path.resolve() == named.model:
        return f"not proved, since it is the model of the tools; {named.ways}"
    if is_proved(path):
        return f"proved: {SUMS} has its sum"
    if path.resolve() == named.default.resolve():
        return "built, but not known to be proved: `.ci/run` proves it, and notes its sum"
    return "not known to be proved"


def is_proved(path: Path) -> bool:
    """Whether these are the bytes of a program that a full check proved."""
    return SUMS.is_file() and sum_of(path) in SUMS.read_text(encoding="utf-8").split()


def sum_of(path: Path) -> str:
    return hashlib.sha256(path.read_bytes()).hexdigest()
