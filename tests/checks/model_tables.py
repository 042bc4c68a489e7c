"""The tables of documents beside the sources: the rows of each call, the numbers of the profile, and the flags."""

import re
import sys
from collections.abc import Iterator
from pathlib import Path

TOP = Path(__file__).resolve().parents[2]
sys.path.insert(0, str(TOP))

from dev.reference.call_tables import PAGE, put  # noqa: E402

FLAGS = Path("docs/TRACE.md")


def number_of(text: str, known: dict[str, str]) -> int:
    """A number of a page, or a constant's, as `2^51 - 1`, `65,530`, `0x7fff` or `(1 << 51) - 1`."""
    plain = re.sub(r"\b[A-Z][A-Z_]+\b", lambda name: f"({known[name[0]]})", text)
    plain = re.sub(r"[,_]", "", plain).replace("^", "**").replace("<<", "* 2 **").replace("/", "//")
    if not re.fullmatch(r"[0-9a-fA-Fx()*+\-/ ]+", plain):
        raise ValueError(f"{text} is no number")
    return int(eval(plain))  # nothing but digits and operators


def constants(top: Path) -> dict[str, str]:
    """The constants of the types and the rules, each as it is written."""
    paths = [path for crate in ("mm_types", "area_rules") for path in sorted((top / "crates" / crate / "src").glob("*.rt"))]
    texts = [path.read_text(encoding="utf-8") for path in paths]
    return dict(re.findall(r"pub const (\w+): \w+ = ([^;]+);", "\n".join(texts)))


def faults(top: Path) -> Iterator[str]:
    """What the page shows otherwise than the sources have it, a line each."""
    page = (top / PAGE).read_text(encoding="utf-8")
    try:
        if page != put(page, top):
            yield f"{PAGE}: the tables of the calls are not what the sources say now: run dev/model-tables"
    except (KeyError, ValueError) as error:
        yield f"{PAGE}: dev/model-tables makes no tables: {error}"
    known = constants(top)
    shown_numbers = re.findall(r"^\| [^|]+ \| `([A-Z_]+)` \| ([^|]+) \|$", page, re.M)
    flags = re.findall(r"`((?:PROT|MAP|MREMAP)_[A-Z_]+)` (0x[0-9a-f]+)", (top / FLAGS).read_text(encoding="utf-8"))
    for name, number in shown_numbers + flags:
        if name not in known:
            yield f"{PAGE} or {FLAGS}: no source has {name}"
        elif number_of(number, known) != number_of(known[name], known):
            yield f"{PAGE} or {FLAGS}: {name} is {known[name]} and not {number}"
