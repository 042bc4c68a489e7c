"""Reads tests/shown.txt, which says what shows each promise: a planted bug, a worked row, a case, a test or a program.

A line has three parts: `PROMISE | KIND | WHERE`. One that is empty or begins with `#` is passed over. A promise that names a
call in backquotes, as `history::check`, is about one that can find no memory: what the line names makes it with enough.
"""

import re
from collections.abc import Iterable, Iterator
from pathlib import Path
from typing import NamedTuple

NO_MEMORY = re.compile(r"^\s*NoMemory\b", re.MULTILINE)
ENUM = re.compile(r"^pub enum (\w+).*?^\}", re.MULTILINE | re.DOTALL)
COMMENT = re.compile(r"//[^\n]*")
IMPL = re.compile(r"^impl\b[^{;]*", re.MULTILINE)
PUBLIC = re.compile(r"\bpub fn (\w+)[^;{]*?->([^;{]*?)(?:\b(?:requires|ensures|where)\b|\{)", re.DOTALL)
IN_ANGLES = re.compile(r"<[^<>]*>")
TEST = re.compile(r"#\[test\]\s*(?:#\[[^\]]*\]\s*)*fn (\w+)")
CALL = re.compile(r"`(\w+)::(\w+(?:::\w+)?)`")
FORM = "PROMISE | KIND | WHERE"


class Wrong(Exception):
    """What the table says and the repository does not have, or the other way round."""


class Line(NamedTuple):
    number: int
    promise: str
    kind: str
    where: str


def lines_of(text: str) -> Iterator[Line]:
    for number, line in enumerate(text.splitlines(), 1):
        if line and not line.startswith("#"):
            parts = [part.strip() for part in line.split(" | ")]
            if len(parts) != 3 or not all(parts):
                raise Wrong(f"line {number} has not the form {FORM}")
            yield Line(number, *parts)


# What there is


def sources_of(crate: Path) -> Iterator[str]:
    return (path.read_text(encoding="utf-8") for path in sorted(crate.glob("src/**/*.rt")))


def edits(top: Path) -> set[str]:
    return {f"{path.parts[-3]}/{path.stem}" for path in top.glob("crates/*/must-fail/*.edit")}


def rows(top: Path) -> set[str]:
    lines = (top / "crates/rows/stdin").read_text(encoding="utf-8").split("\n")
    return unique(line.removeprefix("row ") for line in lines if line.startswith("row "))


def unique(names: Iterable[str]) -> set[str]:
    found: set[str] = set()
    for name in names:
        if name in found:
            raise Wrong(f"two rows of crates/rows/stdin have the name {name!r}")
        found.add(name)
    return found


def cases(top: Path) -> set[str]:
    return {str(path.relative_to(top / "suite").with_suffix("")) for path in top.glob("suite/**/*.trace")}


def tests(top: Path) -> set[str]:
    crates = top.glob("crates/*")
    return {f"{crate.name}::{name}" for crate in crates for source in sources_of(crate) for name in TEST.findall(source)}


def programs(top: Path) -> set[str]:
    return {path.parent.name for path in top.glob("crates/*/stdout")}


KINDS = {"edit": edits, "row": rows, "case": cases, "test": tests, "program": programs}
NONE = "none"  # nothing shows it yet


# Calls that can find no memory


def calls(top: Path) -> set[str]:
    """The public calls of the libraries in whose result is an error that says that there is no memory."""
    crates = {path.parents[1]: path.read_text(encoding="utf-8") for path in top.glob("crates/*/src/lib.rt")}
    errors = {"NoMemory", "AllocError"}
    for crate in crates:
        for source in sources_of(crate):
            errors |= {found[1] for found in ENUM.finditer(source) if NO_MEMORY.search(found[0])}
    fails = re.compile(rf"\b(?:{'|'.join(sorted(errors))})\b")
    return {
        f"{crate.name}::{name}"
        for crate, root in crates.items()
        for source in sources_of(crate)
        for name, result in public_calls(COMMENT.sub("", source))
        if fails.search(result) and re.search(rf"\b{name.split('::')[0]}\b", root)
    }


def public_calls(source: str) -> Iterator[tuple[str, str]]:
    """The names of a source's public functions, behind their type where they have one, with their results."""
    for found in PUBLIC.finditer(source):
        block = source[: found.start()].rpartition("\n}")[2]
        heads = IMPL.findall(block)
        yield (f"{type_of(heads[-1])}::{found[1]}" if heads else found[1]), found[2]


def type_of(head: str) -> str:
    """The type of an `impl`, by the words before its brace."""
    while IN_ANGLES.search(head):
        head = IN_ANGLES.sub("", head)
    return head.split(" where ")[0].split()[-1]


def check(top: Path) -> list[Line]:
    """Raises what is wrong first, and returns the lines that nothing shows yet."""
    lines = list(lines_of((top / "tests/shown.txt").read_text(encoding="utf-8")))
    there = {kind: names(top) for kind, names in KINDS.items()}
    open_lines = [line for line in lines if line.kind == NONE]
    for line in (line for line in lines if line.kind != NONE):
        if line.kind not in there:
            raise Wrong(f"line {line.number}: {line.kind!r} is none of {', '.join([*KINDS, NONE])}")
        if line.where not in there[line.kind]:
            raise Wrong(f"line {line.number}: there is no {line.kind} {line.where}")
    named = {"::".join(call) for line in lines for call in CALL.findall(line.promise)}
    missing = sorted(calls(top) - named)
    if missing:
        raise Wrong(f"no line is about {', '.join(missing)}: name what makes each once with enough memory")
    gone = sorted(named - all_calls(top, named))
    if gone:
        raise Wrong(f"there is no {', '.join(gone)}")
    return open_lines


def all_calls(top: Path, named: set[str]) -> set[str]:
    """Those of the named calls that are in the sources of their crate."""
    texts = {name: "\n".join(sources_of(top / "crates" / name)) for name in {call.split("::")[0] for call in named}}
    return {call for call in named if re.search(rf"\bfn {call.rpartition('::')[2]}\b", texts[call.split("::")[0]])}
