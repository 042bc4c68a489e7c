"""The traces of examples/systems: what a version of a system was seen to answer otherwise than Linux and the program."""

import re
from collections.abc import Iterator, Sequence
from dataclasses import dataclass
from pathlib import Path

from .. import outputs
from ..running import program
from ..traces import read_trace
from .adapter import Adapter
from .known import system_of

FOLDER = program.TOP / "examples/systems"
SEEN = re.compile(r"# seen: (\S+) (\S+) at line (\d+): (.+)")


@dataclass(frozen=True)
class Seen:
    """One system that answered otherwise: its name and version, the line of the trace, and in short what it answered."""

    system: str
    version: str
    line: int
    answer: str

    def text(self) -> str:
        return f"# seen: {self.system} {self.version} at line {self.line}: {self.answer}"


@dataclass(frozen=True)
class Example:
    """A trace, what is right, and who answered otherwise."""

    name: str
    trace: str
    output: str
    seen: Sequence[Seen]

    def now(self, adapter: Adapter) -> Seen | None:
        """How a system answers otherwise now, without its name and version; or None where it answers as Linux does."""
        words: dict[int | None, str] = {line.number: line.word for line in read_trace(self.trace.encode()).lines}
        found = outputs.first_difference(self.output, adapter.answer(self.trace.encode()), words)
        return Seen("", "", found.number or 0, found.there) if found else None


def examples(folder: Path = FOLDER) -> Iterator[Example]:
    """All examples, by their names."""
    for path in sorted(folder.glob("*.trace")):
        trace = path.read_text(encoding="utf-8")
        found = (SEEN.fullmatch(line) for line in trace.splitlines())
        seen = [Seen(match[1], match[2], int(match[3]), match[4]) for match in found if match]
        yield Example(path.stem, trace, path.with_suffix(".out").read_text(encoding="utf-8"), seen)


def adapter_of(name: str) -> Adapter:
    """What runs an example on a system: a process for each, since some of them end it."""
    return Adapter(system_of(name), is_served=False)
