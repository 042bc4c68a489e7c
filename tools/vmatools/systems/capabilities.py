"""What an adapter of many traces says that its system has, in a line before its first answer: `has WORD..`.

A word is an operation, a setting, `wide` for addresses of 57 bits, or `-FLAG` for a flag that it has not. Traces are then
made of these alone. An adapter need not say so.
"""

from collections.abc import Collection
from dataclasses import dataclass

from ..traces import FORMS, MAP, MREMAP, SETTINGS, Line, Trace

FRONT = b"has "
WIDE = "wide"
PROBE = b"vmatrace 1\n"
KNOWN = (*FORMS, *SETTINGS, WIDE)
FLAGS: dict[str, dict[str, int]] = {"mmap": MAP, "mremap": MREMAP}  # the fourth argument of a call


@dataclass(frozen=True)
class Capabilities:
    """What a system has: a way to fit traces, as those of vmatools.comparing.windows."""

    words: frozenset[str]
    lacks: Collection[str] = ()  # nothing beside what it says

    @property
    def missing(self) -> list[str]:
        return [word for word in KNOWN if word not in self.words] + sorted(word[1:] for word in self.words if word[0] == "-")

    def lacked(self, trace: Trace) -> str | None:
        """The first thing in a trace that the system has not."""
        heads = [WIDE] * (trace.version == 2) + [*trace.settings] + ["file"] * bool(trace.files)
        missing = next((word for word in heads if word not in self.words), None)
        return missing or next(filter(None, map(self.lacked_by, trace.lines)), None)

    def lacked_by(self, line: Line) -> str | None:
        """What a line has that the system has not."""
        if line.word not in self.words:
            return line.word
        names = FLAGS.get(line.word, {})
        flag = next((name for name, bit in names.items() if line.arguments[3] & bit and f"-{name}" in self.words), None)
        is_of_file = line.word == "mmap" and not line.arguments[3] & MAP["MAP_ANONYMOUS"]
        return flag or ("file" if is_of_file and "file" not in self.words else None)

    def fitted(self, trace: Trace) -> Trace:
        """The trace without what the system has not; a child goes with its fork."""
        lost = {line.arguments[0] for line in trace.lines if line.word == "fork" and self.lacked_by(line)}
        settings = {name: value for name, value in trace.settings.items() if name in self.words}
        lines = [line for line in trace.lines if line.thread not in lost and not self.lacked_by(line)]
        version = trace.version if WIDE in self.words else 1
        return Trace(version, settings, trace.files if "file" in self.words else [], lines).numbered()

    def keeps(self, trace: Trace) -> bool:
        return self.lacked(trace) is None


def split(output: bytes | bytearray) -> tuple[Capabilities | None, bytes]:
    """What an adapter has, where an output begins with that line, and the rest of the output."""
    if not output.startswith(FRONT):
        return None, bytes(output)
    line, _, rest = bytes(output).partition(b"\n")
    return Capabilities(frozenset(line.decode("utf-8", "replace").split()[1:])), rest
