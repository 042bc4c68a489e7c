"""The wrong models that tests and checks name. wrong.py and mutations.py make many more, by rule.

    PYTHONPATH=tools:tests python3 -m models.mutants NAME < TRACE
"""
from __future__ import annotations

import sys
import time
from typing import Any

from vmatools import model, traces
from vmatools.model import Area, Reply, Space
from vmatools.profile import serial


class NeverMerges(Space):
    """No two neighbours join."""

    @staticmethod
    def joins(first: Area, second: Area) -> bool:
        return False


class MergesObjects(Space):
    """Two objects of shared anonymous memory join."""

    @staticmethod
    def joins(first: Area, second: Area) -> bool:
        are_files = min(first.object, second.object) <= 3
        other = second if are_files else second._replace(object=first.object, offset=model.index_of(first, first.hi))
        return model.joins(first, other)


class FromBelow(Space):
    """A place is searched from below, which only the second search does."""

    def highest_below(self, end: int, pages: int) -> None:
        return None


class KeepsPrefix(Space):
    """An mprotect that fails has changed nothing."""

    def mprotect(self, *arguments: int) -> Reply:
        before = self.areas
        reply = super().mprotect(*arguments)
        if isinstance(reply, str):
            self.areas = before
        return reply


class MunmapPastEnd(Space):
    """An munmap past the end of user memory is ENOMEM in place of EINVAL."""

    def by(self, row: str, reply: Any) -> Any:
        return super().by(row, "ENOMEM" if row == "munmap/past-limit" else reply)


class MmapNoLength(Space):
    """An mmap of no bytes is ENOMEM in place of EINVAL."""

    def by(self, row: str, reply: Any) -> Any:
        return super().by(row, "ENOMEM" if row == "mmap/no-length" else reply)


class DamagesParent(Space):
    """What a child unmaps is not mapped in the parent either."""

    parent: Any = None

    def child(self) -> DamagesParent:
        child = super().child()
        child.parent = self
        return child

    def munmap(self, address: int, length: int) -> Reply:
        reply = super().munmap(address, length)
        if reply == 0 and self.parent:
            self.parent.munmap(address, length)
        return reply


class CrashesAtZero(Space):
    """Length 0 is a crash."""

    def munmap(self, address: int, length: int) -> Reply:
        return super().munmap(address, length) if length else sys.exit("a crash")


class HangsOnMove(Space):
    """An mremap to a fixed place does not end."""

    def mremap(self, *arguments: int) -> Reply:
        if len(arguments) == 5:
            time.sleep(3600)
        return super().mremap(*arguments)


MUTANTS: dict[str, type[Space]] = {
    "never-merges": NeverMerges,
    "merges-objects": MergesObjects,
    "from-below": FromBelow,
    "keeps-prefix": KeepsPrefix,
    "munmap-past-end": MunmapPastEnd,
    "mmap-no-length": MmapNoLength,
    "damages-parent": DamagesParent,
}
# Those that are run as commands, since they crash or hang.
ENDING: dict[str, type[Space]] = {"right": Space, "crashes-at-zero": CrashesAtZero, "hangs-on-move": HangsOnMove}


def main() -> None:
    trace = traces.read_trace(sys.stdin.buffer.read())
    sys.stdout.write(serial.serial_output(trace, (MUTANTS | ENDING)[sys.argv[1]]))


if __name__ == "__main__":
    main()
