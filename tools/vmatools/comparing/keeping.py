"""A folder in which a comparison keeps what it has found: a trace for each kind of difference, which the next one runs first,
and the traces that reached something new, which the next one runs behind them and goes on from.

A file is written beside its place and renamed, so that each is whole whenever the run is ended.
"""
from __future__ import annotations

import hashlib
import os
import re
from dataclasses import dataclass, field
from pathlib import Path

from .. import console
from ..traces import Trace
from .findings import Finding

MARK = "# vma compare: "  # the line of a kept trace that has the name of its kind


@dataclass
class Kept:
    """The folder, or none, and the traces that were there: each with the name of the kind that it is kept for."""

    folder: Path | None = None
    before: dict[Path, str] = field(default_factory=dict)

    @classmethod
    def opened(cls, folder: Path) -> Kept:
        """The folder, made before the first run, since a run is long."""
        console.make_folder(folder)
        if not os.access(folder, os.W_OK | os.X_OK):
            raise console.Failure(f"nothing can be written to the folder {folder}")
        paths = sorted(path for path in folder.glob("*.trace") if path.is_file())
        found = {path: name_in(console.whole_text(str(path))) for path in paths}
        return cls(folder, dict(sorted(found.items(), key=lambda item: not item[1])))

    @property
    def seeds(self) -> list[Path]:
        """The traces that are kept for what they reach."""
        return [path for path, name in self.before.items() if not name]

    def path_of(self, name: str) -> Path | None:
        """Where the trace of a kind is."""
        return self.folder and self.folder / f"{stem_of(name)}.trace"

    def write_seed(self, trace: Trace) -> None:
        """A trace that reached something new, by a name that depends on it alone."""
        text = trace.numbered().text()
        if self.folder:
            console.replace_file(self.folder / f"reaches-{hashlib.sha256(text.encode()).hexdigest()[:16]}.trace", text)

    def write(self, finding: Finding, ending: str, text: str) -> None:
        """A file of a finding's kind, whole."""
        if self.folder:
            console.replace_file(self.folder / f"{stem_of(finding.name)}.{ending}", text)

    def write_trace(self, finding: Finding) -> None:
        """The finding itself: its trace, and below that what both sides answered. Numbers of lines stay as they are."""
        if self.folder is None:
            return
        difference = finding.difference
        notes = [f"{MARK}{finding.name}", f"# {finding.source}"]
        for side, lines in (("program", difference.here_lines), ("yours", difference.there_lines)):
            notes += [f"# {side}: {console.printable(line, 300)}" for line in lines[:12]]
        self.write(finding, "trace", finding.trace + "".join(f"{note}\n" for note in notes))


def name_in(text: str) -> str:
    """The kind that a trace is kept for, or nothing where somebody else has put it there."""
    marks = [line for line in text.splitlines() if line.startswith(MARK)]
    return marks[-1].removeprefix(MARK) if marks else ""


def stem_of(name: str) -> str:
    """A file's name for a kind: readable, and of that kind alone."""
    plain = re.sub("[^A-Za-z0-9]+", "-", name).strip("-")[:80]
    return f"{plain}-{hashlib.sha256(name.encode(errors='replace')).hexdigest()[:8]}"
