"""What many unit tests need: an empty folder, programs of a few lines in it, and the command `vma`."""

import subprocess
import sys
import tempfile
import unittest
from pathlib import Path
from typing import Any

from vmatools.running.program import TOP

VMA = [sys.executable, str(TOP / "tools/vma")]


def vma(*words: str, **more: Any) -> subprocess.CompletedProcess[str]:
    """What comes of `vma` with these words; `more` is of subprocess.run."""
    ends: dict[str, Any] = {"capture_output": True, "timeout": 300, **more}
    return subprocess.run([*VMA, *words], text=True, **ends)


class InFolder(unittest.TestCase):
    """Tests that have an empty folder, `top`."""

    def setUp(self) -> None:
        self.top = Path(self.enterContext(tempfile.TemporaryDirectory()))

    def put(self, name: str, text: str) -> Path:
        """A file in the folder, and the folders that its name has."""
        path = self.top / name
        path.parent.mkdir(parents=True, exist_ok=True)
        path.write_text(text, encoding="utf-8")
        return path

    def put_program(self, name: str, text: str) -> Path:
        """A file that can be run, by the shell if it names nothing else."""
        path = self.put(name, text if text.startswith("#!") else f"#!/bin/sh\n{text}")
        path.chmod(0o755)
        return path
