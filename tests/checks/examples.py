"""Runs the program on each example: the output beside a trace is what `serial` gives, and `check` calls it legal. The output
beside a script is what `steps` gives. Of each row of docs/KERNEL.md the program's side is as in examples/kernel-rows.txt.

No trace that forks is judged.
"""

import re
import subprocess
import sys
from pathlib import Path

from checking import TOP, Options, expect, fail, passed

FOLDER = TOP / "examples"
SECONDS = 10
FORK = re.compile(rb"^[0-9]+ +fork ", re.MULTILINE)


def check_output(program: str, mode: str, path: Path) -> None:
    """What a mode gives for a file is beside it, and is legal."""
    name, text, right = str(path.relative_to(TOP)), path.read_bytes(), path.with_suffix(".out").read_bytes()
    expect(name, [program, mode], SECONDS, output=right, input=text)
    if mode == "serial" and not FORK.search(text):
        expect(f"{name}, check", [program, "check"], SECONDS, output=b"legal\n", input=text + b"==\n" + right)


def check_rows(program: str) -> None:
    command = [sys.executable, str(TOP / "tools/vma"), "rows", "--as", "profile", "--program", program]
    done = subprocess.run(command, capture_output=True, text=True)
    if done.returncode:
        fail("the rows of docs/KERNEL.md", done.stdout + done.stderr)


def check(options: Options) -> None:
    found = {mode: sorted(FOLDER.rglob(f"*.{ending}")) for mode, ending in (("serial", "trace"), ("steps", "steps"))}
    for mode, paths in found.items():
        for path in paths:
            check_output(options.program, mode, path)
    check_rows(options.program)
    passed(f"{len(found['serial'])} traces, {len(found['steps'])} scripts and the rows of docs/KERNEL.md")
