"""Runs `vma kernel` on traces that every Linux from 5.4 on answers alike, and on runs that it has to refuse.

Each trace is one in which no row of docs/KERNEL.md has a part. What the kernel itself does is not tested here: where the
output has the right form and another answer, a line says so, and no more. Where `cc` is missing, the kernel is older, or a
sandbox or a setting of the machine forbids what the command needs, a line says that nothing was run. It fails where `cc`
fails on the runner, at the first run that crashes or does not end, at the first output that is of no form, and at the first
run that should have been refused.
"""

import os
import platform
import re
import subprocess
import sys
import tempfile
from pathlib import Path

from checking import TOP, Options, fail, passed, skipped

TOOL = TOP / "tools/vma"
# A file below a name with blanks, a shared object of each side of a fork, an execution, and the list before and after.
OWN = TOP / "tests/checks/kernel.trace"
EXAMPLES = ["two-mappings", "readme", "tour", "faults", "fork"]
OLDEST = (5, 4)
CANNOT, FORBIDDEN = 4, 5  # statuses of `vma kernel`: what this machine cannot do for a trace, and cannot do at all
FORM = re.compile(r"L\d+ t\d+ v\d+ = .+|maps \d+|child \d+ of L\d+ v\d+|[0-9a-f]{8,}-[0-9a-f]{8,} [rwxsp-]{4} .*")

FIXED = "PROT_NONE MAP_PRIVATE|MAP_ANONYMOUS|MAP_FIXED -1 0\n"
PLACED = "PROT_READ MAP_PRIVATE|MAP_ANONYMOUS{} -1 0\n"
MUCH = f"vmatrace 1\n0 mmap 0 0x80000000 {PLACED.format('|MAP_POPULATE')}"
# All up to the tool's own addresses is taken, and then a place is looked for.
TAKEN = f"vmatrace 1\n0 mmap 0x10000 {0x7FFFFF000000 - 0x10000} {FIXED}0 mmap 0 4096 {PLACED.format('')}"
LOW = ["--window", "0x10000-0x20000"]
# What it refuses: its name, its words, the trace, the status, and what the line on standard error has.
REFUSED: list[tuple[str, list[str], str, int, str]] = [
    ("an option that is none", ["--fast"], "vmatrace 1\n", 2, "--fast"),
    ("a folder that is none", ["--folder", str(TOOL)], "vmatrace 1\n", 2, "is no folder"),
    ("a bad trace", [], "vmatrace 1\n0 maps\n0 touch 4096\n", 3, "trace line 3 cause 3 Word"),
    ("no newline at the end", [], "vmatrace 1\n0 maps", 3, "trace line 2 cause 11 NoEnd"),
    ("a note of a child", [], "vmatrace 1\n0 fork 1\n0 munmap 0 1\n1 maps after=3\n", 3, "trace line 4 cause 13 After"),
    ("the tool's own addresses", [], "vmatrace 1\n0 munmap 0 0x7ffffffff000\n", 4, "line 2: it touches"),
    ("a top out of reach", [], "vmatrace 1\ntop 0x100000\n", 4, "`top 0x100000`"),
    ("another lowest address", [], "vmatrace 1\nmin 0x7000000\n", 4, "`min 0x7000000`"),
    ("very much memory at once", [], MUCH, 4, "line 2: MAP_POPULATE"),
    ("a search that comes to the tool's own addresses", [], TAKEN, 4, "line 3: a search for a place comes to the addresses"),
    ("a window that is left", LOW, "vmatrace 1\n0 munmap 0x1f000 8192\n", 4, "line 2: it leaves the window from 0x10000"),
    ("a system that is none", ["--system", "bochs"], "vmatrace 1\n", 2, "bochs is no system; there are native, window,"),
    ("a command that is none", ["--under", "/nowhere"], "vmatrace 1\n", 5, "/nowhere cannot be run: No such file"),
]


def run(trace: str, *words: str, **environment: str) -> subprocess.CompletedProcess[str]:
    command = [sys.executable, str(TOOL), "kernel", *words]
    ends = {**os.environ, **environment}
    return subprocess.run(command, input=trace, capture_output=True, encoding="utf-8", errors="replace", timeout=600, env=ends)


def told(done: subprocess.CompletedProcess[str]) -> str:
    return f"has status {done.returncode}, and on standard error stands {done.stderr.strip()[:300]}"


def why_not() -> str | None:
    """Why this machine can run nothing, where it cannot."""
    if platform.system() != "Linux" or platform.machine() != "x86_64":
        return f"this is {platform.system()} on {platform.machine()}, and not Linux on x86-64"
    version = re.match(r"(\d+)\.(\d+)", platform.release())
    if version is None or tuple(map(int, version.groups())) < OLDEST:
        return f"the kernel is {platform.release()}, and older than {OLDEST[0]}.{OLDEST[1]}"
    # An empty trace asks for nothing but a list of its own, which a sandbox may forbid, or begin elsewhere.
    first = run("vmatrace 1\n")
    if first.returncode in (CANNOT, FORBIDDEN) and "`cc` fails" not in first.stderr:
        return first.stderr.strip().removeprefix("vma kernel: ")
    if first.returncode:
        fail("an empty trace", told(first))
    return None


def check_output(path: Path) -> None:
    """What the kernel answers to a trace has the form of an output; whether it is the one beside the trace is said."""
    name, done = path.stem, run(path.read_text(encoding="utf-8"))
    if done.returncode in (CANNOT, FORBIDDEN):
        return skipped(name, f"this machine cannot run it: {done.stderr.strip()}")
    if done.returncode != 0:
        fail(name, told(done))
    given, wanted = done.stdout.splitlines(), path.with_suffix(".out").read_text(encoding="utf-8").splitlines()
    bad = next((text for text in given if not FORM.fullmatch(text)), None)
    if bad is not None:
        fail(name, f"`{bad}` is no line of an output")
    place = next((n for n, pair in enumerate(zip(given, wanted)) if pair[0] != pair[1]), min(len(given), len(wanted)))
    if given != wanted:
        found, right = (lines[place] if place < len(lines) else None for lines in (given, wanted))
        return skipped(name, f"this kernel answers otherwise: line {place + 1} is {found!r}, and not {right!r}")
    passed(name)


def check_refused(name: str, words: list[str], trace: str, status: int, message: str) -> None:
    done = run(trace, *words)
    if done.returncode != status or message not in done.stderr or done.stdout:
        fail(name, f"{told(done)}, and not status {status} and {message}")
    passed(f"{name}, refused")


def check_without_cc() -> None:
    """Without a compiler, and without what one made before."""
    with tempfile.TemporaryDirectory() as empty:
        done = run("vmatrace 1\n", PATH=empty, XDG_CACHE_HOME=empty)
    if done.returncode != 5 or "`cc` is missing" not in done.stderr:
        fail("no compiler", told(done))
    passed("no compiler, refused")


def check(_options: Options) -> None:
    why = why_not()
    if why:
        return skipped("all", why)
    for path in (*(TOP / f"examples/{name}.trace" for name in EXAMPLES), OWN):
        check_output(path)
    for refused in REFUSED:
        check_refused(*refused)
    check_without_cc()
