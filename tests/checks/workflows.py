"""Runs the steps that docs/CI.md shows, in a folder with an adapter, and looks at those of .github/workflows.

Each block of YAML has to be one. Steps that install or fetch something are named and passed over; the others are run, for a
few seconds in place of minutes, and leave reports in XML. Each check that a workflow of this repository names is one.
"""

import importlib.util
import re
import shutil
import subprocess
import sys
import tempfile
import xml.etree.ElementTree as ElementTree
from collections.abc import Iterator
from pathlib import Path
from typing import Any

from checking import TOP, Options, fail, passed, skipped
from models.loading import module_of

PAGE = TOP / "docs/CI.md"
BLOCK = re.compile(r"^```(yaml|make)\n(.*?)^```$", re.MULTILINE | re.DOTALL)
NOT_HERE = re.compile(r"apt-get|git clone")
SECONDS = 600
REPORTS = ("conform.xml", "compare.xml")


def steps_of(document: Any) -> Iterator[str]:
    """The commands of a workflow of GitHub, or of the jobs of GitLab."""
    jobs = document.get("jobs", document)
    for job in jobs.values():
        yield from job.get("before_script", []) + job.get("script", [])
        yield from (step["run"] for step in job.get("steps", []) if "run" in step)


def shortened(text: str) -> str:
    return re.sub(r"--for \d+", "--for 5", text)


def run_step(step: str, folder: Path) -> None:
    """A step ends with 0, or with 1 where the comparison finds something."""
    done = subprocess.run(
        ["sh", "-c", shortened(step)], cwd=folder, capture_output=True, text=True, timeout=SECONDS, check=False
    )
    if done.returncode not in ((0, 1) if "compare" in step else (0,)):
        fail(step, f"has status {done.returncode}: {(done.stdout + done.stderr)[-500:]}")


def prepare(folder: Path) -> None:
    """What a repository has that is tested so: an adapter, the known differences, and the tools beside."""
    (folder / "diltzekun").symlink_to(TOP)
    words = [sys.executable, str(TOP / "tools/vma"), "new-adapter", "python", str(folder)]
    subprocess.run(words, check=True, capture_output=True)
    (folder / "adapter.py").rename(folder / "adapter")
    (folder / "known.txt").write_text("# nothing is known\n")


def check_page(yaml: Any) -> None:
    for kind, text in BLOCK.findall(PAGE.read_text(encoding="utf-8")):
        with tempfile.TemporaryDirectory() as name:
            folder = Path(name)
            prepare(folder)
            if kind == "make":
                (folder / "Makefile").write_text(shortened(text))
                run_step("make address-space || exit 1  # of compare", folder)
                continue
            for step in steps_of(yaml.safe_load(text)):
                if NOT_HERE.search(step):
                    skipped(step, "it installs or fetches something")
                else:
                    run_step(step, folder)
            for report in REPORTS:
                ElementTree.parse(folder / report)
    passed("the steps of docs/CI.md")


def check_own(yaml: Any) -> None:
    """The names of checks in the workflows of this repository."""
    known = ("unit", *module_of(TOP / "tests/run").CHECKS)
    for path in sorted((TOP / ".github/workflows").glob("*.yml")):
        for step in steps_of(yaml.safe_load(path.read_text(encoding="utf-8"))):
            names = step.partition("tests/run ")[2].split()
            for name in names[2:] if names[:1] == ["--program"] else names:
                if name not in known:
                    fail(str(path.relative_to(TOP)), f"names the check {name}, which tests/run doesn't have")
    passed("the workflows of this repository")


def check(_options: Options) -> None:
    missing = [name for name in ("make",) if shutil.which(name) is None]
    missing += ["yaml, a package of Python"] if importlib.util.find_spec("yaml") is None else []
    if missing:
        return skipped("the steps of docs/CI.md", f"{', '.join(missing)} is not installed")
    yaml = importlib.import_module("yaml")
    check_own(yaml)
    check_page(yaml)
