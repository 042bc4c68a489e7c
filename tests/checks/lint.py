"""Checks that all that tests/shown.txt names is there, and the Python of the repository by mypy and flake8. No pattern has a
possessive group, which Python 3.11.2 matches wrongly. A public name of the definitions stands once: linux_rules alone may give a
definition of the kernel the name that the same thing has in the profile. No crate cites what another keeps in `Internal`. Code
lets other threads run in three places alone, and forgets nothing.

mypy has to find every function typed, and flake8 nothing, with the settings of pyproject.toml. What is not installed is named
and passed (Debian packages mypy and flake8).
"""

import ast
import re
import shutil
import subprocess
import sys
import tomllib
from collections.abc import Iterator

import names
import shown
from checking import TOP, Options, fail, passed, skipped

FOLDERS = ("tools/vmatools", "tests", "dev")
TYPED = (
    *("tools/vmatools", "tests/checks", "tests/models", "tests/unit"),
    *("dev/reference", "dev/linux_rules", "dev/packaging"),
)
PROGRAMS = (
    "tools/vma",
    "tests/run",
    "dev/kernel-table",
    "dev/linux-versions",
    "dev/measure",
    "dev/package",
    "dev/real-programs",
    "dev/suite-case",
    "dev/systems",
    "dev/wrong-models",
)
MOST = 4_000  # characters of what is printed
CLASS, POSSESSIVE = re.compile(r"\[[^]]*\]"), re.compile(r"(?<!\\)(?:[*?}]|(?<=[])}.])\+)\+|\(\?>")


def lines_of(done: subprocess.CompletedProcess[str]) -> str:
    return (done.stdout + done.stderr).strip()[:MOST]


def check_tool(name: str, *calls: list[str]) -> None:
    """Runs a tool with the words of each call."""
    if shutil.which(name) is None:
        return skipped(name, "it is not installed")
    for words in calls:
        done = subprocess.run([name, *words], cwd=TOP, capture_output=True, text=True)
        if done.returncode:
            fail(name, f"finds\n{lines_of(done)}")
    passed(name)


def check_shown() -> None:
    try:
        for line in shown.check(TOP):
            skipped(f"tests/shown.txt: {line.promise}", line.where)
    except shown.Wrong as wrong:
        fail("tests/shown.txt", str(wrong))
    passed("tests/shown.txt")


def check_linux_rules() -> None:
    """What dev/make-linux-rules makes stands as it is made, and the definitions have the table of versions."""
    done = subprocess.run(["dev/make-linux-rules", "--check"], cwd=TOP, capture_output=True, text=True)
    if done.returncode:
        fail("Linux's rules", f"dev/make-linux-rules --check finds\n{lines_of(done)}")
    passed("Linux's rules")


def possessive(source: str) -> Iterator[int]:
    """The lines of a source whose texts have a possessive group."""
    for node in ast.walk(ast.parse(source)):
        text = node.value if isinstance(node, ast.Constant) else ""
        text = text.decode("latin-1") if isinstance(text, bytes) else text
        if isinstance(text, str) and POSSESSIVE.search(CLASS.sub("[]", text)):
            assert isinstance(node, ast.Constant)
            yield node.lineno


def check_patterns() -> None:
    paths = [path for folder in FOLDERS for path in (TOP / folder).rglob("*.py")] + [TOP / name for name in PROGRAMS]
    found = [f"{path}:{line}" for path in paths for line in possessive(path.read_text(encoding="utf-8"))]
    if found:
        fail("patterns", f"these have a possessive group: {', '.join(found)}")
    passed("patterns")


def check_names() -> None:
    for title, found in (("names", names.repeated(TOP)), ("Internal", names.trespasses(TOP)), ("waits", names.waits(TOP))):
        if wrong := "\n".join(found):
            fail(title, f"of crates/:\n{wrong[:MOST]}")
        passed(title)


def check(_options: Options) -> None:
    check_shown()
    check_names()
    check_linux_rules()
    check_patterns()
    if sys.version_info < (3, 11):
        return skipped("all", "pyproject.toml is read by Python 3.11 and newer")
    settings = tomllib.loads((TOP / "pyproject.toml").read_text(encoding="utf-8"))["tool"]["flake8"]
    words = [f"--{name}={','.join(value) if isinstance(value, list) else value}" for name, value in settings.items()]
    check_tool("flake8", [*words, *FOLDERS, *PROGRAMS])
    check_tool("mypy", [*TYPED], *(["--scripts-are-modules", program] for program in PROGRAMS))
