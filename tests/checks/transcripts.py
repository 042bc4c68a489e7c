"""Runs what the documents show, and compares what comes with what stands there. Takes half a minute.

The pages call the program `diltzekun`. All runs of a page are made in one new folder, with the repository's folders in it. Of
each fenced block of a page

- one that begins with `$ ` is run, a command at a time, and the lines below a command are what it writes, on standard
  error too;
- one below `<!-- prints COMMAND -->` is what the command writes;
- one below `<!-- file NAME -->` is kept as this file;
- one below `<!-- lines of FILE | COMMAND -->` has on its left lines of the file, and on its right lines of what the
  command writes;
- one below `<!-- not run: WHY -->` is passed over, which is said.

A line `..` stands for any lines, and ` ..` at the end of a line for any end. Each command `tools/vma ..` in a page, shown
or told, has words that the tool takes.
"""

import contextlib
import io
import itertools
import os
import re
import shlex
import shutil
import subprocess
import tempfile
from collections.abc import Iterator
from dataclasses import dataclass
from pathlib import Path

from checking import TOP, Options, fail, passed, skipped
from vmatools import cli

FOLDERS = ("examples", "tools", "crates", "crates.txt", "suite", "dev")
FILES = ("README.md", "CONTRIBUTING.md")
FENCE = "```"
DIRECTIVE = re.compile(r"<!-- (prints|file|lines of|not run:) (.*) -->")
SECONDS = 300
# What commands need that may not be installed. Their blocks are passed over then, which is said.
NEEDS = {"tools/vma kernel": "cc", "tools/vma rows": "cc", "tools/vma record": "strace", "mandoc ": "mandoc"}


@dataclass(frozen=True)
class Block:
    """A fenced block: its page, the number of its first line, what stands above it for this check, and its lines."""

    page: Path
    number: int
    directive: tuple[str, str] | None
    lines: list[str]

    @property
    def name(self) -> str:
        return f"{self.page.relative_to(TOP)}:{self.number}"


def pages() -> list[Path]:
    return [*(TOP / name for name in FILES), *sorted((TOP / "docs").glob("*.md"))]


def blocks(page: Path) -> Iterator[Block]:
    above, first = "", 0
    kept: list[str] | None = None
    for number, line in enumerate(page.read_text(encoding="utf-8").splitlines(), 1):
        if line.startswith(FENCE):
            if kept is None:
                directive = DIRECTIVE.fullmatch(above)
                kept, first = [], number + 1
            else:
                yield Block(page, first, (directive[1], directive[2]) if directive else None, kept)
                kept = None
        elif kept is not None:
            kept.append(line)
        above = line


# Runs


def run(name: str, command: str, folder: str, program: str) -> list[str]:
    """What a command writes, on standard error too."""
    ends = {**os.environ, "PATH": f"{folder}/bin:{os.environ['PATH']}", "DILTZEKUN": program, "NO_COLOR": "1"}
    try:
        done = subprocess.run(
            ["bash", "-c", command],
            cwd=folder,
            env=ends,
            stdin=subprocess.DEVNULL,
            stdout=subprocess.PIPE,
            stderr=subprocess.STDOUT,
            timeout=SECONDS,
        )
    except subprocess.TimeoutExpired:
        fail(name, f"`{command}` takes longer than {SECONDS} seconds")
    return done.stdout.decode(errors="replace").splitlines()


def is_line(shown: str, got: str) -> bool:
    return got.startswith(shown[:-3]) if shown.endswith(" ..") else got == shown


def is_shown(shown: list[str], got: list[str]) -> bool:
    """Whether the lines are those that are shown, where `..` stands for any."""
    if not shown:
        return not got
    if shown[0] == "..":
        return any(is_shown(shown[1:], got[start:]) for start in range(len(got) + 1))
    return bool(got) and is_line(shown[0], got[0]) and is_shown(shown[1:], got[1:])


def compare_lines(name: str, command: str, shown: list[str], got: list[str]) -> None:
    if not is_shown(shown, got):
        fail(name, f"`{command}` writes\n" + "\n".join(got[:60]) + "\nand the page shows\n" + "\n".join(shown))


def commands_of(lines: list[str]) -> Iterator[tuple[str, list[str]]]:
    """The commands of a block, each with the lines below it."""
    command, shown = "", list[str]()
    for line in lines:
        if command.endswith("\\"):
            command += "\n" + line
        elif line.startswith("$ "):
            if command:
                yield command, shown
            command, shown = line[2:], []
        else:
            shown.append(line)
    yield command, shown


def check_beside(block: Block, words: str, folder: str, program: str) -> None:
    """A block of two columns: lines of a file on the left, and of what a command writes on the right."""
    file, command = words.split(" | ")
    column = max(line.find("  L") for line in block.lines) + 2
    sides = {
        "left": ([line[:column].rstrip() for line in block.lines], (Path(folder) / file).read_text().splitlines()),
        "right": ([line[column:].rstrip() for line in block.lines], run(block.name, command, folder, program)),
    }
    for side, (shown, source) in sides.items():
        lines = [line.rstrip() for line in source if not line.startswith("#")]
        if not is_shown([line for line in shown if line], lines):
            fail(block.name, f"the {side} shows\n" + "\n".join(shown) + "\nand not\n" + "\n".join(lines))


def missing_for(block: Block) -> str | None:
    """What a command of a block needs and is not installed."""
    commands = [line for line in block.lines if line.startswith("$ ")] + [block.directive[1] if block.directive else ""]
    needed = (tool for words, tool in NEEDS.items() for command in commands if words in command)
    return next((tool for tool in needed if shutil.which(tool) is None), None)


def check_block(block: Block, folder: str, program: str) -> bool:
    """Whether the block is one of a run, which has been made."""
    kind, words = block.directive or ("", "")
    if kind == "not run:":
        skipped(block.name, words)
    elif missing := missing_for(block):
        skipped(block.name, f"{missing} is not installed")
        return False
    elif kind == "file":
        (Path(folder) / words).write_text("\n".join(block.lines) + "\n")
    elif kind == "prints":
        compare_lines(block.name, words, block.lines, run(block.name, words, folder, program))
    elif kind == "lines of":
        check_beside(block, words, folder, program)
    elif block.lines and block.lines[0].startswith("$ "):
        for command, shown in commands_of(block.lines):
            compare_lines(block.name, command, shown, run(block.name, command, folder, program))
    else:
        return False
    return kind != "not run:"


def check_page(page: Path, program: str) -> None:
    with tempfile.TemporaryDirectory() as folder:
        for name in FOLDERS:
            os.symlink(TOP / name, f"{folder}/{name}")
        shutil.copytree(TOP / "docs", f"{folder}/docs", ignore=shutil.ignore_patterns("reference"))
        os.mkdir(f"{folder}/bin")
        os.symlink(program, f"{folder}/bin/diltzekun")
        count = sum(check_block(block, folder, program) for block in blocks(page))
    if count:
        passed(f"{page.relative_to(TOP)}: {count} blocks")


# Words of the tools


def told_commands(page: Path) -> Iterator[tuple[int, str, bool]]:
    """Each command `tools/vma WORD ..` in a page, with the number of its line, and whether it is shown whole."""
    above = ""
    for number, line in enumerate(page.read_text(encoding="utf-8").splitlines(), 1):
        shown = re.match(r"(?:    |\$ )(tools/vma [a-z].*)", line)
        if shown:
            yield number, shown[1], not (above + line).endswith("\\") and not above.endswith("\\")
        above = line
        for code in re.findall(r"`(tools/vma [a-z][^`]*)`", line):
            yield number, code.replace("\\|", "|"), False


def words_of(command: str) -> list[str]:
    """The words of the first command of a line, without what is the shell's."""
    lexer = shlex.shlex(command.rstrip("\\"), posix=True, punctuation_chars=True)
    lexer.whitespace_split, lexer.commenters = True, "#"
    return list(itertools.takewhile(lambda word: not set(word) <= set("|;&<>()"), lexer))[1:]


def wrong_words(name: str, words: list[str], is_whole: bool) -> str:
    """What a tool says of its words, or nothing. Of words that are only told, each option is one that it has."""
    if name not in cli.COMMANDS:
        return "is no command"
    parser, said = cli.parser_of(cli.COMMANDS[name])[0], io.StringIO()
    if is_whole:
        with contextlib.redirect_stderr(said), contextlib.suppress(SystemExit):
            parser.parse_args(words)
        return said.getvalue().strip()
    options = set(re.findall(r"--?[a-z][\w-]*", parser.format_help()))
    return "".join(f"has no {word}" for word in words if re.match("--?[a-z]", word) and word not in options)


def check_words(page: Path) -> None:
    """Each told command is one of the tool's, with words that it takes."""
    for number, command, is_whole in told_commands(page):
        name, *words = words_of(command)
        wrong = wrong_words(name, words, is_whole)
        if wrong:
            fail(f"{page.relative_to(TOP)}:{number}", f"`{command}`: {wrong}")


def check(options: Options) -> None:
    program = os.path.abspath(options.program)
    for page in pages():
        check_words(page)
        check_page(page, program)
