"""The command `vma`: its subcommands, their help, and how each of them ends."""

import argparse
import difflib
import gc
import importlib
import sys
import traceback
from dataclasses import dataclass
from typing import Any, NoReturn

from . import console, oracles, versions

ABOUT = """usage: vma COMMAND [WORDS]

diltzekun, an oracle for the mmap family of Linux, and the tools around it.
"""
AFTER = """`vma COMMAND --help` has the words of each, with an example; `vma --version` says which program answers.
The exit statuses are those of docs/COMPARE.md."""


@dataclass(frozen=True)
class Command:
    """A subcommand: its name, an example, its module below vmatools.commands, and how it ends on wrong use."""

    name: str
    example: str
    module: str = ""
    wrong_use: int = console.WRONG_USE

    def load(self) -> Any:
        """What has SUMMARY, the help, `add_arguments` and `run`: a module, or a mode of one that has several."""
        module = importlib.import_module(f"vmatools.commands.{self.module or self.name}")
        return module.MODES[self.name] if self.module == "modes" else module


GROUPS = {
    "Ask the program": (
        Command("serial", "serial examples/readme.trace", "modes"),
        Command("threads", "threads examples/readme.trace", "modes"),
        Command("check", "check examples/readme.trace examples/readme.out", "modes"),
        Command("live", "live examples/readme.trace", "modes"),
        Command("query", "query 0x7ffff7fc1000 /proc/self/maps", "modes"),
        Command("retrace", "retrace list", "modes"),
        Command("generate", "generate 20000 1", "modes"),
        Command("steps", "steps examples/reader-inside.steps", "modes"),
    ),
    "Compare a system with the program": (
        Command("compare", "compare -- examples/page-table"),
        Command("new-adapter", "new-adapter python my-adapter", "new_adapter"),
        Command("emit", "emit --runs 100 traces"),
        Command("conform", "conform -- examples/page-table"),
        Command("kernel", "kernel < examples/tour.trace"),
        Command("rows", "rows limit-join"),
        Command("systems", "systems native gvisor"),
    ),
    "Make traces of real programs": (
        Command("record", "record ls /", wrong_use=125),
        Command("import", "import ls.log --maps ls.maps > ls.trace", "import_"),
        Command("lists", "lists ls.out ls.final"),
    ),
    "Look at a trace or an output": (
        Command("draw", "draw examples/tour.trace examples/tour.out > tour.html"),
        Command("explain", "explain bad.trace"),
        Command("judge", "judge examples/readme.trace examples/readme.out"),
    ),
}
COMMANDS = {command.name: command for group in GROUPS.values() for command in group}


class Parser(argparse.ArgumentParser):
    """A parser that ends wrong use with one line, and with the status of its command."""

    wrong_use = console.WRONG_USE

    def error(self, message: str) -> NoReturn:
        self.exit(self.wrong_use, f"{self.prog}: {message}; `{self.prog} --help` lists the words\n")


def whole_help() -> str:
    """What `vma --help` prints."""
    lines = [ABOUT]
    for title, commands in GROUPS.items():
        lines.append(f"{title}:")
        lines += [f"  {command.name:13}{command.load().SUMMARY}" for command in commands]
        lines.append("")
    return "\n".join(console.filled("\n".join([*lines, AFTER]), console.columns()))


def unknown(word: str) -> str:
    near = difflib.get_close_matches(word, COMMANDS, 1, 0.5)
    hint = f"did you mean {near[0]}?" if near else "`vma --help` lists them"
    return f"{word[:100]!r} is no command; {hint}"


def parser_of(command: Command) -> tuple[Parser, Any]:
    module = command.load()
    parser = Parser(prog=f"vma {command.name}", description=module.__doc__, formatter_class=console.Formatter)
    parser.wrong_use = command.wrong_use
    parser.add_argument(
        "--color", choices=console.WHEN, default="auto", metavar="WHEN", help="auto (on a terminal), always or never"
    )
    module.add_arguments(parser)
    parser.epilog = "\n\n".join([*([parser.epilog] if parser.epilog else []), f"example:\n    tools/vma {command.example}"])
    return parser, module


def print_version(words: list[str]) -> int:
    """What answers, and with `--as NAME` what that oracle is."""
    parser = Parser(prog="vma --version", add_help=False)
    oracles.add_argument(parser, None)
    oracle = parser.parse_args(words).oracle
    print("\n".join([*versions.told(), *([oracles.described(oracle)] if oracle else [])]))
    return console.DONE


def dispatch(words: list[str]) -> int:
    """Runs the subcommand that these words name, and returns its exit status."""
    if words[:1] == ["help"] and words[1:]:
        words = [words[1], "--help"]
    if not words or words[0] in ("-h", "--help", "help"):
        print(whole_help(), file=sys.stdout if words else sys.stderr)
        return console.DONE if words else console.WRONG_USE
    if words[0] == "--version":
        return print_version(words[1:])
    if words[0] not in COMMANDS:
        raise console.Failure(unknown(words[0]))
    command = COMMANDS[words[0]]
    console.TOOL = f"vma {command.name}"
    parser, module = parser_of(command)
    options = parser.parse_args(words[1:])
    console.choose_colour(options.color)
    status: int = module.run(options)
    return status


def main(words: list[str]) -> int:
    """Runs a subcommand, writes what there is, and returns the exit status, whatever happens."""
    gc.set_threshold(100_000, 50, 50)  # a large input is many small objects, of which none goes before the end
    try:
        console.hear_signals()
        console.open_output()
        return finished(words)
    except KeyboardInterrupt as interrupt:
        return ended_early(console.interruption(interrupt))
    except console.OutputFailure as failure:
        console.say(failure)
        console.drop_output()
        return failure.status
    except console.Failure as failure:
        return ended_early(failure)
    except Exception:
        traceback.print_exc()
        return ended_early(console.Failure("that is a fault in this tool; please report it", console.FAULT))


def finished(words: list[str]) -> int:
    try:
        status = dispatch(words)
    except SystemExit as end:  # of the parser: help, or wrong use
        status = end.code if isinstance(end.code, int) else console.WRONG_USE
    console.flush_output()
    return status


def ended_early(failure: console.Failure) -> int:
    """Writes what there is until a failure, and says what it is."""
    try:
        console.flush_output()
    except console.OutputFailure:
        console.drop_output()
    console.say(failure)
    return failure.status
