"""The manual pages of vma and of its subcommands, made from their parsers, in the macros of man(7)."""

import argparse
import re
from collections.abc import Iterator

from vmatools import VERSION, cli, console

SEE = "diltzekun(1), diltzekun-live(1)"


def pages(date: str) -> dict[str, str]:
    """The text of each page, by its name."""
    made = {"vma.1": main_page(date)}
    for command in cli.COMMANDS.values():
        made[f"vma-{command.name}.1"] = command_page(command, date)
    return made


def head(name: str, summary: str, date: str) -> list[str]:
    return [f'.TH {name.upper()} 1 "{date}" "diltzekun {VERSION}"', ".SH NAME", f"{escaped(name)} \\- {escaped(summary)}"]


def main_page(date: str) -> str:
    lines = head("vma", "ask diltzekun, and compare a system with it", date)
    lines += [".SH SYNOPSIS", ".B vma", ".I COMMAND", "[WORDS]", ".br", ".B vma \\-\\-version", ".SH DESCRIPTION"]
    lines += paragraphs(cli.ABOUT.split("\n\n", 1)[1])
    lines += paragraphs("Each command has a page of its own, vma-COMMAND(1), and says the same with --help.")
    for title, commands in cli.GROUPS.items():
        lines.append(f".SS {escaped(title)}")
        for command in commands:
            lines += [".TP", f".B {escaped(command.name)}", escaped(command.load().SUMMARY)]
    lines += [".SH EXIT STATUS"]
    for status, what in console.STATUSES.items():
        lines += [".TP", f".B {status}", escaped(what)]
    lines += [".SH SEE ALSO", f"{escaped(SEE)}, " + ", ".join(f"vma\\-{escaped(name)}(1)" for name in cli.COMMANDS)]
    return written(lines)


def command_page(command: cli.Command, date: str) -> str:
    parser, module = cli.parser_of(command)
    lines = head(f"vma-{command.name}", module.SUMMARY, date)
    usage = " ".join(parser.format_usage().removeprefix("usage: ").split())
    lines += [".SH SYNOPSIS", escaped(usage), ".SH DESCRIPTION", *paragraphs(parser.description or "")]
    for group in parser._action_groups:
        actions = [action for action in group._group_actions if action.help != argparse.SUPPRESS]
        if actions:
            lines.append(f".SH {escaped((group.title or '').upper())}")
            for action in actions:
                lines += [".TP", *of_action(action)]
    epilog = re.sub(r"^example:$", "Example:", parser.epilog or "", flags=re.MULTILINE).replace("tools/vma ", "vma ")
    lines += [".SH MORE", *paragraphs(epilog), ".SH SEE ALSO", escaped(f"vma(1), {SEE}")]
    return written(lines)


def written(lines: list[str]) -> str:
    """A page of these lines. A section begins with a paragraph anyway."""
    kept = [line for above, line in zip(["", *lines], lines) if not (line == ".PP" and above.startswith(".SH"))]
    return "\n".join(kept) + "\n"


def of_action(action: argparse.Action) -> list[str]:
    """An option or a word, and what it does."""
    return [f".B {escaped(invocation(action))}", escaped(" ".join(filled(action).split()))]


def invocation(action: argparse.Action) -> str:
    """As --help has it: the names of an option with its word, or the name of a word."""
    word = action.metavar if isinstance(action.metavar, str) else action.dest.upper()
    takes = "" if action.nargs == 0 else f" [{word}]" if action.nargs == "?" else f" {word}"
    return ", ".join(name + takes for name in action.option_strings) or word


def filled(action: argparse.Action) -> str:
    """Its help, in which argparse's names of values are filled in."""
    values = {name: value for name, value in vars(action).items() if value is not argparse.SUPPRESS}
    return (action.help or "") % values if "%" in (action.help or "") else action.help or ""


def paragraphs(text: str) -> Iterator[str]:
    """A text of paragraphs; one with lists or columns is shown as it stands."""
    for paragraph in text.strip("\n").split("\n\n"):
        lines = paragraph.split("\n")
        yield ".PP"
        if any(line.startswith((" ", "- ")) for line in lines):
            yield from (".nf", *map(escaped, lines), ".fi")
        else:
            yield escaped(" ".join(line.strip() for line in lines))


def escaped(text: str) -> str:
    """A text in which nothing is a macro."""
    plain = text.replace("\\", "\\e").replace("-", "\\-")
    return "\\&" + plain if plain.startswith((".", "'")) else plain
