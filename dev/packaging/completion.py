"""Completion of vma for bash and zsh, made from its parsers: commands, their options, and the words that an option may have."""

import argparse
from collections.abc import Iterator
from pathlib import Path

from vmatools import cli
from .manual import filled

# The scripts, in which the words in braces are filled in, and other braces stand twice.
BASH, ZSH = (Path(__file__).with_name(name).read_text(encoding="utf-8") for name in ("vma.bash", "vma.zsh"))


def actions_of(command: cli.Command) -> Iterator[argparse.Action]:
    """The options of a command that its help shows, and its words that are one of a few."""
    parser, _ = cli.parser_of(command)
    yield from (action for action in parser._actions if action.help != argparse.SUPPRESS)


def bash() -> str:
    options, choices = [], []
    for command in cli.COMMANDS.values():
        names = [name for action in actions_of(command) for name in action.option_strings]
        options.append(f'        {command.name}) options="{" ".join(names)}" ;;')
        for action in actions_of(command):
            if action.choices:
                pattern = "|".join(f'"{command.name} {name}"' for name in action.option_strings or [command.name])
                words = " ".join(map(str, action.choices))
                choices.append(f'        {pattern}) COMPREPLY=($(compgen -W "{words}" -- "$word")); return ;;')
    return BASH.format(commands=" ".join(cli.COMMANDS), options="\n".join(options), choices="\n".join(choices))


def zsh() -> str:
    commands = [f"        {quoted(f'{name}:{command.load().SUMMARY}')}" for name, command in cli.COMMANDS.items()]
    options = []
    for command in cli.COMMANDS.values():
        words = " ".join(spec for action in actions_of(command) for spec in specs(action))
        options.append(f"        {command.name}) shift words; (( CURRENT-- )); _arguments {words} '*:file:_files' ;;")
    return ZSH.format(commands="\n".join(commands), options="\n".join(options))


def specs(action: argparse.Action) -> Iterator[str]:
    """An option in the form of zsh's _arguments: its name, what it does, and what its word may be."""
    said = " ".join(filled(action).split()).replace("[", "(").replace("]", ")").replace(":", ";")
    word = action.metavar if isinstance(action.metavar, str) else action.dest
    values = f"({' '.join(map(str, action.choices))})" if action.choices else "_files"
    takes = "" if action.nargs == 0 else f":{word.replace(':', ';')}:{values}"
    for name in action.option_strings:
        yield quoted(f"{name}[{said}]{takes}")
    if not action.option_strings and action.choices:
        yield quoted(f"1{takes}")


def quoted(text: str) -> str:
    return "'" + text.replace("'", "'\\''") + "'"
