"""Words of a command line: numbers and times, and the command that is to be called again."""

import argparse
import re
import shlex
import sys
from collections.abc import Sequence
from pathlib import Path


def number(text: str) -> int:
    """A number of at least 0, in decimal digits."""
    if not re.fullmatch("[0-9]{1,18}", text):
        raise argparse.ArgumentTypeError(f"{shortened(text)} is no number from 0 on")
    return int(text)


def integer(text: str) -> int:
    """Any whole number of up to 100 digits."""
    if not re.fullmatch("-?[0-9]{1,100}", text):
        raise argparse.ArgumentTypeError(f"{shortened(text)} is no number of up to 100 digits")
    return int(text)


def count(text: str) -> int:
    """A number of at least 1."""
    value = number(text) if re.fullmatch("[0-9]{1,18}", text) else 0
    if value < 1:
        raise argparse.ArgumentTypeError(f"{shortened(text)} is no number from 1 on")
    return value


def time_limit(text: str) -> float:
    """So many seconds, more than none."""
    try:
        value = float(text)
    except ValueError:
        value = 0.0
    if not 0 < value < 1e6:
        raise argparse.ArgumentTypeError(f"{shortened(text)} is no number of seconds")
    return value


def repeated(command: str, words: Sequence[str]) -> str:
    """A command of `vma`, as it was called, for a shell."""
    tool = sys.argv[0] if Path(sys.argv[0]).name == "vma" else "vma"
    return shlex.join([tool, command, *words])


def shortened(text: str) -> str:
    return text if len(text) <= 40 else f"{text[:40]}.."
