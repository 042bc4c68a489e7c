"""Words of a command line about systems."""

import argparse
import re

from ..traces import MOST_NUMBER, PAGE
from .places import Window


def address_of(text: str) -> int:
    """An address of a page, in hexadecimal behind 0x or in decimal digits."""
    value = int(text, 0 if text.startswith("0x") else 10) if is_number(text) else -1
    if value % PAGE or not 0 <= value <= MOST_NUMBER:
        raise argparse.ArgumentTypeError(f"{text} is no address of a page")
    return value


def is_number(text: str) -> bool:
    return bool(re.fullmatch("0x[0-9a-fA-F]{1,16}|[0-9]{1,20}", text))


def window_of(text: str) -> Window:
    """The window of `LO-HI`."""
    low, _, high = text.partition("-")
    window = Window(address_of(low), address_of(high))
    if window.low >= window.high:
        raise argparse.ArgumentTypeError(f"{text} is no window: LO-HI, with LO below HI")
    return window
