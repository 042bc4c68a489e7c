"""The command `vma` where the package is installed: `python3 -m vmatools`."""

import os
import sys
from typing import NoReturn

from .cli import main


def command() -> NoReturn:
    status = main(sys.argv[1:])
    os._exit(status)  # all is written; what still runs in threads is left behind


if __name__ == "__main__":
    command()
