#!/usr/bin/env python3
"""Runs a command in so much address space, and tells the most memory of it that was resident.

The words: the descriptor to which the KiB are written, the bytes of address space, and the command with its words. It
ends as the command does, or with 128 plus the number of the signal that ended it. A process is counted with what it has
from the one that made it, so this one is small: some 5 MiB, below which nothing is told.
"""

import os
import resource
import sys


def main(told: int, most: int, command: list[str]) -> int:
    child = os.fork()
    if child == 0:
        resource.setrlimit(resource.RLIMIT_AS, (most, most))
        os.execv(command[0], command)
    _, status, used = os.wait4(child, 0)
    os.write(told, b"%d" % used.ru_maxrss)
    ended = os.waitstatus_to_exitcode(status)
    return ended if ended >= 0 else 128 - ended


if __name__ == "__main__":
    sys.exit(main(int(sys.argv[1]), int(sys.argv[2]), sys.argv[3:]))
