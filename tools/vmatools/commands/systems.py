"""Lists the systems that `vma kernel --system` and `vma compare --system` know, and says which are installed."""

import argparse

from ..systems import known, measuring

SUMMARY = "list the systems that can be compared by name"


def add_arguments(parser: argparse.ArgumentParser) -> None:
    parser.add_argument(
        "names", metavar="NAME", nargs="*", help="these systems alone; `machine:IMAGE` is one with that kernel"
    )


def run(options: argparse.Namespace) -> int:
    for system in [known.system_of(name) for name in options.names] or known.KNOWN.values():
        packages = measuring.missing(system)
        state = f"apt-get install {packages}" if packages else f"installed, {measuring.version_of(system)}"
        print(f"{system.name:13} {system.says}: {state}")
    return 0
