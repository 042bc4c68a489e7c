"""What is right: the profile, which is proved, or Linux of a version, which is tested against kernels."""

import argparse
import re
from dataclasses import dataclass
from typing import Optional

from .linux.areas import NotModelled
from .linux.kernel import Kernel, kernel_of, running_kernel
from .linux.space import LinuxSpace
from .linux.versions import WrongOracle, table, text_of
from .model import Space
from .profile.serial import ModelSpace, serial_output
from .traces import Trace

PROFILE_NAME, RUNNING = "profile", "linux"
# the default of the commands that take a system
BY_SYSTEM = "the profile beside a COMMAND, and beside a --system this machine's Linux (machine, uml: their own)"


@dataclass(frozen=True)
class Oracle:
    """The profile, or a kernel."""

    kernel: Optional[Kernel] = None

    @property
    def name(self) -> str:
        return self.kernel.name if self.kernel else PROFILE_NAME

    def words(self) -> str:
        """Its name and its settings: they name it again."""
        return self.kernel.words() if self.kernel else PROFILE_NAME

    def option(self) -> str:
        """The word of `--as` that names it."""
        return self.kernel.option() if self.kernel else PROFILE_NAME

    def space(self, trace: Trace) -> ModelSpace:
        if self.kernel:
            return LinuxSpace(trace, self.kernel)
        return Space(trace)

    def output(self, trace: Trace) -> str:
        """What is right for a trace, as `serial` writes it."""
        return serial_output(trace, self.space)

    def gap(self, trace: Trace) -> Optional[NotModelled]:
        """The first line of which the model doesn't say what a kernel answers."""
        try:
            if self.kernel:
                self.output(trace)
        except NotModelled as gap:
            return gap
        return None

    def modelled(self, trace: Trace) -> tuple[Trace, list[NotModelled]]:
        """The trace without these lines, and why of each."""
        gaps: list[NotModelled] = []
        while gap := self.gap(trace):
            gaps.append(gap)
            trace = without(trace, gap.line)
        return trace, gaps


def left(trace: Trace, number: int) -> Trace:
    """The trace without the line of a number, and, where that forks, without the lines of the child."""
    gone = next(line for line in trace.lines if line.number == number)
    child = gone.arguments[0] if gone.word == "fork" else None
    return trace.with_lines(line for line in trace.lines if line is not gone and (child is None or line.thread != child))


def without(trace: Trace, number: int) -> Trace:
    """The same, with the numbers that its lines then have."""
    return left(trace, number).numbered()


PROFILE = Oracle()


def oracle_of(text: str) -> Oracle:
    """The oracle that some words name: `profile`, or `linux-6.18 keys=0`, with blanks or commas between."""
    name, *words = re.split(r"[ ,]+", text.strip())
    if name == PROFILE_NAME:
        if words:
            raise WrongOracle(f"{' '.join(words)}: the profile has no settings")
        return PROFILE
    kernel = running_kernel() if name == RUNNING else None
    if name.startswith(RUNNING + "-"):
        kernel = kernel_of(name.removeprefix(RUNNING + "-"))
    if kernel is None:
        raise WrongOracle(f"{name} is no oracle; there are {', '.join(names())}")
    return Oracle(Kernel(kernel.version, kernel.rules, kernel.settings.changed(words), kernel.process))


def names() -> list[str]:
    """All names: a series by its newest version too."""
    versions = list(table())
    series = dict.fromkeys(f"linux-{text_of(version[:2])}" for version in versions)
    return [PROFILE_NAME, RUNNING, *series, *(f"linux-{text_of(version)}" for version in versions)]


def oracle_word(text: str) -> Oracle:
    """The value of the option."""
    try:
        return oracle_of(text)
    except WrongOracle as wrong:
        raise argparse.ArgumentTypeError(str(wrong)) from None


def add_argument(parser: argparse.ArgumentParser, default: Optional[Oracle] = PROFILE, says: str = PROFILE_NAME) -> None:
    """The option `--as`."""
    parser.add_argument(
        "--as",
        dest="oracle",
        type=oracle_word,
        default=default,
        metavar="NAME",
        help=f"what is right: `profile`, `linux-6.18` (any of {', '.join(names()[2:8])} ..), or `linux`, this machine's, each "
        f"with settings, as `linux-6.18,keys=0` ({says})",
    )


def described(oracle: Oracle) -> str:
    """What `--version` prints of it."""
    if oracle.kernel is None:
        return "profile: proved"
    exact = "" if oracle.kernel.version in table() else "; no such version was run: it has the rules of the nearest"
    return f"{oracle.words()}: tested against kernels, not proved{exact}"
