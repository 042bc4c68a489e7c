"""What `vma compare` needs for a system that is not empty, or that starts slowly: its words, and both sides made ready."""

import argparse
import re
import time
from collections.abc import Iterator
from contextlib import ExitStack, contextmanager

from .. import console
from ..comparing import generator, windows
from ..comparing.campaign import Settings
from ..comparing.comparison import Sides
from ..comparing.conformance import CANNOT_RUN
from ..running import program
from ..running.live import LiveAdapter
from ..traces import PAGE, Trace, read_trace
from .batch import FIRST_SECONDS, Adapters
from .capabilities import Capabilities
from .known import KNOWN, MACHINE_SECONDS, WINDOW, system_of
from .linux_of import oracle_of
from .measuring import missing
from .places import Window
from .words import window_of

MACHINE_KIND_SECONDS = 120.0  # for making the trace of a kind small, in a machine that has to be booted where it dies
ADDRESS = re.compile(r"= 0x([0-9a-f]+)$", re.MULTILINE)
OUTSIDE = "a place outside"
HEAP_NAME = re.compile(r" +\[heap\]$", re.MULTILINE)
FOR_SECONDS = 120.0  # how long traces are run, where nothing else is asked for


def add_arguments(parser: argparse.ArgumentParser) -> None:
    group = parser.add_argument_group("a system that is not empty, or that starts slowly (docs/SYSTEMS.md)")
    group.add_argument("--system", metavar="NAME", help=f"one that is known, in place of COMMAND: {', '.join(KNOWN)}")
    group.add_argument("--batch", action="store_true", help="COMMAND answers many traces in one process")
    group.add_argument(
        "--window",
        type=window_of,
        metavar="LO-HI",
        help="traces keep to these addresses, and leave no place to be found",
    )


def take_system(options: argparse.Namespace) -> None:
    """Takes a known system in the place of COMMAND, with what belongs to it."""
    if not options.system:
        return
    if options.command:
        raise console.Failure("--system stands in the place of COMMAND: only one of them can be given")
    system = system_of(options.system)
    packages = missing(system)
    if packages:
        raise console.Failure(f"{system.name} is not installed (Debian: apt-get install {packages})")
    options.command = [*program.VMA, "kernel", "--batch", "--system", options.system]
    options.batch = True
    if system.window:
        options.window = options.window or system.window
        options.command += ["--window", f"{options.window.low:#x}-{options.window.high:#x}"]
    options.oracle = options.oracle or oracle_of(system)
    if system.boots:  # one at a time; and the trace that finds it not yet begun waits for it
        options.jobs, options.seconds, options.shrink_seconds = 1, MACHINE_SECONDS, MACHINE_SECONDS
        options.kind_seconds = MACHINE_KIND_SECONDS
    if has_no_end(options):
        options.for_seconds, options.begin = FOR_SECONDS, None  # which begins when the system has begun


def has_no_end(options: argparse.Namespace) -> bool:
    """Whether no word says when the run ends."""
    return not (options.runs or options.for_seconds or options.only or options.traces)


def words_of(options: argparse.Namespace) -> list[str]:
    """The words that a command needs to repeat a finding, beside --system."""
    window = options.window
    return [
        *(["--batch"] if options.batch and not options.system else []),
        *(["--window", f"{window.low:#x}-{window.high:#x}"] if window and not options.system else []),
    ]


class Windowed:
    """What is compared of a system in a window: no names of heaps, which some don't give, nor places outside that it found."""

    def __init__(self, window: Window) -> None:
        self.window = window

    def shown(self, output: str) -> str:
        return ADDRESS.sub(self.outside, HEAP_NAME.sub(" ", output))

    def outside(self, found: re.Match[str]) -> str:
        is_inside = self.window.low <= int(found[1], 16) < self.window.high
        return found[0] if is_inside else f"= {OUTSIDE}"


@contextmanager
def prepared(options: argparse.Namespace, settings: Settings, sides: Sides) -> Iterator[None]:
    """Makes both sides ready: the processes of a batch and of sessions, how traces are fitted, and the running kernel beside."""
    has = None
    with ExitStack() as stack:
        if options.batch:
            sides.adapters = Adapters(sides.command)
            stack.callback(sides.adapters.close)
            if not options.system:
                has = sides.adapters.capabilities(max(settings.seconds, FIRST_SECONDS))
        if options.live and not options.threads:
            sides.live = Adapters([options.live], LiveAdapter)
            stack.callback(sides.live.close)
        if options.window or options.system:
            settings.fit = fit_of(options, sides)
        take_capabilities(settings, sides, has)
        options.begin = options.begin or time.monotonic()
        if options.window and options.profile == generator.IN_TURN:
            settings.profiles = windows.PROFILES
        if options.window:
            sides.shown = Windowed(options.window).shown
        yield


def take_capabilities(settings: Settings, sides: Sides, has: Capabilities | None) -> None:
    """Makes traces of what COMMAND says that it has, if it says so; they keep to the window too."""
    if has is None or not has.missing:
        return
    console.say(f"COMMAND has no {', '.join(has.missing)}: traces are made without")
    settings.fit = windows.Both(settings.fit, has) if settings.fit else has
    sides.rules.last_lists = sides.rules.last_lists and "maps" in has.words


def fit_of(options: argparse.Namespace, sides: Sides) -> windows.Fit | windows.EmptyFit:
    """How traces become such as the system can run: in a window, or in the empty space of a kernel."""
    system = system_of(options.system) if options.system else None
    lacks = [call for call in lacks_of(sides, (options.window or WINDOW).low) if call not in sides.kept]
    if options.window:
        return windows.Fit(options.window, lacks)
    assert system
    return windows.EmptyFit(max(system.kernel().lowest, PAGE), lacks)


def lacks_of(sides: Sides, low: int) -> list[str]:
    """The calls that a system has not: it does not run a trace that has them, and does without."""
    page = f"vmatrace 1\n0 mmap {low:#x} {PAGE} PROT_READ MAP_PRIVATE|MAP_ANONYMOUS|MAP_FIXED -1 0\n"
    with_seal = read_trace(f"{page}0 mseal {low:#x} {PAGE} 0\n".encode())
    return (
        ["mseal"] if fault_of(sides, with_seal) == CANNOT_RUN and not fault_of(sides, read_trace(page.encode())) else []
    )


def fault_of(sides: Sides, trace: Trace) -> str | None:
    return sides.there(trace).fault
