"""Linux as a known system has it: its version, the settings of its machine, and the process that makes the calls."""

from dataclasses import replace

from ..linux.kernel import Kernel, Process, Settings, machine_settings, running_version
from ..linux.versions import Version, nearest, table, version_of
from ..oracles import Oracle
from ..traces import PAGE
from . import empty, machines, measuring
from .known import System

GUEST_MEMORY = 245_000  # pages: a machine has 1 GiB, and user-mode Linux less
OWN_AREAS = 4  # of the runner


def version_in(system: System) -> Version:
    """The version of Linux that a system has, or that it says to have: that of this machine by default."""
    if system.boots and system.name == "machine":
        return version_of(machines.version_of(system.image or machines.newest_image()))
    if system.boots:
        return version_of(measuring.version_of(system))
    return running_version()


def kernel_of(system: System, brk: int = 0) -> Kernel:
    """The kernel of a system. `brk` is the break of the process that makes the calls, where it is known."""
    version = version_in(system)
    settings = Settings(memory=GUEST_MEMORY) if system.boots else machine_settings()
    if not system.has_keys:
        settings = replace(settings, keys=0)
    taken = () if system.window else ((empty.OWN // PAGE, empty.OWN_END // PAGE),)
    areas = 0 if system.window else OWN_AREAS
    return Kernel(version, table()[nearest(version)], settings, Process(areas, system.kernel().most_areas, brk, taken))


def oracle_of(system: System) -> Oracle:
    """What is right beside a system, where nothing else is asked for."""
    return Oracle(kernel_of(system))
