"""Traces that a kernel can run: with the settings that it has."""

from typing import Optional

from ..traces import PAGE, Trace

KERNEL_TOPS = 0x155555556000, 0x7FFFF7FFF000  # where a kernel can begin its search, by its stack limit


def lowest_of_machine() -> Optional[int]:
    """vm.mmap_min_addr, where it can be read."""
    try:
        with open("/proc/sys/vm/mmap_min_addr", encoding="ascii") as file:
            return max(int(file.read()), PAGE)
    except (OSError, ValueError):
        return None


def fitted(trace: Trace, lowest: Optional[int] = None) -> Trace:
    """The trace with settings that a kernel can have: its lowest address, by default that of the running one, and no `top`
    that is out of its reach."""
    settings = dict(trace.settings)
    lowest = lowest_of_machine() if lowest is None else max(lowest, PAGE)
    if lowest is not None:
        settings["min"] = lowest
    if not KERNEL_TOPS[0] <= settings.get("top", KERNEL_TOPS[0]) <= KERNEL_TOPS[1]:
        del settings["top"]
    return Trace(trace.version, settings, trace.files, trace.lines).numbered()
