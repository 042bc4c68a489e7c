"""The empty space of a Linux kernel: what of a trace can be had there."""

import resource
from dataclasses import dataclass

from ..traces import MAP, PAGE, USER_PAGES, Line, Trace
from .places import USER_END, WIDE_END, Refused, end_of, ranges

TOP, LOWEST_TOP = 0x7FFFF7FFF000, 0x155555556000
OWN, OWN_END = 0x7FFFFF000000, 0x7FFFFF200000  # the runner, and above it as much as stays free below an area that grows
LINK = OWN + 0x10000  # where the runner is linked: what lies below stays free
FILLER, FILLER_END = 0x2AAA90000000, 0x2AAAA0000000
STACK_BYTES = 8 << 20
GUARD_BYTES = 1 << 20  # the kernel keeps this below the stack, and so above the first search
MOST_POPULATED = 1 << 30  # bytes of memory that a trace asks to be made at once


@dataclass(frozen=True)
class Kernel:
    """What a kernel has that a trace may ask for."""

    lowest: int  # vm.mmap_min_addr
    most_areas: int  # vm.max_map_count
    is_wide: bool  # whether its processor has addresses of 57 bits
    most_stack: int = USER_END  # the hard limit of stacks


def running_kernel() -> Kernel:
    """The kernel that this runs on."""
    _, hard = resource.getrlimit(resource.RLIMIT_STACK)
    return Kernel(
        setting_of_machine("mmap_min_addr"),
        setting_of_machine("max_map_count"),
        has_wide_addresses(),
        USER_END if hard == resource.RLIM_INFINITY else hard,
    )


def setting_of_machine(name: str) -> int:
    try:
        with open(f"/proc/sys/vm/{name}", encoding="ascii") as file:
            return int(file.read())
    except (OSError, ValueError) as error:
        raise Refused(5, f"/proc/sys/vm/{name} cannot be read: {error}") from None


def has_wide_addresses() -> bool:
    try:
        with open("/proc/cpuinfo", encoding="utf-8", errors="replace") as file:
            return "la57" in next((line for line in file if line.startswith("flags")), "").split()
    except OSError as error:
        raise Refused(5, f"/proc/cpuinfo cannot be read: {error.strerror}") from None


def own_addresses(trace: Trace) -> list[tuple[int, int]]:
    return [(OWN, OWN_END)] + ([(FILLER, FILLER_END)] if "limit" in trace.settings else [])


def own_touched(line: Line, trace: Trace, limit: int) -> tuple[int, int] | None:
    """The addresses of the runner that a line names, if it does. What ends past user memory is refused by the kernel,
    and changes of protections and seals that begin below stop before them, since the first of these pages are never
    mapped."""
    heap = trace.settings.get("heap", 0)
    for address, length in ranges(line):
        if line.word == "brk" and 0 < heap < address:
            address, length = heap, address - heap
        end = end_of(address, length)
        for low, high in own_addresses(trace):
            stops_before = end > limit or (line.word in ("mprotect", "mseal") and address < low)
            if low <= address < high or (address < high and end > low and not stops_before):
                return low, high
    return None


def check_empty(trace: Trace, kernel: Kernel) -> None:
    """Refuses a trace that asks for what the kernel cannot do in an empty space."""
    check_settings(trace, kernel)
    limit = WIDE_END if kernel.is_wide else USER_END
    populated = 0
    for line in trace.lines:
        own = own_touched(line, trace, limit)
        if own:
            raise Refused(
                4,
                f"line {line.number}: it touches the addresses from {own[0]:#x} to {own[1]:#x}, which are this tool's own",
            )
        if limit != USER_PAGES[trace.version] * PAGE and any(
            address + length > USER_END for address, length in ranges(line)
        ):
            bits = "57 bits, as version 2 has them" if limit == WIDE_END else "47 bits, as version 1 has them"
            raise Refused(
                4,
                f"line {line.number}: it goes past 47 bits, and user memory has addresses of {bits}, on this processor",
            )
        if line.word == "mmap" and line.arguments[3] & MAP["MAP_POPULATE"]:
            populated += line.arguments[1]
            if populated > MOST_POPULATED:
                raise Refused(
                    4, f"line {line.number}: MAP_POPULATE of more than 1 GiB in all would take the machine's memory"
                )


def check_settings(trace: Trace, kernel: Kernel) -> None:
    settings, lowest, wanted = trace.settings, kernel.lowest, trace.settings.get("min")
    if wanted is not None and wanted != max(lowest, PAGE):
        raise Refused(4, f"`min {wanted:#x}`: the lowest address of this machine is vm.mmap_min_addr, {lowest:#x}")
    heap = settings.get("heap", 0)
    if any(low <= heap < high for low, high in own_addresses(trace)):
        raise Refused(4, f"`heap {heap:#x}` lies among this tool's own addresses")
    top = settings.get("top", TOP)
    if not LOWEST_TOP <= top <= TOP:
        raise Refused(4, f"`top {top:#x}`: the kernel's search begins between {LOWEST_TOP:#x} and {TOP:#x}")
    if settings.get("limit", 0) > kernel.most_areas:
        raise Refused(4, f"`limit areas {settings['limit']}`: vm.max_map_count is lower here")
    if stack_limit(trace) > kernel.most_stack:
        raise Refused(
            4,
            f"`top {top:#x}` takes a stack limit of {stack_limit(trace)} bytes, and no more than {kernel.most_stack} are"
            " allowed here",
        )


def stack_limit(trace: Trace) -> int:
    """The stack limit that puts the begin of the first search at the trace's `top`. All small ones give the default top."""
    top = trace.settings.get("top", TOP)
    return STACK_BYTES if top == TOP else USER_END - top - GUARD_BYTES
