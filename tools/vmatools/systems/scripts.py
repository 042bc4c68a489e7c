"""What the runner reads: where it works, the files of a trace and its operations. runner.c has the same structures."""

import struct
from collections.abc import Mapping

from ..traces import Line, Trace
from . import empty
from .places import Window

MAGIC = int.from_bytes(b"vmarun2", "little")
KINDS = {
    "mmap": 9,
    "mprotect": 10,
    "munmap": 11,
    "brk": 12,
    "mremap": 25,
    "fork": 57,
    "mseal": 462,
    "fault": 1000,
    "maps": 1001,
}
MODES = {"r": 0, "w": 1, "rw": 2}
WORD = 2**64


def script_of(
    trace: Trace,
    window: Window | None,
    most_areas: int = 0,
    seconds: int = 0,
    descriptors: Mapping[int, int] | None = None,
) -> bytes:
    """The script of a trace for a window, or for an empty space of a kernel with at most so many areas. `descriptors`
    has the files that are open already, by their place; `seconds` is for a machine that runs it."""
    open_files = descriptors or {}
    files = [
        struct.pack("<3Q", MODES[file.mode], file.size, open_files.get(place, -1) % WORD)
        for place, file in enumerate(trace.files)
    ]
    places = {file.descriptor: place for place, file in enumerate(trace.files)}
    children = {line.arguments[0] for line in trace.lines if line.word == "fork"}
    operations = [operation_of(line, places, children) for line in trace.lines]
    return b"".join([start_of(trace, window, most_areas, seconds), *files, *operations])


def start_of(trace: Trace, window: Window | None, most_areas: int, seconds: int) -> bytes:
    settings = trace.settings
    low, high = window.of(trace) if window else (0, 0)
    room = most_areas - settings["limit"] if "limit" in settings else 0
    return struct.pack(
        "<17Q",
        MAGIC,
        window is None,
        low,
        high,
        window.shift if window else 0,
        settings.get("top", empty.TOP),
        settings.get("heap", 0),
        room,
        empty.FILLER,
        empty.FILLER_END if "limit" in settings else empty.FILLER,
        empty.OWN,
        empty.OWN_END,
        empty.STACK_BYTES,
        empty.stack_limit(trace),
        seconds,
        len(trace.files),
        len(trace.lines),
    )


def operation_of(line: Line, places: Mapping[int, int], children: set[int]) -> bytes:
    values, is_file = list(line.arguments), False
    if line.word == "mmap":
        is_file = values[4] in places
        values[4] = places.get(values[4], -1)
    if line.word == "fault":
        values[1] = "rwx".index(values[1])
    if line.word == "fork":
        values[0] += 1
    space = line.thread + 1 if line.thread in children else 0
    padded = [value % WORD for value in values] + [0] * (6 - len(values))
    return struct.pack("<11Q", KINDS[line.word], line.number, space, *padded, addresses_of(line), is_file)


def addresses_of(line: Line) -> int:
    """Which arguments are addresses, as bits."""
    if line.word in ("maps", "fork", "fault") or line.word == "brk" and not line.arguments[0]:
        return 0
    return 0b10001 if line.word == "mremap" and len(line.arguments) > 4 else 1
