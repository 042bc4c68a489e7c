"""An adapter of your system in a few methods: `serve(Space)` reads traces, makes their calls on your class, and writes
the results.

    from vmatools.adapter import Area, File, Settings, serve

    class Space:
        lacks = ("fork", "MAP_GROWSDOWN")             # what it can't do beside the methods that it doesn't have
        def __init__(self, settings: Settings): ...
        def mmap(self, address, length, prot, flags, file, offset): ...
        def munmap(self, address, length): ...
        def mprotect(self, address, length, prot): ...
        def mremap(self, old, old_length, new_length, flags, new): ...
        def brk(self, address): ...
        def mseal(self, address, length, flags): ...
        def fault(self, address, access): ...         # "r", "w" or "x"
        def areas(self): ...                          # a list of Area, by address

    serve(Space)

Each method may be missing: traces then don't have it. Addresses, lengths and offsets are in bytes, protections and flags
the bits of Linux. `file` is what MAP_SHARED|MAP_ANONYMOUS or a descriptor names, else None; keep it with the VMA, whose
name and inode it is. A call returns its address, 0 or None; it fails by a negative errno, by its name ("ENOMEM"), or by an
OSError. A fault returns the VMA that serves it, which may have grown, or the signal and its code ("SIGSEGV SEGV_MAPERR").
`lacks` may have operations, flags, settings (`limit`, `top`, `min`, `heap`, `file`), and `wide` for traces of 57 bits. A
fork copies the space by its method `fork`, or by copy.deepcopy.
"""
from __future__ import annotations

import copy
import errno
import sys
import traceback
from collections.abc import Callable
from typing import Any, NamedTuple, NoReturn

from .console import Failure
from .model import reply_text
from .profile.serial import serial_output
from .systems.batch import requests
from .systems.capabilities import KNOWN
from .traces import FORMS, MAP, MOST_AREAS, MOST_SIZE, PAGE, USER_PAGES, BadLine, File, Line, Trace, read_trace

__all__ = ["Area", "File", "Settings", "serve"]


class Settings(NamedTuple):
    """What a trace sets, in bytes: where the first search begins and ends, where the heap begins (0: there is none), and
    where user memory ends; and how many VMAs there may be."""

    top: int
    min: int
    heap: int
    end: int
    limit: int


class Area(NamedTuple):
    """A VMA, in bytes; `prot` has the bits of PROT_READ, PROT_WRITE and PROT_EXEC."""

    start: int
    end: int
    prot: int
    shared: bool = False
    offset: int = 0
    file: File | None = None
    heap: bool = False

    def perms(self) -> str:
        letters = "".join(letter if self.prot & bit else "-" for bit, letter in ((1, "r"), (2, "w"), (4, "x")))
        return f"{self.start:08x}-{self.end:08x} {letters}{'s' if self.shared else 'p'}"

    def line(self) -> str:
        """As in /proc/PID/maps."""
        file = self.file or File(-1, "", 0, 0, 0, 0, "[heap]" if self.heap else "")
        front = f"{self.perms()} {self.offset if self.file else 0:08x} {file.major:02x}:{file.minor:02x} {file.inode} "
        return front + " " * max(73 - len(front), 1) + file.name if file.name else front

    def page(self, address: int) -> int:
        """The page of its file at an address."""
        return (self.offset + address - self.start) // PAGE if self.file else 0


def serve(space_type: Callable[[Settings], Any]) -> NoReturn:
    """Answers the trace on standard input, or as many as come there for `--batch`, and ends the process."""
    source = open(0, "rb", closefd=False)
    if source.peek(6)[:6] == b"trace ":
        print(capabilities(space_type), flush=True)
        try:
            for request in requests(source):
                output, ending = answered(space_type, request.text)
                sys.stdout.buffer.write(f"{output}end {request.number}{ending}\n".encode())
                sys.stdout.buffer.flush()
        except Failure as failure:
            sys.exit(str(failure))
        sys.exit(0)
    output, ending = answered(space_type, source.read())
    sys.stdout.buffer.write(output.encode())
    sys.stdout.buffer.flush()
    sys.exit(int(ending.split()[0]) if ending else 0)


def capabilities(space_type: Any) -> str:
    """The line that says which operations, settings and flags a class has."""
    lacks = tuple(getattr(space_type, "lacks", ()))
    missing = {word for word in FORMS if word not in ("maps", "fork") and not hasattr(space_type, word)}
    missing |= set() if hasattr(space_type, "areas") else {"maps"}
    missing |= set() if hasattr(space_type, "brk") else {"heap"}
    has = [word for word in KNOWN if word not in missing and word not in lacks]
    return " ".join(["has", *has, *(f"-{word}" for word in lacks if word not in KNOWN)])


def answered(space_type: Callable[[Settings], Any], text: bytes) -> tuple[str, str]:
    """The output of a trace, or the status with which it ends and why."""
    try:
        return serial_output(read_trace(text), lambda trace: Served(space_type, trace)), ""
    except BadLine as bad:
        print(f"trace {bad}", file=sys.stderr)
        return "", f" 3 trace {bad}"
    except Exception as fault:
        traceback.print_exc()
        return "", f" 1 {type(fault).__name__}: {' '.join(str(fault).split())}"


class Served:
    """A space of yours, and what is kept for it: the files, and how many shared mappings without a file there were."""

    def __init__(self, space_type: Callable[[Settings], Any], trace: Trace) -> None:
        end = USER_PAGES[trace.version] * PAGE
        defaults = {"top": 0x7FFFF7FFF000, "min": 0x10000, "heap": 0, "end": end, "limit": MOST_AREAS}
        self.space = space_type(Settings(**(defaults | trace.settings)))
        self.files = {file.descriptor: file for file in trace.files}
        self.objects, self.may_grow = len(trace.files), False

    @property
    def areas(self) -> list[Area]:
        return list(self.space.areas()) if hasattr(self.space, "areas") else []

    def maps(self) -> list[str]:
        areas = self.areas
        return [f"maps {len(areas)}", *(area.line() for area in areas)]

    def child(self) -> Served:
        child = copy.copy(self)
        child.space = self.space.fork() if hasattr(self.space, "fork") else copy.deepcopy(self.space)
        return child

    def answer(self, line: Line) -> tuple[list[str], bool]:
        """The lines of a result, and whether it is that of a call."""
        if line.word == "maps":
            return self.maps(), False
        if line.word == "fault":
            return self.fault(*line.arguments)
        own = getattr(self.space, line.word, None)
        return [reply_text(line.word, "ENOSYS" if own is None else self.reply(own, line))], True

    def fault(self, address: int, access: str) -> tuple[list[str], bool]:
        was_mapped = not self.may_grow or any(area.start <= address < area.end for area in self.areas)
        served = self.space.fault(address, access) if hasattr(self.space, "fault") else "SIGSEGV SEGV_MAPERR"
        if isinstance(served, str):
            return [served], False
        return [f"served {served.perms()} page {served.page(address)}"], not was_mapped

    def reply(self, own: Callable[..., Any], line: Line) -> int | str:
        """What your method says, as an address or the name of an error."""
        arguments, shared = list(line.arguments), None
        if line.word == "mmap":
            flags = arguments[3]
            if flags & MAP["MAP_SHARED"]:
                shared = File(-1, "rw", MOST_SIZE, 0, 1, self.objects + 1, "/dev/zero (deleted)")
            arguments[4] = shared if flags & MAP["MAP_ANONYMOUS"] else self.files.get(arguments[4])
            self.may_grow = self.may_grow or bool(flags & MAP["MAP_GROWSDOWN"])
        if line.word == "mremap" and len(arguments) == 4:
            arguments.append(0)
        try:
            said = own(*arguments)
        except OSError as error:
            said = -(error.errno or errno.EIO)
        if isinstance(said, str):
            return said
        if said is not None and said < 0:
            return errno.errorcode.get(-said, f"E{-said}")
        self.objects += shared is not None and arguments[4] is shared
        return said or 0
