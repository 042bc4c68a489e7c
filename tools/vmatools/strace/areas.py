"""Lists of areas: a saved /proc/PID/maps, and the file in which `vma record` keeps those of each program."""

import os
import re
from typing import NamedTuple

from ..console import Failure, printable
from ..traces import PAGE, USER_PAGES
from .files import Opening
from .log import lines_in

USER_END = USER_PAGES[1] * PAGE
PROGRAMS = (0x555555554000, 0x570000000000)  # where the kernel puts a program that may be anywhere
LOW = 0x10000000  # no search begins below
OF_KERNEL = ("[vvar]", "[vvar_vclock]", "[vdso]", "[uprobes]")  # what the kernel maps, and none of the program's calls


class Area(NamedTuple):
    """A line of a maps text. `sealed` and `opening` are known where the list is that of a model."""

    lo: int
    hi: int
    perms: str
    offset: int
    major: int
    minor: int
    inode: int
    name: str
    grows: bool = False
    sealed: bool = False
    opening: Opening | None = None

    @property
    def is_file(self) -> bool:
        return bool(self.inode and self.name) and not self.is_shared_memory

    def line(self) -> str:
        """The line as /proc/PID/maps has it."""
        front = f"{self.lo:08x}-{self.hi:08x} {self.perms} {self.offset:08x} {self.major:02x}:{self.minor:02x} {self.inode} "
        name = self.name.replace("\n", "\\012")
        return f"{front:<72} {name}" if name else front

    @property
    def is_shared_memory(self) -> bool:
        return self.name == "/dev/zero (deleted)" or self.name.startswith("[anon_shmem:")


class Section(NamedTuple):
    """A list of `vma record`: of which process, and when: at its `begin`, before an `execve` or at its `exit`."""

    pid: int
    when: str
    areas: list[Area]


MAPS_LINE = re.compile(
    r"([0-9a-f]{1,16})-([0-9a-f]{1,16}) ([r-][w-][x-][ps]) ([0-9a-f]{1,16}) ([0-9a-f]{1,8}):([0-9a-f]{1,8}) ([0-9]{1,20}) *(.*)$"
)
HEADER = re.compile(r"# (\d+) (begin|execve|exit)$")


def area_of(line: str) -> Area | None:
    found = MAPS_LINE.match(line)
    if found is None:
        return None
    lo, hi, offset, major, minor = (int(found[part], 16) for part in (1, 2, 4, 5, 6))
    name = found[8].strip() if found[8].startswith("[") else found[8]
    return Area(lo, hi, found[3], offset, major, minor, int(found[7]), name.replace("\\012", "\n"), name == "[stack]")


def read_sections(text: str, path: str) -> list[Section]:
    """The lists of a file: one, of a saved /proc/PID/maps, or each that `vma record` kept."""
    sections = [Section(0, "begin", [])]
    for place, line in enumerate(lines_in(text.removesuffix("\n")), 1):
        header = HEADER.match(line)
        if header:
            sections.append(Section(int(header[1]), header[2], []))
            continue
        area = area_of(line)
        if area is None:
            raise Failure(
                f"{path}: line {place} is no line of /proc/PID/maps: {printable(line.strip(), 80)}"
                if text
                else f"{path}: the file is empty"
            )
        sections[-1].areas.append(area)
    if not sections[0].areas:
        del sections[0]
    if not any(section.areas for section in sections):
        raise Failure(f"{path}: it has no areas")
    return sections


def is_of(areas: list[Area], path: str, elsewhere: bool) -> bool:
    """Whether areas seem to be those of a program right after its execve: one is of its file, or it may be a script."""
    names = {path, path if elsewhere else os.path.realpath(path)}
    try:
        with open(path, "rb") as program:
            if not elsewhere and program.read(2) == b"#!":
                return True
    except (OSError, ValueError):
        pass  # its name alone is known
    bases = [os.path.basename(name.removesuffix(" (deleted)")) for name in names]
    shown = {os.path.basename(area.name.removesuffix(" (deleted)")) for area in areas if area.name.startswith("/")}
    # A program may be called by a shorter name, as python3 for python3.11.
    return any(name.startswith(base) for base in bases for name in shown)


def top_of(areas: list[Area]) -> int | None:
    """Where the kernel's search for room begins: the end of the highest area below the stack that was placed by a search, as the
    loader and [vdso] are. The program itself and its heap were not."""
    stack = min((area.lo for area in areas if area.name == "[stack]"), default=USER_END)
    ends = [
        area.hi
        for area in areas
        if area.hi <= stack and area.name != "[heap]" and not PROGRAMS[0] <= area.lo < PROGRAMS[1] and area.hi > LOW
    ]
    return max(ends, default=None)
