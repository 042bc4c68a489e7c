"""What `query` and `retrace` answer on a maps text: status, standard output, and the line on standard error.

It is written from docs/TRACE.md alone, and has nothing of the program's code.
"""

import re
from collections.abc import Callable, Iterator
from typing import NamedTuple

from ..traces import LIMITS, MOST_AREAS, MOST_NUMBER, MOST_SIZE, PAGE, USER_PAGES

MOST_LINE = 8_192
LEAST_ADDRESS = 0x10000
FIRST_DESCRIPTOR = 3
CAUSES = {"TooLong": 2, "Utf8": 10, "NoEnd": 11, "MapsLine": 15, "MapsOrder": 16, "NotOurs": 17}
PROT_NAMES = (b"PROT_READ", b"PROT_WRITE", b"PROT_EXEC")
FORM = re.compile(
    rb"([0-9a-f]{1,16})-([0-9a-f]{1,16}) ([r-][w-][x-][sp]) ([0-9a-f]{1,16}) ([0-9a-f]{1,8}):([0-9a-f]{1,8}) "
    rb"([0-9]{1,20})(?: *| +([^ ].*))",
    re.DOTALL,
)


class Row(NamedTuple):
    """A line: addresses and offset in bytes, what it says of its file, whose name may be missing, and its bytes."""

    low: int
    high: int
    perms: bytes
    offset: int
    major: int
    minor: int
    inode: int
    name: bytes | None
    raw: bytes


# What tells two files apart: device, inode and name.
FileOf = tuple[int, int, int, bytes]


class Refused(Exception):
    """The first bad line, its cause, and why that is one."""

    def __init__(self, cause: str, why: str, line: int = 0) -> None:
        super().__init__(cause, why)
        self.cause, self.why, self.line = cause, why, line

    def __str__(self) -> str:
        return f"line {self.line} cause {CAUSES[self.cause]} {self.cause}"


def row_of(raw: bytes, is_ended: bool, end: int) -> Row:
    """The line of these bytes, whose newline stands at this place of the input, or would."""
    if len(raw) > MOST_LINE:
        raise Refused("TooLong", f"the line has more than {MOST_LINE:,} bytes")
    if end >= LIMITS["bytes"]:
        raise Refused("TooLong", f"the newline of this line would stand past the {LIMITS['bytes']:,} bytes of an input")
    if not is_ended:
        raise Refused("NoEnd", "no newline ends the last line; the file may have been cut off")
    try:
        raw.decode()
    except UnicodeDecodeError as bad:
        raise Refused(
            "Utf8", f"byte {bad.start + 1} of the line, 0x{raw[bad.start]:02x}, is no UTF-8 at its place"
        ) from None
    parts = FORM.fullmatch(raw)
    if parts is None or int(parts[7]) > MOST_NUMBER:
        raise Refused("MapsLine", "this is no line of a maps text: `LOW-HIGH rwxp OFFSET MAJ:MIN INODE NAME`")
    low, high, offset, major, minor = (int(parts[part], 16) for part in (1, 2, 4, 5, 6))
    return Row(low, high, parts[3], offset, major, minor, int(parts[7]), parts[8], raw)


def seems_one(front: bytes) -> bool:
    """Whether an input that begins so is to be a maps text."""
    return bool(re.match(rb"[0-9a-f]{1,16}-[0-9a-f]{1,16} [r-][w-][x-][sp] [0-9a-f]+ ", front))


def rows_of(data: bytes) -> list[Row]:
    """The lines of a maps text."""
    *lines, rest = data.split(b"\n")
    rows: list[Row] = []
    end = -1
    for number, raw in enumerate(lines + [rest] * bool(rest), 1):
        end += len(raw) + 1
        try:
            row = row_of(raw, number <= len(lines), end)
            if row.low >= row.high:
                raise Refused("MapsOrder", "the area ends where it begins, or below")
            if rows and row.low < rows[-1].high:
                raise Refused("MapsOrder", "the area begins below the end of the one above it")
        except Refused as refused:
            refused.line = number
            raise
        rows.append(row)
    return rows


def answered(work: Callable[[], bytes]) -> tuple[int, bytes, bytes]:
    """What a run gives that does this work."""
    try:
        return 0, work(), b""
    except Refused as refused:
        return 3, b"", f"trace {refused}\n".encode()


def query(data: bytes, address: int) -> tuple[int, bytes, bytes]:
    return answered(
        lambda: next((row.raw.rstrip(b" ") for row in rows_of(data) if row.high > address), b"none") + b"\n"
    )


def retrace(data: bytes) -> tuple[int, bytes, bytes]:
    return answered(lambda: traced(rows_of(data)))


def traced(rows: list[Row]) -> bytes:
    """The trace that makes the areas of these lines."""
    files: dict[FileOf, int] = {}
    mappings: list[bytes] = []
    above: Row | None = None
    for number, row in enumerate(rows, 1):
        why = next(reasons(number, row, above, files), None)
        if why:
            raise Refused("NotOurs", why, number)
        above = row
        mappings.append(mapping(row, files))
    return b"".join(line + b"\n" for line in [b"vmatrace 1", *(file_line(file, files) for file in files), *mappings])


def reasons(number: int, row: Row, above: Row | None, files: dict[FileOf, int]) -> Iterator[str]:
    """Why `retrace` makes no such area, each reason that holds."""
    if number > MOST_AREAS:
        yield f"there are {MOST_AREAS:,} areas above, and a run may have no more"
    yield from form_reasons(row)
    yield from place_reasons(row)
    if above is not None and above.high == row.low and above.perms == row.perms and file_of(above) == file_of(row):
        if row.name is None or above.offset + above.high - above.low == row.offset:
            yield "the area would be one with the area above it: they touch, and agree in all that the lines say"
    yield from file_reasons(row, files)


def form_reasons(row: Row) -> Iterator[str]:
    """Why no run prints these bytes for any area."""
    front = b"%08x-%08x %s " % (row.low, row.high, row.perms)
    if row.name is None and row.raw != front + b"00000000 00:00 0 ":
        if (row.offset, row.major, row.minor, row.inode) != (0, 0, 0, 0):
            yield "an area without a name has the offset 0, the device 00:00 and the inode 0 in an output"
        else:
            yield "an output has one space behind the inode of an area without a name, and eight digits or more in an address"
    if row.name is None and row.perms.endswith(b"s"):
        yield "a shared area has the name of what it maps in an output, as shared memory has /dev/zero (deleted)"
    front += b"%08x %02x:%02x %d " % (row.offset, row.major, row.minor, row.inode)
    if row.name is not None and (row.raw != front.ljust(72) + b" " + row.name or row.name.startswith(b"\t")):
        yield "an output has the name in column 74, behind two spaces at least, and eight digits or more in an address"


def place_reasons(row: Row) -> Iterator[str]:
    """Why no area lies there in the default configuration."""
    if row.low < LEAST_ADDRESS:
        yield f"the area begins below {LEAST_ADDRESS:#x}, the lowest address of a trace without settings"
    if row.high > USER_PAGES[1] * PAGE:
        yield f"the area ends above {USER_PAGES[1] * PAGE:#x}, where user memory of a trace of version 1 ends"
    if any(place % PAGE for place in (row.low, row.high, row.offset)):
        yield f"an address or the offset is no multiple of {PAGE}"
    if row.name is not None and row.offset + row.high - row.low > MOST_SIZE + 1 - PAGE:
        yield "the area goes past the end of the largest file"


def file_of(row: Row) -> FileOf | None:
    return None if row.name is None else (row.major, row.minor, row.inode, row.name)


def file_reasons(row: Row, files: dict[FileOf, int]) -> Iterator[str]:
    """Why its file gets no descriptor, where it has none yet."""
    file = file_of(row)
    if file is None or file in files:
        return
    files[file] = FIRST_DESCRIPTOR + len(files)
    if len(file_line(file, files)) > LIMITS["line"]:
        yield f"the line of its file in the trace would have more than {LIMITS['line']:,} bytes"
    if len(files) > LIMITS["files"]:
        yield f"there are {LIMITS['files']:,} files above, and a trace may have no more"
    if row.major >= 16**3 or row.minor >= 16**5:
        yield "a device of a trace has at most 3 and 5 digits"


def file_line(file: FileOf, files: dict[FileOf, int]) -> bytes:
    return b"file %d rw %d %02x:%02x %d %s" % (files[file], MOST_SIZE, *file)


def mapping(row: Row, files: dict[FileOf, int]) -> bytes:
    prot = b"|".join(name for name, letter in zip(PROT_NAMES, row.perms.decode()) if letter != "-") or b"PROT_NONE"
    flags = (b"MAP_SHARED" if row.perms.endswith(b"s") else b"MAP_PRIVATE") + b"|MAP_FIXED"
    of = file_of(row)
    file = b" -1 0" if of is None else b" %d %#x" % (files[of], row.offset)
    return b"0 mmap %#x %d %s %s%s" % (
        row.low,
        row.high - row.low,
        prot,
        flags + b"|MAP_ANONYMOUS" * (row.name is None),
        file,
    )
