"""What stands in a trace and in the answers to it, as terms of the definitions."""

import errno
import re
from collections.abc import Sequence

from vmatools.outputs import AREA
from vmatools.traces import PAGE, File, Line, Trace

PROTECTIONS = ["none", "r", "w", "rw", "x", "rx", "wx", "rwx"]
ACCESSES = {"r": "Read", "w": "Write", "x": "Exec"}
SIGNALS = {
    "SIGSEGV SEGV_MAPERR": "MapErr",
    "SIGSEGV SEGV_ACCERR": "AccErr",
    "SIGSEGV SEGV_PKUERR": "PkuErr",
    "SIGBUS BUS_ADRERR": "BusErr",
    "SIGSEGV SI_KERNEL": "NotCanonical",
}
SERVED = re.compile(r"served ([0-9a-f]+)-([0-9a-f]+) ([r-])([w-])([x-])([sp]) page ([0-9]+)")
NUMBERS = {name: number for number, name in errno.errorcode.items()} | {"EOPNOTSUPP": errno.EOPNOTSUPP}


class Unsayable(ValueError):
    """An answer that no term says."""


def boolean(value: object) -> str:
    return "true" if value else "false"


def integer(value: int) -> str:
    return f"(pos {value})" if value >= 0 else f"(negsuc {-value - 1})"


def listed(items: Sequence[str]) -> str:
    """A list on one line."""
    return " ∷ ".join([*items, "[]"])


def rights(letters: str) -> str:
    """The protection that `r`, `w` and `x` in a text say."""
    return PROTECTIONS[sum(bit for letter, bit in (("r", 1), ("w", 2), ("x", 4)) if letter in letters)]


def operation(line: Line) -> str:
    """What a line of a trace does."""
    words = line.arguments
    if line.word == "mmap":
        address, length, prot, flags, descriptor, offset = words
        return f"Map {address} {length} {PROTECTIONS[prot]} {flags} {integer(descriptor)} {offset}"
    if line.word == "mprotect":
        return f"Protect {words[0]} {words[1]} {PROTECTIONS[words[2]]}"
    if line.word == "fault":
        return f"Touch {words[0] // PAGE} {ACCESSES[words[1]]}"
    if line.word == "mremap":
        return " ".join(["Remap", *map(str, words), *["0"] * (5 - len(words))])
    names = {"munmap": "Unmap", "brk": "Break", "mseal": "Seal", "fork": "Fork"}
    return " ".join([names[line.word], *map(str, words)])


def refused(error: str) -> str:
    """The number of an error's name, as of `EPERM`, or of `E4095`, which has no name."""
    return str(NUMBERS[error] if error in NUMBERS else int(error[1:]))


def answer(text: str) -> str:
    """What was answered."""
    if text.startswith("-1 "):
        return f"Err {refused(text.removeprefix('-1 '))}"
    served = SERVED.fullmatch(text)
    if served:
        lo, hi, *letters, sharing, index = served.groups()
        pages = f"{int(lo, 16) // PAGE} {int(hi, 16) // PAGE}"
        return f"Ok (Serves {pages} {rights(''.join(letters))} {boolean(sharing == 's')} {index})"
    if text in SIGNALS:
        return f"Ok (Signal {SIGNALS[text]})"
    if text.startswith("child "):
        return "Ok (Returned 0)"
    try:
        return f"Ok (Returned {int(text, 16)})"
    except ValueError:
        raise Unsayable(text) from None


def file_number(trace: Trace, device: str, inode: int, name: str) -> int:
    """The number of the object that a line of the list names."""
    if name == "/dev/zero (deleted)":
        return inode
    found = [
        number
        for number, file in enumerate(trace.files, 1)
        if (f"{file.major:02x}:{file.minor:02x}", file.inode, file.name) == (device, inode, name)
    ]
    if len(found) != 1:
        raise Unsayable(name)
    return found[0]


def maps_line(trace: Trace, text: str) -> str:
    """A line of the list."""
    found = AREA.fullmatch(text)
    if not found:
        raise Unsayable(text)
    lo, hi, permissions, offset, device, inode, name = found.groups()
    front = f"{int(lo, 16) // PAGE} {int(hi, 16) // PAGE} {rights(permissions)}"
    is_shared = permissions.endswith("s")
    if name in ("", "[heap]") and not is_shared:
        return f"{'heap' if name else 'plain'} {front}"
    return f"filed {front} {boolean(is_shared)} {int(offset, 16)} {file_number(trace, device, int(inode), name)}"


def file_row(file: File) -> str:
    return f"file_row {file.descriptor} {boolean('r' in file.mode)} {boolean('w' in file.mode)} {file.size}"
