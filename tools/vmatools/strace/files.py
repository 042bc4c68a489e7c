"""What a log says of files: what each descriptor was opened for, and what is known of it."""

import os
import re
from dataclasses import dataclass, field

from .log import Call, split_arguments, unescaped

Identity = tuple[int, int, int]  # major, minor, inode
FLAG_CLOEXEC = 4  # of close_range
OPENS = {"open", "openat", "openat2", "creat", "memfd_create", "memfd_secret"}
COPIES = {"dup", "dup2", "dup3"}


@dataclass
class Opening:
    """One opening of a file. `told` is from where each of size and identity is known. Where no line of the log has the opening,
    `mode` is none, and what was done with it decides."""

    path: str
    mode: str | None = "r"
    directory: str | None = None  # where `path` is a name that has to be looked up
    size: int | None = None
    identity: Identity | None = None
    told: dict[str, str] = field(default_factory=dict)
    number: int | None = None
    reach: int = 0  # the end of what is mapped of it
    was_denied: bool = False

    def learns_size(self, size: int, source: str) -> None:
        self.size, self.told["size"] = size, source

    def learns_identity(self, identity: Identity, source: str) -> None:
        self.identity, self.told["identity"] = identity, source

    def settle(self, elsewhere: bool) -> None:
        """Makes the name one as the kernel's list has it: absolute and without links, where the file is here."""
        if self.directory is None:
            return
        directory, self.directory = self.directory, None
        if not self.path.startswith("/"):
            self.path = os.path.join(directory or os.getcwd(), self.path)
        if not elsewhere and os.path.exists(self.path):
            self.path = os.path.realpath(self.path)

    def mode_word(self) -> str:
        """The mode in a trace. Of an opening that is not in the log, what succeeded was allowed."""
        return self.mode or ("r" if self.was_denied else "rw")


DESCRIPTOR = re.compile(
    r"(-?\d+|0x[0-9a-f]{1,16})(?:<(.*?)(?:<(?:char|block) [^>]*>)?>(\(deleted\))?)?(?: .*)?$", re.DOTALL
)


def number_in(digits: str) -> int:
    """The number of these digits, which are hexadecimal behind `0x`, and else decimal, whatever zeros are in front."""
    return int(digits, 16 if digits.startswith("0x") else 10)


def descriptor_of(word: str) -> tuple[int | None, str | None]:
    """A descriptor's number, and its name where -y or -yy wrote one."""
    found = DESCRIPTOR.match(word)
    if found is None:
        return None, None
    number = number_in(found[1])
    if found[1].startswith("0x") and number >= 2**31:  # as -e raw=all writes -1
        number = (number & 0xFFFFFFFF) - 2**32
    name = unescaped(found[2]) + (" (deleted)" if found[3] else "") if found[2] is not None else None
    return number, name


class Descriptors:
    """The descriptors of one process, or of several that share them."""

    def __init__(self, table: dict[int, Opening] | None = None) -> None:
        self.table = dict(table or {})

    def opened(self, word: str, opening: Opening) -> None:
        number, name = descriptor_of(word)
        if number is not None and number >= 0:
            if name is not None:
                opening.path, opening.directory = name, None
            self.table[number] = opening

    def at(self, word: str) -> Opening | None:
        """The opening behind a descriptor, and what -y says of it where no line tells of the opening."""
        number, name = descriptor_of(word)
        if number is None:
            return None
        if number not in self.table and name is not None and number >= 0:
            self.table[number] = Opening(name, None)
        return self.table.get(number)


def quoted(word: str) -> str | None:
    """The text of a string; none for a pointer, as -e raw=all writes one."""
    return unescaped(word[1 : word.rfind('"')]) if word.startswith('"') and word.count('"') > 1 else None


def mode_of(flags: str) -> str:
    number = re.match(r"(?:0x[0-9a-f]+|0[0-7]*|\d+)\b", flags)
    if number:
        text = number[0]
        value = int(text, 16 if text.startswith("0x") else 8 if text.startswith("0") else 10)
        return ("r", "w", "rw", "rw")[value & 3]
    return "rw" if "O_RDWR" in flags else "w" if "O_WRONLY" in flags else "r"


def named_opening(word: str, mode: str, directory: str = "") -> Opening:
    base = re.search(r"<(.*)>", directory)
    name = quoted(word)
    if name is None:
        return Opening(f"/not-named-in-the-log/{word}", mode)
    return Opening(name, mode, unescaped(base[1]) if base else "")


def opening_of(name: str, words: list[str]) -> Opening:
    """What a call opens that succeeded."""
    if name in ("open", "creat"):
        return named_opening(words[0], "w" if name == "creat" else mode_of(words[1]))
    if name in ("openat", "openat2"):
        return named_opening(words[1], mode_of(words[2].removeprefix("{flags=")), words[0])
    path = f"/memfd:{quoted(words[0]) or ''} (deleted)" if name == "memfd_create" else "/secretmem (deleted)"
    opening = Opening(path, "rw")
    opening.learns_size(0, "log")
    return opening


def number_word(word: str) -> int | None:
    found = re.fullmatch("0x[0-9a-f]{1,16}|[0-9]{1,18}", word.split(" ")[0])
    return number_in(found[0]) if found else None


def follow_descriptor(call: Call, files: Descriptors) -> None:
    """What a call says of descriptors: which it opens, closes and copies, and what it tells of a file."""
    name = call.name
    if call.result.startswith("-1"):
        return
    if name in ("newfstatat", "statx") and '""' not in call.text:
        return  # of a name and no descriptor
    if name not in FOLLOWED:
        return
    words = split_arguments(call.text)
    if len(words) < FEWEST_WORDS.get(name, 1):
        return
    if name in OPENS:
        files.opened(call.result, opening_of(name, words))
    elif name in COPIES or (name == "fcntl" and len(words) > 1 and words[1].startswith("F_DUPFD")):
        opening, number = files.at(words[0]), descriptor_of(call.result)[0]
        if opening and number is not None:
            files.table[number] = opening
    elif name == "close":
        number = descriptor_of(words[0])[0]
        if number is not None:
            files.table.pop(number, None)
    elif name == "close_range":
        close_range(words, files)
    elif name == "ftruncate":
        opening, size = files.at(words[0]), number_word(words[1])
        if opening and size is not None:
            opening.learns_size(size, "log")
    elif name != "fcntl":
        learn_from_stat(files.at(words[0]), call.text)


FEWEST_WORDS = {"open": 2, "openat": 3, "openat2": 3, "close_range": 2, "ftruncate": 2}
FOLLOWED = OPENS | COPIES | {"fcntl", "close", "close_range", "ftruncate", "fstat", "fstat64", "newfstatat", "statx"}


def close_range(words: list[str], files: Descriptors) -> None:
    """Closes a range of descriptors, unless it only marks them to be closed by an execve."""
    flags = number_word(words[2]) if len(words) > 2 else 0
    if flags is None and "CLOSE_RANGE_CLOEXEC" in words[2] or flags and flags & FLAG_CLOEXEC:
        return
    first, last = number_word(words[0]), number_word(words[1])
    for number in list(files.table):
        if (first or 0) <= number <= (2**32 if last is None else last):
            del files.table[number]


SIZE = re.compile(r"\bstx?_size=([0-9]{1,18})\b")
NUMBER = "(0x[0-9a-f]+|[0-9]+)"
DEVICE = re.compile(rf"\bst_dev=makedev\({NUMBER}, {NUMBER}\)|stx_dev_major={NUMBER}, stx_dev_minor={NUMBER}\b")
INODE = re.compile(r"\bstx?_ino=(\d+)")


def learn_from_stat(opening: Opening | None, text: str) -> None:
    """Size, device and inode, as far as fstat, newfstatat or statx show them."""
    if opening is None:
        return
    size, device, inode = SIZE.search(text), DEVICE.search(text), INODE.search(text)
    if size:
        opening.learns_size(int(size[1]), "log")
    if device and inode:
        major, minor = (number_in(word) for word in device.groups() if word is not None)
        opening.learns_identity((major, minor, int(inode[1])), "log")
