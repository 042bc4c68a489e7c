"""A trace in the making: its settings, its operations, what the kernel answered, and what was left out."""

import os
import re
from collections import Counter
from collections.abc import Callable, Iterator
from dataclasses import dataclass

from ..console import Failure
from ..traces import LIMITS, MAP, MREMAP, PAGE, PROT
from .areas import OF_KERNEL, USER_END, Area
from .files import Identity, Opening, descriptor_of
from .log import Call
from .order import is_aligned, is_moved, is_moved_aligned, is_placed
from .processes import CALLS, Change, Space

DEFAULT_TOP = 0x7FFFF7FFF000
ERRORS = set("EINVAL ENOMEM EBADF EACCES EEXIST EPERM EOVERFLOW EFAULT".split())  # those that the program answers
MAP_TYPE, MAP_SHARED_VALIDATE, MAP_DROPPABLE = 0xF, 0x3, 0x8
PLACING = {"MAP_32BIT", "MAP_HUGETLB"}  # flags without a word, by which the kernel looks for room elsewhere
MAP_BITS = {
    "MAP_32BIT": 0x40,
    "MAP_LOCKED": 0x2000,
    "MAP_NONBLOCK": 0x10000,
    "MAP_HUGETLB": 0x40000,
    "MAP_SYNC": 0x80000,
}
# What is taken off and changes neither whether a call fails nor where it maps.
NO_REASON = {"MAP_SHARED_VALIDATE (MAP_SHARED is written)", "MAP_DROPPABLE (MAP_PRIVATE is written)"}


@dataclass(frozen=True)
class Choices:
    """What the command line says of each trace."""

    hints: bool = False
    places: bool = False
    elsewhere: bool = False
    as_returned: bool = False
    most: int | None = None


@dataclass
class Operation:
    """An operation of a trace, and the call of the log that it is."""

    thread: int
    text: str
    answer: str
    begin: int = 0
    end: int = 0
    pid: int = 0
    fork: Space | None = None  # the space that a fork begins; `text` is empty where no line does it


class NoLine(Exception):
    """A call that is no line of a trace, and why."""


def number_in(word: str) -> int:
    """A number as strace writes one, and as a trace has it."""
    word = re.sub(r"/\*.*?\*/", "", word).strip()
    if word == "NULL":
        return 0
    if re.fullmatch(r"0x[0-9a-fA-F]{1,16}|[0-9]{1,20}", word):
        value = int(word, 16 if word.startswith("0x") else 10)
        if value < 2**64:
            return value
    if re.fullmatch(r"-\d{1,19}", word):
        return int(word) + 2**64
    raise ValueError(word)


def hexadecimal(value: int) -> str:
    return hex(value) if value else "0"


def answer_of(call: Call) -> str:
    """What the kernel answered, in the form of an output."""
    words = call.result.split()
    if words[0] == "-1":
        error = words[1] if len(words) > 1 else "an error"
        if error not in ERRORS:
            raise NoLine(f"{call.name} that failed with {error}")
        return f"-1 {error}"
    return hexadecimal(int(words[0], 0))


def printable(text: str) -> str:
    """A name as a trace has it: in one line, and with a byte that is no UTF-8 by its number."""
    data = text.replace("\n", "\\012").encode("utf-8", "surrogateescape")
    shown = data.decode("utf-8", "surrogateescape")
    return "".join(f"\\{ord(one) - 0xDC00:03o}" if 0xDC80 <= ord(one) <= 0xDCFF else one for one in shown)


@dataclass
class Flags:
    """Flags by their names in a trace, and what was taken off."""

    names: list[str]
    taken: list[str]
    empty: str = "0"

    def __str__(self) -> str:
        return "|".join(self.names) or self.empty

    def bits(self, table: dict[str, int]) -> int:
        return sum(table[name] for name in self.names)


def flags_in(word: str, table: dict[str, int], where: str) -> Flags:
    """The flags that a trace may name; the others are taken off."""
    names: list[str] = []
    taken: list[str] = []
    number = 0
    for piece in re.sub(r"/\*.*?\*/", "", word).replace(" ", "").split("|"):
        if re.fullmatch(r"0x[0-9a-fA-F]+|\d+", piece):
            number |= int(piece, 0)
        elif piece in ("MAP_SHARED_VALIDATE", "MAP_DROPPABLE"):
            number |= MAP_SHARED_VALIDATE if piece == "MAP_SHARED_VALIDATE" else MAP_DROPPABLE
        elif piece in table:
            names.append(piece)
        elif piece not in ("PROT_NONE", "MAP_FILE", ""):
            taken.append(piece)
    if table is MAP:
        number = without_type(number, names, taken)
    names += [name for name, bit in table.items() if number & bit and name not in names]
    if number & ~sum(table.values()):
        taken.append(f"{hex(number & ~sum(table.values()))} of {where}")
    return Flags(list(dict.fromkeys(names)), taken, "PROT_NONE" if table is PROT else "0")


def without_type(number: int, names: list[str], taken: list[str]) -> int:
    """The rest of a number of mmap's flags, whose sharing and unknown flags are named."""
    kind = number & MAP_TYPE
    if kind == MAP_SHARED_VALIDATE:
        names.insert(0, "MAP_SHARED")
        taken.append("MAP_SHARED_VALIDATE (MAP_SHARED is written)")
    elif kind == MAP_DROPPABLE:
        names.insert(0, "MAP_PRIVATE")
        taken.append("MAP_DROPPABLE (MAP_PRIVATE is written)")
    if kind in (MAP_SHARED_VALIDATE, MAP_DROPPABLE):
        number &= ~MAP_TYPE
    for name, bit in MAP_BITS.items():
        if number & bit:
            taken.append(name)
            number &= ~bit
    return number


class Trace:
    """A trace in the making."""

    def __init__(self, choices: Choices, known: dict[str, list[Opening]], title: str) -> None:
        self.choices, self.known, self.title = choices, known, title
        self.files: list[Opening] = []
        self.numbers: dict[int, int] = {}  # the descriptor of each opening
        self.of_maps: list[Operation] = []
        self.steps: list[Operation] = []
        self.of_children: list[tuple[str, list[Operation]]] = []
        self.threads: dict[int, int] = {}
        self.ended: set[int] = set()
        self.beginning = "The areas that stood there after the execve:"
        self.top: int | None = None
        self.heap: int | None = None
        self.hints = self.moved = self.shift = 0
        self.different: int | None = None  # how many calls no order explains
        self.is_bounded = False
        self.taken_off, self.left_out = Counter[str](), Counter[str]()
        self.held: list[str] = []  # areas of the kernel's whose place is held by plain memory

    def operations(self) -> Iterator[Operation]:
        yield from self.of_maps
        yield from self.steps
        for _, operations in self.of_children:
            yield from operations

    @property
    def count(self) -> int:
        """How many operations there are, or a few more."""
        return len(self.of_maps) + len(self.steps) + sum(len(operations) for _, operations in self.of_children)

    # Files

    def file(self, opening: Opening, end: int) -> int:
        """The number of an opening, which it gets when it is first mapped."""
        opening.reach = max(opening.reach, end)
        if id(opening) not in self.numbers:
            if len(self.files) == LIMITS["files"]:
                raise Failure(f"more than {LIMITS['files']} openings are mapped")
            self.numbers[id(opening)] = 3 + len(self.files)
            self.files.append(opening)
        return self.numbers[id(opening)]

    def complete(self, opening: Opening) -> None:
        """Takes what the log does not say of a file from elsewhere in it or the maps, from the file system, or from its use."""
        opening.settle(self.choices.elsewhere)
        for other in self.known.get(opening.path, []):
            if opening.size is None and other.size is not None:
                opening.learns_size(other.size, other.told["size"])
            if opening.identity is None and other.identity is not None:
                opening.learns_identity(other.identity, other.told["identity"])
        if (opening.size is None or opening.identity is None) and not self.choices.elsewhere:
            learn_here(opening)
        if opening.size is None or opening.told["size"] == "mappings":
            opening.learns_size(opening.reach, "mappings")
        if opening.identity is None:
            opening.learns_identity((0, 0, 0), "nowhere")

    def file_line(self, opening: Opening) -> str:
        major, minor, inode = opening.identity or (0, 0, 0)
        front = (
            f"file {self.numbers[id(opening)]} {opening.mode_word()} {opening.size} {major:02x}:{minor:02x} {inode} "
        )
        name = printable(opening.path.lstrip(" \t")).encode("utf-8", "replace") or b"?"
        return front + name[: LIMITS["line"] - len(front)].decode("utf-8", "ignore")

    # Calls

    def thread(self, pid: int) -> int:
        """The number of a thread: as they appear; from the 65th on that of one that has ended."""
        if pid not in self.threads:
            if len(self.threads) < LIMITS["threads"]:
                self.threads[pid] = len(self.threads)
            else:
                over = [old for old in self.threads if old in self.ended and old != pid]
                self.left_out["a thread of its own, from the 65th on"] += 1
                self.threads[pid] = self.threads[over[0]] if over else LIMITS["threads"] - 1
                if over:
                    self.ended.discard(over[0])
        return self.threads[pid]

    def check_room(self) -> None:
        if self.count >= LIMITS["operations"]:
            raise Failure(f"there are more than {LIMITS['operations']} operations: give --most")

    def call(self, change: Change) -> None:
        """One call of the log, as a line."""
        text, answer = self.line(change)
        if text:
            self.check_room()
            call = change.call
            self.steps.append(Operation(self.thread(call.pid), text, answer, call.begin, call.end, call.pid))

    def line(self, change: Change) -> tuple[str | None, str]:
        """The line of a call without its thread, or none, and what the kernel answered. Why there is none is counted."""
        call = change.call
        try:
            answer = answer_of(call)
            writer: Callable[[Change, str], str] = getattr(self, CALLS[call.name])
            return writer(change, answer), answer
        except NoLine as why:
            self.left_out[str(why)] += 1
        except (ValueError, IndexError):
            self.left_out[f"{call.name} with a word that is no number"] += 1
        return None, ""

    def take_off(self, change: Change, answer: str, *flags: Flags) -> None:
        """Counts what was taken off of a call. One that failed is left out, as it may have failed by just that."""
        taken = [name for each in flags for name in each.taken]
        reasons = [name for name in taken if name not in NO_REASON]
        if answer.startswith("-1") and reasons:
            error, what = answer.split()[1], ", ".join(reasons)
            raise NoLine(f"{change.call.name} that failed with {error}, and has {what}, for which a trace has no word:")
        self.taken_off.update(taken)

    def mmap(self, change: Change, answer: str) -> str:
        words, opening = change.words, change.opening
        address, length, offset = number_in(words[0]), number_in(words[1]), number_in(words[5])
        if change.call.name == "mmap2" and words[2].startswith("0x") and words[4].startswith("0x"):
            offset *= PAGE  # as -e raw=all has it
        flags, prot = flags_in(words[3], MAP, "mmap"), flags_in(words[2], PROT, "a protection")
        self.take_off(change, answer, flags, prot)
        descriptor = -1
        if "MAP_ANONYMOUS" not in flags.names:
            descriptor = self.mapped(words[4], opening, answer, offset + length, flags, prot)
        arguments = [address, length, 0, flags.bits(MAP), descriptor, offset]
        if is_placed(arguments, answer) and not (address and address == int(answer, 16)):
            is_wanted = self.choices.places or (self.choices.hints and is_aligned(arguments, answer))
            if is_wanted or PLACING & set(flags.taken):
                address, self.hints = int(answer, 16), self.hints + 1
        return f"mmap {hexadecimal(address)} {length} {prot} {flags} {descriptor} {hexadecimal(offset)}"

    def mapped(self, word: str, opening: Opening | None, answer: str, end: int, flags: Flags, prot: Flags) -> int:
        """The descriptor of the file that an mmap maps."""
        failed = answer.startswith("-1")
        if answer == "-1 EBADF" or (opening is None and failed):
            return -1
        if opening is None:
            opening = Opening(f"/not-opened-in-the-log/{descriptor_of(word)[0]}", None)
            self.left_out[
                "the opening of a file that is mapped, which the log does not show (one with no name stands in)"
            ] += 1
        if answer == "-1 EACCES" and "MAP_SHARED" in flags.names and "PROT_WRITE" in prot.names:
            opening.was_denied = True
        return self.file(opening, end)

    def munmap(self, change: Change, _answer: str) -> str:
        return f"munmap {hexadecimal(number_in(change.words[0]))} {number_in(change.words[1])}"

    def mprotect(self, change: Change, answer: str) -> str:
        words = change.words
        prot = flags_in(words[2], PROT, "a protection")
        key = words[3] if len(words) > 3 else "0"
        if key not in ("-1", "0", "0xffffffff", "0xffffffffffffffff"):
            prot.taken.append("the key of pkey_mprotect")
        self.take_off(change, answer, prot)
        return f"mprotect {hexadecimal(number_in(words[0]))} {number_in(words[1])} {prot}"

    def mremap(self, change: Change, answer: str) -> str:
        words = change.words
        flags = flags_in(words[3], MREMAP, "mremap")
        self.take_off(change, answer, flags)
        place = number_in(words[4]) if "MREMAP_FIXED" in flags.names else None
        arguments = [*(number_in(word) for word in words[:3]), flags.bits(MREMAP)]
        is_wanted = self.choices.places and is_moved(arguments, answer)
        if is_wanted or (self.choices.hints and is_moved_aligned(arguments, answer)):
            flags.names.append("MREMAP_FIXED")
            place, self.hints = int(answer, 16), self.hints + 1
        text = f"mremap {hexadecimal(arguments[0])} {arguments[1]} {arguments[2]} {flags}"
        return text if place is None else f"{text} {hexadecimal(place)}"

    def mseal(self, change: Change, _answer: str) -> str:
        words = change.words
        return f"mseal {hexadecimal(number_in(words[0]))} {number_in(words[1])} {number_in(words[2])}"

    def brk(self, change: Change, answer: str) -> str:
        """The first brk tells where the heap begins, as a program asks for it by brk(NULL)."""
        address = number_in(change.words[0])
        if self.heap is None and (address != 0 or not self.begins_heap(int(answer, 16))):
            raise NoLine("brk, as the log does not tell where the heap begins")
        return f"brk {hexadecimal(address)}"

    def begins_heap(self, address: int) -> bool:
        if address % PAGE or not PAGE <= address <= USER_END:
            return False
        self.heap = address
        return True

    # The areas at the beginning

    def begin_with(self, areas: list[Area], heap: int | None, first_break: int | None) -> None:
        """Lines that map the areas of a list, and what the settings have to say for them."""
        openings: dict[tuple[Identity, str], Opening] = {}
        if heap is not None and first_break is not None and self.begins_heap(heap):
            self.begin_heap([area for area in areas if is_in_heap(area, heap, first_break)], heap, first_break)
        for area in areas:
            if area.hi > USER_END:
                self.left_out[f"the area {area.name or 'above user memory'}, which lies above user memory"] += 1
            elif area.name in OF_KERNEL and area.lo >= (self.top or DEFAULT_TOP):
                self.left_out[f"the area {area.name}, which lies where no search for room comes"] += 1
            elif first_break is None or not is_in_heap(area, heap, first_break):
                self.held += [area.name] * (area.name in OF_KERNEL)
                self.area(area, openings)
        for area in areas:
            if area.sealed:
                self.place(f"mseal {hex(area.lo)} {area.hi - area.lo} 0", "0")

    def begin_heap(self, heap: list[Area], start: int, end: int) -> None:
        """The heap up to the break; pages of it that are unmapped or have another protection have lines of their own."""
        if end > start:
            self.place(f"brk {hex(end)}", hex(end))
        for area in heap:
            if start < area.lo:
                self.place(f"munmap {hex(start)} {area.lo - start}", "0")
            if area.perms != "rw-p":
                self.place(f"mprotect {hex(area.lo)} {area.hi - area.lo} {prot_of(area)}", "0")
            start = area.hi
        end = -(-end // PAGE) * PAGE
        if start < end:
            self.place(f"munmap {hex(start)} {end - start}", "0")

    def place(self, text: str, answer: str) -> None:
        self.of_maps.append(Operation(0, text, answer))

    def area(self, area: Area, openings: dict[tuple[Identity, str], Opening]) -> None:
        sharing = "MAP_SHARED" if area.perms[3] == "s" else "MAP_PRIVATE"
        descriptor, more, offset = -1, "|MAP_ANONYMOUS", 0
        if area.opening:
            descriptor, more, offset = self.file(area.opening, area.offset + area.hi - area.lo), "", area.offset
        elif area.is_file:
            identity = (area.major, area.minor, area.inode)
            if (identity, area.name) not in openings:
                opening = openings[identity, area.name] = Opening(area.name, "r")
                opening.learns_identity(identity, "maps")
            opening = openings[identity, area.name]
            if sharing == "MAP_SHARED" and "w" in area.perms:
                opening.mode = "rw"
            descriptor, more, offset = self.file(opening, area.offset + area.hi - area.lo), "", area.offset
        elif area.grows:
            more += "|MAP_GROWSDOWN"
        elif sharing == "MAP_SHARED" and area.offset:
            self.left_out["the beginning of shared memory, of which another part is mapped"] += 1
        self.place(
            f"mmap {hex(area.lo)} {area.hi - area.lo} {prot_of(area)} {sharing}|MAP_FIXED{more} {descriptor} "
            f"{hexadecimal(offset)}",
            hex(area.lo),
        )

    # The text

    def text(self) -> str:
        for opening in self.files:
            self.complete(opening)
        settings = [f"# {printable(self.title)[:1000]}"]
        if self.top not in (None, DEFAULT_TOP):
            settings.append(f"top {hex(self.top or 0)}")
        if self.heap is not None:
            settings.append(f"heap {hex(self.heap)}")
        settings += [self.file_line(opening) for opening in self.files]
        settings += [f"# {line}" for line in self.sources()]
        self.shift = 1 + len(settings)
        return "".join(line + "\n" for line in ["vmatrace 1", *settings, *self.body()])

    def body(self) -> Iterator[str]:
        if self.of_maps:
            yield f"# {self.beginning}"
            yield from (f"{operation.thread} {operation.text}" for operation in self.of_maps)
            yield "# What the program did then:"
        yield from (f"{operation.thread} {operation.text}" for operation in self.steps if operation.text)
        for title, operations in self.of_children:
            yield f"# {title}"
            yield from (f"{operation.thread} {operation.text}" for operation in operations)

    def replies(self) -> str:
        """What the kernel answered, as `serial` writes the results: those of the parent, and then those of each child."""
        lines: list[str] = []
        place = self.shift
        parent = [*self.of_maps, *(operation for operation in self.steps if operation.text)]
        for at, operations in enumerate([parent, *(operations for _, operations in self.of_children)]):
            version, place = 0, place + bool(at or self.of_maps)
            for number, operation in enumerate(operations):
                place += 1 + (not at and bool(self.of_maps) and number == len(self.of_maps))
                version += not operation.text.startswith("fork ")
                lines.append(f"L{place} t{operation.thread} v{version} = {operation.answer}\n")
        return "".join(lines)

    def sources(self) -> Iterator[str]:
        """From where sizes, devices and inodes are, other than the log."""
        names = {
            "maps": "from the maps",
            "file system": "from the file system",
            "mappings": "not known, as far as they are mapped",
            "nowhere": "not known, written as 0",
        }
        for what, title in {"size": "Sizes", "identity": "Devices and inodes"}.items():
            for source, name in names.items():
                numbers = [str(self.numbers[id(one)]) for one in self.files if one.told[what] == source]
                if numbers:
                    shown = " ".join(numbers[:40]) + (" .." if len(numbers) > 40 else "")
                    yield f"{title} of {'file' if len(numbers) == 1 else 'files'} {shown}: {name}"


def learn_here(opening: Opening) -> None:
    """What the file system of this machine says of a file of that name."""
    try:
        if not opening.path.startswith("/"):
            return
        stat = os.stat(os.fsencode(opening.path))
    except (OSError, ValueError):
        return
    if opening.size is None:
        opening.learns_size(stat.st_size, "file system")
    if opening.identity is None:
        opening.learns_identity((os.major(stat.st_dev), os.minor(stat.st_dev), stat.st_ino), "file system")


def prot_of(area: Area) -> str:
    return "|".join(name for name, letter in zip(PROT, area.perms) if letter != "-") or "PROT_NONE"


def is_in_heap(area: Area, heap: int | None, end: int | None) -> bool:
    return (
        area.name == "[heap]" and heap is not None and end is not None and heap <= area.lo and area.hi <= end + PAGE - 1
    )
