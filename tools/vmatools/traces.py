"""Traces as docs/TRACE.md has them: read with the cause and the word of the first bad line, and written.

It is written from docs/TRACE.md alone, and has nothing of the program's code.
"""
from __future__ import annotations

import io
import re
from collections.abc import Callable, Iterable, Iterator
from functools import cached_property, lru_cache, partial
from typing import Any, NamedTuple, Union

PAGE = 4096
USER_PAGES = {1: 0x7FFFFFFFF, 2: 0xFFFFFFFFFFF}  # by version, the page at which user memory ends
LIMITS = {
    "bytes": 67_108_864,
    "line": 4_096,
    "threads": 64,
    "operations": 1_000_000,
    "maps": 64,
    "forks": 8,
    "notes": 1_000,
    "files": 1_024,
}
MOST_AREAS = 65_530
MOST_DESCRIPTOR = 2**31 - 1
MOST_SIZE = 2**63 - 1
MOST_NUMBER = 2**64 - 1

PROT = {"PROT_READ": 1, "PROT_WRITE": 2, "PROT_EXEC": 4}
MAP = {
    "MAP_SHARED": 0x1,
    "MAP_PRIVATE": 0x2,
    "MAP_ANONYMOUS": 0x20,
    "MAP_FIXED": 0x10,
    "MAP_GROWSDOWN": 0x100,
    "MAP_DENYWRITE": 0x800,
    "MAP_EXECUTABLE": 0x1000,
    "MAP_NORESERVE": 0x4000,
    "MAP_POPULATE": 0x8000,
    "MAP_STACK": 0x20000,
    "MAP_FIXED_NOREPLACE": 0x100000,
}
MREMAP = {"MREMAP_MAYMOVE": 1, "MREMAP_FIXED": 2, "MREMAP_DONTUNMAP": 4}
TABLES = {"PROT": PROT, "MAP": MAP, "MREMAP": MREMAP}

# The words behind the name of an operation. NEW of mremap may be left out.
FORMS: dict[str, list[str]] = {
    "mmap": ["ADDR", "LEN", "PROT", "MAP", "MAPPED_FD", "OFF"],
    "munmap": ["ADDR", "LEN"],
    "mprotect": ["ADDR", "LEN", "PROT"],
    "mremap": ["OLD", "OLDLEN", "NEWLEN", "MREMAP", "NEW"],
    "brk": ["ADDR"],
    "mseal": ["ADDR", "LEN", "SEAL_FLAGS"],
    "fault": ["ADDR", "ACCESS"],
    "maps": [],
    "fork": ["C"],
}
CALLS = ("mmap", "munmap", "mprotect", "mremap", "brk", "mseal")
SETTINGS: dict[str, list[str]] = {
    "limit": ["areas", "N"],
    "top": ["BOUND"],
    "min": ["BOUND"],
    "heap": ["BOUND"],
    "file": ["FD", "MODE", "SIZE", "MAJ:MIN", "INODE", "PATH"],
}
RANGES = {"N": (1, MOST_AREAS), "FD": (0, MOST_DESCRIPTOR), "SIZE": (0, MOST_SIZE)}  # of other numbers: below 2^64
LETTERS: dict[str, tuple[str, ...]] = {"ACCESS": ("r", "w", "x"), "MODE": ("r", "w", "rw"), "areas": ("areas",)}

CAUSES = {
    "Header": 1,
    "TooLong": 2,
    "Word": 3,
    "Number": 4,
    "Flag": 5,
    "Arity": 6,
    "Thread": 7,
    "TooMany": 8,
    "FileTwice": 9,
    "Utf8": 10,
    "NoEnd": 11,
    "After": 13,
    "Child": 14,
}

# What a trace is read from: its bytes, or a file.
Source = Union[bytes, io.BufferedIOBase]


class File(NamedTuple):
    """A file of a trace, by the descriptor under which it is open."""

    descriptor: int
    mode: str
    size: int
    major: int
    minor: int
    inode: int
    name: str


class Line(NamedTuple):
    """An operation. Its arguments are numbers, those of flags their bits, and an access its letter; `after`: a line."""

    number: int
    thread: int
    word: str
    arguments: list[Any]
    after: int | None


class Trace:
    """A trace: its version, what is set (`limit`, `top`, `min` and `heap`, in bytes), its files and its operations."""

    def __init__(
        self,
        version: int = 1,
        settings: dict[str, int] | None = None,
        files: Iterable[File] = (),
        lines: Iterable[Line] = (),
    ) -> None:
        self.version, self.settings, self.files, self.lines = version, dict(settings or {}), list(files), list(lines)

    def with_lines(self, lines: Iterable[Line]) -> Trace:
        return Trace(self.version, self.settings, self.files, lines)

    def numbered(self) -> Trace:
        """The same trace with the numbers that its lines have in `text`. A line that names one not there names none."""
        numbered = list(enumerate(self.lines, 2 + len(self.settings) + len(self.files)))
        numbers: dict[int | None, int] = {line.number: number for number, line in numbered}
        return self.with_lines(
            Line(number, line.thread, line.word, line.arguments, line.after and numbers.get(line.after))
            for number, line in numbered
        )

    @cached_property
    def data(self) -> bytes:
        """The bytes of a trace that nobody changes from now on."""
        return self.text().encode()

    def text(self) -> str:
        settings = [
            f"limit areas {value}" if name == "limit" else f"{name} {value:#x}" for name, value in self.settings.items()
        ]
        files = [
            f"file {f.descriptor} {f.mode} {f.size} {f.major:x}:{f.minor:x} {f.inode} {f.name}" for f in self.files
        ]
        return "\n".join([f"vmatrace {self.version}", *settings, *files, *map(line_text, self.lines), ""])


def line_text(line: Line) -> str:
    words = operation_text(line.word, *line.arguments)
    return f"{line.thread} {words}" if line.after is None else f"{line.thread} {words} after={line.after}"


@lru_cache(maxsize=1 << 15)
def operation_text(word: str, *arguments: Any) -> str:
    return " ".join([word, *(TEXTS.get(kind, str)(value) for kind, value in zip(FORMS[word], arguments))])


def address_text(value: int) -> str:
    return hex(value) if value else "0"


@lru_cache(maxsize=4096)
def flags_text(kind: str, value: int) -> str:
    names = [name for name, bit in TABLES[kind].items() if value & bit]
    return "|".join(names) or ("PROT_NONE" if kind == "PROT" else "0")


# How the words of an operation are written that are no plain numbers or letters.
TEXTS: dict[str, Callable[[Any], str]] = {kind: partial(flags_text, kind) for kind in TABLES}
TEXTS |= {kind: address_text for kind in ("ADDR", "OLD", "NEW")}


class BadLine(Exception):
    """The first bad line: its number, its bytes (a beginning, where it is too long), the name of its cause, the number
    of the word that is wrong (from 1, or None), what kind of word or fact that is, and what else is known of it.
    """

    def __init__(self, cause: str, about: str, word: int | None = None, **facts: Any) -> None:
        super().__init__(cause, about)
        self.cause, self.about, self.word, self.facts = cause, about, word, facts
        self.line, self.raw = 1, b""

    def __str__(self) -> str:
        return f"line {self.line} cause {CAUSES[self.cause]} {self.cause}"


# Words


def words_of(text: str) -> list[str]:
    return re.findall("[^ \t]+", text)


def number_of(text: str, most: int = MOST_NUMBER) -> int | None:
    """The number that a text is, or None."""
    if not re.fullmatch("[0-9]{1,20}|0x[0-9a-fA-F]{1,16}", text):
        return None
    value = int(text, 16 if text.startswith("0x") else 10)
    return value if value <= most else None


def thread_of(text: str) -> int | None:
    is_one = re.fullmatch("[0-9]{1,20}", text) and int(text) < LIMITS["threads"]
    return int(text) if is_one else None


def flags_of(text: str, table: dict[str, int]) -> tuple[int, str | None]:
    """The bits of a text of flags, or the first name in it that is unknown or a second time there."""
    if text == "0" or table is PROT and text == "PROT_NONE":
        return 0, None
    names = text.split("|")
    for place, name in enumerate(names):
        if name not in table or name in names[:place]:
            return 0, name
    return sum(table[name] for name in names), None


def value_of(kind: str, text: str, word: int) -> Any:
    """What a word of this kind says."""
    if kind in TABLES:
        value, bad = flags_of(text, TABLES[kind])
        if bad is not None:
            raise BadLine("Flag", kind, word, name=bad)
        READ_FLAGS[kind][text] = value
        return value
    if kind in LETTERS:
        if text not in LETTERS[kind]:
            raise BadLine("Word", kind, word)
        return text
    number = number_value(kind, text)
    if number is None:
        raise BadLine("Number", kind, word)
    return number


def number_value(kind: str, text: str) -> int | tuple[int, ...] | None:
    if kind == "MAPPED_FD":
        return -1 if text == "-1" else number_of(text, MOST_DESCRIPTOR)
    if kind == "C":
        return thread_of(text)
    if kind == "MAJ:MIN":
        device = re.fullmatch("([0-9a-fA-F]{1,3}):([0-9a-fA-F]{1,5})", text)
        return tuple(int(half, 16) for half in device.groups()) if device else None
    value = number_of(text)
    if value is None:
        return None
    if kind == "BOUND":
        return value if PAGE <= value <= USER_PAGES[1] * PAGE and value % PAGE == 0 else None
    least, most = RANGES.get(kind, (0, MOST_NUMBER))
    return value if least <= value <= most else None


# Plain lines: operations with single blanks, whose words a pattern finds at once. All others are read word by word.

THREAD_WORD, NUMBER_WORD, FLAGS_WORD = "([0-9]|[1-5][0-9]|6[0-3])", "(0x[0-9a-fA-F]{1,16}|[0-9]{1,19})", "([A-Z_|]+)"
PLAIN_WORDS = {
    "PROT": FLAGS_WORD,
    "MAP": FLAGS_WORD,
    "MREMAP": "([A-Z_|0]+)",
    "MAPPED_FD": "(-1|[0-9]{1,9})",
    "ACCESS": "([rwx])",
}
MREMAP_IN_PLACE = {"0": 0, "MREMAP_MAYMOVE": 1}  # those without a new address
PLAIN_VALUES: dict[str, Callable[..., list[Any]]] = {
    "mmap": lambda address, length, prot, flags, descriptor, offset: [
        int(address, 0),
        int(length, 0),
        READ_FLAGS["PROT"][prot],
        READ_FLAGS["MAP"][flags],
        int(descriptor),
        int(offset, 0),
    ],
    "munmap": lambda address, length: [int(address, 0), int(length, 0)],
    "mprotect": lambda address, length, prot: [int(address, 0), int(length, 0), READ_FLAGS["PROT"][prot]],
    "mremap": lambda old, olds, news, flags: [int(old, 0), int(olds, 0), int(news, 0), MREMAP_IN_PLACE[flags]],
    "brk": lambda address: [int(address, 0)],
    "fault": lambda address, access: [int(address, 0), access],
}
PLAIN = {
    word: re.compile(
        " ".join([THREAD_WORD, word, *(PLAIN_WORDS.get(kind, NUMBER_WORD) for kind in FORMS[word] if kind != "NEW")])
    )
    for word in PLAIN_VALUES
}
READ_FLAGS: dict[str, dict[str, int]] = {kind: {} for kind in TABLES}  # the flags that were read so far, by their text
BLOCK = 1 << 20  # bytes that are read at once
# Behind a line: one that is a comment or empty, and one that is neither. So many bytes of comments are passed at once.
COMMENT, OTHER, LEAST_RUN = re.compile(b"\n[#\n]"), re.compile(b"\n[^#\n]"), 256


# Lines


def are_good(lines: bytes) -> bool:
    """Whether none of some whole lines is too long, and all are UTF-8."""
    at = 0
    while at < len(lines):
        at = lines.rfind(b"\n", at, at + LIMITS["line"] + 1) + 1
        if not at:
            return False
    try:
        return lines.isascii() or bool(lines.decode())
    except UnicodeDecodeError:
        return False


class Texts:
    """The lines of a source as texts, one by one, each after the three tests of its bytes; most comments are left out."""

    def __init__(self, source: Source) -> None:
        self.source = io.BytesIO(source) if isinstance(source, bytes) else source
        self.number, self.end, self.raw = 0, -1, b""

    def __iter__(self) -> Iterator[str]:
        for chunk in self.chunks():
            for raw in chunk.split(b"\n")[:-1]:
                text = self.text_of(raw)
                if text and text[0] != "#" or self.number == 1:
                    yield text

    def chunks(self) -> Iterator[bytes]:
        """The bytes of whole lines, which are to be read before the next ones, without long runs of comments."""
        rest = b""
        while block := self.source.read1(BLOCK):
            whole, newline, rest = (rest + block).rpartition(b"\n")
            yield from self.between_comments(whole + newline)
            if len(rest) > LIMITS["line"]:
                break
        if rest:
            self.text_of(rest, is_ended=False)
        if not self.number:
            self.number = 1
            raise BadLine("Header", "nothing")

    def between_comments(self, block: bytes) -> Iterator[bytes]:
        at = begin = 0
        while comment := COMMENT.search(block, begin):
            begin = comment.start() + 1
            other = OTHER.search(block, begin)
            next_begin = other.start() + 1 if other else len(block)
            room = at + LIMITS["bytes"] - self.end - 1
            end = block.rfind(b"\n", begin, min(next_begin, room)) + 1
            if end - begin >= LEAST_RUN and are_good(block[begin:end]):
                yield block[at:begin]
                self.pass_by(block[begin:end])
                at = end
            begin = next_begin
        if at < len(block):
            yield block[at:]

    def pass_by(self, lines: bytes) -> None:
        """Takes whole lines as read."""
        self.number += lines.count(b"\n")
        self.end += len(lines)

    def text_of(self, raw: bytes, is_ended: bool = True) -> str:
        self.raw = raw
        self.number += 1
        self.end += len(raw) + 1  # where its newline stands in the trace, or would
        if len(raw) > LIMITS["line"] or self.end >= LIMITS["bytes"]:
            about = "line" if len(raw) > LIMITS["line"] else "trace"
            raise BadLine("TooLong", about, length=len(raw) if is_ended else None)
        if not is_ended:
            raise BadLine("NoEnd", "end")
        try:
            return raw.decode()
        except UnicodeDecodeError as bad:
            raise BadLine("Utf8", "bytes", place=bad.start, byte=raw[bad.start]) from None


class Reader:
    """Reads the operations of a trace one by one, and knows what the lines above said."""

    def __init__(self, source: Source) -> None:
        self.texts = Texts(source)
        self.trace = Trace()  # without its operations
        self.first = 0  # the line of the first operation
        self.call_threads: dict[int, int] = {}  # of each call above, its thread by its number
        self.descriptors: dict[int, int] = {}  # of each file above, its line by its descriptor
        self.setting_lines: dict[str, int] = {}
        self.threads: dict[int, int] = {}  # of each above, the first line that has it
        self.children: dict[int, int] = {}
        self.counts = {"operations": 0, "maps": 0, "forks": 0, "notes": 0}

    def __iter__(self) -> Iterator[Line]:
        try:
            for text in self.texts:
                line = self.plain(text) or self.pass_line(text)
                if line:
                    yield line
        except BadLine as bad:
            bad.line, bad.raw = self.texts.number, self.texts.raw
            raise

    def plain(self, text: str) -> Line | None:
        """An operation of the plainest form, or none where the line has to be read word by word."""
        words = text.split(" ", 2)
        pattern = PLAIN.get(words[1]) if len(words) > 2 else None
        match = pattern and pattern.fullmatch(text)
        if not match or self.texts.number == 1 or self.counts["operations"] == LIMITS["operations"]:
            return None
        word = words[1]
        try:
            arguments = PLAIN_VALUES[word](*match.groups()[1:])
        except (KeyError, ValueError):  # flags that were not read before, or a number with zeros in front
            return None
        line = Line(self.texts.number, int(words[0]), word, arguments, None)
        self.counts["operations"] += 1
        self.add(line)
        return line

    def pass_line(self, text: str) -> Line | None:
        """Takes one line, without its newline. Returns its operation, if it is one."""
        words = words_of(text)
        if self.texts.number == 1:
            if words not in (["vmatrace", "1"], ["vmatrace", "2"]):
                raise BadLine("Header", "header")
            self.trace.version = int(words[1])
        elif words and "0" <= words[0][0] <= "9":
            return self.operation(words)
        elif words and not words[0].startswith("#"):
            self.setting(words, text)
        return None

    def operation(self, words: list[str]) -> Line:
        thread = thread_of(words[0])
        if thread is None:
            raise BadLine("Thread", "thread", 1)
        if len(words) == 1:
            raise BadLine("Arity", "no operation", 2)
        name, has_note = words[1], len(words) > 2 and words[-1].startswith("after=")
        if name not in FORMS:
            raise BadLine("Word", "operation", 2)
        arguments = self.arguments(name, words[2:-1] if has_note else words[2:])
        after = self.note(words, len(words)) if has_note else None
        if name == "mremap" and bool(arguments[3] & MREMAP["MREMAP_FIXED"]) != (len(arguments) == 5):
            raise BadLine("Arity", "NEW", 6 if len(arguments) == 4 else 7, given=len(arguments))
        line = Line(self.texts.number, thread, name, arguments, after)
        self.test_note(line, len(words))
        self.test_fork(line)
        self.count(line)
        self.add(line)
        return line

    @staticmethod
    def arguments(name: str, words: list[str]) -> list[Any]:
        form = FORMS[name]
        if len(words) != len(form) and not (name == "mremap" and len(words) == 4):
            raise BadLine("Arity", "operation", min(len(words), len(form)) + 3, name=name, given=len(words))
        return [value_of(kind, text, place) for place, (kind, text) in enumerate(zip(form, words), 3)]

    def note(self, words: list[str], place: int) -> int:
        text = words[-1].removeprefix("after=")
        if not re.fullmatch("[0-9]{1,20}", text) or int(text) > MOST_NUMBER:
            raise BadLine("Number", "after", place)
        return int(text)

    def test_note(self, line: Line, place: int) -> None:
        if line.after is None:
            return
        teller = self.call_threads.get(line.after)  # of the call above that has this number, if there is one
        is_told = teller not in (None, line.thread) and teller not in self.children and line.thread not in self.children
        if not is_told:
            raise BadLine("After", "after", place, line=line, teller=teller, children=self.children)

    def test_fork(self, line: Line) -> None:
        if line.word != "fork":
            return
        child = line.arguments[0]
        if line.thread in self.children:
            raise BadLine("Child", "forker", 1, forked=self.children[line.thread], thread=line.thread)
        if child == line.thread or child in self.threads or child in self.children:
            above = self.children.get(child, self.threads.get(child))
            raise BadLine("Child", "child", 3, child=child, above=None if child == line.thread else above)

    def count(self, line: Line) -> None:
        counted = (
            ("operations", True),
            ("maps", line.word == "maps"),
            ("forks", line.word == "fork"),
            ("notes", line.after is not None),
        )
        names = [name for name, is_one in counted if is_one]
        for name in names:
            if self.counts[name] == LIMITS[name]:
                raise BadLine("TooMany", name)
        for name in names:
            self.counts[name] += 1

    def add(self, line: Line) -> None:
        if line.thread not in self.threads:
            self.threads[line.thread] = line.number
            self.first = self.first or line.number
        if line.word in CALLS:
            self.call_threads[line.number] = line.thread
        if line.word == "fork":
            self.children[line.arguments[0]] = line.number

    def setting(self, words: list[str], text: str) -> None:
        name = words[0]
        if self.first:
            raise BadLine("Word", "setting below", 1, first=self.first)
        if name not in SETTINGS:
            raise BadLine("Word", "setting", 1)
        if name in self.setting_lines:
            raise BadLine("Word", "setting twice", 1, above=self.setting_lines[name])
        form, rest = SETTINGS[name], words[1:]
        if name == "limit" and rest:
            value_of("areas", rest[0], 2)
        if len(rest) != len(form) and not (name == "file" and len(rest) > len(form)):
            raise BadLine("Arity", "setting", min(len(rest), len(form)) + 2, name=name, given=len(rest))
        if name == "file":
            self.file(rest, text)
        else:
            self.setting_lines[name] = self.texts.number
            self.trace.settings[name] = value_of(form[-1], rest[-1], len(words))

    def file(self, rest: list[str], text: str) -> None:
        values = [value_of(kind, word, place) for place, (kind, word) in enumerate(zip(SETTINGS["file"][:5], rest), 2)]
        descriptor, mode, size, (major, minor), inode = values
        if descriptor in self.descriptors:
            raise BadLine("FileTwice", "file", 2, descriptor=descriptor, above=self.descriptors[descriptor])
        if len(self.trace.files) == LIMITS["files"]:
            raise BadLine("TooMany", "files")
        # The name goes on to the end of the line, blanks too.
        name = re.sub(r"[ \t]*(?:[^ \t]+[ \t]+){6}", "", text, count=1)
        self.descriptors[descriptor] = self.texts.number
        self.trace.files.append(File(descriptor, mode, size, major, minor, inode, name))


def read_trace(source: Source) -> Trace:
    """The trace that a source has. Raises BadLine at the first line that is bad, and reads no further."""
    reader = Reader(source)
    lines = list(reader)
    return reader.trace.with_lines(lines)
