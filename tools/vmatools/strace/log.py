"""What strace wrote, line by line: calls joined where others come between, the threads that ended, and signals."""

import errno
import re
from collections import Counter
from collections.abc import Iterator
from typing import NamedTuple

from ..console import Progress

FORKS = {"fork", "vfork", "clone", "clone2", "clone3"}


class Call(NamedTuple):
    """A call that returned: the lines of the log at which it began and ended, its thread, name, words and result."""

    begin: int
    end: int
    pid: int
    name: str
    text: str
    result: str


# Words


SIMPLE = {"n": b"\n", "t": b"\t", "r": b"\r", "v": b"\v", "f": b"\f", '"': b'"', "\\": b"\\"}
ESCAPE = re.compile(rb"\\(?:([0-7]{1,3})|x([0-9a-fA-F]{2})|(.))")


def unescaped(text: str) -> str:
    """The text that strace wrote with escapes. A byte that is no UTF-8 is a surrogate, as in names of the file system."""
    if "\\" not in text:
        return text

    def one(found: re.Match[bytes]) -> bytes:
        if found[1]:
            return bytes([int(found[1], 8) & 255])
        return bytes([int(found[2], 16)]) if found[2] else SIMPLE.get(found[3].decode("latin-1"), found[3])

    return ESCAPE.sub(one, text.encode("utf-8", "surrogateescape")).decode("utf-8", "surrogateescape")


def split_arguments(text: str) -> list[str]:
    """The arguments of a call, cut at the commas that are in no string, brackets or name of a descriptor."""
    parts: list[str] = []
    depth, begin, at = 0, 0, 0
    while at < len(text):
        letter = text[at]
        if letter == '"':
            at = end_of_string(text, at)
        elif text.startswith("/*", at):
            at = max(text.find("*/", at), at) + 1
        elif letter == "<" and at and (text[at - 1].isalnum()) and not text.startswith("<<", at):
            at = end_of_name(text, at)
        elif letter in "([{":
            depth += 1
        elif letter in ")]}":
            depth -= 1
        elif letter == "," and depth == 0:
            parts.append(text[begin:at].strip())
            begin = at + 1
        at += 1
    last = text[begin:].strip()
    return parts + [last] if last or parts else []


def end_of_string(text: str, at: int) -> int:
    at += 1
    while at < len(text) and text[at] != '"':
        at += 2 if text[at] == "\\" else 1
    return at


def end_of_name(text: str, at: int) -> int:
    """Where the name ends that -y puts behind a descriptor. A `>` in it is escaped; a device is in brackets of its own."""
    nested = 1
    while at + 1 < len(text) and nested:
        at += 1
        nested += {"<": 1, ">": -1 if text[at - 1] != "-" else 0}.get(text[at], 0)
    return at


# Lines. Before a call there may be its thread, the time of day, the time since the last call (-r), its number (-n), and where
# it was made (-i).

PREFIX = re.compile(
    r"(?:\[pid +(\d+)(?:<[^>]*>)?\] +|(\d+)(?:<[^>]*>)? +)?"
    r"(?:\d+:\d+:\d+(?:\.\d+)? +|\d+\.\d+ +)?(?: *\(?\+? *\d+\.\d+\)? +)?(?:\[ *(?:[0-9a-f]+|\?+)\] +)*"
)
RESULT = re.compile(r"^(.*)\) += (.*)$", re.DOTALL)
RESUMED = re.compile(r"<\.\.\. (\w+) resumed>(.*)", re.DOTALL)
NAME = re.compile(r"(\w+)\(")
CHANGED = re.compile(r" *<pid changed to (\d+) \.\.\.>$")
SECONDS = re.compile(r" <\d+\.\d+>$")
NUMBER_OF_ERROR = re.compile(r"-1 \(errno (\d+)\)")
LONG_NUMBER = re.compile("[0-9]{256}")  # no number of strace, nor a name
KILLED = re.compile(r"\+\+\+ killed by (\w+)")
ATTACHED = re.compile(r"strace: Process (\d+) attached(?: with \d+ threads)?\n")


MOST_OTHERS = 10_000  # lines above the first call


def lines_in(text: str) -> Iterator[str]:
    """The lines of a text, one by one, as the text may be large. What is behind the last newline is one too."""
    begin = 0
    while (end := text.find("\n", begin)) >= 0:
        yield text[begin:end]
        begin = end + 1
    yield text[begin:]


class Log:
    """A log: its calls, the threads that ended, its signals, and what could not be read."""

    def __init__(self, text: str) -> None:
        # strace may say in the middle of a line that it traces one more process.
        self.attached = set(map(int, ATTACHED.findall(text)))
        self.renamed: int | None = None
        self.calls: list[Call] = []
        self.ended: list[tuple[int, int]] = []
        self.signals: Counter[str] = Counter()
        self.killed: dict[int, str] = {}  # the signal that ended a thread
        self.pending: dict[int, tuple[int, str, str]] = {}
        self.replaced: dict[int, int] = {}  # the thread whose execve goes on under the number of its process
        self.unreadable = 0
        self.alive: dict[int, None] = {}
        self.lines = 0
        self.read(ATTACHED.sub("", text))
        # What never returned is in no trace.
        self.without_end = Counter(name for _, name, _ in self.pending.values())

    def read(self, text: str) -> None:
        progress = Progress()
        for at, line in enumerate(lines_in(text)):
            self.line(at, line)
            self.lines = at
            if at % 512 == 0:
                progress.tell(f"{at} lines of the log")
                if at > MOST_OTHERS and not self.calls and not self.pending:
                    break
        progress.clear()

    def line(self, at: int, line: str) -> None:
        if LONG_NUMBER.search(line):
            self.unreadable += 1
            return
        found = PREFIX.match(line)
        assert found  # as it matches nothing at all, too
        rest = line[found.end() :]
        if not rest.strip() or rest.startswith(("strace: ", "> ")):
            return
        pid = self.process(int(found[1] or found[2] or 0))
        name = NAME.match(rest)
        if name and rest.endswith("<unfinished ...>"):
            self.pending[pid] = (at, name[1], rest[name.end() :].removesuffix("<unfinished ...>"))
        elif name and rest.endswith(" ...>") and CHANGED.search(rest):
            self.changes_process(at, pid, name[1], rest[name.end() :])
        elif name:
            self.returned(at, at, pid, name[1], rest[name.end() :])
        else:
            self.other(at, pid, rest)

    def other(self, at: int, pid: int, rest: str) -> None:
        """A line that begins no call."""
        if rest.startswith("<... "):
            self.resumed(at, pid, rest)
        elif rest.startswith("--- "):
            self.signals[rest.split()[1]] += 1
        elif rest.startswith("+++ superseded by execve in pid "):
            pass  # the process goes on; the thread that called it has ended
        elif rest.startswith("+++ "):
            self.ended.append((at, pid))
            self.alive.pop(pid, None)
            killed = KILLED.match(rest)
            if killed:
                self.killed[pid] = killed[1]
        else:
            self.unreadable += 1

    def changes_process(self, at: int, pid: int, name: str, text: str) -> None:
        """An execve of a thread that is not the first: it returns as the process, whose other threads end."""
        found = CHANGED.search(text)
        assert found
        leader = self.process(int(found[1]))
        self.pending[leader] = (at, name, text[: found.start()])
        self.replaced[at] = pid
        self.ended.append((at, pid))
        self.alive.pop(pid, None)

    def process(self, pid: int) -> int:
        """Whose line it is. Where there is one process alone, strace may leave its number out."""
        if pid == 0 and len(self.alive) == 1:
            return next(iter(self.alive))
        if pid and 0 in self.alive and self.renamed is None and pid not in self.attached:
            self.renamed = pid
        pid = 0 if pid == self.renamed else pid
        self.alive.setdefault(pid)
        return pid

    def resumed(self, at: int, pid: int, rest: str) -> None:
        found = RESUMED.match(rest)
        if found is None or self.pending.get(pid, (0, ""))[1] != found[1]:
            self.unreadable += 1
            return
        begin, name, text = self.pending.pop(pid)
        self.returned(begin, at, pid, name, text.rstrip() + (" " if found[2].startswith("=") else "") + found[2])

    def returned(self, begin: int, end: int, pid: int, name: str, text: str) -> None:
        found = RESULT.match(text)
        if found is None:
            self.unreadable += 1
            return
        result = SECONDS.sub("", found[2]).strip()
        if result.startswith("?") and name not in ("exit", "exit_group"):
            self.pending[pid] = (begin, name, found[1])
            return
        number = NUMBER_OF_ERROR.match(result)
        if number:  # as -e raw=all has errors
            result = f"-1 {errno.errorcode.get(int(number[1]), 'error')}"
        self.calls.append(Call(begin, end, pid, name, found[1], result))

    def events(self) -> list[Call]:
        """The calls in the order in which they count: those that make a process where they begin, as its first lines may come
        before they return, and all others where they return."""
        return sorted(self.calls, key=lambda call: call.begin if call.name in FORKS else call.end)
