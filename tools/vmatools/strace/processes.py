"""Which address space and which descriptors each process and thread of a log has, at each call."""
from __future__ import annotations

import re
from collections import Counter
from collections.abc import Iterator
from dataclasses import dataclass, field
from typing import NamedTuple

from ..console import Failure
from .areas import Area
from .files import Descriptors, Opening, follow_descriptor, number_in, number_word, quoted
from .log import FORKS, Call, Log, split_arguments
from .segments import CALLS as OF_SEGMENTS, Segments

# Calls that a trace has, by the names that strace has for them.
CALLS = {
    "mmap": "mmap",
    "mmap2": "mmap",
    "old_mmap": "mmap",
    "munmap": "munmap",
    "mprotect": "mprotect",
    "pkey_mprotect": "mprotect",
    "mremap": "mremap",
    "brk": "brk",
    "mseal": "mseal",
    "syscall_0x1ce": "mseal",
}
CLONE_VM, CLONE_FILES, CLONE_THREAD = 0x100, 0x400, 0x10000
CHILD = re.compile(r"0x[0-9a-f]+|\d+")
CLONE_BITS = re.compile(r"flags=(0x[0-9a-f]+|\d+)")


@dataclass
class Change:
    """A call on an address space: its words, and the opening that it maps."""

    call: Call
    words: list[str]
    opening: Opening | None = None


@dataclass(eq=False)
class Space:
    """One address space of the log: what began it, and the calls on it."""

    number: int | None  # which execve began it; none for a fork
    fork: int | None = None  # which fork began it; none for an execve
    label: str = ""
    parent: Space | None = None  # of a fork
    at: Call | None = None  # the call that began it
    owner: int = 0  # the process
    calls: list[Change] = field(default_factory=list)
    children: list[Space] = field(default_factory=list)
    threads: set[int] = field(default_factory=set)  # those that made calls on it
    other: Counter[str] = field(default_factory=Counter)
    last: int = 0  # the line of the log at which the last of its calls ended
    areas: list[Area] = field(default_factory=list)  # those that it begins with
    final: tuple[int, list[Area]] | None = None  # the last list that was read of it, and at which line of the log
    killed_by: str | None = None  # the signal that ended its process, before which no list is read
    late: int = 0  # calls that returned after the last list was read, while its process waited to end
    attached: dict[int, int] = field(default_factory=dict)  # how large each segment of shared memory is, by its address
    unended: list[Call] = field(default_factory=list)  # calls that did not return
    found_done: int = 0  # those of them that the last list shows to be done

    def takes(self, change: Change) -> None:
        """One more call."""
        self.calls.append(change)
        self.threads.add(change.call.pid)
        self.last = max(self.last, change.call.end)

    def name(self) -> str:
        """How it is called on the command line and in names of files."""
        return f"fork{self.fork}" if self.fork else f"exec{self.number}"


class Try(NamedTuple):
    """A call of execve or exit_group: by which process, on which address space, and which one it begins."""

    call: Call
    process: int
    ends: Space
    begins: Space | None = None


class Processes:
    """The address spaces of a log."""

    def __init__(self, log: Log) -> None:
        self.space_of: dict[int, Space] = {}
        self.files_of: dict[int, Descriptors] = {}
        self.leader_of: dict[int, int] = {}  # the process of each thread
        self.first = Space(0, label="what was there before the first execve")
        self.spaces, self.unexplained = [self.first], set[int]()
        self.execs = self.forks = 0
        self.tries: list[Try] = []
        self.segments = Segments()
        for call in log.events():
            self.follow(call)
        for thread, (begin, name, text) in log.pending.items():
            self.space_of.get(thread, self.first).unended.append(Call(begin, begin, thread, name, text, "?"))
        for thread, signal in log.killed.items():
            space = self.space_of.get(thread, self.first)
            if space.owner in (0, self.leader_of.get(thread, thread)):
                space.killed_by = signal

    def follow(self, call: Call) -> None:
        if call.pid not in self.space_of:
            if self.space_of:
                self.unexplained.add(call.pid)
            self.space_of[call.pid] = self.first
            self.files_of[call.pid] = next(iter(self.files_of.values()), Descriptors())
        space, files = self.space_of[call.pid], self.files_of[call.pid]
        if call.name in FORKS:
            self.fork(call)
        elif call.name in ("execve", "execveat"):
            self.execve(call)
        elif call.name in CALLS:
            words = split_arguments(call.text)
            is_of_file = CALLS[call.name] == "mmap" and len(words) == 6 and not is_anonymous(words[3])
            space.takes(Change(call, words, files.at(words[4]) if is_of_file else None))
        elif call.name not in OF_SEGMENTS or not self.follow_segment(call, space):
            if call.name == "exit_group":
                self.tries.append(Try(call, self.leader_of.get(call.pid, call.pid), space))
            follow_descriptor(call, files)
            space.other[call.name] += 1

    def follow_segment(self, call: Call, space: Space) -> bool:
        """A call on shared memory: attaching maps a segment as a file is mapped, detaching unmaps it. Whether it is one of
        these."""
        if call.name == "shmget":
            self.segments.made(call)
            return True
        if call.name == "shmat":
            made = self.segments.attached(call)
            if made is None:
                return False
            words, segment = made
            space.attached[number_word(call.result) or 0] = segment.size or 0
            space.takes(Change(call._replace(name="mmap"), words, segment))
            return True
        address = number_word(call.text)
        size = space.attached.pop(address, None) if address and call.result == "0" else None
        if size is None:
            return False
        space.takes(Change(call._replace(name="munmap"), [hex(address or 0), str(size)]))
        return True

    def fork(self, call: Call) -> None:
        found = CHILD.match(call.result)
        if not found:
            return
        child, bits = number_in(found[0]), clone_bits(call)
        parent, files = self.space_of[call.pid], self.files_of[call.pid]
        is_thread = bits & CLONE_THREAD
        self.leader_of[child] = self.leader_of.get(call.pid, call.pid) if is_thread else child
        if not bits & CLONE_VM:
            self.forks += 1
            label = f"a fork of {parent.label}"
            space = Space(None, self.forks, label, parent, call, child, attached=dict(parent.attached))
            self.spaces.append(space)
            parent.children.append(space)
        self.space_of[child] = parent if bits & CLONE_VM else self.spaces[-1]
        self.files_of[child] = files if bits & CLONE_FILES else Descriptors(files.table)

    def execve(self, call: Call) -> None:
        process = self.leader_of.get(call.pid, call.pid)
        ends = self.space_of[call.pid]
        if call.result.startswith("-1"):
            self.tries.append(Try(call, process, ends))
            return
        words = split_arguments(call.text)
        word = words[1] if call.name == "execveat" and len(words) > 1 else words[0] if words else "?"
        self.execs += 1
        begins = Space(self.execs, label=quoted(word) or word, at=call, owner=process)
        self.spaces.append(begins)
        self.space_of[call.pid] = begins
        self.files_of[call.pid] = Descriptors(self.files_of[call.pid].table)
        self.tries.append(Try(call, process, ends, begins))

    def numbered(self, number: int | None) -> Space:
        """The address space that the execve of this number began; without one, the first that the log is of."""
        if number is None:
            number = 0 if self.first.calls or not self.execs else 1
        for space in self.spaces:
            if space.number == number:
                return space
        raise Failure(f"the log has no execve number {number}: there are {self.execs}")

    def forked(self, number: int) -> Space:
        for space in self.spaces:
            if space.fork == number:
                return space
        raise Failure(f"the log has no fork number {number}: there are {self.forks}")

    def with_calls(self) -> Iterator[Space]:
        return (space for space in self.spaces if space.calls)


def clone_bits(call: Call) -> int:
    """What a new process or thread shares, of vfork, clone and clone3 by name or by number."""
    if call.name == "fork":
        return 0
    if call.name == "vfork":
        return CLONE_VM
    names = (("CLONE_VM", CLONE_VM), ("CLONE_FILES", CLONE_FILES), ("CLONE_THREAD", CLONE_THREAD))
    bits = sum(bit for name, bit in names if re.search(rf"\b{name}\b", call.text))
    number = CLONE_BITS.search(call.text)
    if number is None and call.name == "clone":  # -e raw=all: the first word
        number = re.match("(0x[0-9a-f]+)", call.text)
    return bits | (number_in(number[1]) if number else 0)


def is_anonymous(flags: str) -> bool:
    number = re.match(r"0x[0-9a-f]+", flags)
    return "MAP_ANON" in flags or bool(number and int(number[0], 16) & 0x20)
