"""Reads the list of areas of each process that a command starts: before each execve, when a program begins, and before it ends.

A seccomp filter that the command inherits to all that it starts stops these calls, and no others, until the list is
read: execve, exit_group, and those that a program makes first, as brk(NULL). strace goes on beside it.
"""

import ctypes
import errno
import fcntl
import os
import platform
import select
import struct
import threading
from pathlib import Path
from typing import BinaryIO

LIBC = ctypes.CDLL(None, use_errno=True)
LIBC.syscall.restype = ctypes.c_long

SYS_SECCOMP, SYS_PIDFD_GETFD = 317, 438
SET_MODE_FILTER, NEW_LISTENER = 1, 8
PR_SET_NO_NEW_PRIVS = 38
NOTIF_RECV, NOTIF_SEND, CONTINUE = 0xC0502100, 0xC0182101, 1
NOTIF = struct.Struct("=QIIiIQ6Q")
ALLOW, NOTIFY = 0x7FFF0000, 0x7FC00000
LOAD, EQUAL, RETURN = 0x20, 0x15, 0x06
X86_64, I386 = 0xC000003E, 0x40000003
NR, ARCH, ARGUMENT = 0, 4, 16
# By the processor's mode: what begins a program, what ends one, what a program makes first, and brk.
EXECVE = {X86_64: (59, 322), I386: (11, 358)}
EXIT = {X86_64: 231, I386: 252}
FIRST = {X86_64: 158, I386: 243}  # arch_prctl and set_thread_area
BRK = {X86_64: 12, I386: 45}


def program() -> bytes:
    """The filter, in the form that seccomp(2) takes."""
    code: list[tuple[int, int, int, int]] = []
    for arch in (X86_64, I386):
        block = [(LOAD, 0, 0, NR)]
        numbers = [*EXECVE[arch], EXIT[arch], FIRST[arch]]
        for place, number in enumerate(numbers):
            block.append((EQUAL, len(numbers) - place + 5, 0, number))
        block += [
            (EQUAL, 0, 4, BRK[arch]),
            (LOAD, 0, 0, ARGUMENT),
            (EQUAL, 0, 2, 0),
            (LOAD, 0, 0, ARGUMENT + 4),
            (EQUAL, 1, 0, 0),
            (RETURN, 0, 0, ALLOW),
            (RETURN, 0, 0, NOTIFY),
        ]
        code += [(LOAD, 0, 0, ARCH), (EQUAL, 0, len(block), arch), *block]
    code.append((RETURN, 0, 0, ALLOW))
    return b"".join(struct.pack("=HBBI", *one) for one in code)


def is_able() -> bool:
    return platform.machine() == "x86_64" and platform.system() == "Linux"


def install() -> int:
    """Sets the filter on this process, and returns the descriptor at which its stops are heard; -1 where that may not be."""
    if os.geteuid() != 0:
        LIBC.prctl(PR_SET_NO_NEW_PRIVS, 1, 0, 0, 0)
    code = program()
    buffer = ctypes.create_string_buffer(code, len(code))
    header = struct.pack("=HxxxxxxQ", len(code) // 8, ctypes.addressof(buffer))
    return int(LIBC.syscall(SYS_SECCOMP, SET_MODE_FILTER, NEW_LISTENER, ctypes.create_string_buffer(header, 16)))


def taken_from(child: int, number: int) -> int | None:
    """A copy of a descriptor of a child."""
    process = os.pidfd_open(child)
    try:
        got = int(LIBC.syscall(SYS_PIDFD_GETFD, process, number, 0))
        return got if got >= 0 else None
    finally:
        os.close(process)


class Watcher(threading.Thread):
    """Answers each stop, after it has read the list, until nobody is left who could stop or `end` is called."""

    def __init__(self, listener: int, kept: BinaryIO) -> None:
        super().__init__(daemon=True)
        self.listener, self.kept = listener, kept
        self.begins: set[int] = set()  # the processes that may begin a program
        self.again: set[tuple[int, int]] = set()  # the calls that were interrupted, and are made again
        self.is_first = True
        self.wake, self.waker = os.pipe()
        self.is_done = False  # whether nobody is left
        self.failure: str | None = None  # why the lists could not be written

    def run(self) -> None:
        poll = select.poll()
        poll.register(self.listener, select.POLLIN)
        poll.register(self.wake, select.POLLIN)
        while True:
            for number, event in poll.poll():
                if number == self.wake:
                    return
                if event & select.POLLIN:
                    self.stopped()
                elif event & (select.POLLHUP | select.POLLERR):
                    self.is_done = True
                    return

    def end(self) -> None:
        """Ends the thread. Those that are left are answered by a process of its own, as without one their calls would fail."""
        os.write(self.waker, b"x")
        self.join()
        try:
            self.kept.close()
        except OSError as error:
            self.failure = error.strerror
        if not self.is_done and os.fork() == 0:
            try:
                os.setsid()
                nowhere = os.open(os.devnull, os.O_RDWR)
                for number in range(3):
                    os.dup2(nowhere, number)
                self.answer_on()
            finally:
                os._exit(0)
        os.close(self.listener)

    def answer_on(self) -> None:
        poll = select.poll()
        poll.register(self.listener, select.POLLIN)
        while True:
            for _, event in poll.poll():
                if not event & select.POLLIN:
                    return
                heard = self.heard()
                if heard:
                    self.go_on(heard[0])

    def heard(self) -> tuple[int, ...] | None:
        buffer = bytearray(NOTIF.size)
        try:
            fcntl.ioctl(self.listener, NOTIF_RECV, buffer)
        except OSError as error:
            if error.errno in (errno.ENOENT, errno.EINTR):
                return None  # it has ended, or goes on
            raise
        return NOTIF.unpack(buffer)

    def go_on(self, number: int) -> bool:
        """Lets a call be made; whether it still waited for that."""
        try:
            fcntl.ioctl(self.listener, NOTIF_SEND, struct.pack("=QqiI", number, 0, 0, CONTINUE))
            return True
        except OSError:
            return False

    def stopped(self) -> None:
        heard = self.heard()
        if heard is None:
            return
        number, thread, _, call, arch = heard[:5]
        arch &= 0xFFFFFFFF
        if (thread, call) in self.again:
            self.again.discard((thread, call))
        else:
            try:
                self.keep(thread, call, arch)
            except OSError:
                pass  # it has ended meanwhile
        if not self.go_on(number):
            self.again.add((thread, call))

    def keep(self, thread: int, call: int, arch: int) -> None:
        """Writes the list of the process, if this is a moment for it."""
        process = process_of(thread)
        when = "execve" if call in EXECVE[arch] else "exit" if call == EXIT[arch] else "begin"
        if when == "begin" and process not in self.begins:
            return
        self.begins.discard(process)
        if when == "execve":
            self.begins.add(process)
        areas = b"" if self.is_first else Path(f"/proc/{thread}/maps").read_bytes()
        self.is_first = False  # the first execve is that of the command, whose list before is that of this program
        self.write(f"# {process} {when}\n".encode() + areas)

    def write(self, data: bytes) -> None:
        try:
            if self.failure is None:
                self.kept.write(data)
                self.kept.flush()
        except OSError as error:
            self.failure = error.strerror


def process_of(thread: int) -> int:
    for line in Path(f"/proc/{thread}/status").read_text(errors="replace").splitlines():
        if line.startswith("Tgid:"):
            return int(line.split()[1])
    return thread
