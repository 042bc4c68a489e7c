"""Has reads and writes of the programs fail, at each place where they can, and compares all that they answer.

The system takes so many bytes of an output, for each number below its length: the run has to end with status 5, `write fault`
on standard error, and exactly these bytes given. Where it takes all, the run ends with status 0 and nothing on standard
error. The system gives so many bytes of an input before a read fails, for each number up to its length: status 4, `read
fault`, and nothing given, or of a session the answers to all whole lines before. A read or a write that would have to wait is
refused in the same way. In too little address space a run ends with status 6, `no memory`, and nothing given.
"""

import os
import resource
import signal
import socket
import tempfile
from collections.abc import Sequence
from contextlib import suppress
from functools import partial
from typing import Any

from checking import TOP, Options, Words, answer, bytes_of, compare, expect, fail, limit, live_of, passed
from vmatools.unproved import sessions

SECONDS = 10
PIECE = 65_536  # the program reads and gives so many bytes at a time
SESSION_PIECE = 8_192  # a session reads so many
MIB = 2**20
MOST_AREAS = 65_530
MOST_LISTS = 64  # that a trace may read

TRACE = b"""vmatrace 1
limit areas 8
file 3 r 8192 08:02 7 /usr/lib/libdemo.so
0 mmap 0x10000 16384 PROT_READ|PROT_WRITE MAP_PRIVATE|MAP_ANONYMOUS|MAP_FIXED -1 0
0 mmap 0 8192 PROT_READ MAP_PRIVATE 3 0
0 mprotect 0x11000 4096 PROT_READ
0 fault 0x11010 w
0 maps
"""
SCRIPT = b"vmasteps 1\nlock 1 1\nadd 0 0\nbegin\nmark 0\nlook 0\n"
MAPS = b"""00010000-00012000 rw-p 00000000 00:00 0 
00012000-00014000 r--p 00000000 08:02 7                                  /usr/lib/libdemo.so
"""
RUNS = [
    (["serial"], TRACE),
    (["threads"], TRACE),
    (["steps"], SCRIPT),
    (["query", "0x11000"], MAPS),
    (["retrace"], MAPS),
    (["check"], b"vmatrace 1\n==\nmaps 0\n"),
    (["generate", "2", "1"], b""),
]
SESSION = (
    b"vmatrace 1\nlimit areas 8\n0 mmap 0x10000 16384 PROT_READ MAP_PRIVATE|MAP_ANONYMOUS|MAP_FIXED -1 0\n0 mapp\n1 maps\n"
    b"query 0x11000\nnew\nvmatrace 1\n0 munmap 0x10000 4096\n"
)


def areas(count: int) -> list[str]:
    """Lines that map so many areas."""
    places = (0x10000000 + 8192 * area for area in range(count))
    return [f"0 mmap {place:#x} 4096 PROT_READ MAP_PRIVATE|MAP_ANONYMOUS|MAP_FIXED -1 0" for place in places]


def called(words: list[str]) -> str:
    return " ".join(words) or "a session"


def check_writes(program: str, words: list[str], text: bytes, some: list[int] | None = None) -> None:
    """Writes fail behind each of these places of the output, or behind each place of all."""
    name = f"{called(words)}, a write that fails"
    whole = expect(name, [program, *words], SECONDS, input=text)[0].stdout
    places: Sequence[int] = range(len(whole)) if some is None else [*some, len(whole) - 1]
    for place in (*places, len(whole)):
        at, ended = f"{name} behind {place} bytes", (5, b"write fault\n") if place < len(whole) else (0, b"")
        with tempfile.TemporaryFile() as output:
            expect(at, [program, *words], SECONDS, *ended, begin=lambda: end_files_at(place), input=text, stdout=output)
            output.seek(0)
            compare(f"{at}, standard output", output.read(), whole[:place])
    passed(f"{name} behind {len(places)} places")


def end_files_at(place: int) -> None:
    """No file of the process that begins has more bytes, and a write of more is refused by an error alone."""
    signal.signal(signal.SIGXFSZ, signal.SIG_IGN)
    limit(resource.RLIMIT_FSIZE, place)


def check_reads(program: str, words: list[str], text: bytes) -> None:
    """Reads fail behind each place of the input: the other end of the socket is gone, and what was sent to it unread."""
    name = f"{called(words)}, a read that fails"
    for place in range(len(text) + 1):
        here, there = socket.socketpair()
        with here, there:
            here.send(b"unread")
            there.sendall(text[:place])
            there.close()
            given = b"" if words else sessions.answers(text[:place], has_end=False)
            expect(f"{name} behind {place} bytes", [program, *words], SECONDS, 4, b"read fault\n", given, stdin=here)
    passed(f"{name} behind {len(text) + 1} places")


def check_waits(program: str) -> None:
    """A read or a write that would have to wait fails, and is not tried again."""
    read, write = os.pipe()
    os.write(write, TRACE)
    os.set_blocking(read, False)
    serial = [program, "serial"]
    expect("a read that would wait", serial, SECONDS, 4, b"read fault\n", b"", stdin=read)
    os.set_blocking(write, False)
    with suppress(BlockingIOError):
        while True:
            os.write(write, bytes(PIECE))
    expect("a write that would wait", serial, SECONDS, 5, b"write fault\n", input=TRACE, stdout=write)
    os.close(read)
    expect("a write that nobody reads", serial, SECONDS, 5, b"write fault\n", input=TRACE, stdout=write)
    os.close(write)
    passed("what would have to wait, or is read by nobody")


def packets() -> tuple[socket.socket, socket.socket]:
    """Two ends between which each write is a packet, and each read takes one: what it has no room for is lost."""
    ends = socket.socketpair(socket.AF_UNIX, socket.SOCK_SEQPACKET)
    for end in ends:
        end.setsockopt(socket.SOL_SOCKET, socket.SO_SNDBUF, MIB)
    return ends


def packets_given(name: str, command: Words, text: list[bytes]) -> list[bytes]:
    """The packets of the output of a run over these packets, behind whose end more stands, which nobody asks for."""
    (to, stdin), (answers, stdout) = packets(), packets()
    with to:
        for packet in [*text, b"", b"behind the end\n"]:
            to.send(packet)
    with answers:
        with stdin, stdout:
            expect(name, command, SECONDS, stdin=stdin, stdout=stdout)
        return list(iter(lambda: answers.recv(MIB), b""))


def parts(text: bytes, *places: int) -> list[bytes]:
    """A text, cut at these places."""
    return [text[start:end] for start, end in zip([0, *places], [*places, len(text)])]


def check_pieces(program: str, session: str) -> None:
    """A read asks for a whole piece, a write gives one, what was read is answered before more is, and an end is an end."""
    faults = 3_000
    trace = b"vmatrace 1\n" + (b"#" * 4_000 + b"\n") * 16 + b"0 fault 0 r\n" * faults
    output = b"".join(b"L%d t0 v0 = SIGSEGV SEGV_MAPERR\n" % line for line in range(18, 18 + faults)) + b"maps 0\n"
    judged = trace + b"==\n" + output
    talk = b"vmatrace 1\n" + b"0 fault 0 r\n" * 1_000
    places = SESSION_PIECE, SESSION_PIECE + 1_000  # within a line each
    answered = [len(sessions.answers(talk[:place], has_end=False)) for place in (*places, len(talk))]
    runs: list[tuple[list[str], list[bytes], list[bytes]]] = [
        (["serial"], parts(trace, PIECE), parts(output, PIECE)),
        (["check"], parts(judged, *range(PIECE, len(judged), PIECE)), [b"legal\n"]),
        ([], parts(talk, *places), parts(sessions.answers(talk), *answered)),
    ]
    for words, text, wanted in runs:
        name = f"{called(words)}, by packets"
        given = packets_given(name, [program if words else session, *words], text)
        compare(f"{name}, standard output", b"".join(given), b"".join(wanted))
        if given != wanted:
            fail(name, f"gives {[*map(len, given)]} bytes at a time, and not {[*map(len, wanted)]}")
        passed(name)


def check_devices(program: str) -> None:
    """A folder cannot be read, and /dev/full not be written; a line that cannot be written to standard error is left out."""
    full, folder = os.open("/dev/full", os.O_WRONLY), os.open(TOP, os.O_RDONLY)
    expect("a folder", [program, "serial"], SECONDS, 4, b"read fault\n", stdin=folder)
    for words, text in RUNS:
        expect("/dev/full", [program, *words], SECONDS, 5, b"write fault\n", input=text, stdout=full)
    ends: tuple[tuple[int, list[str], dict[str, Any]], ...] = (
        (0, ["serial"], {"input": TRACE}),
        (2, [], {"input": b""}),
        (3, ["serial"], {"input": b"x"}),
        (4, ["serial"], {"stdin": folder}),
        (5, ["serial"], {"input": TRACE, "stdout": full}),
    )
    for status, words, streams in ends:
        done, _ = answer("a full standard error", [program, *words], SECONDS, stderr=full, **streams)
        if done.returncode != status:
            fail("a full standard error", f"has status {done.returncode}, and not {status}")
    passed("a folder, and /dev/full")


def check_memory(program: str, session: str) -> None:
    """Memory runs out before a run, and in the midst of one."""
    short, places = b"vmatrace 1\n0 munmap 0x10000 4096\n", (0x10000000 + 8192 * area for area in range(60_000))
    # Nearly as many lines as there may be areas; two threads that read a list of as many as there may be, as often as they may.
    maps = bytes_of(f"{place:08x}-{place + 4096:08x} r--p 00000000 00:00 0 " for place in places)
    lists = bytes_of(["vmatrace 1", *areas(MOST_AREAS), *["0 maps", "1 maps"] * (MOST_LISTS // 2)])
    # So many lines that a space for them has room for as many areas as there may be.
    many = short + 21_842 * b"0 munmap 0x10000 4096\n"
    runs: list[tuple[list[str], bytes, int]] = [
        ([], short, 12),
        (["serial"], many, 24),
        (["threads"], many, 24),
        (["check"], short + b"==\nL2 t0 v1 = 0\nmaps 0\n", 12),
        (["generate", "50000", "1"], b"", 48),
        (["query", "0"], maps, 5),
        (["retrace"], maps, 8),
        (["serial"], lists, 200),
        (["threads"], lists, 200),
    ]
    for words, text, mebibytes in runs:
        name = f"{called(words)} over {len(text)} bytes in {mebibytes} MiB"
        command, most = [program if words else session, *words], mebibytes * MIB
        bounded = partial(limit, resource.RLIMIT_AS, most)
        expect(name, command, SECONDS, 6, b"no memory\n", b"", begin=bounded, input=text)
        passed(name)


def check(options: Options) -> None:
    program: str = options.program
    for words, text in RUNS:
        check_writes(program, words, text)
        if text:
            check_reads(program, words, text)
    several = bytes_of(["vmatrace 1", "limit areas 2500", *areas(2500)])  # its output is given in several pieces
    at_pieces = [0, PIECE - 1, PIECE, PIECE + 1, 2 * PIECE - 1, 2 * PIECE, 2 * PIECE + 1]
    check_writes(program, ["serial"], several, at_pieces)
    session = live_of(options.live)
    check_writes(session, [], SESSION)
    check_reads(session, [], SESSION)
    check_waits(program)
    check_pieces(program, session)
    check_devices(program)
    check_memory(program, session)
