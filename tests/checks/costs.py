"""Checks that what the program takes grows with its input and not faster: memory that it asks for and uses, and processor time.

Each run gets an address space of so many MiB, some tenth more than it needs, and may have so many MiB of it resident, some
fifth more than it has, of two sizes of most inputs. What a space takes for each area that it may have is worked out from runs
of two limits. A caller that waits for the lock takes no processor time: callers on one processor may take four times what one
caller does. And the processor time of an input is compared with that of one of four times its size, the least of three runs
each: it may take seven times as long, where linear work takes four to five and quadratic sixteen. A comparison that fails is
made again.
"""

import os
import subprocess
import sys
from collections.abc import Callable, Iterable
from typing import Any, NamedTuple

from checking import TOP, Done, Options, Words, answer, bytes_of, check_ended, expect, fail, live_of, passed

MIB = 2**20
PEAK = [sys.executable, "-IS", str(TOP / "tests/checks/peak.py")]
SECONDS = 60
TRIES = 5
MOST_TIMES = 7
MOST_AREAS = 65_530
MOST_NAMED = 1_000
MOST_LINE = 4_096
SOME_AREAS = 16_384
MOST_ADDRESSES = 512 * MIB
CALLERS = 64
WAITING_TIMES = 4
CHILDREN = 8
NOTES = 200
PLACE = 0x10000000
ANONYMOUS = "MAP_PRIVATE|MAP_ANONYMOUS|MAP_FIXED"

Made = Callable[[int], list[str]]  # the lines of an input of a size
Input = Callable[[str, int], bytes]  # the input of a size, for a program


def place(area: int) -> int:
    return PLACE + 8192 * area


def mapped(areas: Iterable[int], thread: int = 0) -> list[str]:
    """Lines that map a page each, at the places of these areas."""
    return [f"{thread} mmap {place(area):#x} 4096 PROT_READ {ANONYMOUS} -1 0" for area in areas]


def calls(count: int) -> list[str]:
    """Calls that map a page and unmap it again."""
    both = [(*mapped([area]), f"0 munmap {place(area):#x} 4096") for area in range(8)]
    return ["vmatrace 1", *(both[line // 2 % 8][line % 2] for line in range(count))]


def shared(count: int) -> list[str]:
    """The same calls by as many threads as there may be, in turn."""
    head, *lines = calls(count)
    return [head, *(f"{at % CALLERS}{line[1:]}" for at, line in enumerate(lines))]


def named_in_turn(count: int) -> list[str]:
    """Calls, and behind them some of all threads in turn, each of which names the line before it."""
    chain = (f"{note % CALLERS} munmap {PLACE:#x} 4096 after={count + note}" for note in range(1, NOTES + 1))
    return [*calls(count), *chain]


def faults(count: int) -> list[str]:
    return ["vmatrace 1", *(f"0 fault {4096 * (line % 5):#x} r" for line in range(count))]


def leaving(count: int) -> list[str]:
    """A list of as many areas as it may have, which then leave in another order. Each call leaves rows of the tree."""
    half = count // 2
    gone = (f"0 munmap {place(area * 7919 % half):#x} 4096" for area in range(half))
    return ["vmatrace 1", f"limit areas {half}", *mapped(range(half)), *gone]


def moving(count: int) -> list[str]:
    """A page that moves from below many areas to above them and back, past all of them."""
    half = count // 2
    ends = place(-1), place(half)
    ways = [f"0 mremap {old:#x} 4096 4096 MREMAP_MAYMOVE|MREMAP_FIXED {new:#x}" for old, new in (ends, ends[::-1])]
    return ["vmatrace 1", *mapped(range(-1, half)), *(ways[turn % 2] for turn in range(half))]


def leaving_together(count: int) -> list[str]:
    """Areas side by side, no two of which join, and a call that takes all away but a page of the first."""
    ways = [f"PROT_READ {ANONYMOUS}", f"PROT_READ|PROT_WRITE {ANONYMOUS}"]
    first = f"0 mmap {PLACE:#x} 8192 {ways[0]} -1 0"
    others = (f"0 mmap {PLACE + 4096 * area + 4096:#x} 4096 {ways[area % 2]} -1 0" for area in range(1, count))
    return ["vmatrace 1", first, *others, f"0 munmap {PLACE + 4096:#x} {4096 * count}"]


def faults_before_one(count: int) -> list[str]:
    """Faults of a thread, and one of a lower thread behind them, which a history tells first."""
    return ["vmatrace 1", *["1 fault 0x1000 r"] * count, "0 fault 0x1000 r"]


def changing(count: int) -> list[str]:
    """The last of many areas: in its place it grows, is split, made one again, shrunk, and given other access and the old one."""
    half, both = count // 2, "PROT_READ|PROT_WRITE"
    low, high = place(half - 1), place(half - 1) + 4096
    lengths = [f"0 mremap {low:#x} {old} {new} 0" for old, new in ((4096, 8192), (8192, 4096))]
    part, whole = ([f"0 mprotect {page:#x} 4096 {prot}" for prot in (both, "PROT_READ")] for page in (high, low))
    turns = [lengths[0], *part, lengths[1], *whole]
    return ["vmatrace 1", *mapped(range(half)), *(turns[turn % len(turns)] for turn in range(half))]


def placed(count: int) -> list[str]:
    """Calls that name no place. Each area has other access than the one above it, so that no two become one."""
    ways = [f"0 mmap 0 4096 {prot} MAP_PRIVATE|MAP_ANONYMOUS -1 0" for prot in ("PROT_READ", "PROT_READ|PROT_WRITE")]
    return ["vmatrace 1", *(ways[area % 2] for area in range(count))]


def reads_of(areas: int) -> Made:
    """So many areas, and reads of their list."""
    return lambda count: ["vmatrace 1", *mapped(range(areas)), *["0 maps"] * count]


def named(count: int) -> list[str]:
    """Calls, and as many faults of another thread as may name a line: each names the last of them."""
    return [*calls(count), *[f"1 fault 0x1000 r after={count + 1}"] * MOST_NAMED]


def named_longest(count: int) -> list[str]:
    """Areas of one file, whose name fills its line."""
    front = "file 3 rw 1048576 08:01 3 "
    lines = (f"0 mmap {place(area):#x} 4096 PROT_READ MAP_PRIVATE|MAP_FIXED 3 0" for area in range(count))
    return ["vmatrace 1", front + "/".ljust(MOST_LINE - len(front), "n"), *lines]


def limited(areas: int) -> list[str]:
    """A space for so many areas, which has one, and a read of its list."""
    return ["vmatrace 1", f"limit areas {areas}", *mapped([0]), "0 maps"]


def opened(areas: int) -> list[str]:
    """The same, and as many lines as may need the most areas, three each."""
    return [*limited(areas), *["0 fault 0x1000 r"] * (MOST_AREAS // 3)]


def together(count: int) -> list[str]:
    """Calls of all callers, each of which maps a page and unmaps it again."""
    head, *lines = calls(count)
    return [head, *(f"{at // 2 % CALLERS}{line[1:]}" for at, line in enumerate(lines))]


def spaces(count: int) -> list[str]:
    """Address spaces of a session, each for as many areas as there may be."""
    return ["vmatrace 1", *mapped([0]), "new"] * count


def maps(count: int) -> list[str]:
    return [f"{place(area):08x}-{place(area) + 4096:08x} r--p 00000000 00:00 0 " for area in range(count)]


def files(count: int) -> list[str]:
    """Areas that map a file each."""
    fronts = (f"{place(file):08x}-{place(file) + 4096:08x} r--p 00000000 08:02 {file + 1} " for file in range(count))
    return [f"{front:<73}/usr/lib/lib{file}.so" for file, front in enumerate(fronts)]


def children(count: int) -> list[str]:
    """Calls, and as many children as there may be behind them, each of which reads its list."""
    forks = [f"0 fork {child}" for child in range(1, CHILDREN + 1)]
    return [*calls(count), *forks, *(f"{child} maps" for child in range(1, CHILDREN + 1))]


def of_child(count: int) -> list[str]:
    """Such calls of a child."""
    head, *lines = calls(count)
    return [head, "0 fork 1", *(f"1{line[1:]}" for line in lines)]


def script(count: int) -> list[str]:
    turn = ["add 0 0", "look 0", "sub 0", "begin", "mark 0", "end 0 munmap 0x1000 4096"]
    return ["vmasteps 1", "lock 1 1", *turn * (count // 6)]


def trees(count: int) -> list[str]:
    """A script in which a tree of all rows is published again and again."""
    return ["vmasteps 1", "grace 8 8", *(f"publish {tree} 0 1 2 3 4 5 6 7" for tree in range(1, count + 1))]


def judged(made: Made) -> Input:
    """The input of `check`: a trace, and its output."""

    def both(program: str, count: int) -> bytes:
        trace = bytes_of(made(count))
        return trace + b"==\n" + expect("serial", [program, "serial"], SECONDS, input=trace)[0].stdout

    return both


def given(made: Made) -> Input:
    return lambda program, count: bytes_of(made(count))


def nothing(_program: str, _count: int) -> bytes:
    return b""


class Size(NamedTuple):
    """So many of an input's parts, and the MiB of address space and of resident memory that a run over them may take."""

    parts: int
    addresses: int
    resident: int


Mode = list[str] | None  # the words, and None of a session

# the words, what makes the input, and its sizes
MEMORY: list[tuple[str, Mode, Input, tuple[Size, ...]]] = [
    ("a header alone", ["serial"], given(calls), (Size(0, 4, 6),)),
    ("calls", ["serial"], given(calls), (Size(200_000, 150, 84), Size(800_000, 345, 222))),
    ("faults", ["serial"], given(faults), (Size(200_000, 150, 76), Size(800_000, 345, 196))),
    ("calls in threads", ["threads"], given(calls), (Size(0, 4, 6), Size(200_000, 147, 95), Size(800_000, 415, 316))),
    ("faults in threads", ["threads"], given(faults), (Size(200_000, 156, 106), Size(800_000, 533, 418))),
    ("children", ["serial"], given(children), (Size(50_000, 188, 160), Size(100_000, 276, 233))),
    ("calls of a child", ["serial"], given(of_child), (Size(200_000, 169, 117), Size(800_000, 483, 403))),
    ("areas that come and leave", ["serial"], given(leaving), (Size(32_000, 36, 22), Size(128_000, 120, 77))),
    ("reads of many areas", ["serial"], given(reads_of(MOST_AREAS)), (Size(16, 1000, 108), Size(64, 1000, 252))),
    ("a list of long names", ["serial"], given(named_longest), (Size(4_000, 18, 12), Size(16_000, 63, 40))),
    ("reads of one area", ["serial"], given(reads_of(1)), (Size(16, 4, 6), Size(64, 4, 6))),
    ("a load", ["generate", "{}", "1"], nothing, (Size(100_000, 115, 65), Size(400_000, 225, 153))),
    ("a text of calls", ["check"], judged(calls), (Size(200_000, 75, 50), Size(800_000, 205, 166))),
    ("a text of calls of many threads", ["check"], judged(shared), (Size(200_000, 75, 50),)),
    ("a text of a space for few areas", ["check"], judged(limited), (Size(1, 4, 6),)),
    ("a text of reads of many areas", ["check"], judged(reads_of(8_000)), (Size(16, 40, 13), Size(64, 66, 31))),
    ("an address in a list", ["query", "0x10000000"], given(maps), (Size(250_000, 44, 34), Size(1_000_000, 158, 132))),
    ("a list", ["retrace"], given(maps), (Size(16_000, 12, 8), Size(64_000, 24, 20))),
    ("a list of files", ["retrace"], given(files), (Size(256, 4, 6), Size(1_024, 5, 6))),
    ("a script", ["steps"], given(script), (Size(2_500, 8, 8), Size(9_996, 9, 9))),
    ("calls of a session", None, given(calls), (Size(200_000, 54, 23), Size(800_000, 127, 83))),
    ("reads of many areas in a session", None, given(reads_of(MOST_AREAS)), (Size(16, 48, 22), Size(64, 48, 22))),
    ("spaces of a session", None, given(spaces), (Size(1, 30, 6), Size(1_000, 30, 6))),
    ("a space for few areas of a session", None, given(limited), (Size(1, 4, 6), Size(1_024, 4, 6))),
]

# the same as of memory, with the smaller of the two sizes
TIME: list[tuple[str, Mode, Input, int]] = [
    ("calls", ["serial"], given(calls), 100_000),
    ("faults", ["serial"], given(faults), 100_000),
    ("areas that come and leave", ["serial"], given(leaving), 32_000),
    ("areas that leave together", ["serial"], given(leaving_together), 16_000),
    ("an area that moves past others", ["serial"], given(moving), 25_000),
    ("faults that a later line comes before", ["serial"], given(faults_before_one), 50_000),
    ("an area that changes beside others", ["serial"], given(changing), 25_000),
    ("a load", ["generate", "{}", "1"], nothing, 100_000),
    ("a text of calls", ["check"], judged(calls), 50_000),
    ("a text of an area that moves past others", ["check"], judged(moving), 25_000),
    ("a text of areas that come and leave", ["check"], judged(leaving), 32_000),
    ("a text of areas that leave together", ["check"], judged(leaving_together), 16_000),
    ("a text of areas that name no place", ["check"], judged(placed), 16_000),
    ("an address in a list", ["query", "0x10000000"], given(maps), 250_000),
    ("calls in threads", ["threads"], given(calls), 100_000),
    ("a list", ["retrace"], given(maps), 16_000),
    ("a script", ["steps"], given(script), 2_499),
    ("a script of trees", ["steps"], given(trees), 2_499),
    ("calls of a session", None, given(calls), 100_000),
    ("areas that come and leave in a session", None, given(leaving), 32_000),
]


def command_of(options: Options, words: Mode, count: int) -> list[str]:
    return [live_of(options.live)] if words is None else [options.program, *(word.format(count) for word in words)]


def least(name: str, command: Words, text: bytes, **more: Any) -> float:
    """The least processor time of three runs."""
    return min(expect(name, command, SECONDS, input=text, **more)[1] for _ in range(3))


def run_within(name: str, command: Words, text: bytes, most: int) -> tuple[Done, int]:
    """A run in so many bytes of address space, and the most KiB that it has resident."""
    told, writer = os.pipe()
    with open(told, "rb") as told_by:
        with open(writer, "wb") as kept:
            around = [*PEAK, str(kept.fileno()), str(most)]
            ends: dict[str, Any] = {"stdout": subprocess.DEVNULL, "pass_fds": [kept.fileno()]}
            done, _ = answer(name, [*around, *command], SECONDS, input=text, **ends)
        return done, int(told_by.read())


def resident(name: str, command: Words, text: bytes, addresses: int) -> float:
    """The most MiB that a run has resident, which has to end well in so many MiB of address space."""
    done, most = run_within(name, command, text, addresses * MIB)
    check_ended(name, done, 0)
    return most / 1024


def room_of(name: str, command: Words, text: bytes) -> tuple[int, int]:
    """The bytes of address space that a run needs, some 64 KiB too many at most, and those that it has resident."""
    short, enough = 0, MOST_ADDRESSES
    while enough - short > 2**16:
        middle = (short + enough) // 2
        done, _ = run_within(name, command, text, middle)
        short, enough = (short, middle) if done.returncode == 0 else (middle, enough)
    return enough, round(resident(name, command, text, MOST_ADDRESSES // MIB) * MIB)


def check_room(name: str, command: Words, addresses: int, most_resident: int) -> None:
    """A space takes at most so many bytes of address space, and of resident memory, for each area that it may have."""
    rooms = [room_of(name, command, bytes_of(opened(areas))) for areas in (SOME_AREAS, MOST_AREAS)]
    each = [(large - small) / (MOST_AREAS - SOME_AREAS) for small, large in zip(*rooms)]
    for what, bytes_each, most in zip(("address space", "resident memory"), each, (addresses, most_resident)):
        if bytes_each > most:
            fail(name, f"an area takes {bytes_each:.0f} bytes of {what}, and not at most {most}")
    room, touched = each
    passed(f"{name}: an area takes {room:.0f} bytes, of {addresses}, of which {touched:.0f} are resident, of {most_resident}")


def check_waiting(program: str, count: int) -> None:
    """Callers that wait for the lock take no processor time, of which there is one."""
    name, text = "callers on one processor", bytes_of(together(count))
    processor = min(os.sched_getaffinity(0))

    def stay() -> None:
        os.sched_setaffinity(0, {processor})

    alone, all_of_them = (least(name, [program, mode], text, begin=stay) for mode in ("serial", "threads"))
    if all_of_them > WAITING_TIMES * alone:
        fail(name, f"{CALLERS} callers take {all_of_them:.2f} seconds, and one takes {alone:.2f}")
    passed(f"{name}, {CALLERS} in {all_of_them:.2f} seconds and one in {alone:.2f}")


def check_memory(options: Options, name: str, words: Mode, made: Input, size: Size) -> None:
    at, text = f"{name}, {size.parts} of them in {size.addresses} MiB", made(options.program, size.parts)
    most = resident(at, command_of(options, words, size.parts), text, size.addresses)
    if most > size.resident:
        fail(at, f"{most:.0f} MiB are resident, and not at most {size.resident}")
    passed(f"{at}, of which {most:.0f} are resident, of {size.resident}")


def check_time(options: Options, name: str, words: Mode, made: Input, count: int) -> None:
    sizes = [(command_of(options, words, parts), made(options.program, parts)) for parts in (count, 4 * count)]
    for _ in range(TRIES):
        before, after = (least(name, command, text) for command, text in sizes)
        if after < MOST_TIMES * before:
            return passed(f"{name}, {count} in {before:.2f} seconds and {4 * count} in {after:.2f}")
    fail(name, f"{count} take {before:.2f} seconds, and {4 * count} take {after:.2f}, {TRIES} times over")


def check(options: Options) -> None:
    for name, words, made, sizes in MEMORY:
        for size in sizes:
            check_memory(options, name, words, made, size)
    check_room("a space", [options.program, "serial"], 1090, 672)
    check_room("a space of a session", [live_of(options.live)], 390, 16)
    check_waiting(options.program, 200_000)
    for name, words, made, count in TIME:
        check_time(options, name, words, made, count)
