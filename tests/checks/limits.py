"""Runs the program at each limit of a trace and of a maps text and one past it, and on random maps texts, and compares
all that it answers.

Of a trace, `serial` and `threads`, and `check` but for texts that are too long, have to name the line and the cause that
tools/vmatools names, and to answer as its model does. Of a file that is too long, at most one byte more than the limit may be
read. Of N random maps texts, of which most have a byte, a word or a line that is wrong, `query` and `retrace` have to answer
as tools/vmatools does, and what `retrace` writes has to come back by `serial`. Each run has its seconds of processor time.
"""

import argparse
import os
import random
import tempfile

from checking import bytes_of, compare, expect, fail, passed

from vmatools import traces
from vmatools.texts import maps_texts
from vmatools.unproved import modes
from vmatools.unproved.modes import Answer

PAGE = traces.PAGE
SECONDS = 60
HEAD = b"vmatrace 1\n"
MOST = traces.LIMITS
ANONYMOUS = "MAP_PRIVATE|MAP_ANONYMOUS|MAP_FIXED -1 0"
NAMES = [b"/a"] * 8 + [b"/b c  d", b"[heap]", b"/t ", b"\t/t", b"/n\\012n", "/é".encode(), b"/nul\0", b"/cr\r", b"#c"]
BYTES = [*(bytes([letter]) for letter in b"\0\xff\t\r 0fF-:"), b"\xed\xa0\x80", b"\xf4\x90\x80\x80", b"\xc0\xaf", b"", b""]


def check_run(
    program: str, name: str, words: list[str], data: bytes, wanted: Answer, most_read: int | None = None
) -> float:
    """A run over a file of these bytes answers as is wanted, and reads no more of it than it may; its processor time."""
    name, (status, output, message) = f"{name}, {' '.join(words)}", wanted
    with tempfile.TemporaryFile() as source:
        source.write(data)
        source.seek(0)
        _, took = expect(name, [program, *words], SECONDS, status, message, output, stdin=source)
        read = os.lseek(source.fileno(), 0, os.SEEK_CUR)
    if most_read is not None and read > most_read:
        fail(name, f"reads {read} bytes, and may read {most_read}")
    return took


# Traces


def check_trace(program: str, name: str, data: bytes, most_read: int | None = None) -> None:
    """A trace whose output is the same in each order of its threads."""
    wanted = modes.serial(data)
    took = [check_run(program, name, [mode], data, wanted, most_read) for mode in ("serial", "threads")]
    if most_read is None:  # `check` reads both texts whole
        both = data + b"==\n" + wanted[1]
        took.append(check_run(program, name, ["check"], both, modes.check(both)))
    passed(name, sum(took))


def filled(data: bytes, size: int) -> bytes:
    """The same with comments behind it, so that it has so many bytes."""
    lines, rest = divmod(size - len(data), MOST["line"] + 1)
    return data + (b"#" * MOST["line"] + b"\n") * lines + b"#".ljust(rest - 1, b"#") + b"\n" * (rest > 0)


def counted() -> list[tuple[str, bytes, bytes]]:
    """As many of each as a trace may have, each with a line that is one more."""
    notes = HEAD + b"0 munmap 4096 1\n" + b"1 fault 0 r after=2\n" * MOST["notes"]
    chain = (
        HEAD
        + b"0 munmap 1 1\n"
        + bytes_of(f"{n % 64} mmap 0 0 0 0 -1 0 after={n + 1}" for n in range(1, MOST["notes"] + 1))
    )
    forks = HEAD + bytes_of(f"0 fork {n}" for n in range(1, MOST["forks"] + 1))
    return [
        ("maps", HEAD + b"0 maps\n" * MOST["maps"], b"0 maps\n"),
        ("forks", forks, b"0 fork 9\n"),
        ("notes", notes, b"1 fault 0 r after=2\n"),
        ("notes on refused calls, of all threads", chain, b"1 maps after=2\n"),
        ("files", HEAD + bytes_of(f"file {n} r 1 0:0 1 a" for n in range(MOST["files"])), b"file 1024 r 1 0:0 1 a\n"),
        ("bytes of a line", HEAD + b"0 maps".ljust(MOST["line"]) + b"\n", b"#" * (MOST["line"] + 1) + b"\n"),
    ]


def check_operations(program: str) -> None:
    """As many operations as a trace may have, and one more. What they answer needs no model."""
    operation, most = b"0 fault 0 r\n", MOST["operations"]
    trace = HEAD + operation * most
    output = bytes_of(f"L{line} t0 v0 = SIGSEGV SEGV_MAPERR" for line in range(2, most + 2)) + b"maps 0\n"
    refused = 3, b"", f"trace line {most + 2} cause 8 TooMany\n".encode()
    for mode, behind, right in (
        ("serial", b"", output),
        ("threads", b"", output),
        ("check", b"==\n" + output, b"legal\n"),
    ):
        took = check_run(program, "the most operations", [mode], trace + behind, (0, right, b""))
        passed(f"the most operations, {mode}", took)
        took = check_run(program, "an operation more", [mode], trace + operation + behind, refused)
        passed(f"an operation more, {mode}", took)


def check_traces(program: str) -> None:
    for name, data, more in counted():
        check_trace(program, f"the most {name}", data)
        check_trace(program, f"the most {name}, and one more", data + more)
    whole = filled(HEAD, MOST["bytes"])
    check_trace(program, "the most bytes", whole)
    for name, data in (
        ("a newline", whole + b"\n"),
        ("a byte", whole + b"#"),
        ("many bytes", whole + bytes(10_000_000)),
        ("no end", whole[:-1] + b"#"),
    ):
        check_trace(program, f"the most bytes, and {name}", data, MOST["bytes"] + 1)


def check_children(program: str) -> None:
    """Eight children of as many areas as a list may have."""
    count = traces.MOST_AREAS
    place = [0x10000000 + 2 * PAGE * area for area in range(count)]
    made = bytes_of(f"0 mmap {low:#x} 4096 PROT_READ {ANONYMOUS}" for low in place)
    forked = bytes_of(f"0 fork {child}" for child in range(1, 9))
    unmapped = bytes_of(f"{child} munmap {place[child]:#x} 1" for child in range(1, 9))
    line = [f"{low:08x}-{low + PAGE:08x} r--p 00000000 00:00 0 " for low in place]
    output = [f"L{area + 2} t0 v{area + 1} = {low:#x}" for area, low in enumerate(place)]
    output += [f"L{count + 1 + child} t0 v{count} = child {child} areas {count}" for child in range(1, 9)]
    output += [f"maps {count}", *line]
    for child in range(1, 9):
        output += [f"child {child} of L{count + 1 + child} v{count}", f"L{count + 9 + child} t{child} v1 = 0"]
        output += [f"maps {count - 1}", *line[:child], *line[child + 1 :]]
    for mode in ("serial", "threads"):
        took = check_run(program, "eight children", [mode], HEAD + made + forked + unmapped, (0, bytes_of(output), b""))
        passed(f"eight children, {mode}", took)


def check_child(program: str) -> None:
    """A child that faults as often as a trace has operations left for it."""
    count = MOST["operations"] - 1
    trace = HEAD + b"0 fork 1\n" + b"1 fault 0 r\n" * count
    faults = (f"L{line} t1 v0 = SIGSEGV SEGV_MAPERR" for line in range(3, count + 3))
    output = bytes_of(["L2 t0 v0 = child 1 areas 0", "maps 0", "child 1 of L2 v0", *faults, "maps 0"])
    for mode in ("serial", "threads"):
        took = check_run(program, "the most operations of a child", [mode], trace, (0, output, b""))
        passed(f"the most operations of a child, {mode}", took)


# Maps texts


def check_text(program: str, name: str, data: bytes, address: int = 0, most_read: int | None = None) -> float:
    took = check_run(program, name, ["retrace"], data, maps_texts.retrace(data), most_read)
    return took + check_run(program, name, ["query", str(address)], data, maps_texts.query(data, address), most_read)


def longest_name(file: int, inode: int) -> bytes:
    """A name with which the line of a trace that opens this file is as long as a line may be."""
    return b"/".ljust(MOST["line"] - len(b"file %d rw 9223372036854775807 08:01 %d " % (file, inode)), b"n")


def check_texts(program: str) -> None:
    """The longest maps texts and lines, the most areas and files, each with one more."""
    line = [
        b"%08x-%08x r--p 00000000 00:00 0 " % (place, place + PAGE)
        for place in range(0x10000, 0x10000 + 2 * PAGE * (traces.MOST_AREAS + 1), 2 * PAGE)
    ]
    long = maps_texts.MOST_LINE - 1
    whole = b"".join(area.ljust(long) + b"\n" for area in line[: MOST["bytes"] // (long + 1)])
    named = [
        (b"%08x-%08x r--p 00000000 08:01 %d " % (place, place + PAGE, place)).ljust(73) + longest_name(file, place)
        for file, place in enumerate(range(0x10000, 0x10000 + 1025 * PAGE, PAGE), 3)
    ]
    texts = [
        ("the most bytes", whole, None),
        ("the most bytes, and one more", whole[:-1] + b" \n", MOST["bytes"] + 1),
        ("the most bytes, and many more", whole + bytes(10_000_000), MOST["bytes"] + 1),
        ("the most areas", b"\n".join(line[: traces.MOST_AREAS]) + b"\n", None),
        ("an area more", b"\n".join(line[: traces.MOST_AREAS + 1]) + b"\n", None),
        ("the most files", b"\n".join(named[:1024]) + b"\n", None),
        ("a file more", b"\n".join(named) + b"\n", None),
        ("a longer name", named[0] + b"n\n", None),
        ("the longest line", line[0].ljust(long + 1) + b"\n", None),
        ("a longer line", line[0].ljust(long + 2) + b"\n", None),
    ]
    for name, data, most_read in texts:
        passed(f"{name}, maps texts", check_text(program, name, data, 0x10000 + 2 * PAGE * 7_777, most_read))


def drawn_line(draw: random.Random, low: int, high: int) -> bytes:
    perms = bytes(draw.choice(pair) for pair in (b"r-", b"w-", b"x-", b"pps")) if draw.randrange(3) else b"rw-p"
    if draw.randrange(2):
        return b"%08x-%08x %s 00000000 00:00 0 " % (low, high, perms[:3] + b"p")
    end = 2**63 - PAGE - (high - low)
    offset = draw.choice([0, PAGE, 2 * PAGE, 3 * PAGE] * 6 + [end, end, end + PAGE, 2**64 - PAGE, 5])
    device = draw.choice([(8, 1)] * 12 + [(0xFFF, 0xFFFFF), (0x1000, 0), (0, 0x100000)])
    inode = draw.choice([7, 7, 0, 2**64 - 1])
    front = b"%08x-%08x %s %08x %02x:%02x %d " % (low, high, perms, offset, *device, inode)
    return front.ljust(72) + b" " + draw.choice(NAMES)


def drawn(draw: random.Random) -> bytes:
    """A maps text, of which a byte, a word or a line may be wrong."""
    page, lines = draw.choice([0x10, 0x100, 0x100, 0x7FFFFFFF0] * 3 + [0xF, 0x7FFFFFFFC, 0xFFFFFFFFFFFF0]), []
    for _ in range(draw.randrange(7)):
        page += draw.choice([0, 1, 1, 1])
        pages = draw.randint(1, 3)
        lines.append(drawn_line(draw, page * PAGE, (page + pages) * PAGE))
        page += pages
    text = b"".join(line + b"\n" for line in lines)
    if not lines or draw.randrange(2):
        return text
    at, line = draw.randrange(len(text)), draw.choice(lines)
    word = draw.choice(line.split(b" "))
    return draw.choice(
        [
            text[:at] + draw.choice(BYTES) + text[at + draw.randrange(2) :],
            text.replace(word, b"0" + word, 1),
            text.replace(word, b"", 1),
            text.replace(word, word.upper(), 1),
            text.replace(line, draw.choice(lines)),
            text.replace(line, line + b" "),
            text[:-1],
            text.replace(b" 0 ", b" 18446744073709551616 ", 1),
            text.replace(line, line.rstrip(b" ")),
            text.replace(b"\n", b"\r\n"),
        ]
    )


def check_drawn(program: str, runs: int) -> None:
    came_back = 0
    for number in range(runs):
        draw = random.Random(number)
        text = drawn(draw)
        address = draw.choice([0, 2**64 - 1, 0xFFFF, 0x10000, 0x7FFFFFFFEFFF, 0x7FFFFFFFF000])
        check_text(program, f"the random maps text {number}", text, address)
        status, trace, _ = maps_texts.retrace(text)
        if status == 0 and text:
            done, _ = expect(f"what comes of the maps text {number}", [program, "serial"], SECONDS, input=trace)
            back = done.stdout.partition(b"maps ")[2].partition(b"\n")[2]
            compare(f"the random maps text {number}, back", back, text)
            came_back += 1
    passed(f"{runs} random maps texts, of which {came_back} came back")


def add_arguments(parser: argparse.ArgumentParser) -> None:
    parser.add_argument("--runs", type=int, default=1_000, metavar="N", help="how many random maps texts (1,000)")


def check(options: argparse.Namespace) -> None:
    check_drawn(options.program, options.runs)
    check_operations(options.program)
    check_traces(options.program)
    check_children(options.program)
    check_child(options.program)
    check_texts(options.program)
