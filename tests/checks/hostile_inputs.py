"""Hostile inputs, each drawn by a random generator: valid ones in which bytes, words or lines are wrong, and random bytes."""

import random
from collections.abc import Callable

import judged_runs
import limits

from vmatools import model, traces
from vmatools.comparing.generator import PROFILES, Generator
from vmatools.profile import serial
from vmatools.traces import PAGE
from vmatools.unproved import scripts

Draw = random.Random

# Numbers at borders, and texts that are nearly one.
NUMBERS = """
0 1 3 7 63 64 65 4095 4096 4097 8192 65530 65531 0x1000 0xfff 0x7fffffffefff 0x7ffffffff000 0x7ffffffffffff
0x800000000000 140737488355327 140737488355328 0xfffffffffff000 0x100000000000000 2147483647 2147483648 4294967295
4294967296 9223372036854771712 9223372036854775807 9223372036854775808 0xfffffffffffff000 18446744073709551615
18446744073709551616 0xffffffffffffffff 0x10000000000000000 -1 -0 +1 00000000000000000001 000000000000000000001 0x
0X10 0xg 1e3 1_000 1.0 ٣ １ 0b1 99999999999999999999 999999999999999999999
""".split()
NAMES = """
mmap munmap mprotect mremap brk mseal fault maps fork limit areas top min heap file vmatrace vmasteps new query after=
after=2 after=0 after=18446744073709551615 after=18446744073709551616 # == r w x rw PROT_READ PROT_NONE
PROT_READ|PROT_READ PROT_READ| |PROT_READ 0|0 MAP_PRIVATE MAP_SHARED MAP_ANONYMOUS MAP_ANON MAP_GROWSDOWN
MAP_FIXED_NOREPLACE MREMAP_MAYMOVE MREMAP_MAYMOVE|MREMAP_FIXED MREMAP_DONTUNMAP lock grace add look field sub begin
mark store end open root word close fill publish scan 8:1 fff:fffff 1000:0 0:100000 : Mmap mmap2 \ufeffvmatrace é
[heap]
""".split()
BLANKS = [" ", "  ", "\t", " \t ", "\v", "\f", "\u00a0", "\u2003", "\r", "\0", "\x1c", "\x85", "\u2028", " " * 70]
BYTES = [
    *(b"\0", b"\xff", b"\x80", b"\xc0\xaf", b"\xed\xa0\x80", b"\xf4\x90\x80\x80", b"\xe2\x82", b"\xf0\x9f\x98", b"\xef\xbb\xbf"),
    *(b"\r", b"\n", b"\r\n", b"\n\n", b"\t", b" ", b"#", b"==\n", b"\x1b[31m", b"0", b"|", b"\xc2\x80", b"\xf4\x8f\xbf\xbf"),
]
LENGTHS = [100, 1000, 4095, 4096, 4097, 8191, 8192, 8193]


# What is wrong


def spoiled_line(draw: Draw, line: bytes) -> bytes:
    """A line in which something is wrong."""
    words = line.split(b" ")
    place, other = draw.randrange(len(words)), draw.randrange(len(words))
    name = draw.choice(NUMBERS + NAMES).encode()
    at = draw.randint(0, len(line))
    kinds: list[Callable[[], bytes]] = [
        lambda: b" ".join([*words[:place], name, *words[place + 1 :]]),
        lambda: b" ".join([*words[:place], name, *words[place:]]),
        lambda: b" ".join([*words[:place], *words[place + 1 :]]),
        lambda: b" ".join([*words[:place], words[other], *words[place + 1 :]]),
        lambda: b" ".join([*words[:place], words[place] * 2, *words[place + 1 :]]),
        lambda: draw.choice(BLANKS).encode().join(words),
        lambda: draw.choice(BLANKS).encode() + line + draw.choice(BLANKS).encode(),
        lambda: line[:at] + draw.choice(BYTES) + line[at + draw.randrange(2) :],
        lambda: line[:at] + bytes(byte ^ 1 << draw.randrange(8) for byte in line[at : at + 1]) + line[at + 1 :],
        lambda: line.ljust(draw.choice(LENGTHS), draw.choice([b" ", b"#", b"0", b"a"])),
        lambda: line + f" after={draw.randrange(12)}".encode(),
    ]
    return draw.choice(kinds)()


def spoiled(draw: Draw, data: bytes) -> bytes:
    """An input in which a few things are wrong."""
    for _ in range(draw.choice([1, 1, 2, 4])):
        lines, at = data.split(b"\n"), draw.randint(0, len(data))
        place, other = draw.randrange(len(lines)), draw.randrange(len(lines))
        kinds: list[Callable[[], bytes]] = [
            *[lambda: b"\n".join([*lines[:place], spoiled_line(draw, lines[place]), *lines[place + 1 :]])] * 6,
            lambda: b"\n".join([*lines[:place], lines[other], *lines[place:]]),
            lambda: b"\n".join([*lines[:place], *lines[place + 1 :]]),
            lambda: data[:at],
            lambda: data[:at] + draw.choice(BYTES) + data[at + draw.randrange(3) :],
            lambda: draw.choice([data * 2, data[:-1], b"\xef\xbb\xbf" + data, data.replace(b"\n", b"\r\n"), b"\n" + data]),
            lambda: data.replace(b" ", b"\t") + b"\n",
        ]
        data = draw.choice(kinds)()
    return data


def noise(draw: Draw) -> bytes:
    """Random bytes, some of them of the letters and the words that inputs have."""
    size = draw.choice([0, 1, 3, 10, 50, 300, 3000])
    some = (draw.choice(NUMBERS + NAMES).encode() + draw.choice([b" ", b" ", b"\n", b"\t"]) for _ in range(size // 4))
    return draw.choice(
        [
            draw.randbytes(size),
            bytes(draw.choices(b"\n\n 0123456789abcdefx|#=\tvmatrce-_\0\xff", k=size)),
            b"".join(some),
        ]
    )


def hostile(draw: Draw, header: bytes, valid: Callable[[Draw], bytes]) -> bytes:
    """Noise, an input as it is, or one in which something is wrong."""
    kind = draw.randrange(20)
    if kind < 2:
        return header * kind + noise(draw)
    return valid(draw) if kind < 6 else spoiled(draw, valid(draw))


# What is right


def valid_trace(draw: Draw) -> bytes:
    if draw.randrange(4) == 0:
        return judged_runs.Trace(str(draw.random())).text().encode()
    profile, lines = draw.choice([name for name in PROFILES if name != "many"]), draw.choice([4, 12, 30])
    drawn = Generator(profile, str(draw.random()), lines, draw.choice([0, 2, 4])).draw()
    if draw.randrange(2):
        drawn.settings.setdefault("limit", draw.choice([2, 8]))
    return drawn.numbered().text().encode()


def trace(draw: Draw) -> bytes:
    return hostile(draw, b"vmatrace 1\nlimit areas 9\n", valid_trace)


def maps_text(draw: Draw) -> bytes:
    return hostile(draw, b"00010000-00011000 rw-p 00000000 00:00 0 \n", limits.drawn)


OWN_LINES = b"""new
 new\t
new new
query 0x100000
query
query 0 0
query 18446744073709551616
0 maps
64 maps
1 maps after=3
0 fork 9
99 fork
vmatrace 1
limit areas 5
top x
top 0x1000
heap 0x200000
""".splitlines()


def session(draw: Draw) -> bytes:
    """The lines of an address space of a session, and `new`."""
    lines = trace(draw).split(b"\n")
    for _ in range(draw.choice([0, 0, 1, 3])):
        lines.insert(draw.randint(0, len(lines)), draw.choice(OWN_LINES))
    return b"\n".join(lines) + b"\nnew\n"


def answered_trace(draw: Draw) -> bytes:
    """A trace, `==`, and its output, of which something may be wrong."""
    while True:
        data = valid_trace(draw)
        if b" fork " not in data:
            break
    output = serial.serial_output(traces.read_trace(data))
    changed = [
        output,
        judged_runs.said_otherwise(draw, output)[1],
        judged_runs.moved(draw, output)[1],
        spoiled(draw, output.encode()).decode("utf-8", "surrogateescape"),
    ]
    border = b"==\n" if draw.randrange(10) else draw.choice([b"==", b"== \n", b"===\n", b"", b"==\r\n", b"==\n==\n"])
    both = data + border + draw.choice(changed).encode("utf-8", "surrogateescape")
    return both if draw.randrange(8) else spoiled(draw, both)


# Scripts

PROTS, TYPES = ["PROT_READ", "PROT_READ|PROT_WRITE", "PROT_NONE"], ["MAP_PRIVATE", "MAP_SHARED", "MAP_PRIVATE|MAP_GROWSDOWN"]


def call(draw: Draw) -> str:
    """A call over few pages."""
    place, length = f"{0x100000 + PAGE * draw.randrange(8):#x}", PAGE * draw.randint(1, 4)
    return draw.choice(
        [
            f"mmap {place} {length} {draw.choice(PROTS)} {draw.choice(TYPES)}|MAP_ANONYMOUS|MAP_FIXED -1 0",
            f"munmap {place} {length}",
            f"mprotect {place} {length} {draw.choice(PROTS)}",
            f"mremap {place} {length} {PAGE * draw.randint(1, 5)} {draw.choice(['0', 'MREMAP_MAYMOVE|MREMAP_FIXED 0x200000'])}",
        ]
    )


def random_events(draw: Draw) -> list[str]:
    """Events of a core, most of which are refused."""
    core, readers, parts = draw.choice(["lock", "grace"]), draw.randint(1, 8), draw.randint(1, 8)
    lines, tree = [f"{core} {readers} {parts}"], 1
    for _ in range(draw.choice([3, 10, 40])):
        name, form = draw.choice(list(scripts.FORMS[core].items()))
        most = {"R": readers, "P": parts, "I": scripts.FIELDS, "X": 3}
        words = [str(draw.randrange(most[kind])) for kind in form if kind != "T"]
        if name == "publish":
            words[0], tree = str(tree), tree + draw.randrange(2)
            words += [str(row) for row in draw.sample(range(parts), draw.randrange(parts))]
        lines.append(" ".join([name, *words, *([f"{draw.randrange(64)} {call(draw)}"] if name == "end" else [])]))
    return lines


def whole_calls(draw: Draw) -> list[str]:
    """Calls each of which stores the rows of the list after it, so that it may end."""
    parts = draw.randint(3, 8)
    lines, rows = [f"lock {draw.randint(1, 3)} {parts}"], [scripts.DETACHED] * parts
    space = model.Space(traces.Trace())
    for _ in range(draw.randint(1, 10)):
        words, after = call(draw).split(), space.child()
        arguments = traces.Reader.arguments(words[0], words[1:])
        model.answer(after, traces.Line(1, 0, words[0], arguments, None))
        if len(after.areas) > parts:
            continue
        wanted, space = [scripts.words_of(area) for area in after.areas], after
        missing = [row for row in wanted if row not in rows]
        lines.append("begin")
        for slot in (slot for slot, row in enumerate(rows) if row not in wanted):
            row = missing.pop() if missing else scripts.DETACHED
            lines += [f"mark {slot}", *(f"store {slot} {place} {word:#x}" for place, word in enumerate(row))]
            rows[slot] = row
        lines += [f"end {draw.randrange(64)} {' '.join(words)}", "look 0"]
    return lines


def valid_script(draw: Draw) -> bytes:
    return "".join(line + "\n" for line in ["vmasteps 1", *draw.choice([random_events, whole_calls])(draw)]).encode()


def script(draw: Draw) -> bytes:
    return hostile(draw, b"vmasteps 1\n", valid_script)
