"""Runs the program on the largest traces, loads and scripts, on threads that wait for each other and on what it refuses,
and compares all that it answers.

The script works out for itself what each run writes to standard output and standard error, and its status; of scripts the
model of tools/vmatools says it. In the mode `threads` a trace of one thread has the output of `serial`; of one of many
threads each line is answered once, those of a thread in their order, and the versions never fall, and children run at once. A
load as a trace has an output that `check` judges to be legal, a smaller one that of the model of tools/vmatools, and
`generate` has to count in it what stands there.
The seconds are some fifty times what a run needs, and fewer than it would need with work quadratic in its lines.
"""

import os
import subprocess
import tempfile
import time
from collections.abc import Iterator

from checking import Options, Words, bytes_of, compare, expect, fail, passed, skipped

from vmatools import traces
from vmatools.profile import loads, serial
from vmatools.unproved import scripts

PAGE = 4096
OPERATIONS = 1_000_000
THREADS = 64
FILES = 1_024
AREAS = 65_530
CHILDREN = 8
CHILD_LINES = 400_000
LINE_BYTES = 4_096
SCRIPT_LINES = 10_000
TEXT_BYTES = 268_435_456
ANONYMOUS = "MAP_PRIVATE|MAP_ANONYMOUS|MAP_FIXED"


class Run:
    """A trace, and what the program writes for it."""

    def __init__(self) -> None:
        self.trace = ["vmatrace 1"]
        self.output: list[str] = []
        self.version = 0

    def start(self, thread: int, line: str) -> str:
        self.trace.append(f"{thread} {line}")
        return f"L{len(self.trace)} t{thread} v{self.version} ="

    def call(self, thread: int, line: str, reply: str) -> None:
        self.version += 1
        self.output.append(f"{self.start(thread, line)} {reply}")

    def read(self, thread: int, line: str, answer: str) -> None:
        self.output.append(f"{self.start(thread, line)} {answer}")


def path_of(file: int, front: str) -> str:
    """A name of 255 bytes, and of every 64th file one that fills its line."""
    length = LINE_BYTES - len(front) if file % 64 == 0 else 255
    return f"/{file:04}".ljust(length, "n")


def operations() -> Run:
    """As many operations as a trace may have, of all threads, over all files, with names as long as a line."""
    run = Run()
    names = []
    for file in range(FILES):
        front = f"file {file} rw 1048576 08:01 {file} "
        names.append(path_of(file, front))
        run.trace.append(front + names[file])
    # Seven operations that leave no area. What remains of the operations: an area of each file, a list for each thread.
    rounds, rest = divmod(OPERATIONS - FILES - THREADS, 7)
    for k in range(rounds):
        thread, file, place = k % THREADS, k % FILES, 0x10000000 + 0x10000 * (k % 500)
        middle = place + PAGE
        run.call(thread, f"mmap {place:#x} 16384 PROT_READ|PROT_WRITE MAP_SHARED|MAP_FIXED {file} 8192", f"{place:#x}")
        run.read(thread, f"fault {middle:#x} w", f"served {place:08x}-{place + 16384:08x} rw-s page 3")
        run.call(thread, f"mprotect {place:#x} 4096 PROT_READ", "0")
        run.read(thread, f"fault {place:#x} w", "SIGSEGV SEGV_ACCERR")
        run.call(thread, f"mremap {middle:#x} 12288 16384 0", f"{middle:#x}")
        run.call(thread, f"munmap {place + 8192:#x} 1", "0")
        run.call(thread, f"munmap {place:#x} 20480", "0")
    for _ in range(rest):
        run.read(0, "fault 0 x", "SIGSEGV SEGV_MAPERR")
    areas = []
    for file in range(FILES):
        place = 0x20000000 + 2 * PAGE * file
        run.call(0, f"mmap {place:#x} 4096 PROT_READ MAP_PRIVATE|MAP_FIXED {file} 0", f"{place:#x}")
        front = f"{place:08x}-{place + PAGE:08x} r--p 00000000 08:01 {file} "
        areas.append(front.ljust(73) + names[file])
    maps = "\n".join([f"maps {FILES}", *areas])
    # The reads of one version are told by thread, whatever the order of their lines.
    lists = [f"{run.start(thread, 'maps')} {maps}" for thread in reversed(range(THREADS))]
    run.output += [*reversed(lists), maps]
    return run


def areas() -> Run:
    """As many areas as a list may have, and one more, which is refused."""
    run = Run()
    lines = []
    for area in range(AREAS):
        place = 0x10000000 + 2 * PAGE * area
        run.call(0, f"mmap {place:#x} 4096 PROT_READ {ANONYMOUS} -1 0", f"{place:#x}")
        lines.append(f"{place:08x}-{place + PAGE:08x} r--p 00000000 00:00 0 ")
    run.call(0, f"mmap 0x10000 4096 PROT_READ {ANONYMOUS} -1 0", "-1 ENOMEM")
    run.output += [f"maps {AREAS}", *lines]
    return run


def ranges() -> Run:
    """Calls on a mapping of 2^32 pages, each of which looks at areas and not at pages."""
    run = Run()
    place = length = 2**44
    run.call(0, f"mmap {place:#x} {length} PROT_READ {ANONYMOUS} -1 0", f"{place:#x}")
    run.call(0, f"mprotect {place:#x} {length} PROT_NONE", "0")
    run.call(0, f"mseal {place:#x} {length} 0", "0")
    run.call(0, f"munmap {place:#x} {length}", "-1 EPERM")
    run.output += ["maps 1", f"{place:08x}-{place + length:08x} ---p 00000000 00:00 0 "]
    return run


def check_run(
    program: str,
    name: str,
    words: Words,
    status: int = 0,
    message: bytes = b"",
    output: bytes = b"",
    seconds: int = 10,
    trace: bytes = b"vmatrace 1\n",
) -> None:
    _, took = expect(name, [program, *words], seconds, status, message, output, input=trace)
    passed(name, took)


def check_threads(program: str, name: str, trace: list[str], seconds: int) -> None:
    """In `threads` each line is answered once, those of a thread in order, and the versions never fall."""
    done, took = expect(name, [program, "threads"], seconds, input=bytes_of(trace))
    wanted = {f"L{n} t{line.split()[0]}" for n, line in enumerate(trace, 1) if line[0].isdigit()}
    last: dict[str, int] = {}
    version = found = 0
    for line in done.stdout.decode().splitlines():
        words = line.split(" ", 3)
        if not (line.startswith("L") and len(words) == 4 and words[2].startswith("v")):
            continue
        found += 1
        if " ".join(words[:2]) not in wanted:
            fail(name, f"answers a line that is not there: {line[:200]}")
        number, thread, now = int(words[0][1:]), words[1], int(words[2][1:])
        if number <= last.get(thread, 0) or now < version:
            fail(name, f"is out of order at {line[:200]}")
        last[thread], version = number, now
    if found != len(wanted):
        fail(name, f"answers {found} lines, and not {len(wanted)}")
    passed(f"{name}, threads", took)


def check_words(program: str) -> None:
    """Only the words that the README names are accepted, and none besides them."""
    lines = """serial serial|threads serial|serial x|steps 1|retrace 0|check x|--help|query|query x|query 0 0|generate|generate 10
        |generate 10 1 extra|generate 10 1 extra words|generate 400001 0|generate 0 18446744073709551616"""
    refused: list[list[str | bytes]] = [[], [""], ["serial", b"\xff"]]
    refused += [[*line.split()] for line in lines.split("|")]
    for words in refused:
        check_run(program, f"the words {words}", words, 2, b"words\n")


def check_summaries(program: str) -> None:
    """What the first line of a generated trace does is worked by hand; the last row is of a longer run."""
    for count, seed, numbers in (
        (0, 0, (0, 0, 0, 0, 0, 0)),
        (1, 0, (0, 0, 1, 0, 0, 0)),
        (1, 4, (1, 0, 0, 0, 1, 1)),
        (1, 11, (1, 0, 0, 0, 1, 1)),  # of all lines that a load may have, one of the longest
        (20000, 1, (15001, 4240, 4999, 781, 15001, 7108)),
    ):
        names = ("calls", "refused", "faults", "served", "version", "areas")
        output = bytes_of(f"{name} {number}" for name, number in zip(names, numbers))
        for run in ("", ", once more"):
            check_run(program, f"generate {count} {seed}{run}", ["generate", str(count), str(seed)], output=output)


def check_load(program: str, count: int, seed: int, seconds: int, judges: bool) -> None:
    """A generated trace as lines has in `serial` an output that is legal, and `generate` has the summary of it, each time."""
    name, trace = f"the load {count} {seed}", bytes_of(loads.load(count, seed))
    done, took = expect(name, [program, "serial"], seconds, input=trace)
    passed(f"{name}, serial", took)
    both = trace + b"==\n" + done.stdout
    check_run(program, f"{name}, judged", ["check"], output=b"legal\n", trace=both, seconds=seconds)
    if judges:
        compare(f"{name}, by the model", done.stdout, serial.serial_output(traces.read_trace(trace)).encode())
        passed(f"{name}, by the model")
    summary = bytes_of(loads.summary(done.stdout.decode().splitlines()))
    for words in ([str(count), str(seed)], [str(count).zfill(20), str(seed).zfill(20)]):
        check_run(program, f"generate {' '.join(words)}", ["generate", *words], output=summary, seconds=seconds)


def turns(count: int) -> Iterator[str]:
    """A row is published in the place of the other, in turn. A reader opens, loads the root, closes and is scanned."""
    for tree in range(count):
        new = 1 - tree % 2
        yield from ("open 0", "root 0", f"fill {new} {tree}", f"publish {tree + 1} {new}", "close 0", "scan 0")


def check_scripts(program: str) -> None:
    """The longest scripts: as many lines as one may have, each as long as a line may be, and a line more."""
    looks = ["add 0 0", "look 0", "sub 0", "begin", "mark 0", "end 0 munmap 0x1000 4096"]
    marks = ["begin", *(f"mark {slot}" for slot in range(8)), "end 0 munmap 0x1000 4096"]
    trees = [f"publish {tree} 0" for tree in range(1, SCRIPT_LINES - 3)]
    for name, script in (
        ("a reader beside calls", ["lock 1 1", *looks * ((SCRIPT_LINES - 2) // 6)]),
        ("the longest output", ["lock 8 8", *marks * ((SCRIPT_LINES - 2) // 10)]),
        ("the most calls", ["lock 1 1", *["begin", "end 0 munmap 0x1000 4096"] * (SCRIPT_LINES // 2 - 1)]),
        ("a reader beside two rows that take turns", ["grace 1 2", *turns((SCRIPT_LINES - 2) // 6)]),
        ("the most trees", ["grace 1 2", "open 0", *trees, "root 0"]),
    ):
        script += ["#"] * (SCRIPT_LINES - 1 - len(script))
        output = scripts.steps(bytes_of(["vmasteps 1", *script]))[1]
        if b"refused" in output:
            fail(name, "an event is refused")
        for width, what in ((0, name), (LINE_BYTES, f"{name}, as wide as it may be")):
            text = bytes_of(["vmasteps 1", *(line.ljust(width) for line in script)])
            check_run(program, what, ["steps"], output=output, trace=text, seconds=30)
            refused = f"trace line {SCRIPT_LINES + 1} cause 8 TooMany\n".encode()
            check_run(program, f"{what}, a line more", ["steps"], 3, refused, trace=text + b"#\n", seconds=30)


def check_all_at_once(program: str) -> None:
    """64 threads, of which each waits for the one before it, and then all for the last: so none can end before all have begun."""
    run = Run()
    for thread in range(THREADS):
        place, after = 0x10000000 + 2 * PAGE * thread, f" after={len(run.trace)}" if thread else ""
        run.call(thread, f"mmap {place:#x} 4096 PROT_READ {ANONYMOUS} -1 0{after}", f"{place:#x}")
    last = len(run.trace)
    for thread in range(THREADS):
        place, after = 0x10000000 + 2 * PAGE * ((thread + 1) % THREADS), f" after={last}" if thread + 1 < THREADS else ""
        run.read(thread, f"fault {place:#x} r{after}", f"served {place:08x}-{place + PAGE:08x} r--p page 0")
    places = (0x10000000 + 2 * PAGE * area for area in range(THREADS))
    run.output += [f"maps {THREADS}", *(f"{place:08x}-{place + PAGE:08x} r--p 00000000 00:00 0 " for place in places)]
    name, trace, output = "threads that wait for each other", bytes_of(run.trace), bytes_of(run.output)
    for mode in ("serial", *["threads"] * 10):
        check_run(program, f"{name}, {mode}", [mode], output=output, trace=trace)


def tasks_of(process: int) -> int:
    """How many threads a process has, or 0 where it has ended."""
    try:
        return len(os.listdir(f"/proc/{process}/task"))
    except OSError:
        return 0


def check_children_at_once(program: str, count: int) -> None:
    """So many children, of which at some moment more than half have a thread of their own."""
    name = f"{count} children at once"
    if not tasks_of(os.getpid()):
        return skipped(name, "the system does not show the threads of a process")
    children = range(1, count + 1)
    faults = [f"{child} fault 0 r" for _ in range(CHILD_LINES // count) for child in children]
    most = 0
    with tempfile.TemporaryFile() as trace:
        trace.write(bytes_of(["vmatrace 1", *(f"0 fork {child}" for child in children), *faults]))
        trace.seek(0)
        run = subprocess.Popen([program, "threads"], stdin=trace, stdout=subprocess.DEVNULL)
        while run.poll() is None:
            most = max(most, tasks_of(run.pid))
            time.sleep(0.001)
    if run.returncode:
        fail(name, f"has status {run.returncode}, and not 0")
    if most <= count // 2:
        fail(name, f"they have {most} threads at most")
    passed(name)


def waits() -> list[str]:
    """One page that seven threads fault on while another changes its protection: the writer waits for readers of one slot."""
    place, times = 0x10000000, 20_000
    first = f"0 mmap {place:#x} 4096 PROT_READ|PROT_WRITE {ANONYMOUS} -1 0"
    kinds = ("PROT_READ", "PROT_READ|PROT_WRITE")
    rounds = (
        line
        for time in range(times)
        for line in (
            f"0 mprotect {place:#x} 4096 {kinds[time % 2]}",
            *(f"{thread} fault {place:#x} r" + (" after=2" if time == 0 else "") for thread in range(1, 8)),
        )
    )
    return ["vmatrace 1", first, *rounds]


def check_largest(program: str) -> None:
    """The largest traces: in `serial`, judged, and in `threads`."""
    for made, seconds in ((ranges, 1), (areas, 5), (operations, 60)):
        run, name = made(), made.__name__
        trace, output = bytes_of(run.trace), bytes_of(run.output)
        check_run(program, f"{name}, serial", ["serial"], output=output, trace=trace, seconds=seconds)
        both, count = trace + b"==\n" + output, output.count(b"\n")
        for what, given, said in (
            ("", both, "legal"),
            (" without the last newline", both[:-1], f"bad {count}"),
            (" with one line more", both + b"maps 0\n", f"bad {count + 1}"),
        ):
            check_run(program, f"{name}, judged{what}", ["check"], output=bytes_of([said]), trace=given, seconds=seconds)
        if made is operations:
            check_threads(program, name, run.trace, seconds)
        else:
            check_run(program, f"{name}, threads", ["threads"], output=output, trace=trace, seconds=seconds)


def check(options: Options) -> None:
    program: str = options.program
    check_words(program)
    check_run(program, "a bad trace", ["serial"], 3, b"trace line 3 cause 3 Word\n", trace=b"vmatrace 1\n0 maps\n0 map\n")
    # A reader that holds the slot keeps a call from marking it; the script without its last newline is none.
    script = b"vmasteps 1\nlock 1 1\nadd 0 0\nbegin\nmark 0\n"
    text = b"L3 found 0 | S 2 M 0:0/1\nL4 ok | S 3 M 0:0/1\nL5 refused 2 ReadersLeft 1 | S 3 M 0:0/1\n"
    check_run(program, "a script", ["steps"], output=text, trace=script)
    check_run(program, "a bad script", ["steps"], 3, b"trace line 5 cause 11 NoEnd\n", trace=script[:-1])
    check_scripts(program)
    check_summaries(program)
    check_load(program, 20_000, 1, 10, judges=True)
    check_load(program, 400_000, 1, 60, judges=False)
    check_run(program, "no text to judge", ["check"], 3, b"trace line 2 cause 11 NoEnd\n")
    head = b"vmatrace 1\n==\n"
    largest, too_long = head + bytes(TEXT_BYTES), b"trace line 3 cause 2 TooLong\n"
    for name, given in (("an empty text", head), ("bytes of any kind", head + bytes(range(256))), ("the longest text", largest)):
        check_run(program, name, ["check"], output=b"bad 1\n", trace=given)
    for name, more in (("a byte more", 1), ("many bytes more", 100_000_000)):
        check_run(program, name, ["check"], 3, too_long, trace=largest + bytes(more))
    check_all_at_once(program)
    for count in (2, CHILDREN):
        check_children_at_once(program, count)
    check_threads(program, "a writer beside seven readers of one page", waits(), 60)
    check_largest(program)
