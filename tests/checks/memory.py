"""Runs the programs on small inputs with each request for memory refused in turn, and says what they answer.

A small library, memory.c, which cc compiles and the loader puts before the C library, makes the Nth malloc or realloc of a
run fail, for N from 1 up to the number that a whole run makes. Each such run has to end with status 6, `no memory` on
standard error and a beginning of the output, or as a run does of which nothing is refused (in `threads`, an output of the
same lines). It is no part of the gate. Where cc is missing, a line says so.
"""

import os
import shutil
import subprocess
import sys
import tempfile
from collections import Counter

from failures import MAPS, called

from checking import TOP, Done, Options, fail, live_of, passed, skipped

TRACE = b"""vmatrace 1
limit areas 8
file 3 r 8192 08:02 7 /usr/lib/libdemo.so
0 mmap 0x10000 16384 PROT_READ|PROT_WRITE MAP_PRIVATE|MAP_ANONYMOUS|MAP_FIXED -1 0
1 mmap 0 8192 PROT_READ MAP_PRIVATE 3 0
0 mprotect 0x11000 4096 PROT_READ
1 fault 0x11010 w
0 mremap 0x12000 4096 8192 MREMAP_MAYMOVE
1 maps
0 munmap 0x10000 4096
"""
SCRIPT = b"vmasteps 1\nlock 1 1\nbegin\nend 0 munmap 0x1000 4096\n"
JUDGED = b"""vmatrace 1
limit areas 8
0 mmap 0x10000 8192 PROT_READ MAP_PRIVATE|MAP_ANONYMOUS|MAP_FIXED -1 0
1 maps
==
L4 t1 v0 = maps 0
L3 t0 v1 = 0x10000
maps 1
00010000-00012000 r--p 00000000 00:00 0 
"""
SESSION = TRACE + b"query 0x11000\n0 mapp\nnew\n" + TRACE.replace(b"areas 8", b"areas 9")
RUNS = [
    (["serial"], TRACE),
    (["threads"], TRACE),
    (["steps"], SCRIPT),
    (["generate", "20", "1"], b""),
    (["query", "0x11000"], MAPS),
    (["retrace"], MAPS),
    (["check"], JUDGED),
]


def run(program: str, words: list[str], text: bytes, library: str, at: int, counted: str) -> tuple[Done, int]:
    """What a run gives in which the request of this number is refused; at 0, none is, and the number of requests is told."""
    with open(counted, "wb") as none:
        none.write(bytes(8))
    environment = {"LD_PRELOAD": library, "REFUSED": str(at), "MADE": counted}
    done = subprocess.run([program, *words], input=text, capture_output=True, env=environment, timeout=120)
    with open(counted, "rb") as told:
        return done, int.from_bytes(told.read(), sys.byteorder)


def lines_of(output: bytes) -> int:
    """How many lines of the input an output answers."""
    return sum(line.startswith(b"L") for line in output.split(b"\n"))


def is_right(done: Done, whole: Done, words: list[str]) -> bool:
    """Whether a run gave the whole output, or was out of memory and gave less of it; that of `threads` varies."""
    if done.returncode == 0:
        return done.stdout == whole.stdout or words == ["threads"] and lines_of(done.stdout) == lines_of(whole.stdout)
    begins = whole.stdout.startswith(done.stdout) or words == ["threads"] and lines_of(done.stdout) <= lines_of(whole.stdout)
    is_less = words == ["threads"] or len(done.stdout) < len(whole.stdout)
    return begins and is_less and (done.returncode, done.stderr) == (6, b"no memory\n")


def check(options: Options) -> None:
    program: str = options.program
    if shutil.which("cc") is None:
        return skipped("all", "there is no `cc`, which compiles the library that refuses")
    session = live_of(options.live)
    with tempfile.TemporaryDirectory() as folder:
        library, counted = os.path.join(folder, "refuse.so"), os.path.join(folder, "made")
        source = TOP / "tests/checks/memory.c"
        subprocess.run(["cc", "-shared", "-fPIC", "-O1", "-o", library, source, "-ldl"], check=True)
        for words, text in RUNS:
            check_mode(program, words, text, library, counted)
        check_mode(session, [], SESSION, library, counted)


def check_mode(program: str, words: list[str], text: bytes, library: str, counted: str) -> None:
    """One mode, with each of its requests refused in turn."""
    name = called(words)
    whole, made = run(program, words, text, library, 0, counted)
    if whole.returncode:
        fail(name, f"has status {whole.returncode} with nothing refused")
    answers: Counter[int] = Counter()
    for at in range(1, made + 1):
        done, _ = run(program, words, text, library, at, counted)
        answers[done.returncode] += 1
        if not is_right(done, whole, words):
            what = f"status {done.returncode}, {done.stderr[:200]!r}, {len(done.stdout)} bytes"
            fail(name, f"request {at}: {what}")
    told = ", ".join(f"status {status} {count} times" for status, count in sorted(answers.items()))
    passed(f"{name}: {made} requests, each refused in turn: {told}")
