#!/usr/bin/env python3
"""Asks diltzekun-live what random calls give, makes each of them on this kernel too, and stops at the first difference.

Example: examples/live/client.py crates/vma_live/out/vma_live [SEED]
"""
import ctypes
import errno
import random
import subprocess
import sys

PAGE, PAGES, CALLS = 4096, 16, 1000
WINDOW = 0x10000000  # nothing else may lie there
READ, PRIVATE, FIXED, ANONYMOUS = 1, 2, 0x10, 0x20

libc = ctypes.CDLL(None, use_errno=True)
libc.mmap.restype = ctypes.c_void_p
libc.mmap.argtypes = [ctypes.c_void_p, ctypes.c_size_t, *[ctypes.c_int] * 3, ctypes.c_long]
libc.munmap.argtypes = [ctypes.c_void_p, ctypes.c_size_t]
libc.mprotect.argtypes = [ctypes.c_void_p, ctypes.c_size_t, ctypes.c_int]


def reply(status: int) -> str:
    """A result as the oracle writes it."""
    return "0" if status == 0 else f"-1 {errno.errorcode[ctypes.get_errno()]}"


def call() -> tuple[str, str]:
    """Makes a call on this kernel, and gives its line and its result."""
    at, size = WINDOW + PAGE * random.randrange(PAGES), PAGE * random.randint(1, 4)
    kind = random.choice(["mmap", "munmap", "mprotect"])
    if kind == "mmap":
        place = libc.mmap(at, size, READ, PRIVATE | ANONYMOUS | FIXED, -1, 0)
        return f"0 mmap {at:#x} {size} PROT_READ MAP_PRIVATE|MAP_ANONYMOUS|MAP_FIXED -1 0", f"{place:#x}"
    if kind == "munmap":
        return f"0 munmap {at:#x} {size}", reply(libc.munmap(at, size))
    return f"0 mprotect {at:#x} {size} PROT_NONE", reply(libc.mprotect(at, size, 0))


def main(words: list[str]) -> int:
    if len(words) not in (1, 2) or not all(word.isdigit() for word in words[1:]):
        print("usage: client.py path/to/diltzekun-live [SEED]", file=sys.stderr)
        return 2
    random.seed(int(words[1]) if len(words) > 1 else 1)
    try:
        return compare(words[0])
    except OSError as error:
        print(f"{words[0]}: {error.strerror}", file=sys.stderr)
        return 2


def compare(program: str) -> int:
    """Makes all calls on both sides. The status is 1 if an answer differs."""
    with subprocess.Popen(program, stdin=subprocess.PIPE, stdout=subprocess.PIPE, text=True, bufsize=1) as oracle:
        assert oracle.stdin and oracle.stdout
        oracle.stdin.write("vmatrace 1\n")
        for _ in range(CALLS):
            line, result = call()
            oracle.stdin.write(line + "\n")
            answer = oracle.stdout.readline().rstrip("\n").partition("= ")[2]
            if answer != result:
                print(f"{line}: kernel {result}, oracle {answer}")
                return 1
        oracle.communicate()  # the last list
    print(f"{CALLS} calls: no difference")
    return 0


if __name__ == "__main__":
    sys.exit(main(sys.argv[1:]))
