"""The generated traces, and the summary of an output of one.

They are written from the section "Generated traces" of docs/TRACE.md alone, and have nothing of the program's code.
"""

from ..traces import PAGE

MULTIPLIER, INCREMENT = 6364136223846793005, 1442695040888963407
FIRST_ADDRESS = 0x10000000
ANONYMOUS = "MAP_PRIVATE|MAP_ANONYMOUS"


def operation(draw: int) -> str:
    """The words of the operation of a draw."""
    address, length = FIRST_ADDRESS + PAGE * (draw // 32 % 65536), PAGE * (1 + draw // 2**21 % 16)
    bits = draw // 2**25 % 8
    prot = (
        "|".join(name for bit, name in enumerate(("PROT_READ", "PROT_WRITE", "PROT_EXEC")) if bits >> bit & 1)
        or "PROT_NONE"
    )
    return (
        f"mmap {address:#x} {length} {prot} {ANONYMOUS}|MAP_FIXED -1 0",
        f"mmap {address:#x} {length} {prot} {ANONYMOUS} -1 0",
        f"mmap 0 {length} {prot} {ANONYMOUS} -1 0",
        f"munmap {address:#x} {length}",
        f"mprotect {address:#x} {length} {prot}",
        f"mremap {address:#x} {length} {PAGE * (1 + draw // 2**28 % 8)} MREMAP_MAYMOVE",
        f"fault {address:#x} r",
        f"fault {address:#x} w",
    )[draw % 8]


def load(count: int, seed: int) -> list[str]:
    """The lines of the generated trace of so many operations."""
    lines, number = ["vmatrace 1"], seed
    for _ in range(count):
        number = (number * MULTIPLIER + INCREMENT) % 2**64
        draw = number >> 33
        lines.append(f"{draw // 8 % 4} {operation(draw)}")
    return lines


def summary(output: list[str]) -> list[str]:
    """What `generate` writes for a trace whose output in `serial` has these lines."""
    # No trace of a load reads the list, so each item has a line, and the rest are those of the last list.
    end = next(number for number, line in enumerate(output) if line.startswith("maps "))
    results = [line.split(" = ")[1] for line in output[:end]]
    faults = [result for result in results if result.startswith(("served ", "SIG"))]
    calls = len(results) - len(faults)
    refused = sum(result.startswith("-1 ") for result in results)
    served = sum(result.startswith("served ") for result in faults)
    numbers = {
        "calls": calls,
        "refused": refused,
        "faults": len(faults),
        "served": served,
        "version": calls,
        "areas": len(output) - end - 1,
    }
    return [f"{name} {number}" for name, number in numbers.items()]
