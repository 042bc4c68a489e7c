"""System V shared memory in a log: shmget makes a segment, shmat maps it as the kernel maps a file, and shmdt unmaps it."""

import re

from .files import Opening, number_word
from .log import Call, split_arguments

CALLS = {"shmget", "shmat", "shmdt"}
SHM_RDONLY, SHM_REMAP, SHM_EXEC = 0o10000, 0o40000, 0o100000
NAMES = {"SHM_RDONLY": SHM_RDONLY, "SHM_REMAP": SHM_REMAP, "SHM_EXEC": SHM_EXEC}
DEVICE = (0, 1)  # of the kernel's own mount of shared memory


class Segments:
    """The segments of a log, by their numbers. They are of no process."""

    def __init__(self) -> None:
        self.known: dict[int, Opening] = {}

    def made(self, call: Call) -> None:
        """Learns the size and the name of a segment from shmget. One of huge pages has another name and is aligned."""
        words, number = split_arguments(call.text), number_word(call.result)
        if number is None or len(words) != 3 or "SHM_HUGETLB" in words[2]:
            return
        key, size = 0 if words[0] == "IPC_PRIVATE" else number_word(words[0]), number_word(words[1])
        if key is None or not size:
            return
        segment = Opening(f"/SYSV{key:08x} (deleted)", "rw")
        segment.learns_size(size, "log")
        segment.learns_identity((*DEVICE, number), "log")
        self.known[number] = segment

    def attached(self, call: Call) -> tuple[list[str], Opening] | None:
        """The words of the mmap that a shmat is, and what it maps; none where it failed, or the log has no size of it."""
        words = split_arguments(call.text)
        place = number_word(call.result)
        segment = self.known.get(number_word(words[0]) or 0) if len(words) == 3 and place else None
        if segment is None:
            return None
        flags = flags_of(words[2])
        names = ["PROT_READ"]
        names += ["PROT_WRITE"] if not flags & SHM_RDONLY else []
        names += ["PROT_EXEC"] if flags & SHM_EXEC else []
        is_placed = words[1] in ("NULL", "0", "0x0")
        how = "MAP_SHARED" if is_placed else "MAP_SHARED|MAP_FIXED"
        return ["NULL" if is_placed else hex(place or 0), str(segment.size), "|".join(names), how, "3", "0"], segment


def flags_of(word: str) -> int:
    """The flags of shmat, by name or as a number."""
    pieces = word.split("|")
    written = [piece for piece in pieces if re.fullmatch("0x[0-9a-f]+|[0-9]+", piece)]
    numbers = (int(piece, 8 if re.fullmatch("0[0-7]+", piece) else 0) for piece in written)
    return sum(NAMES.get(piece, 0) for piece in pieces) | sum(numbers)
