"""What kernels answered to traces, recorded: a file for each version, packed."""

import gzip
import re
from collections.abc import Iterable
from dataclasses import fields, replace
from pathlib import Path
from typing import NamedTuple

from ..traces import Trace, read_trace
from .kernel import Kernel, Process, kernel_of
from .versions import WrongOracle

ANSWER = "-- answer\n"
FILE = "vectors.gz"
DIRECTED = "directed-"  # how the name of a trace begins that was written for one rule, and not drawn


class Vector(NamedTuple):
    """A trace, and what a kernel answered."""

    name: str
    trace: str
    answer: str


def process_words(process: Process) -> str:
    taken = ",".join(f"{lo:#x}-{hi:#x}" for lo, hi in process.taken)
    values = [str(process.areas), str(process.most_areas), hex(process.brk), taken]
    return " ".join(f"{one.name}={value}" for one, value in zip(fields(process), values))


def process_of(words: str) -> Process:
    found = dict(word.split("=", 1) for word in words.split())
    taken = [tuple(int(page, 16) for page in pair.split("-")) for pair in found["taken"].split(",") if pair]
    return Process(int(found["areas"]), int(found["most_areas"]), int(found["brk"], 16), tuple((lo, hi) for lo, hi in taken))


def written(kernel: Kernel, vectors: Iterable[Vector]) -> bytes:
    """The file, the same bytes for the same vectors."""
    head = f"# {kernel.words()}\n# process {process_words(kernel.process)}\n"
    text = head + "".join(f"== {one.name}\n{one.trace}{ANSWER}{one.answer}" for one in vectors)
    return gzip.compress(text.encode(), 9, mtime=0)


def recorded(folder: Path) -> dict[str, Trace]:
    """The traces by name of all versions' files in a folder, the directed ones last. Each version can be asked them again."""
    texts = {one.name: one.trace for path in sorted(folder.glob(f"*/{FILE}")) for one in read(path)[1]}
    return {name: read_trace(texts[name].encode()) for name in sorted(texts, key=is_directed)}


def is_directed(name: str) -> bool:
    return name.startswith(DIRECTED)


def read(path: Path) -> tuple[Kernel, list[Vector]]:
    """The kernel and the vectors of a file."""
    try:
        text = gzip.decompress(path.read_bytes()).decode()
        head, *rest = re.split(r"^== (\S+)\n", text, flags=re.MULTILINE)
        name, process = re.fullmatch(r"# (linux-.*)\n# process (.*)\n", head).groups()  # type: ignore[union-attr]
        version, *words = name.split()
        kernel = kernel_of(version.removeprefix("linux-"))
        settings = kernel.settings.changed(words)
        vectors = [Vector(one, *part.split(ANSWER)) for one, part in zip(rest[::2], rest[1::2])]
    except (OSError, EOFError, ValueError, AttributeError, TypeError, KeyError) as wrong:
        raise WrongOracle(f"{path}: it is no file of vectors: {wrong}") from None
    return replace(kernel, settings=settings, process=process_of(process)), vectors
