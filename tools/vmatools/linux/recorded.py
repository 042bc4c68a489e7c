"""What kernels answered to a case of the suite: the file NAME.linux beside its trace.

It has a part for each answer, with a line `==` between two. A part begins with comments: the row of docs/KERNEL.md, and each
kernel that answered so, by its version and all its settings. A part without an answer says that any is right.
"""

import re
from collections.abc import Iterable
from pathlib import Path
from typing import NamedTuple, Optional

from .kernel import Kernel, Settings
from .versions import WrongOracle, nearest, table, version_of

PART = "==\n"
HEAD = re.compile(r"# (\S+) of docs/KERNEL\.md\n((?:# linux-.*\n)+)")


class Part(NamedTuple):
    """An answer, its row, and the kernels that gave it."""

    row: str
    kernels: tuple[Kernel, ...]
    answer: str


def kernel_in(words: str) -> Kernel:
    """The kernel that a record names, as `Kernel.words` does: of any version, with all settings."""
    name, *settings = words.split()
    version = version_of(name.removeprefix("linux-"))
    kernel = Kernel(version, table()[nearest(version)], Settings().changed(settings))
    if kernel.words() != words:
        raise WrongOracle(f"`{words}` has not all settings, as `{kernel.words()}` has")
    return kernel


def parts_of(text: str) -> list[Part]:
    """The parts of a file's text."""
    parts = []
    for number, part in enumerate(text.split(PART) if text else [], 1):
        head = HEAD.match(part)
        if head is None:
            raise WrongOracle(f"part {number} begins with no `# ROW of docs/KERNEL.md` and `# linux-VERSION SETTINGS`")
        kernels = tuple(kernel_in(line.removeprefix("# ")) for line in head[2].splitlines())
        parts.append(Part(head[1], kernels, part[head.end() :]))
    return parts


def read(path: Path) -> list[Part]:
    """The parts of a file, none where there is no file."""
    try:
        return parts_of(path.read_text(encoding="utf-8") if path.exists() else "")
    except WrongOracle as wrong:
        raise WrongOracle(f"{path}: {wrong}") from None


def answer_of(parts: Iterable[Part], kernel: Kernel) -> Optional[str]:
    """What a kernel of this version and with these settings answered, if one was asked."""
    return next((part.answer for part in parts if kernel.words() in (one.words() for one in part.kernels)), None)


def written(parts: Iterable[Part]) -> str:
    """A file's text: the newest version first, and of each answer the oldest."""
    texts = []
    for part in sorted(parts, key=lambda part: max(kernel.version for kernel in part.kernels), reverse=True):
        kernels = sorted(part.kernels, key=lambda kernel: kernel.version)
        texts.append("".join(f"# {line}\n" for line in (f"{part.row} of docs/KERNEL.md", *(one.words() for one in kernels))))
        texts[-1] += part.answer
    return PART.join(texts)


def with_answer(parts: Iterable[Part], row: str, kernel: Kernel, answer: str) -> list[Part]:
    """The parts with what a kernel answered, in the place of what one of its version did before."""
    kernels: dict[tuple[str, str], tuple[Kernel, ...]] = {}
    for part in parts:
        kernels[part.row, part.answer] = tuple(one for one in part.kernels if one.version != kernel.version)
    kernels[row, answer] = (*kernels.get((row, answer), ()), kernel)
    return [Part(name, found, text) for (name, text), found in kernels.items() if found]
