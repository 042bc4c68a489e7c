"""Which public names of `specs/` stand twice, which crates cite what another keeps for itself, and which code lets other threads
run or keeps for ever what it has, where no clause could tell.
"""

import re
from collections import defaultdict
from collections.abc import Iterable, Iterator
from pathlib import Path

DEFINED = re.compile(r"(?m)^(?:(?:abbrev|unfoldable|opaque|rec) )*pub (?:record |data )?(?!mod |use )([^\s:(]+)")
CITED = re.compile(r"\b(?:Rattle\.)?([a-z_0-9]+)(?:\.|::)specs(?:\.|::)Internal\b")
COMMENT = re.compile(r"//.*")
KEPT = re.compile(r"\b(yield_now|sleep|forget|leak|ManuallyDrop)\b *[(<:]")
# The code that lets other threads run: each waits for readers, and has no pin open and no slot.
WAITS = dict.fromkeys(("area_tree/src/waiting.rt", "mm_state/src/spans.rt", "mm_state/src/store.rt"), ["yield_now"])
TESTS = ("space_tests", "replay_tests", "tree_tests")
RECORDED = re.compile(r"Linux_[0-9_]+")  # statements about one version of the kernel, which a program makes
KERNEL = "linux_rules"
# What linux_rules defines for the kernel's list, as another crate does for the profile's list.
OF_BOTH = (
    *("mmap", "munmap", "mprotect", "mremap", "mseal", "brk", "area_verdict", "opening"),
    *("is_aligned", "is_fixed", "is_free", "may_move", "pages_of", "same_prot", "◌>>=◌"),
)


def defined(top: Path) -> dict[str, list[str]]:
    """The public names of all `specs/`, each with the crates and files that define it."""
    places = defaultdict(list)
    for path in sorted(top.glob("crates/*/specs/**/*.antt")):
        crate, inner = path.relative_to(top / "crates").parts[0], path.relative_to(top / "crates").parts[2:]
        if crate == KERNEL and RECORDED.fullmatch(path.stem):
            continue
        for name in DEFINED.findall(path.read_text(encoding="utf-8")):
            places[name].append(f"{crate}: {'/'.join(inner)}")
    return places


def is_allowed(name: str, places: Iterable[str]) -> bool:
    """Whether a name stands once, or once in the kernel's definitions and once beside them for the same thing."""
    kernel = [place.startswith(f"{KERNEL}: ") for place in places]
    return len(kernel) == 1 or (name in OF_BOTH and sorted(kernel) == [False, True])


def repeated(top: Path) -> Iterator[str]:
    """The public names that stand more often than they may, each with where."""
    for name, places in sorted(defined(top).items()):
        if not is_allowed(name, places):
            yield f"`{name}` stands in {', '.join(places)}"


def trespasses(top: Path) -> Iterator[str]:
    """The files that cite the `Internal` definitions of another crate."""
    for path in sorted(top.glob("crates/**/*")):
        if path.suffix not in (".antt", ".rt") or "out" in path.parts:
            continue
        crate = path.relative_to(top / "crates").parts[0]
        for cited in CITED.findall(path.read_text(encoding="utf-8")):
            if cited not in ("crate", crate):
                yield f"{path.relative_to(top)} cites Internal of {cited}"


def waits(top: Path) -> Iterator[str]:
    """The files that let other threads run, or keep for ever what they have, otherwise than is known."""
    for path in sorted(top.glob("crates/*/src/**/*.rt")):
        name = path.relative_to(top / "crates").as_posix()
        found = KEPT.findall(COMMENT.sub("", path.read_text(encoding="utf-8")))
        if not name.startswith(TESTS) and found != WAITS.get(name, []):
            yield f"{name} has {', '.join(found) or 'nothing'}, and not {', '.join(WAITS.get(name, ['nothing']))}"
