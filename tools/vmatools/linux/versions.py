"""Which rules each version of Linux has: the table versions.tsv."""

from dataclasses import dataclass, fields
from functools import lru_cache
from pathlib import Path

from ..console import Failure

TABLE = Path(__file__).with_name("versions.tsv")
TEXTS = 4  # the columns that stand before those of the versions
Version = tuple[int, ...]


@dataclass(frozen=True)
class Rules:
    """What versions do otherwise: each is named for what a version does that has it. The table says where in mm/."""

    unaccounts: bool
    search_has_min: bool
    heap_is_strict: bool
    aligns_anonymous: bool
    replaces_last: bool
    merges_unfaulted: bool
    moves_several: bool
    keeps_copies_apart: bool
    loses_accounts: bool
    has_stale_seal: bool
    has_mseal: bool
    limits_each_mremap: bool
    joins_beside_source: bool
    limits_before_lookup: bool
    loses_written: bool


class WrongOracle(Failure, ValueError):
    """A word that names no version of Linux, or no setting."""


def version_of(text: str) -> Version:
    """The numbers of a version, as of `6.18.44` or `6.1.0-57-cloud-amd64`."""
    numbers = text.split("-")[0].split("+")[0].split(".")
    return tuple(int(number) for number in numbers if number.isdecimal())


def text_of(version: Version) -> str:
    return ".".join(map(str, version))


@lru_cache(maxsize=1)
def table() -> dict[Version, Rules]:
    """The rules of each version that was run, the oldest first."""
    head, *rows = [line.split("\t") for line in TABLE.read_text(encoding="utf-8").splitlines()]
    names = [field.name for field in fields(Rules)]
    if [row[0] for row in rows] != names:
        raise ValueError(f"{TABLE}: its rows are not {', '.join(names)}")
    columns = {version_of(name): place for place, name in enumerate(head[TEXTS:], TEXTS)}
    return {
        version: Rules(**{row[0]: {"yes": True, "no": False}[row[place]] for row in rows})
        for version, place in columns.items()
    }


def is_series(version: Version, wanted: Version) -> bool:
    """Whether a version is of those that some numbers begin, as 6.18.44 of 6.18."""
    return version[: len(wanted)] == wanted


def known(name: str) -> Version:
    """The version of the table that a name means: the newest of its series."""
    wanted = version_of(name)
    found = [version for version in table() if wanted and is_series(version, wanted)]
    if not found or len(wanted) < 2 or text_of(wanted) != name:
        names = ", ".join(f"linux-{text_of(version)}" for version in table())
        raise WrongOracle(f"linux-{name} is no version that was run; there are {names}")
    return found[-1]


def nearest(version: Version) -> Version:
    """The version of the table whose rules another has most likely: of its own series, else the newest before it."""
    own = [one for one in table() if is_series(one, version[:2])]
    if own:
        return min(own, key=lambda one: (abs(one[2] - (version + (0, 0, 0))[2]), one))
    older = [one for one in table() if one < version]
    return older[-1] if older else min(table())
