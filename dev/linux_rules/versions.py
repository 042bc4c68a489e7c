"""The rules of each version, as crates/linux_rules/specs/Versions.antt has them, compared with the table of versions."""

import re
from collections.abc import Iterator, Mapping
from dataclasses import asdict
from pathlib import Path

from vmatools.linux.versions import table, text_of

from .statements import CRATE, rules_name

FILE = CRATE / "specs" / "Versions.antt"
TABLE = "tools/vmatools/linux/versions.tsv"
DEFINED = re.compile(r"^(linux_\w+) = (?:record (?:(linux_\w+) )?\{(.*?)\}|(linux_\w+))$", re.M | re.S)
SWITCH = re.compile(r"(\w+) = (true|false)")


def read(text: str) -> dict[str, dict[str, bool]]:
    """Which switches each definition has."""
    found: dict[str, dict[str, bool]] = {}
    for name, older, body, alias in DEFINED.findall(text):
        found[name] = dict(found.get(older or alias, {}))
        found[name].update({switch: value == "true" for switch, value in SWITCH.findall(body)})
    return found


def differences(text: str, wanted: Mapping[str, Mapping[str, bool]]) -> Iterator[str]:
    """What the definitions have otherwise than the table, which has a column for each version."""
    found = read(text)
    names = {rules_name(version): version for version in wanted}
    for name in sorted(found.keys() - names.keys()):
        yield f"{FILE}: {name} is no column of {TABLE}"
    for name, version in names.items():
        if name not in found:
            yield f"{FILE}: there is no {name}, for the column {version} of {TABLE}"
            continue
        for switch in sorted(found[name].keys() | wanted[version].keys()):
            here, there = found[name].get(switch), wanted[version].get(switch)
            if here != there:
                yield f"{FILE}: {name} has {switch} = {here}; {TABLE} has {there} for {version}"


def compare(top: Path) -> list[str]:
    """The differences in the repository."""
    wanted = {text_of(version): asdict(rules) for version, rules in table().items()}
    return list(differences((top / FILE).read_text(encoding="utf-8"), wanted))
