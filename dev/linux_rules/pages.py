"""A page a version: the definitions as this version has them, with each switch resolved."""

import re
from collections.abc import Mapping, Sequence
from dataclasses import asdict, dataclass
from pathlib import Path

from vmatools.linux.versions import TABLE, TEXTS, Rules, Version, table, text_of

from ..reference.definitions import Definition, Topic, read_topic
from .resolving import resolved
from .statements import rules_name

SPECS = Path("crates/linux_rules/specs")
FOLDER = Path("docs/linux")
FILES = (
    "Areas Merging AnonVmas Accounts Searching Mmap Munmap Mprotect Mseal Mremap Brk Faults Forks Showing Doing".split()
)
ROOTS = "mmap munmap mprotect mseal mremap brk fault fork child_space maps_lines".split()
WORDS = re.compile(r"[\w◌>=-]+")


@dataclass(frozen=True)
class Page:
    """The versions of one page, which have the same rules: the newest names it."""

    versions: Sequence[Version]
    rules: Rules

    @property
    def name(self) -> str:
        return rules_name(text_of(self.versions[0])).removeprefix("linux_").replace("_", ".") + ".md"


def page_list() -> list[Page]:
    """A page for each set of rules."""
    found: dict[Rules, list[Version]] = {}
    for version, rules in table().items():
        found.setdefault(rules, []).append(version)
    return [Page(versions, rules) for rules, versions in found.items()]


def needed(topics: Sequence[Topic], rules: Mapping[str, bool]) -> set[str]:
    """The definitions that the calls of a version reach."""
    texts = {each.name.strip("◌"): resolved(each.text, rules) for topic in topics for each in topic.definitions}
    reached: set[str] = set()
    left = list(ROOTS)
    while left:
        name = left.pop()
        if name in texts and name not in reached:
            reached.add(name)
            left += [word.strip("◌") for word in WORDS.findall(texts[name])]
    return reached


def switches(rules: Rules) -> list[str]:
    """The table of switches, with what stands of them in the table of versions."""
    lines = ["| Switch | This version | What a version does that has it | Where |", "|---|---|---|---|"]
    for row in TABLE.read_text(encoding="utf-8").splitlines()[1:]:
        name, where, _, what = row.split("\t")[:TEXTS]
        lines.append(f"| `{name}` | {'yes' if getattr(rules, name) else 'no'} | {what} | {where} |")
    return lines


def definition_text(definition: Definition, rules: Mapping[str, bool]) -> list[str]:
    comment = [definition.comment, ""] if definition.comment else []
    return [*comment, "```text", resolved(definition.text, rules), "```", ""]


def page_text(page: Page, topics: Sequence[Topic]) -> str:
    """All of a page."""
    rules = asdict(page.rules)
    names = " and ".join(text_of(version) for version in page.versions)
    reached = needed(topics, rules)
    lines = [
        f"# Linux {names}",
        "",
        f"What the mmap family of Linux {names} does, as definitions. Made by `dev/make-linux-rules` from",
        "`crates/linux_rules/specs`, with each switch of the versions resolved. [LINUX.md](../LINUX.md) says how to read them,",
        "what they leave out, and how they are held to kernels.",
        "",
        *switches(page.rules),
    ]
    for topic in topics:
        kept = [each for each in topic.definitions if each.name.strip("◌") in reached]
        if kept:
            lines += ["", f"## {Path(topic.file).stem}", "", topic.comment, ""]
            lines += [line for each in kept for line in definition_text(each, rules)][:-1]
    return "\n".join(lines) + "\n"


def files(top: Path) -> dict[Path, str]:
    """All pages, by their paths below the repository."""
    topics = [read_topic(top / SPECS / f"{name}.antt", f"{name}.antt") for name in FILES]
    return {FOLDER / page.name: page_text(page, topics) for page in page_list()}
