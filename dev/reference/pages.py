"""Writes the pages of the reference: one a crate, with an index of crates, and the list of what has no comment."""

import os
import re
from dataclasses import dataclass
from pathlib import Path

from .definitions import Definition, Topic, read_topics
from .sources import Clause, Item, read_items

MADE = "<!-- Made from the sources by dev/make-reference: change those. -->"
UP = "](../../"  # how links to the repository begin, until `pages` knows from where they lead
TESTS = "tests and examples"  # the group of crates whose items may have no comment


@dataclass(frozen=True)
class Crate:
    """What a page shows of a crate."""

    name: str
    group: str
    stands_on: list[str]
    docs: str
    items: list[Item]
    topics: list[Topic]
    planted_bugs: list[str]

    @property
    def summary(self) -> str:
        """The first sentence of the root module's comment."""
        return first_sentence(" ".join(self.docs.split()))

    @property
    def functions(self) -> list[Item]:
        return [item for item in self.items if item.kind == "fn" and not item.is_law]

    @property
    def laws(self) -> list[Item]:
        return [item for item in self.items if item.is_law]

    @property
    def types(self) -> list[Item]:
        return [item for item in self.items if item.kind != "fn"]


def first_sentence(text: str) -> str:
    """The text up to the first full stop that ends a sentence."""
    found = re.search(r"(?<!e\.g)(?<!i\.e)\.(?=\s|$)", text)
    return text[: found.end()] if found else text


def read_crates(top: Path) -> list[Crate]:
    """The crates of `crates.txt` in its order, each with the group whose comment stands above it."""
    crates: list[Crate] = []
    group = ""
    for line in (top / "crates.txt").read_text(encoding="utf-8").splitlines():
        if line.startswith("#"):
            group = line.lstrip("# ").strip()
        elif ":" in line:
            head, _, below = line.partition(":")
            crates.append(read_crate(top, head.split()[0], group, below.split()))
    return crates


def read_crate(top: Path, name: str, group: str, stands_on: list[str]) -> Crate:
    """What the sources of one crate say."""
    folder = top / "crates" / name
    docs, items = read_items(folder)
    edits = sorted(path.stem for path in (folder / "must-fail").glob("*.edit"))
    return Crate(name, group, stands_on, docs, items, read_topics(folder), edits)


def link_to(crate: str, file: str, line: int) -> str:
    return f"[{file}:{line}{UP}crates/{crate}/{file}#L{line})"


def anchor_of(title: str) -> str:
    """The anchor that a heading gets: its letters and digits, blanks as hyphens."""
    return re.sub(r"[^\w\- ]", "", title.lower()).replace(" ", "-")


def clause_lines(clause: Clause) -> list[str]:
    """A clause as lines of a code block, its note above it."""
    first, *others = clause.text.split("\n")
    head = f"{clause.kind} {clause.name}".rstrip() + f": {first}"
    return [*([f"// {clause.note}"] if clause.note else []), head, *others]


def item_lines(crate: str, item: Item) -> list[str]:
    """One item: heading, comment, declaration, conditions and clauses."""
    lines = [f"### {item.name}", ""]
    if item.docs:
        lines += [item.docs, ""]
    if item.seen_as:
        lines += [f"Contracts see it as `{item.seen_as}`.", ""]
    if not item.is_law:
        lines += ["```rust", item.declaration, "```", ""]
    if item.clauses:
        lines += ["```text", *(line for clause in item.clauses for line in clause_lines(clause)), "```", ""]
    return [*lines, f"{item.kind} in {link_to(crate, item.file, item.line)}", ""]


def definition_lines(crate: str, definition: Definition) -> list[str]:
    """One definition: its comment, its text, its place."""
    comment = [f"{definition.comment[:1].upper()}{definition.comment[1:]}", ""] if definition.comment else []
    return [
        f"### {definition.name}",
        "",
        *comment,
        "```text",
        definition.text,
        "```",
        "",
        f"in {link_to(crate, definition.file, definition.line)}",
        "",
    ]


def topic_lines(crate: str, topic: Topic) -> list[str]:
    lines = [f"*{Path(topic.file).stem}*: {topic.comment}", ""] if topic.comment else []
    return lines + [line for definition in topic.definitions for line in definition_lines(crate, definition)]


def page_of(crate: Crate, known: set[str]) -> str:
    """The page of a crate."""
    below = (
        ", ".join(f"[{name}]({name}.md)" if name in known else f"`{name}`" for name in crate.stands_on)
        or "nothing but `std`"
    )
    lines = [MADE, f"# {crate.name}", "", crate.docs, "", f"Depends on {below}.", ""]
    sections = (("Functions", crate.functions), ("Types", crate.types), ("Laws", crate.laws))
    for title, items in sections:
        if items:
            lines += [f"## {title}", "", *(line for item in items for line in item_lines(crate.name, item))]
    shown = [topic for topic in crate.topics if not topic.is_internal]
    inner = [topic for topic in crate.topics if topic.is_internal]
    for title, topics in (("Definitions", shown), ("Definitions of its own", inner)):
        if topics:
            lines += [f"## {title}", "", *(line for topic in topics for line in topic_lines(crate.name, topic))]
    if crate.planted_bugs:
        lines += ["## Planted bugs that the prover refuses", ""]
        lines += [
            f"- [{name.replace('_', ' ')}{UP}crates/{crate.name}/must-fail/{name}.edit)"
            for name in crate.planted_bugs
        ] + [""]
    return "\n".join(lines).rstrip() + "\n"


def index_lines(crates: list[Crate]) -> list[str]:
    """The crates by group, each with its first sentence."""
    lines: list[str] = []
    group = None
    for crate in crates:
        if crate.group != group:
            group = crate.group
            lines += ["", f"## {group[:1].upper()}{group[1:]}" if group else "## Crates", ""]
        lines.append(f"- [{crate.name}]({crate.name}.md): {crate.summary}")
    return lines


def index_page(crates: list[Crate]) -> str:
    """The first page of the reference."""
    counted = {
        "public functions": sum(len(crate.functions) for crate in crates),
        "laws": sum(len(crate.laws) for crate in crates),
        "named or plain clauses": sum(len(item.clauses) for crate in crates for item in crate.items),
        "definitions": sum(len(topic.definitions) for crate in crates for topic in crate.topics),
        "planted bugs": sum(len(crate.planted_bugs) for crate in crates),
    }
    said = ", ".join(f"{number:,} {what}" for what, number in counted.items())
    lines = [
        MADE,
        "# Reference",
        "",
        "Each crate with its public items, conditions, clauses and definitions, taken from the sources.",
        f"There are {len(crates)} crates, {said}.",
        f"[PROOF.md{UP}docs/PROOF.md#how-to-read-a-contract) says how to read a contract.",
        *index_lines(crates),
    ]
    return "\n".join(lines).rstrip() + "\n"


def pages(top: Path, out: Path) -> dict[str, str]:
    """All pages by their file's name, as they are in a folder."""
    crates = read_crates(top)
    known = {crate.name for crate in crates}
    made = {"README.md": index_page(crates), **{f"{crate.name}.md": page_of(crate, known) for crate in crates}}
    up = f"]({os.path.relpath(top, out)}/"
    return {name: text.replace(UP, up) for name, text in made.items()}


def faults(top: Path) -> list[str]:
    """What has no comment, a line each: crates, and of those that aren't tests public items and definitions."""
    found: list[str] = []
    for crate in read_crates(top):
        if not crate.docs:
            found.append(f"crates/{crate.name}: its root module has no comment")
        if crate.group == TESTS:
            continue
        found += [
            f"crates/{crate.name}/{item.file}:{item.line}: {item.name} has no comment"
            for item in crate.items
            if not item.docs
        ]
        for topic in crate.topics:
            found += [
                f"crates/{crate.name}/{each.file}:{each.line}: {each.name} has no comment"
                for each in topic.definitions
                if not each.comment
            ]
    return found
