"""Makes docs/HEADLINE.md: what the clause `output` of `replay` says, with every definition that it reaches."""

import argparse
import functools
import re
import sys
from collections.abc import Iterator
from dataclasses import dataclass
from pathlib import Path

from .definitions import Definition, Topic, read_topic
from .pages import anchor_of, first_sentence
from .sources import ITEM, docs_above, read_items

TOP = Path(__file__).resolve().parents[2]
PAGE = Path("docs/HEADLINE.md")
SOURCE, FUNCTION, CLAUSE = Path("crates/vma_replay/src/run.rt"), "replay", "output"
USE = re.compile(r"^(?:ghost )?use Rattle\.([\w.]+?)(?:\.\{(.*?)\}| as (\w+));?$")
# A name with the names of its path before it, as `modes.Serial` or `result.status`.
NAME = re.compile(r"(?<![\w'.])[^\W\d]\w*'?(?:\.\w+'?)*")
BOUND = re.compile(r"λ ([^.]*)\.|[({]([^(){}:]*?) :")


@dataclass(frozen=True)
class Place:
    """Where a name is defined: a crate, the path of its module within the crate, and the name."""

    crate: str
    module: tuple[str, ...]
    name: str

    @property
    def is_of_code(self) -> bool:
        """Whether it is a type or a constant of the program, and no definition."""
        return self.module[:1] == ("declared",)

    @property
    def file(self) -> str:
        """The file that has it, within the crate."""
        if not self.is_of_code:
            return "specs/" + "/".join(self.module) + ".antt"
        return "src/" + "/".join(part for part in self.module[1:] if not part.startswith("The")) + ".rt"


@dataclass(frozen=True)
class Node:
    """A definition with the places that its text names."""

    place: Place
    definition: Definition
    names: list[Place]


def imports_of(text: str) -> dict[str, Place]:
    """What a file takes in by `use`: each name, and each short name of a module, with the place that it stands for."""
    found: dict[str, Place] = {}
    for line in text.split("\n"):
        if not (use := USE.match(line.strip())):
            continue
        path = use[1].split(".")
        crate, module = path[0], tuple(path[2:])
        if path[1:2] != ["specs"] or crate == "std":
            continue
        if use[3]:
            found[use[3]] = place_of(crate, module, "")
        for name in (use[2] or "").split(", "):
            defined, _, short = name.partition(" as ")
            if defined:
                found[short or defined] = place_of(crate, module, defined)
    return found


def place_of(crate: str, module: tuple[str, ...], name: str) -> Place:
    """A place; of a variant that is its type, and a type of code is in no module of its own name."""
    if module[-1:] == ("TheVariants",):
        return Place(crate, module[:-2], module[-2])
    if module[:1] == ("declared",) and module[-1] == name:
        return Place(crate, module[:-1], name)
    return Place(crate, module, name)


def bound_names(definition: Definition) -> set[str]:
    """The variables of a definition, which hide what is defined elsewhere by these names."""
    text = definition.text
    heads = {definition.name, *re.findall(r"^\s+(\w+'?) : ", text, re.M)}
    bound = {word for groups in BOUND.findall(text) for group in groups for word in group.split()}
    for head, arguments in re.findall(r"^\s*(\w+'?)((?: [^=\n]*)?) =(?: |$)", text, re.M):
        if head in heads:
            bound.update(re.findall(r"(?<![\w.])[a-z]\w*", arguments))
    bound.update(re.findall(r"(?:^\s+(?:pub )?|let )(\w+'?) [:=] ", text, re.M))
    return bound | set(re.findall(r"[{;]\s+(\w+) = ", text))


def named_in(text: str, known: dict[str, Place], hidden: set[str]) -> list[Place]:
    """The places that a text names, in order of mention, by names that are not hidden."""
    found: list[Place] = []
    for name in NAME.findall("\n".join(line.partition("--")[0] for line in text.split("\n"))):
        first, _, rest = name.partition(".")
        place = known.get(first)
        if place is None or (first in hidden and not (rest and not place.name)):
            continue
        if not place.name:
            place = Place(place.crate, place.module, rest.split(".")[0])
        if place not in found:
            found.append(place)
    return found


class Sources:
    """The definitions and types of the crates, read as they are asked for."""

    def __init__(self, top: Path) -> None:
        self.top = top
        self.topic = functools.cache(self._topic)
        self.known = functools.cache(self._known)
        self.items = functools.cache(lambda crate: read_items(top / "crates" / crate)[1])

    def _topic(self, crate: str, module: tuple[str, ...]) -> Topic:
        name = "specs/" + "/".join(module) + ".antt"
        return read_topic(self.top / "crates" / crate / name, name)

    def _known(self, crate: str, module: tuple[str, ...]) -> dict[str, Place]:
        topic = self.topic(crate, module)
        own = {each.name: Place(crate, module, each.name) for each in topic.definitions}
        return imports_of((self.top / "crates" / crate / topic.file).read_text(encoding="utf-8")) | own

    def node(self, place: Place) -> Node:
        """The definition at a place."""
        topic = self.topic(place.crate, place.module)
        found = next((each for each in topic.definitions if each.name == place.name), None)
        if found is None:
            raise ValueError(f"crates/{place.crate}/{place.file} defines no {place.name}")
        known = self.known(place.crate, place.module)
        return Node(place, found, named_in(found.text, known, bound_names(found) | {place.name}))

    def code_line(self, place: Place) -> tuple[str, int, str]:
        """The file and line of a type or constant of the program, and the first sentence of its comment."""
        for path in sorted((self.top / "crates" / place.crate / "src").rglob(Path(place.file).name)):
            lines = path.read_text(encoding="utf-8").split("\n")
            for at, line in enumerate(lines):
                if (item := ITEM.match(line)) and item.group(3) == place.name:
                    file = str(path.relative_to(self.top / "crates" / place.crate))
                    return file, at + 1, " ".join(docs_above(lines, at).split())
        raise ValueError(f"crates/{place.crate}/{place.file} has no {place.name}")


@dataclass(frozen=True)
class Headline:
    """The clause: its text, the line of its function, and the places that it names."""

    text: str
    line: int
    names: list[Place]


def clause(top: Path) -> Headline:
    """The headline, as its source has it."""
    item = next(each for each in read_items(top / SOURCE.parents[1])[1] if each.name == FUNCTION)
    text = next(each for each in item.clauses if each.name == CLAUSE).text
    known = imports_of((top / SOURCE).read_text(encoding="utf-8"))
    return Headline(text, item.line, named_in(text, known, set()))


@dataclass(frozen=True)
class Part:
    """A part of the page: what it is about, and the definitions that begin it."""

    title: str
    roots: tuple[str, ...]


# In the order of the page. A part has what its own roots reach without a root of another part.
PARTS = (
    Part("What words the program takes, and what it does for each", ()),
    Part("What a run of `serial` or `threads` gives", ("GivesRuns",)),
    Part("What each call and each fault does", ("step", "verdict", "grows")),
    Part("Which bytes are a trace", ("trace_of",)),
    Part("What `check` answers", ("IsCheckedAs", "input_of")),
    Part("What `steps` prints", ("script_output",)),
    Part("What `query` and `retrace` print", ("query_answer", "retraced_of")),
    Part("What `generate` prints", ("RunsGenerated", "summary_text")),
)
ROOTS = {root for part in PARTS for root in part.roots}


def reached(top: Path) -> tuple[list[Node], list[Place]]:
    """Every definition that the headline reaches, each before those that it names, and each type and constant."""
    sources = Sources(top)
    nodes: dict[Place, Node] = {}
    code: list[Place] = []
    done: list[Place] = []

    def visit(place: Place) -> None:
        if place in nodes or place in code:
            return
        if place.is_of_code:
            code.append(place)
            return
        nodes[place] = sources.node(place)
        for below in reversed(nodes[place].names):
            visit(below)
        done.append(place)

    for place in reversed(clause(top).names):
        visit(place)
    return [nodes[place] for place in reversed(done)], code


def in_parts(nodes: list[Node], first: list[Place]) -> list[list[Node]]:
    """The definitions of each part, in the order of the list."""
    by_place = {node.place: node for node in nodes}
    owner: dict[Place, int] = {}
    for number, part in enumerate(PARTS):
        waiting = [place for place in by_place if place.name in part.roots] if part.roots else first
        while waiting:
            place = waiting.pop()
            if place in by_place and place not in owner and (place.name in part.roots or place.name not in ROOTS):
                owner[place] = number
                waiting += by_place[place].names
    return [[node for node in nodes if owner[node.place] == number] for number in range(len(PARTS))]


def steps_down(nodes: list[Node]) -> dict[Place, int]:
    """How many steps each definition is below one that no other of these names."""
    by_place = {node.place: node for node in nodes}
    named = {place for node in nodes for place in node.names}
    found = {place: 0 for place in by_place if place not in named}
    waiting = list(found)
    for place in waiting:
        for below in by_place[place].names:
            if below in by_place and below not in found:
                found[below] = found[place] + 1
                waiting.append(below)
    return found


def by_file(nodes: list[Node]) -> list[list[Node]]:
    """The definitions by file: a file stands above those that its definitions name, and else by how near the first ones are."""
    files: dict[tuple[str, str], list[Node]] = {}
    below: dict[tuple[str, str], set[tuple[str, str]]] = {}
    for node in nodes:
        own = (node.place.crate, node.place.file)
        files.setdefault(own, []).append(node)
        below.setdefault(own, set()).update({(place.crate, place.file) for place in node.names} - {own})
    down = steps_down(nodes)
    near = {file: min(down.get(node.place, 0) for node in kept) for file, kept in files.items()}
    ordered: list[tuple[str, str]] = []
    while left := [file for file in files if file not in ordered]:
        free = [file for file in left if not any(file in below[other] for other in left)]
        ordered.append(min(free or left, key=lambda file: near[file]))
    return [files[file] for file in ordered]


def lines_of(nodes: list[Node]) -> int:
    return sum(node.definition.text.count("\n") + 1 for node in nodes)


def section(sources: Sources, nodes: list[Node]) -> Iterator[str]:
    """A file: what it is about, and its definitions that are reached, each with its line in words."""
    place = nodes[0].place
    file = f"../crates/{place.crate}/{place.file}"
    about = sources.topic(place.crate, place.module).comment.rstrip(".")
    yield from (f"**{about}** ([{place.crate}/{Path(place.file).name}]({file})):", "")
    for node in nodes:
        yield f"- [`{node.definition.name}`]({file}#L{node.definition.line}): {node.definition.comment}"
    yield ""


def code_section(sources: Sources, code: list[Place]) -> Iterator[str]:
    """The types and constants of the program that the definitions name."""
    yield from ("## Types and constants of the program", "", "Contracts see them as they are declared.", "")
    for place in sorted(code, key=lambda place: (place.crate, place.name)):
        file, line, docs = sources.code_line(place)
        link = f"../crates/{place.crate}/{file}#L{line}"
        yield f"- [`{place.name}`]({link}) of {place.crate}: {first_sentence(docs)}"
    yield ""


def table(parts: list[list[Node]]) -> Iterator[str]:
    """The parts, each with its size."""
    yield from ("| Part | Definitions | Lines |", "|---|---|---|")
    for part, nodes in zip(PARTS, parts):
        yield f"| [{part.title}](#{anchor_of(part.title)}) | {len(nodes)} | {lines_of(nodes)} |"
    yield ""


def page(top: Path) -> str:
    """The page as a whole."""
    sources = Sources(top)
    nodes, code = reached(top)
    headline = clause(top)
    parts = in_parts(nodes, headline.names)
    lines = [
        "<!-- Made from the sources by dev/make-headline: change those. -->",
        "# The headline, down to its last definition",
        "",
        f"The clause `{CLAUSE}` of [`{FUNCTION}`](../{SOURCE}#L{headline.line}).",
        "[PROOF.md](PROOF.md#the-headline) has it in words.",
        "",
        *("```text", headline.text, "```", ""),
        f"It reaches **{len(nodes)} definitions of {lines_of(nodes):,} lines**, and {len(code)} types and constants of the",
        "program. A run of `serial` or `threads` needs the first four parts:",
        f"{sum(map(len, parts[:4]))} definitions of {sum(map(lines_of, parts[:4])):,} lines. Lists, numbers and options are",
        "those of the kit's `std`. What a definition names stands below it, or in a part above.",
        "If all of them say what they should, so does the headline.",
        "",
        *table(parts),
    ]
    for part, kept in zip(PARTS, parts):
        lines += [f"## {part.title}", "", *(line for file in by_file(kept) for line in section(sources, file))]
    return "\n".join([*lines, *code_section(sources, code)]).rstrip() + "\n"


def without_words(top: Path) -> list[str]:
    """The definitions that have no line in words."""
    return [
        f"crates/{node.place.crate}/{node.place.file}:{node.definition.line}: {node.definition.name} has no comment"
        for node in reached(top)[0]
        if not node.definition.comment
    ]


def main() -> int:
    parser = argparse.ArgumentParser(prog="make-headline", description=__doc__)
    parser.add_argument("--check", action="store_true", help="change nothing; status 1 where the page is not what would be made")
    options = parser.parse_args()
    if missing := without_words(TOP):
        print("\n".join(missing), file=sys.stderr)
        return 1
    made = page(TOP)
    if options.check and made != (TOP / PAGE).read_text(encoding="utf-8"):
        print(f"{PAGE} is not what the sources say now: run dev/make-headline", file=sys.stderr)
        return 1
    if not options.check:
        (TOP / PAGE).write_text(made, encoding="utf-8")
    return 0


if __name__ == "__main__":
    sys.exit(main())
