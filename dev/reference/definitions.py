"""Reads the definitions of a crate's `specs/`: each with the comment above it and its text."""

from dataclasses import dataclass
from pathlib import Path

BEGINS = ("pub ", "abbrev ", "unfoldable ", "record ", "data ", "opaque ")


@dataclass(frozen=True)
class Definition:
    """A definition by its name, where it stands, the comment above it, and its text as written."""

    name: str
    file: str
    line: int
    comment: str
    text: str


@dataclass(frozen=True)
class Topic:
    """A file of definitions with its head comment."""

    file: str
    comment: str
    definitions: list[Definition]

    @property
    def is_internal(self) -> bool:
        """Whether its definitions serve the crate alone."""
        return "Internal" in Path(self.file).parts


def name_of(line: str) -> str:
    """The name that a line begins to define, or none."""
    if not line.startswith(BEGINS) or line.startswith("pub mod "):
        return ""
    words = [word for word in line.split() if word not in ("pub", "abbrev", "unfoldable", "record", "data", "opaque")]
    return words[0].rstrip(":") if words else ""


def comment_above(lines: list[str], at: int) -> str:
    """The `--` comment right above a line."""
    top = at
    while top > 0 and lines[top - 1].startswith("--"):
        top -= 1
    return " ".join(line[2:].strip() for line in lines[top:at])


def head_comment(lines: list[str]) -> str:
    """The comment at the head of a file, before its first `use`."""
    taken = []
    for line in lines:
        if not line.startswith("--"):
            break
        taken.append(line[2:].strip())
    return " ".join(taken)


def text_from(lines: list[str], at: int) -> str:
    """The text of a definition: its lines up to the next blank line or comment at the margin."""
    end = at + 1
    while end < len(lines) and lines[end].strip() and not lines[end].startswith("--"):
        if name_of(lines[end]):
            break
        end += 1
    return "\n".join(line.rstrip() for line in lines[at:end])


def read_topic(path: Path, name: str) -> Topic:
    """The definitions of one file."""
    lines = path.read_text(encoding="utf-8").split("\n")
    found = [
        Definition(defined, name, at + 1, comment_above(lines, at), text_from(lines, at))
        for at, line in enumerate(lines)
        if (defined := name_of(line))
    ]
    return Topic(name, head_comment(lines), found)


def read_topics(folder: Path) -> list[Topic]:
    """The files of definitions of a crate: those that others cite first, then those of its own."""
    paths = [path for path in sorted((folder / "specs").rglob("*.antt")) if path.name != "Lib.antt"]
    topics = [read_topic(path, str(path.relative_to(folder))) for path in paths]
    return sorted((topic for topic in topics if topic.definitions), key=lambda topic: topic.is_internal)
