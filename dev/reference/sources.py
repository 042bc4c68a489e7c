"""Reads the public items of a crate's Rust-like sources: docs, signature, conditions and clauses.

The files are in the layout of `rt fmt`, so an item begins at its indentation and ends at a line with the closing brace of
that indentation, and a clause begins a line of its own.
"""

import re
from dataclasses import dataclass, field
from pathlib import Path

CLAUSE = re.compile(r"^\s+(requires|ensures)\b\*?\s*(?:([A-Za-z_]\w*)\s+)?\{")
ITEM = re.compile(
    r"^(\s*)(?:pub(?:\(crate\))?\s+)?(?:const\s+|unsafe\s+)*(fn|struct|enum|trait|const|type|static)\s+([A-Za-z_]\w*)"
)
IMPL = re.compile(r"^impl(?:<.*?>)?\s+(?:(.+?)\s+for\s+)?([A-Za-z_]\w*)")
EXPORT = re.compile(r"^pub use ([\w:]+?)(?:::\{(.*)\}|);$")
# What of a type is no part of its declaration for a reader.
PRIVATE = re.compile(r"^\s+(ghost |#\[)")


@dataclass
class Clause:
    """A condition (`requires`) or what is promised (`ensures`), with its name, its text as written, and the note above it."""

    kind: str
    name: str
    text: str
    note: str


@dataclass
class Item:
    """A public item: `Space::call` of the kind `fn`, say."""

    kind: str
    name: str
    file: str
    line: int
    docs: str
    declaration: str
    clauses: list[Clause] = field(default_factory=list)
    is_law: bool = False
    # what contracts see of a type, where that is not the type itself
    seen_as: str = ""


@dataclass(frozen=True)
class Block:
    """The lines of one item of a file, from its first line to its last."""

    lines: list[str]
    first: int


def module_docs(lines: list[str]) -> str:
    """The `//!` comment at the head of a file."""
    return "\n".join(line[3:].strip() for line in lines if line.startswith("//!"))


def exported_names(lib: list[str]) -> set[str]:
    """What `lib.rt` hands out by `pub use`, by its last name."""
    names: set[str] = set()
    for statement in re.findall(r"^pub use .*?;", "\n".join(lib), re.M | re.S):
        found = EXPORT.match(" ".join(statement.split()))
        if not found:
            continue
        path, listed = found.groups()
        names.update(
            (part.strip().split(" as ")[-1] for part in listed.split(",") if part.strip())
            if listed
            else [path.rsplit("::", 1)[-1]]
        )
    return names


def docs_above(lines: list[str], at: int) -> str:
    """The `///` comment above a line, over the attributes between."""
    top = at
    while top > 0 and (lines[top - 1].lstrip().startswith(("#[", "///", "//"))):
        top -= 1
    return "\n".join(line.strip()[3:].strip() for line in lines[top:at] if line.strip().startswith("///"))


def end_of(lines: list[str], at: int, indent: str) -> int:
    """The number of the line behind an item that begins at a line."""
    for number in range(at, len(lines)):
        line = lines[number].rstrip()
        if line in (indent + "}", indent + "{}", indent + "};") or (line.endswith((";", "}", "{}")) and number == at):
            return number + 1
        if line.endswith(";") and line.startswith(indent) and not line.startswith(indent + " ") and number > at:
            return number + 1
    return len(lines)


def closes(text: str) -> bool:
    """Whether each brace of a clause's text that was opened is closed."""
    return text.count("{") <= text.count("}")


def read_clauses(lines: list[str]) -> list[Clause]:
    """The clauses of a signature's lines, each with the comment above it."""
    clauses: list[Clause] = []
    note: list[str] = []
    open_text: list[str] = []
    for line in lines:
        text = line.strip()
        if open_text:
            open_text.append(line.rstrip())
        elif text.startswith("//"):
            note.append(text.lstrip("/").strip())
            continue
        else:
            found = CLAUSE.match(line)
            if not found:
                continue
            clauses.append(Clause(found.group(1), found.group(2) or "", "", " ".join(note)))
            note, open_text = [], [line.rstrip()]
        joined = "\n".join(open_text)
        if closes(joined):
            clauses[-1].text, open_text = inner_text(joined), []
    return clauses


def inner_text(clause: str) -> str:
    """What stands between a clause's outer braces, its further lines moved to the left together."""
    inner = clause[clause.index("{") + 1 : clause.rindex("}")].strip()
    first, *others = inner.split("\n")
    if not others:
        return first
    margin = min(len(line) - len(line.lstrip()) for line in others if line.strip())
    return "\n".join([first, *("    " + line[margin:] for line in others)])


def signature_of(block: Block) -> tuple[str, list[str]]:
    """The declaration of a function without its clauses, and the lines of its clauses."""
    declared: list[str] = []
    clause_lines: list[str] = []
    depth = 0
    for line in block.lines:
        text = line.strip()
        if depth == 0 and text in ("{", "{}"):
            break
        if depth > 0 or CLAUSE.match(line) or (text.startswith("//") and declared):
            clause_lines.append(line)
            if not text.startswith("//"):
                depth += line.count("{") - line.count("}")
        elif text:
            declared.append(line)
            if text.endswith((" {", ";", "{}")):
                break
    return without_body(declared), clause_lines


def without_body(lines: list[str]) -> str:
    """A declaration, moved to the left, without the brace of its body."""
    if not lines:
        return ""
    margin = len(lines[0]) - len(lines[0].lstrip())
    return "\n".join(line[margin:].rstrip() for line in lines).removesuffix("{}").removesuffix("{").rstrip()


def declaration_of(kind: str, block: Block) -> str:
    """A type's or constant's declaration: of a struct its public fields, of an enum its variants."""
    kept = [line for line in block.lines if not PRIVATE.match(line)]
    if kind == "struct" and len(kept) > 2:
        fields = [line for line in kept[1:-1] if re.match(r"^\s+(pub |///|//)", line)]
        hidden = len([line for line in kept[1:-1] if re.match(r"^\s+(pub\(\w+\) )?[a-z_]\w*:", line)])
        fields = drop_loose_docs(fields)
        kept = [kept[0], *fields, *(["    // private fields"] if hidden else []), kept[-1]]
    return without_margin(kept)


def drop_loose_docs(lines: list[str]) -> list[str]:
    """Takes away the comments of fields that are not shown."""
    shown: list[str] = []
    pending: list[str] = []
    for line in lines:
        if line.strip().startswith("//"):
            pending.append(line)
        else:
            shown += [*pending, line]
            pending = []
    return shown


def without_margin(lines: list[str]) -> str:
    margin = len(lines[0]) - len(lines[0].lstrip())
    return "\n".join(line[margin:].rstrip() for line in lines)


def read_item(lines: list[str], at: int, file: str, owner: str) -> tuple[Item, int]:
    """The item that begins at a line, and the number of the line behind it."""
    found = ITEM.match(lines[at])
    if not found:
        raise ValueError(f"{file}:{at + 1}: no item begins here")
    indent, kind, name = found.groups()
    end = end_of(lines, at, indent)
    block = Block(lines[at:end], at)
    item = Item(kind, f"{owner}::{name}" if owner else name, file, at + 1, docs_above(lines, at), "")
    if kind == "fn":
        item.declaration, clause_lines = signature_of(block)
        item.clauses = read_clauses(clause_lines)
    elif kind == "trait":
        ghosts = [line.strip() for line in block.lines if re.match(r"^    ghost (?!use)\w+:", line)]
        item.declaration = "\n".join(
            [lines[at].strip().removesuffix("{").rstrip(), *("    " + line for line in ghosts)]
        )
    else:
        item.declaration = declaration_of(kind, block)
    return item, end


def read_methods(lines: list[str], start: int, end: int, file: str, owner: str, is_trait: bool) -> list[Item]:
    """The public methods of a type between two lines, or all of a trait."""
    methods = []
    for at in range(start, end):
        found = ITEM.match(lines[at])
        if (
            found
            and found.group(1) == "    "
            and found.group(2) in ("fn", "const")
            and (is_trait or lines[at].strip().startswith("pub "))
        ):
            methods.append(read_item(lines, at, file, owner)[0])
    return methods


def read_file(path: Path, name: str, exported: set[str]) -> list[Item]:
    """The public items of one file: those of the names that the crate hands out, and the methods of its types and traits."""
    lines = path.read_text(encoding="utf-8").split("\n")
    is_lib = path.name == "lib.rt"
    items: list[Item] = []
    for at, line in enumerate(lines):
        if line.startswith("pub "):
            found = ITEM.match(line)
            if not found or not (is_lib or found.group(3) in exported):
                continue
            item, end = read_item(lines, at, name, "")
            item.is_law = item.kind == "fn" and lines[end - 1].rstrip() == "{}"
            items.append(item)
            if item.kind == "trait":
                items += read_methods(lines, at + 1, end, name, item.name, True)
        elif line.startswith("impl"):
            found = IMPL.match(line)
            if (
                found
                and not found.group(1)
                and (is_lib or found.group(2) in exported or found.group(2) in {item.name for item in items})
            ):
                items += read_methods(lines, at + 1, end_of(lines, at, ""), name, found.group(2), False)
    models = seen_as(lines)
    for item in items:
        item.seen_as = models.get(item.name, "") if item.kind in ("struct", "enum") else ""
    return items


def seen_as(lines: list[str]) -> dict[str, str]:
    """What contracts see of each type of a file that has a model of its own."""
    found: dict[str, str] = {}
    owner = ""
    for line in lines:
        if model := re.match(r"^impl(?:<.*?>)? Model for (\w+)", line):
            owner = model.group(1)
        elif line == "}":
            owner = ""
        elif owner and (value := re.match(r"^\s+ghost Value = \{ (.*) \};$", line)):
            found[owner] = value.group(1)
    return found


def source_files(folder: Path) -> list[Path]:
    """The source files of a crate without its tests, `lib.rt` first."""
    found = [path for path in sorted((folder / "src").rglob("*.rt")) if not is_test(path.relative_to(folder / "src"))]
    return sorted(found, key=lambda path: path.name not in ("lib.rt", "main.rt"))


def is_test(path: Path) -> bool:
    return any(part in ("tests", "tests.rt") or part.endswith("_tests.rt") for part in path.parts)


def read_items(folder: Path) -> tuple[str, list[Item]]:
    """The comment of a crate's root module, and its public items in the order of its files."""
    files = source_files(folder)
    root = files[0].read_text(encoding="utf-8").split("\n")
    exported = exported_names(root)
    if files[0].name == "lib.rt":
        exported |= {found.group(3) for line in root if line.startswith("pub ") and (found := ITEM.match(line))}
    items = [item for path in files for item in read_file(path, str(path.relative_to(folder)), exported)]
    return module_docs(root), items
