"""Checks the documents: names, paths, links, the reference, and the manual page. Takes a few seconds.

Each name in `code` that can only be one of the sources is one. Each path in `code` and each link of a page leads
somewhere, headings too. Each block of code below `<!-- from FILE -->` has lines of this file, in their order, where `..`
stands for any, and each block of Rust has such a line. Each crate of crates.txt is in one group of docs/ARCHITECTURE.md.
The tables of calls, numbers and flags are those of the sources.
dev/make-reference makes its pages, and finds no item without a comment. docs/HEADLINE.md is what dev/make-headline makes, and
the tables of docs/KERNEL.md are those of dev/kernel-table.
The manual page passes `mandoc -T lint`, where that is installed.
"""

import os
import re
import shutil
import subprocess
import tempfile
from collections import Counter
from collections.abc import Iterator
from pathlib import Path

import model_tables
from checking import TOP, Options, fail, passed, skipped
from dev.reference import headline
from dev.reference.pages import faults, pages
from vmatools.console import Failure
from vmatools.linux import by_version

MANUALS = [Path("docs/diltzekun.1"), Path("docs/diltzekun-live.1")]
# Pages whose names in `code` are those of the sources.
OF_SOURCES = ("PROOF.md", "MODEL.md", "PROTOCOLS.md", "ARCHITECTURE.md", "LIBRARY.md", "PROVING.md")
# The pages, and of one the part, that name the kernel's.
OF_KERNEL = (("GLOSSARY.md", ""), ("PROTOCOLS.md", "## Beside Linux"))
NOT_OURS = ("/", "Documentation/")  # paths of a system, or of Linux
PLACEHOLDER = re.compile(r"(?:^|/)(NAME|FOLDER|FILE|TYPE|METHOD|FUNCTION|CRATE|GROUP|out)(/|\.|$)")
PATH = re.compile(r"(?<![\w/.=$~-])(?:\.ci|\.github|\w[\w-]*)(?:/[\w.-]+)+/?|\w+\.(?:antt|rt|edit|md)\b")
LINK = re.compile(r"\]\(([^)#\s]*)(?:#([^)\s]*))?\)")
# A word with an underscore, or with a capital inside: no word of English.
NAME = re.compile(r"(?:[a-z]\w*_[a-z]\w*|[A-Z][a-z0-9]+[A-Z]\w*)")


def read(path: Path) -> str:
    return path.read_text(encoding="utf-8")


def our_pages() -> list[Path]:
    """The pages that are written by hand."""
    return [*sorted(Path().glob("*.md")), *sorted(Path("docs").glob("*.md"))]


def numbered(page: Path) -> Iterator[tuple[int, str, bool]]:
    """The lines of a page by number, each with whether it is within a block of code."""
    fenced = False
    for number, line in enumerate(read(page).splitlines(), 1):
        fence = line.lstrip().startswith("```")
        fenced ^= fence
        yield number, line, fenced or fence


def codes(line: str) -> list[str]:
    return re.findall(r"`([^`]+)`", line)


def source_words() -> set[str]:
    """Each word of the sources, of the tools and of the kit's texts that they cite, comments too."""
    words: set[str] = set()
    for folder, ends in (("crates", (".rt", ".antt")), ("tools", ("",)), ("tests", ("",)), ("dev", ("",))):
        for path in Path(folder).rglob("*"):
            if (
                path.is_file()
                and "out" not in path.parts
                and path.name.endswith(ends)
                and "__pycache__" not in path.parts
            ):
                words.update(re.findall(r"\w+", path.read_text(encoding="utf-8", errors="replace")))
    for page, start in OF_KERNEL:
        part = read(Path("docs") / page).partition(start)[2] if start else read(Path("docs") / page)
        words.update(re.findall(r"\w+", part.partition("\n## ")[0] if start else part))
    return words | {path.name for path in Path("crates").iterdir()}


def check_names() -> Iterator[str]:
    """Names in `code` that no source has."""
    words = source_words()
    for page in (Path("docs") / name for name in OF_SOURCES):
        for number, line, is_code in numbered(page):
            for code in [] if is_code else codes(LINK.sub("]", line)):
                if re.fullmatch(r"[\w:.]+", code) and "/" not in code and not PATH.fullmatch(code):
                    missing = [word for word in re.split(r"[:.]+", code) if NAME.fullmatch(word) and word not in words]
                    yield from (f"{page}:{number}: no source has `{word}`" for word in missing)


def anchors(page: Path) -> set[str]:
    """The anchors of a page, as GitHub makes them of its headings."""
    heads = [line for _, line, is_code in numbered(page) if not is_code and re.match(r"#{1,6} ", line)]
    return {re.sub(r"[^\w\- ]", "", head.lstrip("# ").lower()).replace(" ", "-") for head in heads}


def check_links() -> Iterator[str]:
    """Links that lead nowhere."""
    known: dict[Path, set[str]] = {}
    for page in our_pages():
        for number, line, is_code in numbered(page):
            for target, anchor in [] if is_code else LINK.findall(line):
                if target.startswith(("http", "mailto")):
                    continue
                path = Path(os.path.normpath(page.parent / target)) if target else page
                if not path.exists():
                    yield f"{page}:{number}: there is no {path}"
                elif anchor and path.suffix == ".md" and anchor not in known.setdefault(path, anchors(path)):
                    yield f"{page}:{number}: {path} has no heading #{anchor}"


def leads_somewhere(path: str, crates: list[Path], files: set[str]) -> bool:
    """Whether a path in a text is one of the repository, by itself or below one of its folders."""
    tries = [Path(path), Path("crates") / path, Path("docs") / path, Path("tools") / path, Path("tests") / path]
    tries += [crate / part / path for crate in crates for part in ("", "specs", "src")]
    return path in files or any(each.exists() for each in tries)


def check_paths() -> Iterator[str]:
    """Paths in `code` that lead nowhere."""
    crates = sorted(path for path in Path("crates").iterdir() if path.is_dir())
    files = {path.name for path in Path("crates").rglob("*") if path.is_file()}
    for page in our_pages():
        for number, line, is_code in numbered(page):
            for code in [] if is_code else codes(line):
                for path in PATH.findall(code):
                    if (
                        not code.startswith(NOT_OURS)
                        and not PLACEHOLDER.search(path)
                        and not leads_somewhere(path, crates, files)
                    ):
                        yield f"{page}:{number}: there is no {path}"


def excerpts(page: Path) -> Iterator[tuple[int, str, list[str]]]:
    """The blocks of code of a page that are taken from a file: the number of the first line, the file, and the lines."""
    above, source, kept = "", "", list[str]()
    for number, line, is_code in numbered(page):
        if line.startswith("```") and not source:
            named = re.fullmatch(r"<!-- from (\S+) -->", above)
            source = named[1] if named else "nowhere" if line == "```rust" else ""
        elif line.startswith("```"):
            yield number - len(kept), source, kept
            source, kept = "", []
        elif is_code and source:
            kept.append(line)
        above = line


def has_in_order(lines: list[str], pieces: list[list[str]]) -> bool:
    """Whether the lines have each piece whole, one after the other."""
    start = 0
    for piece in pieces:
        found = (at for at in range(start, len(lines)) if lines[at : at + len(piece)] == piece)
        at = next(found, None)
        if at is None:
            return False
        start = at + len(piece)
    return True


def check_excerpts() -> Iterator[str]:
    """Code that is shown and stands in no source."""
    for page in our_pages():
        for number, source, block in excerpts(page):
            pieces = [[line.strip() for line in piece.split("\n")] for piece in "\n".join(block).split("\n..\n")]
            if not Path(source).is_file():
                yield f"{page}:{number}: the code is from {source}"
            elif not has_in_order([line.strip() for line in read(Path(source)).splitlines()], pieces):
                yield f"{page}:{number}: {source} does not have this code"


def groups_of(page: str) -> Counter[str]:
    """In how many groups of the table of docs/ARCHITECTURE.md each crate is."""
    rows = page.partition("| Group | Crates | What |\n")[2].partition("\n\n")[0].splitlines()[1:]
    return Counter(name for row in rows for name in re.findall(r"\w+", row.split("|")[2]))


def check_crates() -> Iterator[str]:
    """Crates that are not in one group of docs/ARCHITECTURE.md."""
    groups = groups_of(read(Path("docs/ARCHITECTURE.md")))
    listed = [
        line.partition(":")[0].split()[0]
        for line in read(Path("crates.txt")).splitlines()
        if ":" in line and not line.startswith("#")
    ]
    return (f"docs/ARCHITECTURE.md: {name} is in {groups[name]} groups" for name in listed if groups[name] != 1)


def check_reference() -> Iterator[str]:
    """Items and definitions without a comment, and links of the reference that lead nowhere."""
    yield from faults(Path())
    with tempfile.TemporaryDirectory() as name:
        out = Path(name).resolve()
        for page, text in pages(TOP, out).items():
            for target in {target for target, _ in LINK.findall(text) if target.startswith("..")}:
                if not (out / target).exists():
                    yield f"dev/make-reference: {page}: there is no {target}"


def check_tables() -> Iterator[str]:
    """Tables that say otherwise than the sources."""
    yield from model_tables.faults(Path())


def check_headline() -> Iterator[str]:
    """A page of the headline that is not what the sources say."""
    yield from headline.without_words(Path())
    if read(headline.PAGE) != headline.page(Path()):
        yield f"{headline.PAGE} is not what the sources say now: run dev/make-headline"


def check_kernel() -> Iterator[str]:
    """Tables of docs/KERNEL.md that are not what the models answer to its rows, and rows that are in no table."""
    page = Path("docs/KERNEL.md")
    try:
        if by_version.put(read(page)) != read(page):
            yield f"{page} has other tables than the models make now: run dev/kernel-table"
    except Failure as failure:
        yield str(failure)


def check_manual() -> Iterator[str]:
    """What mandoc warns of in the manual pages."""
    if not shutil.which("mandoc"):
        return skipped("the manual pages", "mandoc is not installed")
    linted = subprocess.run(["mandoc", "-T", "lint", "-W", "warning", *map(str, MANUALS)], capture_output=True, text=True)
    yield from linted.stdout.splitlines()


def check(_options: Options) -> None:
    os.chdir(TOP)
    of_pages = (check_names, check_links, check_paths, check_excerpts, check_crates, check_tables, check_manual)
    wrong = [line for each in (*of_pages, check_reference, check_headline, check_kernel) for line in each()]
    if wrong:
        fail("the documents", "\n".join(wrong))
    passed("every name, path and link leads somewhere, and each item has a comment")
