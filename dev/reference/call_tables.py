"""Makes the tables of the calls of docs/MODEL.md: each row of the definitions with its comment, its test and its answer."""

import argparse
import re
import sys
from collections.abc import Iterator
from dataclasses import dataclass
from pathlib import Path

from .definitions import Definition, read_topic

TOP = Path(__file__).resolve().parents[2]
PAGE = Path("docs/MODEL.md")
RULES = Path("crates/area_rules/specs")
# Of each call the file and the definitions that have its rows, in the order in which these are tested.
ROWS_OF = {
    "mmap": ("Mmap", ("mmap_rows", "mmap_placed", "mmap_list_rows")),
    "munmap": ("Munmap", ("munmap_rows", "munmap_seal_rows")),
    "mprotect": ("Mprotect", ("mprotect_rows",)),
    "mremap": ("Mremap", ("mremap_rows", "mremap_changed", "mremap_list_rows")),
    "brk": ("Brk", ("brk_rows",)),
    "mseal": ("Mseal", ("mseal_rows",)),
}
COMPARED = {"nat_eq": "=", "nat_lt": "<", "nat_le": "≤", "nat_ne": "≠"}
JOINED = {" || ": " or ", " && ": " and "}  # a bar would end the cell
# How a comment may part the tests that it names: the first way that gives as many as there are rows.
PARTED = ("; ", "; |, or ", "; |, ")


@dataclass(frozen=True)
class Row:
    """A row of a table: what its comment says, the test as it is defined, and the answer."""

    words: str
    test: str
    answer: str


def parts(text: str, separators: tuple[str, ...]) -> list[str]:
    """A text parted at the separators that stand in no brackets."""
    found, depth, start, at = list[str](), 0, 0, 0
    while at < len(text):
        depth += {"(": 1, ")": -1}.get(text[at], 0)
        separator = next((each for each in separators if not depth and text.startswith(each, at)), "")
        if separator:
            found.append(text[start:at].strip())
            start = at + len(separator)
        at += len(separator) or 1
    return [*found, text[start:].strip()]


def bare(text: str) -> str:
    """A text without the brackets around the whole of it."""
    return text[1:-1].strip() if text.startswith("(") and parts(text, (")",)) == [text[:-1].strip(), ""] else text


def shown(test: str) -> str:
    """A test as the page has it: comparisons by signs, and the rest as it is defined."""
    for sign, word in JOINED.items():
        if len(pieces := parts(test, (sign,))) > 1:
            return word.join(f"({shown(bare(piece))})" if piece.startswith("(") else shown(piece) for piece in pieces)
    words = parts(bare(test), (" ",))
    if words[0] in COMPARED:
        return f"{bare(words[1])} {COMPARED[words[0]]} {bare(words[2])}"
    return re.sub(r"\((\w+)\)", r"\1", test)


def plain(text: str) -> str:
    """A text of a definition in one line, without what each row is handed."""
    line = re.sub(r"\s+", " ", text).replace("( ", "(").replace(", )", ")").replace("not (nat_eq ", "(nat_ne ")
    line = re.sub(r" (?:config|args|areas|area|space|space\.areas)\b(?!\.)", "", line)
    return re.sub(r"\b(?:config|args|space)\.(?=\w)", "", line)


def named(comment: str, rows: int, name: str) -> list[str]:
    """The tests that a comment names, one for each row: behind its first colon, each with the words before its own colon."""
    head, _, listed = comment.rstrip(".").partition(": ")
    of_range = re.findall(r"^the tests of (?:the )?(\w+ range)$", head)
    for way in PARTED:
        found, before = list[str](), ""
        for chunk in listed.split("; "):
            items = re.split(way, chunk)
            of_place = re.findall(r"(?:then )?of a (.+): ", items[0])
            before = "".join(f"{each}: " for each in of_range + of_place)
            found += [before + re.sub(r"^and ", "", item.rpartition(": ")[2]) for item in items]
        if len(found) == rows:
            return found
    raise ValueError(f"{RULES}: the comment of {name} doesn't name its {rows} rows: {comment}")


def answer_of(text: str, known: dict[str, Definition]) -> str:
    """An answer as the page has it: an error by its name, another by what its definition is said to be."""
    word = text.removeprefix("Refused ").split()[0]
    if word in known:
        return known[word].comment.partition(",")[0]
    return "0" if word == "Zero" else word.upper()


def rows_of(name: str, known: dict[str, Definition]) -> Iterator[Row]:
    """The rows of a definition, with those of the definitions that it takes in at their places."""
    each = known[name]
    body = each.text.partition(f"\n{name} ")[2].partition("=")[2].strip()
    if body.startswith("record"):  # what follows if nothing is found, of two cases
        what, words = re.findall(r"as there is (?:a )?(\w+): (.+?) refuses", each.comment)[0]
        yield Row(words.replace("none", f"no {what}"), name, answer_of(body.partition("Refused ")[2], known))
        return
    if body.startswith("option_map_or"):  # the rows where there is none, and then those of the one that there is
        _, some, what, none = parts(body, (" ",))
        body = f"{bare(none).removesuffix('∷ []').replace('true', f'is_none {what}')} ∷ {bare(some)}"
    items = [item for item in parts(body, ("∷", "++")) if item != "[]"]
    for item, words in zip(items, named(each.comment, len(items), name)):
        if not item.startswith("("):
            yield from rows_of(item.split()[0], known)
            continue
        test, answer = parts(bare(plain(item)), (", ",))
        of_test = known[test].comment if test in known else "whether"
        yield Row(words if of_test.startswith("whether") else f"{words} ({of_test})", shown(test), answer_of(answer, known))


def of_kernel(words: str) -> str:
    """Words of a comment with the kernel's name of an area."""
    return re.sub(r"\barea(s?)\b", r"VMA\1", words.replace("an area", "a VMA"))


def table(call: str, top: Path) -> list[str]:
    """The table of a call, and below it what happens if no test holds."""
    file, names = ROWS_OF[call]
    known = {each.name: each for each in read_topic(top / RULES / f"{file}.antt", file).definitions}
    rows = [row for name in names for row in rows_of(name, known)]
    lines = ["| | Test | As defined | Answer |", "|---|---|---|---|"]
    for number, row in enumerate(rows, 1):
        lines.append(f"| {number} | {of_kernel(row.words)} | `{row.test}` | {row.answer} |")
    return [*lines, "", f"Else {of_kernel(known[call].comment.rpartition('else ')[2])}."]


def put(page: str, top: Path) -> str:
    """The page with each table between its marks."""
    for call in ROWS_OF:
        begin, end = f"<!-- {call}: made by dev/model-tables -->", f"<!-- end of {call} -->"
        if page.count(begin) != 1 or page.count(end) != 1:
            raise ValueError(f"{PAGE} has not the two marks of {call}: {begin} and {end}")
        made = "\n".join([begin, "", *table(call, top), "", end])
        page = re.sub(f"{re.escape(begin)}.*{re.escape(end)}", lambda _: made, page, flags=re.DOTALL)
    return page


def main() -> int:
    parser = argparse.ArgumentParser(prog="dev/model-tables", description=__doc__)
    parser.parse_args()
    text = (TOP / PAGE).read_text(encoding="utf-8")
    (TOP / PAGE).write_text(put(text, TOP), encoding="utf-8")
    return 0


if __name__ == "__main__":
    sys.exit(main())
