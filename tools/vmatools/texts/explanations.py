"""Says in a sentence what is wrong with the first bad line of a trace, and which word it is."""

import difflib
import re
from collections.abc import Callable, Iterable, Mapping

from .. import console
from ..traces import (
    CALLS,
    FORMS,
    LIMITS,
    MOST_AREAS,
    MOST_DESCRIPTOR,
    MOST_NUMBER,
    MOST_SIZE,
    PAGE,
    SETTINGS,
    TABLES,
    USER_PAGES,
    BadLine,
    Source,
    Trace,
    flags_text,
    read_trace,
    words_of,
)
from .linux_calls import ADVICE, BEGINNINGS, CHANGES

ALL_FORMS: dict[str, list[str]] = {**SETTINGS, **FORMS}
FLAG_WORDS = {"PROT": "a protection", "MAP": "a mapping's flags", "MREMAP": "the flags of mremap"}
OTHER_NAMES = {"MAP_ANON": "MAP_ANONYMOUS", "PROT_RDWR": "PROT_READ|PROT_WRITE", "NULL": "0"}
# Flags that Linux has and a trace may not name, each with what may stand in its place.
LEAVE_OUT = "leave it out if nothing depends on it"
NOT_NAMED = dict.fromkeys(
    "MAP_LOCKED MAP_HUGETLB MAP_32BIT MAP_NONBLOCK MAP_SYNC MAP_UNINITIALIZED MAP_FILE MAP_DROPPABLE".split(), LEAVE_OUT
)
NOT_NAMED |= dict.fromkeys(("PROT_SEM", "PROT_GROWSDOWN", "PROT_GROWSUP"), LEAVE_OUT)
NOT_NAMED["MAP_SHARED_VALIDATE"] = "for a file MAP_SHARED does the same, and with MAP_ANONYMOUS Linux answers EINVAL"
OTHER_OPERATIONS = {
    "mmap2": "mmap",
    "old_mmap": "mmap",
    "sbrk": "brk",
    "clone": "fork",
    "vfork": "fork",
    "pkey_mprotect": "mprotect",
    "read": "fault",
    "write": "fault",
    "access": "fault",
    "page_fault": "fault",
    "touch": "fault",
    "pagefault": "fault",
}
ACCESSES = {"read": "r", "write": "w", "exec": "x", "execute": "x", "R": "r", "W": "w", "X": "x"}
MODES = {"ro": "r", "wo": "w", "wr": "rw", "RW": "rw", "O_RDONLY": "r", "O_WRONLY": "w", "O_RDWR": "rw"}
CARRIAGE_RETURNS = "lines end with a newline byte alone (`tr -d '\\r'` takes carriage returns away)"
DIGITS = {"C": "1 to 20 decimal digits have to stand there", "after": "1 to 20 decimal digits have to stand there"}
NAMES = {
    "ADDR": "an address",
    "LEN": "a length",
    "OFF": "an offset",
    "OLD": "the old address",
    "OLDLEN": "the old length",
    "NEWLEN": "the new length",
    "NEW": "the new address",
    "SEAL_FLAGS": "the flags of mseal",
    "N": "a number of areas",
    "BOUND": "an address",
    "SIZE": "a size",
    "INODE": "an inode",
    "FD": "a descriptor",
    "MAPPED_FD": "a descriptor",
    "C": "a child's thread",
    "MAJ:MIN": "a device",
    "after": "a line's number",
}
SHOWN_FORM = {"MAPPED_FD": "FD", "MAP": "FLAGS", "MREMAP": "FLAGS", "SEAL_FLAGS": "FLAGS", "BOUND": "ADDR"}


def explain(bad: BadLine) -> str:
    """The sentence on a bad line."""
    text = bad.raw.decode("utf-8", "replace")
    words = words_of(text)
    word = words[bad.word - 1] if bad.word and bad.word <= len(words) else ""
    special = carriage_return(word) if bad.cause not in ("Header", "TooLong", "NoEnd", "Utf8") else None
    return special or SENTENCES[bad.cause](bad, text, words, word)


def read(source: Source, path: str) -> Trace:
    """The trace of a file, or a failure that explains its first bad line."""
    try:
        with console.reading(path):
            return read_trace(source)
    except BadLine as bad:
        raise refusal(bad, path) from None


def refusal(bad: BadLine, path: str) -> console.Failure:
    """The end of a command whose trace has a bad line."""
    return console.Failure(f"{console.named(path)} is no trace: line {bad.line}: {explain(bad)}")


def carriage_return(word: str) -> str | None:
    if "\r" in word:
        return f"{shown(word.rstrip(chr(13)))} has a carriage return behind it, which is part of the word: {CARRIAGE_RETURNS}"
    return None


def shown(word: str) -> str:
    return repr(word[:100])[1:-1][:80]


def nearest(word: str, names: Iterable[str], others: Mapping[str, str] | None = None) -> str:
    """`; did you mean ..?` where a name is close to a word."""
    spellings = (word, word.upper(), word.lower()) if len(word) < 100 else ()
    close = [match for spelling in spellings for match in difflib.get_close_matches(spelling, list(names), 1, 0.6)]
    found = (others or {}).get(word) or next(iter(close), None)
    return f"; did you mean {found}?" if found else ""


# What a file may be that is no text, by its first bytes.
KINDS = {
    b"\x7fELF": "a program (ELF)",
    b"\x1f\x8b": "compressed by gzip",
    b"\xfd7zXZ": "compressed by xz",
    b"BZh": "compressed by bzip2",
    b"(\xb5/\xfd": "compressed by zstd",
    b"PK\x03\x04": "a zip archive",
    b"PERFILE2": "a record of perf",
    b"\xff\xfe": "text as UTF-16, and not as UTF-8",
    b"\xfe\xff": "text as UTF-16, and not as UTF-8",
    b"%PDF": "a PDF document",
    b"\x89PNG": "a picture (PNG)",
}


def kind_of_file(raw: bytes) -> str | None:
    return next((kind for front, kind in KINDS.items() if raw.startswith(front)), None)


def not_text(bad: BadLine) -> str:
    """What a file seems to be whose first line is no text."""
    kind = kind_of_file(bad.raw) if bad.line == 1 else None
    return f"; this file is {kind}" if kind else "; is this a binary file?" if b"\0" in bad.raw else ""


# One sentence for each cause


OF_STRACE = re.compile(r" *([0-9]+ +)?[a-z][a-z0-9_]*\(")
IMPORT = "this is a line of strace: `tools/vma import` makes a trace of its log"


def header(bad: BadLine, text: str, words: list[str], word: str) -> str:
    wanted = "line 1 is exactly the words `vmatrace` and the version, `1` or `2`"
    kind = kind_of_file(bad.raw)
    if kind:
        return f"this file is {kind}: {wanted}"
    if text.startswith("\ufeff"):
        what = "a byte order mark stands in front of the first word, and is part of it"
        return f"{what}: {wanted}; save the file as UTF-8 without one"
    if "\0" in text or "\ufffd" in text[:2]:
        return f"the file is not UTF-8 text, but perhaps UTF-16: {wanted}"
    if not text:
        what = "the file is empty" if bad.about == "nothing" else "the first line is empty"
        return f"{what}: {wanted}"
    if text.endswith("\r") and words_of(text.rstrip("\r")) in (["vmatrace", "1"], ["vmatrace", "2"]):
        return f"a carriage return stands at the end, and is part of the last word: {CARRIAGE_RETURNS}"
    if words[:1] == ["vmasteps"]:
        return "this is the header of a script, which `diltzekun steps` reads, and not that of a trace"
    if words[:1] == ["vmatrace"]:
        return f"{shown(' '.join(words[1:])) or 'nothing'} is no version of a trace: {wanted}"
    if words and words[0].startswith("#"):
        return f"a comment stands where the header has to: {wanted}"
    if OF_STRACE.match(text):
        return f"{IMPORT}; {wanted}"
    return f"the header is missing: {wanted}{nearest(words[0], ['vmatrace']) if words else ''}"


def too_long(bad: BadLine, text: str, words: list[str], word: str) -> str:
    if bad.about == "line":
        length = f"{bad.facts['length']:,}" if bad.facts["length"] else f"more than {LIMITS['line']:,}"
        return f"the line has {length} bytes, and may have {LIMITS['line']:,} without its newline{not_text(bad)}"
    return f"the newline of this line would stand past the {LIMITS['bytes']:,} bytes that a trace may have"


def no_end(bad: BadLine, text: str, words: list[str], word: str) -> str:
    return f"no newline ends the last line; the file may have been cut off{not_text(bad)}"


def utf8(bad: BadLine, text: str, words: list[str], word: str) -> str:
    return (
        f"byte {bad.facts['place'] + 1} of the line, 0x{bad.facts['byte']:02x}, is no UTF-8 at its place{not_text(bad)}"
    )


def thread(bad: BadLine, text: str, words: list[str], word: str) -> str:
    if word.startswith("0x"):
        return f"{shown(word)} is no thread: a thread is a decimal number from 0 to 63"
    if word.isdecimal():
        return f"{shown(word)} is no thread: they are numbered from 0 to 63"
    what = "a line that begins with a digit is an operation, whose first word is a decimal number from 0 to 63"
    return f"{shown(word)} is no thread: {what}"


def wrong_word(bad: BadLine, text: str, words: list[str], word: str) -> str:
    if bad.about == "setting below":
        return setting_below(bad.facts["first"], text, word)
    if bad.about == "setting twice":
        return f"`{shown(word)}` is set a second time: line {bad.facts['above']} has it already"
    if bad.about in ("setting", "operation") and OF_STRACE.match(text):
        return IMPORT
    if bad.about == "setting":
        return no_setting(text, word)
    if bad.about == "operation":
        return no_operation(word)
    if bad.about == "areas":
        return f"{shown(word)} stands where `areas` has to: `limit areas N`"
    if bad.about == "MODE":
        return (
            f"{shown(word)} is no way in which a file is open: `r`, `w` or `rw`{nearest(word, MODES.values(), MODES)}"
        )
    return f"{shown(word)} is no access: `r` to read, `w` to write, `x` to execute{nearest(word, ACCESSES.values(), ACCESSES)}"


def no_operation(word: str) -> str:
    sentence = f"{shown(word)} is none of the operations ({', '.join(FORMS)})"
    if word in ADVICE:
        return f"{sentence}: Linux has it, and the model does not; it changes no area, so leave the line out"
    if word in CHANGES | BEGINNINGS:
        return f"{sentence}: Linux has it, and the model does not; a list may be another without it"
    return sentence + nearest(word, FORMS, OTHER_OPERATIONS)


def without_thread(text: str) -> str:
    return f"did you mean `0 {shown(text.strip())}`?"


def setting_below(first: int, text: str, word: str) -> str:
    if word in FORMS:
        return f"`{shown(word)}` is an operation without its thread in front: {without_thread(text)}"
    what = "a setting" if word in SETTINGS else "no operation, which begins with its thread, but a setting"
    return f"`{shown(word)}` is {what} below the first operation, line {first}: all settings stand above the operations"


def no_setting(text: str, word: str) -> str:
    if word.startswith("\ufeff"):
        return "a byte order mark stands in front of the word, and is part of it"
    if word in FORMS:
        return f"`{shown(word)}` is an operation, and its thread is missing in front: {without_thread(text)}"
    if word[:1] in "+-" and word[1:].isdecimal():
        return f"{shown(word)} is no thread: a number may not have a sign"
    names = ", ".join(SETTINGS)
    what = f"none of the settings ({names}), and no operation, which begins with its thread"
    return f"{shown(word)} is {what}{nearest(word, SETTINGS)}"


def number(bad: BadLine, text: str, words: list[str], word: str) -> str:
    kind = bad.about
    value = word.removeprefix("after=") if kind == "after" else word
    what, why = NAMES[kind], number_fault(value, kind)
    return f"{shown(value) or 'nothing'} is not {what}: {why}"


def number_fault(text: str, kind: str) -> str:
    """Why a text is no number of a kind."""
    if kind == "MAJ:MIN":
        return "a device is 1 to 3 hexadecimal digits, a colon, and 1 to 5 hexadecimal digits, as 8:1"
    if text == "NULL":
        return "did you mean 0?"
    if re.match("[+-]", text):
        return "a number may not have a sign" + (
            "; -1 alone may stand here, for no file" if kind == "MAPPED_FD" else ""
        )
    if text in TABLES["PROT"] or "|" in text:
        return "names of flags stand where a number has to; is a word missing in front of it?"
    if text.startswith("0X"):
        return "hexadecimal digits stand behind `0x`, with a small x"
    if re.fullmatch("0x[0-9a-fA-F]*", text):
        if text == "0x":
            return "no digits stand behind `0x`"
        if len(text) > 18:
            return "it has more than 16 hexadecimal digits"
        return "these are decimal digits alone here" if kind in ("C", "after") else range_fault(kind)
    if re.fullmatch("[0-9]+", text):
        return "it has more than 20 digits" if len(text) > 20 else range_fault(kind)
    if re.fullmatch("[0-9a-fA-F]+", text):
        return "hexadecimal digits need `0x` in front"
    if re.fullmatch(r"[0-9][0-9_,.]*", text):
        return "a number has digits alone"
    if re.fullmatch(r"[0-9]+[kKmMgG]i?[bB]?", text):
        return "a number has no unit: lengths are in bytes"
    return DIGITS.get(kind, "a number is 1 to 20 decimal digits, or `0x` and 1 to 16 hexadecimal digits")


def range_fault(kind: str) -> str:
    if kind == "BOUND":
        return f"it has to be a multiple of {PAGE}, from {PAGE} to {USER_PAGES[1] * PAGE:#x}"
    if kind in ("N", "C"):
        return f"there may be 1 to {MOST_AREAS:,}" if kind == "N" else "threads are numbered from 0 to 63"
    greatest = {"FD": MOST_DESCRIPTOR, "MAPPED_FD": MOST_DESCRIPTOR, "SIZE": MOST_SIZE}.get(kind, MOST_NUMBER)
    return f"the greatest is {greatest:,}"


def flag(bad: BadLine, text: str, words: list[str], word: str) -> str:
    name, table = bad.facts["name"], TABLES[bad.about]
    what = FLAG_WORDS[bad.about]
    if re.fullmatch("[0-9]+|0x[0-9a-fA-F]+", word):
        value = int(word, 16 if word.startswith("0x") else 10)
        named = flags_text(bad.about, value) if value and not value & ~sum(table.values()) else None
        has = f": {named} has these bits" if named else ""
        return f"{shown(word)} is a number, and names joined by `|`, or 0, have to stand for {what}{has}"
    if name in table:
        return f"{shown(name)} stands twice among the names of {what}"
    if name == "":
        return f"`|` stands at an end of {what}, or twice: names are joined by one `|` between each two"
    if name in ("0", "PROT_NONE"):
        return f"{name} stands alone, for none, and not among other names"
    for other, others in TABLES.items():
        if name in others:
            place = "is a word missing, or in another place?"
            return f"{shown(name)} is a name of {FLAG_WORDS[other]}, and stands where {what} has to; {place}"
    sentence = f"{shown(name)} is none of the names that {what} may have"
    if name in NOT_NAMED:
        return f"{sentence}: Linux has it, and the model does not; {NOT_NAMED[name]}"
    return sentence + nearest(name, table, OTHER_NAMES)


def form_of(name: str) -> str:
    form = ALL_FORMS[name]
    return " ".join(SHOWN_FORM.get(kind, kind) if kind != "NEW" else "[NEW]" for kind in form)


def arity(bad: BadLine, text: str, words: list[str], word: str) -> str:
    if bad.about == "no operation":
        return "the operation is missing behind the thread"
    if bad.about == "NEW":
        if bad.facts["given"] == 4:
            return "MREMAP_FIXED is among the flags, so the new address has to stand behind them"
        only = "only with it a new address may stand there"
        return f"{shown(word)} stands behind the flags, which do not have MREMAP_FIXED: {only}"
    name, given = bad.facts["name"], bad.facts["given"]
    form = ALL_FORMS[name]
    whole = f"{'T ' if name in FORMS else ''}{name} {form_of(name)}".rstrip()
    if given < len(form):
        missing, count = SHOWN_FORM.get(form[given], form[given]), len(form) - given - (name == "mremap")
        if count == 1:
            return f"a word is missing: {missing} of `{whole}`"
        return f"{count} words are missing, from {missing} of `{whole}` on"
    return f"{shown(word)} is a word too many: the form is `{whole}`{hint_on_words(words, word)}"


def hint_on_words(words: list[str], word: str) -> str:
    """Why a word too many may stand there."""
    if any(other.startswith("|") or other.endswith("|") for other in words):
        return "; names of flags are joined by `|` without blanks"
    if word.startswith("#"):
        return "; a comment stands on a line of its own"
    return "; `after=LINE` stands last, and once" if word.startswith("after") else ""


def too_many(bad: BadLine, text: str, words: list[str], word: str) -> str:
    what = {"maps": "`maps` operations", "notes": "lines that name a line"}.get(bad.about, bad.about)
    return f"there are {LIMITS[bad.about]:,} {what} above, and a trace may have no more"


def file_twice(bad: BadLine, text: str, words: list[str], word: str) -> str:
    return f"the descriptor {bad.facts['descriptor']} is that of the file of line {bad.facts['above']} already"


def after(bad: BadLine, text: str, words: list[str], word: str) -> str:
    line, teller, children = bad.facts["line"], bad.facts["teller"], bad.facts["children"]
    if line.after >= line.number:
        why = f"line {line.after} does not stand above it"
    elif teller is None:
        why = f"line {line.after} is no call ({', '.join(CALLS)})"
    elif teller == line.thread:
        why = f"line {line.after} is of the same thread, {teller}, and has to be of another"
    else:
        child = teller if teller in children else line.thread
        why = f"thread {child} is a child, which line {children[child]} forks, and only lines of the parent can name each other"
    return f"the line may not come after line {line.after}: {why}"


def child(bad: BadLine, text: str, words: list[str], word: str) -> str:
    if bad.about == "forker":
        what = f"a child, which line {bad.facts['forked']} forks, and a child forks nothing itself"
        return f"thread {bad.facts['thread']} is {what}"
    if bad.facts["above"] is None:
        return "a thread cannot fork itself"
    return f"thread {bad.facts['child']} stands above, in line {bad.facts['above']}, and a child has to be a new thread"


SENTENCES: dict[str, Callable[[BadLine, str, list[str], str], str]] = {
    "Header": header,
    "TooLong": too_long,
    "Word": wrong_word,
    "Number": number,
    "Flag": flag,
    "Arity": arity,
    "Thread": thread,
    "TooMany": too_many,
    "FileTwice": file_twice,
    "Utf8": utf8,
    "NoEnd": no_end,
    "After": after,
    "Child": child,
}


def marked_span(bad: BadLine) -> tuple[str, tuple[int, int]]:
    """The bad line as text, and from where to where it is to be marked."""
    raw = bad.raw
    text = raw.decode("utf-8", "replace")
    spans = [match.span() for match in re.finditer("[^ \t]+", text)]
    if bad.cause == "Utf8":
        start = len(raw[: bad.facts["place"]].decode("utf-8", "replace"))
        return text, (start, start + 1)
    if bad.cause in ("TooLong", "NoEnd"):
        return text, (len(text), len(text) + 1)
    if bad.word is None:
        return text, (0, max(len(text), 1))
    if bad.word > len(spans):
        return text, (len(text) + 1, len(text) + 2)
    start, end = spans[bad.word - 1]
    return text, name_span(text, start, end, bad.facts["name"]) if bad.cause == "Flag" else (start, end)


def name_span(text: str, start: int, end: int, name: str) -> tuple[int, int]:
    """Where the wrong name stands in a text of flags: the last of two, where it is there twice."""
    places, at = [], start
    for part in text[start:end].split("|"):
        if part == name:
            places.append((at, max(at + len(part), at + 1)))
        at += len(part) + 1
    return places[1] if len(places) > 1 and name else places[0] if places else (start, end)
