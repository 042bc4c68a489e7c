"""What a command says on the terminal: what it finds, in colour where that helps, its failures in one line, and how far it is."""

import argparse
import errno
import io
import os
import re
import shutil
import signal
import sys
import tempfile
import textwrap
import time
from collections.abc import Callable, Iterator
from contextlib import closing, contextmanager, suppress
from types import FrameType
from typing import Any, ClassVar, NoReturn

TOOL = "vma"
MOST_BYTES = 1 << 28  # of a file that is read as a whole

# Exit statuses. Their table is in docs/COMPARE.md.
DONE, FOUND, WRONG_USE, FAULT, NOT_WRITTEN, HUNG_UP, INTERRUPTED, NOT_READ_ON, TERMINATED = 0, 1, 2, 70, 74, 129, 130, 141, 143
STATUSES = {
    DONE: "the work is done, and nothing (but for a baseline's) was found that differs, is wrong or is missing",
    FOUND: "something was found: a difference, a bad line, an output that is not legal, a row that is answered otherwise",
    WRONG_USE: "wrong use, or a file or program that is not there or cannot be read or run",
    FAULT: "a fault in the tool itself, which it shows",
    NOT_WRITTEN: "standard output or a file could not be written, as on a full device",
    HUNG_UP: "ended by SIGHUP, as when its terminal is closed; what there was until then is written",
    INTERRUPTED: "interrupted by Ctrl-C; what there was until then is written",
    NOT_READ_ON: "whoever read standard output has closed it",
    TERMINATED: "ended by SIGTERM; what there was until then is written",
}


class Failure(Exception):
    """What ends a command: one plain line for standard error, and the exit status."""

    def __init__(self, text: str, status: int = WRONG_USE) -> None:
        super().__init__(text)
        self.status = status


class WriteFailure(Failure):
    """A file that is open cannot be written."""

    def __init__(self, error: OSError, name: str) -> None:
        is_closed = isinstance(error, BrokenPipeError)
        text = "nobody reads on" if is_closed else error.strerror or str(error)
        super().__init__(f"{name}: {text}", NOT_READ_ON if is_closed else NOT_WRITTEN)


class OutputFailure(WriteFailure):
    """Standard output cannot be written."""

    def __init__(self, error: OSError) -> None:
        super().__init__(error, "standard output")


class Ended(KeyboardInterrupt):
    """SIGTERM or SIGHUP, which ends a command as Ctrl-C does."""

    def __init__(self, number: int) -> None:
        super().__init__(number)
        self.number = number


def hear_signals() -> None:
    """Has SIGTERM and SIGHUP end a command as Ctrl-C does. One that is ignored, as under nohup, stays so."""
    for number in (signal.SIGTERM, signal.SIGHUP):
        if signal.getsignal(number) is signal.SIG_DFL:
            signal.signal(number, raise_end)


def raise_end(number: int, _: FrameType | None) -> NoReturn:
    raise Ended(number)


def interruption(interrupt: KeyboardInterrupt, more: str = "") -> Failure:
    """How a command ends that a signal ends."""
    if isinstance(interrupt, Ended):
        return Failure(f"ended by {signal.Signals(interrupt.number).name}{more}", 128 + interrupt.number)
    return Failure(f"interrupted{more}", INTERRUPTED)


def reason(error: OSError, name: str | os.PathLike[str] | None = None) -> str:
    """A failure of the system as `FILE: cause`, without its number."""
    front = error.filename if name is None else name
    cause = error.strerror or str(error)
    return f"{front}: {cause}" if front else cause


def say(text: object) -> None:
    """A line on standard error, behind the name of the command."""
    write_error(f"{TOOL}: {text}\n")


def write_error(text: str) -> None:
    """Writes on standard error, as long as somebody can be told there."""
    if sys.stderr:
        with suppress(OSError, ValueError):
            print(text, end="", file=sys.stderr, flush=True)


def ended(tool: str, main: Callable[[], int]) -> NoReturn:
    """Runs a program that is none of vma's commands, and ends it: by its status, or by its failure, which it says."""
    global TOOL
    TOOL = tool
    hold_descriptors()
    try:
        sys.exit(main())
    except Failure as failure:
        say(failure)
        sys.exit(failure.status)
    except KeyboardInterrupt:
        sys.exit(INTERRUPTED)


# Standard input and output


class StandardOutput(io.FileIO):
    """Descriptor 1, whose failures are no OSError, so that nobody takes them for those of another file."""

    def write(self, data: Any) -> int:
        try:
            return super().write(data)
        except OSError as error:
            raise OutputFailure(error) from None


class OutputFile(io.FileIO):
    """A file that is written, whose failures tell its name: a full device is met long after the file was opened."""

    shown = ""
    has_failed = False

    def write(self, data: Any) -> int:
        try:
            return super().write(data)
        except OSError as error:
            self.has_failed = True
            raise WriteFailure(error, printable(self.shown)) from None


def open_file(path: str | os.PathLike[str], mode: str = "w", shown: str | None = None) -> io.TextIOWrapper:
    """A file to be written, or with `a` to be written on, in UTF-8. It is opened before the work of which it gets the result. A
    failure names it, or another one in whose place it will be."""
    try:
        raw = OutputFile(os.fspath(path), f"{mode}b")
        raw.shown = shown or os.fspath(path)
    except OSError as error:
        raise Failure(reason(error, shown or path)) from None
    except ValueError as error:  # a zero byte in the name
        raise Failure(f"{printable(os.fspath(path))}: {error}") from None
    return io.TextIOWrapper(io.BufferedWriter(raw), encoding="utf-8")


def write_file(path: str | os.PathLike[str], text: str | bytes) -> None:
    """A whole file."""
    with open_file(path) as file:
        if isinstance(text, bytes):
            file.buffer.write(text)
        else:
            file.write(text)


class NewFile:
    """A file that takes the place of an old one where it is asked to, so that the old one stays until then. What is no plain
    file, as a device or a pipe, is written as it is; what a link leads to is written, and the link stays."""

    open_places: ClassVar[set[str]] = set()

    def __init__(self, path: str | os.PathLike[str]) -> None:
        self.path = os.fspath(path)
        self.place = os.path.realpath(self.path) if "\0" not in self.path else self.path
        self.is_beside = os.path.isfile(self.place) or not os.path.exists(self.place)
        if self.is_beside and self.place in self.open_places:
            raise Failure(f"{printable(self.path)}: it is given twice: each needs a file of its own")
        self.beside = self.made_beside() if self.is_beside else self.path
        self.stream = open_file(self.beside, shown=self.path)
        self.raw: OutputFile = self.stream.buffer.raw  # type: ignore[attr-defined]
        self.open_places.add(self.place)

    def made_beside(self) -> str:
        """An empty file beside the place, by a name that nobody has, with the rights of the file that is there."""
        try:
            if os.path.exists(self.place):
                os.close(os.open(self.place, os.O_WRONLY))  # who may not write the old one may not replace it
                mode = os.stat(self.place).st_mode & 0o777
            else:
                mode = 0o666 & ~umask()
            handle, beside = tempfile.mkstemp(".new", f".{os.path.basename(self.place)[:80]}.", os.path.dirname(self.place))
            os.fchmod(handle, mode)
            os.close(handle)
        except OSError as error:
            raise WriteFailure(error, self.path) if error.errno == errno.ENOSPC else Failure(reason(error, self.path)) from None
        except ValueError as error:  # a zero byte in the name
            raise Failure(f"{printable(self.path)}: {error}") from None
        return beside

    def take_place(self) -> None:
        """Goes to its place, with what was written so far. More may be written."""
        self.stream.flush()
        if self.is_beside:
            try:
                os.replace(self.beside, self.place)
            except OSError as error:
                raise Failure(reason(error, self.path)) from None
            self.is_beside = False

    def close(self) -> None:
        """Ends it. One that hasn't taken its place is gone. A failure to write it is told once."""
        self.open_places.discard(self.place)
        with suppress(*([WriteFailure] if self.is_beside or self.raw.has_failed else [])):
            self.stream.close()
        if self.is_beside:
            with suppress(FileNotFoundError):
                os.unlink(self.beside)


def umask() -> int:
    """That of this process, which is read by setting it."""
    mask = os.umask(0o077)
    os.umask(mask)
    return mask


def scratch() -> io.BufferedRandom:
    """A file without a name, for what is read again. A failure tells where it is."""
    try:
        with tempfile.TemporaryFile(buffering=0) as plain:
            raw = OutputFile(os.dup(plain.fileno()), "r+b")
    except OSError as error:
        raise WriteFailure(error, "a temporary file") from None
    raw.shown = f"a temporary file in {tempfile.gettempdir()}"
    return io.BufferedRandom(raw)


def replace_file(path: str | os.PathLike[str], text: str | bytes) -> None:
    """A whole file, which is there with all of the text or as it was before."""
    with closing(NewFile(path)) as file:
        file.stream.buffer.write(text if isinstance(text, bytes) else text.encode())
        file.take_place()


def make_folder(path: str | os.PathLike[str]) -> None:
    """A folder for what is written, with those above it, if it isn't there."""
    try:
        os.makedirs(path, exist_ok=True)
    except FileExistsError:
        raise Failure(f"{os.fspath(path)}: it is a file, and has to be a folder") from None
    except OSError as error:
        raise WriteFailure(error, os.fspath(path)) if error.errno == errno.ENOSPC else Failure(reason(error, path)) from None


def hold_descriptors() -> None:
    """Has each standard descriptor that is closed lead nowhere: else a file that is opened gets its number, and what is said on
    standard error goes there, or to standard output."""
    for number in range(3):
        try:
            os.fstat(number)
        except OSError:
            os.set_inheritable(os.open(os.devnull, os.O_RDWR), True)  # it gets the least number that is free
    if not sys.stderr:
        sys.stderr = open(2, "w", closefd=False)


def open_output() -> None:
    """Makes standard output one that is UTF-8 everywhere, and whose failures are named."""
    hold_descriptors()
    if sys.stdout is None:
        raise Failure("standard output: it is closed", NOT_WRITTEN)
    if sys.stdout.fileno() == 1:
        raw = io.BufferedWriter(StandardOutput(1, "wb", closefd=False))
        sys.stdout = io.TextIOWrapper(raw, encoding="utf-8", errors="backslashreplace", line_buffering=os.isatty(1))


def flush_output() -> None:
    if sys.stdout is not None:
        sys.stdout.flush()


def drop_output() -> None:
    """Sends what is left of the output nowhere, since it could not be written."""
    nowhere = os.open(os.devnull, os.O_WRONLY)
    os.dup2(nowhere, 1)
    os.close(nowhere)
    flush_output()


def open_input(path: str) -> io.BufferedReader:
    """A file to be read, or standard input for `-`."""
    if path == "-" and sys.stdin is None:
        raise Failure("standard input: it is closed")
    try:
        return open(0 if path == "-" else path, "rb", closefd=path != "-")
    except OSError as error:
        raise Failure(reason(error, named(path))) from None
    except ValueError as error:  # a zero byte in the name
        raise Failure(f"{printable(path)}: {error}") from None


def open_inputs(*paths: str) -> list[io.BufferedReader]:
    """Files to be read, of which one may be standard input."""
    if paths.count("-") > 1:
        raise Failure("only one file can be standard input")
    return [open_input(path) for path in paths]


@contextmanager
def reading(path: str) -> Iterator[None]:
    """A read that fails within is told with the name of the file."""
    try:
        yield
    except OSError as error:
        raise Failure(reason(error, named(path))) from None


def whole(path: str, most: int = MOST_BYTES) -> bytes:
    """All of a file or of standard input, of which there may not be so much that no memory has it."""
    with open_input(path) as source, reading(path):
        data = source.read(most + 1)
    if len(data) > most:
        raise Failure(f"{named(path)}: it has more than {most:,} bytes")
    return data


def whole_text(path: str, most: int = MOST_BYTES) -> str:
    """The same as a text, in which a byte that is no UTF-8 is a surrogate."""
    return whole(path, most).decode("utf-8", "surrogateescape")


def named(path: str) -> str:
    return "standard input" if path == "-" else path


# Words


def printable(text: str, most: int = 200) -> str:
    """A text for one line of a terminal: cut off, with controls, and bytes that are none of a text, by their number."""
    cut = text[:most]
    if cut.isprintable():
        return cut
    return "".join(letter if letter.isprintable() else shown_control(letter) for letter in cut)


def shown_control(letter: str) -> str:
    code = ord(letter) - 0xDC00 if 0xDC80 <= ord(letter) <= 0xDCFF else ord(letter)
    return {"\t": "\\t", "\r": "\\r", "\n": "\\n"}.get(letter) or (f"\\x{code:02x}" if code < 256 else f"\\u{code:04x}")


def counted(count: int, name: str, many: str | None = None) -> str:
    return f"{count:,} {name if count == 1 else many or name + 's'}"


# Help

WIDEST = 100  # columns of a text that is read


def columns() -> int:
    """How wide a text for this terminal is."""
    return min(shutil.get_terminal_size().columns, WIDEST)


def filled(text: str, width: int) -> list[str]:
    """The lines of a text of this width, in which no word is broken: of each paragraph, and of each item in it (`- what`, or
    `  name  what`). Other lines that begin with spaces stay as they are."""
    parts: list[list[str]] = []  # what begins the first line of a part, and its words
    for line in text.split("\n"):
        item = re.match(r"- |  \S.*?  +(?=\S)", line)
        lead = item[0] if item else " " * (len(line) - len(line.lstrip()))
        if not item and line and parts and parts[-1][1] and not parts[-1][0].isspace() and len(lead) == len(parts[-1][0]):
            parts[-1][1] += " " + line.strip()
        else:
            parts.append([lead, line[len(lead) :]])
    lines = []
    for lead, words in parts:
        wrapper = textwrap.TextWrapper(width, lead, " " * len(lead), break_long_words=False, break_on_hyphens=False)
        lines += [lead + words] if not words or lead.isspace() else wrapper.wrap(words)
    return lines


class Formatter(argparse.HelpFormatter):
    """Help that is as wide as the terminal, up to a width that is read well."""

    def __init__(self, prog: str) -> None:
        super().__init__(prog, width=columns() - 2, max_help_position=24 if columns() > 60 else 6)

    def start_section(self, heading: str | None) -> None:
        super().start_section("\n".join(filled(heading or "", columns() - 2)))

    def _fill_text(self, text: str, width: int, indent: str) -> str:
        return "\n".join(filled(text.strip("\n"), width))

    def _split_lines(self, text: str, width: int) -> list[str]:
        return filled(" ".join(text.split()), width)


# Colour

STYLES = {"red": "31", "green": "32", "yellow": "33", "blue": "34", "bold": "1", "faint": "2"}
WHEN = ("auto", "always", "never")
has_colour = False


def choose_colour(when: str) -> None:
    """Whether standard output has colour: `auto` is on a terminal that has it, where NO_COLOR does not forbid it."""
    global has_colour
    is_wanted = "NO_COLOR" not in os.environ and os.environ.get("TERM") not in (None, "", "dumb")
    has_colour = when == "always" or when == "auto" and is_wanted and sys.stdout is not None and sys.stdout.isatty()


def painted(text: str, *styles: str) -> str:
    """A text in these styles, where standard output has colour."""
    return f"\x1b[{';'.join(STYLES[style] for style in styles)}m{text}\x1b[0m" if has_colour and text else text


class Progress:
    """A line on standard error that says how far the work is, where it takes longer than two seconds and somebody may look."""

    def __init__(self) -> None:
        self.begin, self.last, self.shown = time.monotonic(), 0.0, False
        self.is_wanted = sys.stderr is not None and sys.stderr.isatty()

    def tell(self, text: str) -> None:
        now = time.monotonic()
        if self.is_wanted and now - self.begin > 2 and now - self.last > 0.2:
            write_error(f"\r\x1b[K{text[:120]}")
            self.last, self.shown = now, True

    def clear(self) -> None:
        if self.shown:
            write_error("\r\x1b[K")
            self.shown = False
