"""The rows of docs/KERNEL.md: a trace of a few lines for each, what the program answers, and what a kernel does."""

import difflib
import re
from dataclasses import dataclass, replace
from pathlib import Path

from .. import console
from ..linux import kernel as linux, vectors
from ..linux.areas import NotModelled
from ..linux.recorded import kernel_in
from ..linux.versions import text_of
from ..oracles import PROFILE, Oracle
from ..running import program
from ..traces import BadLine, read_trace
from .adapter import Adapter
from .known import system_of
from .places import Refused

ROWS = program.TOP / "examples/kernel-rows.txt"
VECTORS = program.TOP / "suite/vectors"
CANNOT = 4  # the status of a trace that asks for what the machine cannot do
OWN_BREAK = re.compile(r"= 0x7fffff[01][0-9a-f]{5}$", re.MULTILINE)  # among the addresses of the process that makes the calls
SOME_BREAK = "= BREAK"
HERE, THERE = "-- program", "-- Linux 6.18"
PROGRAM_SECONDS = 600.0
ON_DISK = ("aligned-file", "aligned-file-moved")  # the row of files on a disk: the others' are memory


@dataclass(frozen=True)
class Row:
    """A row: its name, its trace, what both sides answer, and what case it is, where its call doesn't say it."""

    name: str
    trace: str
    here: str
    there: str
    case: str = ""

    def text(self) -> str:
        case = f": {self.case}" if self.case else ""
        return f"== {self.name}{case}\n{self.trace}{HERE}\n{self.here}{THERE}\n{self.there}"


def read_rows(path: Path = ROWS) -> tuple[str, list[Row]]:
    """What stands above the rows in their file, and the rows."""
    head, *parts = re.split(r"^== ([^:\n]+)(?:: (.+))?\n", path.read_text(encoding="utf-8"), flags=re.MULTILINE)
    rows = []
    for name, case, text in zip(parts[::3], parts[1::3], parts[2::3]):
        trace, outputs = text.split(HERE + "\n")
        here, there = outputs.split(THERE + "\n")
        rows.append(Row(name, trace, here, there.rstrip("\n") + "\n", case or ""))
    return head, rows


def directed_rows() -> list[Row]:
    """The directed traces, with what the profile answers, and what Linux 6.18 was recorded to answer."""
    version = recorder(read_rows()[0]).version
    found = vectors.read(VECTORS / text_of(version) / vectors.FILE)[1]
    return [
        Row(one.name.removeprefix(vectors.DIRECTED), one.trace, PROFILE.output(read_trace(one.trace.encode())), one.answer)
        for one in found
        if vectors.is_directed(one.name)
    ]


def recorder(head: str) -> linux.Kernel:
    """The kernel that answered the rows, and its settings, as stands above them."""
    return kernel_in(next(line.removeprefix("# ") for line in head.splitlines() if line.startswith("# linux-")))


def kernel_for(name: str, kernel: linux.Kernel) -> linux.Kernel:
    """The kernel with the files that a row has."""
    return replace(kernel, settings=replace(kernel.settings, files="disk")) if name in ON_DISK else kernel


def row_of(path: str) -> Row:
    """A trace of somebody else's, as a row whose answers nobody knows."""
    return Row(path, console.whole_text(path), "", "")


def write_rows(head: str, rows: list[Row], path: Path = ROWS) -> None:
    path.write_text(head + "\n".join(row.text() for row in rows), encoding="utf-8")


class Answering:
    """What answers the rows beside the program."""

    cannot: str  # why it doesn't answer one
    otherwise: str  # where it answers one otherwise than 6.18

    def output(self, row: Row) -> str | None:
        """What it answers to a row, or None where it cannot run it."""
        raise NotImplementedError

    def close(self) -> None:
        """Ends it."""


class Model(Answering):
    """A model, as `--as` names it."""

    cannot = "not modelled"

    def __init__(self, kernel: linux.Kernel) -> None:
        self.otherwise = f"{kernel.name} answers otherwise"
        self.kernel = kernel

    def output(self, row: Row) -> str | None:
        try:
            return Oracle(kernel_for(row.name, self.kernel)).output(read_trace(row.trace.encode(errors="surrogateescape")))
        except BadLine as bad:
            raise console.Failure(f"{row.name}: trace {bad}") from None
        except NotModelled:
            return None


class Kernel(Answering):
    """The kernel that answers the rows."""

    cannot = "this machine cannot run it"
    otherwise = "the kernel answers otherwise now"

    def __init__(self, name: str) -> None:
        system = system_of(name)
        self.in_memory = Adapter(system, is_served=True)
        self.on_disk = self.in_memory if system.boots else Adapter(system, folder=program.TOP)

    def output(self, row: Row) -> str | None:
        adapter = self.on_disk if row.name in ON_DISK else self.in_memory
        try:
            return OWN_BREAK.sub(SOME_BREAK, adapter.answer(row.trace.encode(errors="surrogateescape")))
        except BadLine as bad:
            raise console.Failure(f"{row.name}: trace {bad}") from None
        except Refused as refused:
            if refused.status == CANNOT:
                return None
            raise console.Failure(f"row {row.name}: the kernel does not run it: {refused}") from None

    def close(self) -> None:
        self.in_memory.close()
        self.on_disk.close()


def program_output(path: str, row: Row) -> str:
    ran = program.run([path, "serial"], row.trace.encode(errors="surrogateescape"), PROGRAM_SECONDS)
    if ran.fault:
        raise console.Failure(f"{path} {ran.fault}: {ran.message.strip()[:300]}")
    return ran.output


def run_again(row: Row, path: str | None, kernel: Answering | None) -> Row:
    """The row with what is answered now."""
    here = program_output(path, row) if path else row.here
    there = kernel.output(row) if kernel else row.there
    if kernel and there is None:
        print(f"{row.name}: {kernel.cannot}")
    return replace(row, here=here, there=there if there is not None else row.there)


def differing(first: str, second: str) -> list[str]:
    """The lines in which two outputs differ."""
    lines = difflib.unified_diff(first.splitlines(), second.splitlines(), lineterm="", n=0)
    shown = (line for line in lines if not line.startswith(("---", "+++", "@@")))
    return [console.painted(line, "green" if line.startswith("-") else "red") for line in shown]


def show(row: Row) -> None:
    print("\n".join([f"== {row.name}", row.trace.rstrip("\n"), *differing(row.here, row.there), ""]))


def check(row: Row, now: Row, kernel: Answering | None) -> bool:
    """Prints what is answered otherwise than it stands in the file. Returns whether all is as there."""
    other = kernel.otherwise if kernel else ""
    for otherwise, old, new in (("the program answers otherwise now", row.here, now.here), (other, row.there, now.there)):
        if old != new:
            print("\n".join([f"{row.name}: {otherwise}", *(f"  {line}" for line in differing(old, new))]))
    return row == now
