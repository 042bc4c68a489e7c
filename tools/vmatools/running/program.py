"""Programs that are run: the proved one, which may be missing, and any other, which may crash, hang or write on."""

import argparse
import errno
import functools
import os
import selectors
import shutil
import signal
import subprocess
import sys
import time
from collections.abc import Sequence
from dataclasses import dataclass
from pathlib import Path
from typing import IO

from .. import console
from . import children

HERE = Path(__file__).resolve().parents[1]


def top_of(tools: Path) -> Path:
    """The folder with the suite and the examples: pip puts them beside the modules, and elsewhere tools is in it."""
    return tools if (tools / "suite").is_dir() else tools.parents[1]


TOP = top_of(HERE)
# The command `vma` itself, and its words in a shell.
VMA = [sys.executable, str(TOP / "tools/vma")] if HERE.parents[1] == TOP else [sys.executable, "-m", "vmatools"]
DEFAULT_PROGRAM = TOP / "crates/vma_main/out/vma_main"
VARIABLE = "DILTZEKUN"
ON_PATH = "diltzekun"
MOST_OUTPUT = 64 * 1024 * 1024
BUILDS = f"`(cd {TOP}/crates/vma_main && rt run -- serial < ../../examples/readme.trace)` proves and builds it"
UNPROVED = HERE / "unproved"  # the model, as programs
NOT_BUILT = "unproved model: the proved program isn't built (README.md)"
LIVE_BUILDS = f"`(cd {TOP}/crates/vma_live && rt run < /dev/null)` proves and builds it"


@dataclass(frozen=True)
class Named:
    """A program of this repository: what names it, and how it is built."""

    option: str
    variable: str
    on_path: str
    default: Path
    builds: str

    @property
    def model(self) -> Path:
        """What is run where the program isn't built."""
        return UNPROVED / self.on_path

    def place(self, given: str | os.PathLike[str] | None = None) -> tuple[str | os.PathLike[str], str]:
        """The first place that names it, and which that is; where none does and it isn't built, the model's."""
        places = [
            (given, self.option),
            (os.environ.get(self.variable), f"${self.variable}"),
            (shutil.which(self.on_path), "the PATH"),
            (self.packaged, "the package"),
            (self.default if self.default.exists() else None, "the repository"),
        ]
        return next(((place, source) for place, source in places if place), (self.model, "the model"))

    @property
    def packaged(self) -> Path | None:
        """The one in a package: the tools are in its share/diltzekun, and the programs in its bin."""
        path = TOP.parents[1] / "bin" / self.on_path
        return path if TOP.parent.name == "share" and path.exists() else None

    @property
    def ways(self) -> str:
        """How to come to one: a checkout builds it, and elsewhere it has to be named."""
        if (TOP / "crates").is_dir():
            return self.builds
        return f"name one by {self.option} PATH or ${self.variable}, or put `{self.on_path}` on the PATH"


PROGRAM = Named("--program", VARIABLE, ON_PATH, DEFAULT_PROGRAM, BUILDS)
LIVE = Named("--live", f"{VARIABLE}_LIVE", f"{ON_PATH}-live", TOP / "crates/vma_live/out/vma_live", LIVE_BUILDS)


@dataclass(frozen=True)
class Ran:
    """What a run gave. `fault` is none, or in words how it failed."""

    output: str
    fault: str | None
    message: str


def add_arguments(parser: argparse.ArgumentParser) -> None:
    """The words by which every command that runs the program finds it."""
    parser.add_argument(
        "--program",
        metavar="PATH",
        help=f"the program (${VARIABLE}, {ON_PATH} on the PATH, the repository's crates/vma_main/out/vma_main, or else the "
        "tools' model, which is not proved)",
    )
    parser.add_argument("-v", "--verbose", action="store_true", help="says on standard error which program is taken")


def find(given: str | os.PathLike[str] | None = None, verbose: bool = False, named: Named = PROGRAM) -> str:
    """The path of a program that is to be run, from the first place that names one. Where none does, and it isn't built,
    that is the model, which is said."""
    place, source = named.place(given)
    path = existing(place, named.ways)
    if Path(path) == named.model:
        say_once(NOT_BUILT)
    if verbose:
        console.say(f"{'the program' if named is PROGRAM else named.on_path} is {path} ({source})")
    return path


def find_built(given: str | os.PathLike[str] | None = None, verbose: bool = False) -> str:
    """The path of the program alone: no model stands in for it."""
    place, source = PROGRAM.place(given)
    return find(DEFAULT_PROGRAM if source == "the model" else place, verbose)


def say_unbuilt() -> None:
    """Says that what is right is the model's word, where the program isn't built."""
    if Path(PROGRAM.place()[0]) == PROGRAM.model:
        say_once(NOT_BUILT)


@functools.cache
def say_once(text: str) -> None:
    console.say(text)


def live_beside(given: str | os.PathLike[str] | None, verbose: bool = False) -> str | None:
    """The path of diltzekun-live, if the place that names the program has it too: so both are of one build."""
    _, source = PROGRAM.place(given)
    beside = {
        f"${PROGRAM.variable}": os.environ.get(LIVE.variable),
        "the PATH": shutil.which(LIVE.on_path),
        "the package": LIVE.packaged,
        "the repository": LIVE.default,
        "the model": LIVE.model,
    }
    place = beside.get(source)
    if not place or not is_program(os.path.abspath(place)):
        return None
    return find(place, verbose, LIVE)


def is_program(path: str) -> bool:
    return os.path.isfile(path) and os.access(path, os.X_OK)


def existing(place: str | os.PathLike[str], ways: str = BUILDS) -> str:
    """The whole path of a program, which has to be there."""
    path = os.path.abspath(place)
    if is_program(path):
        return path
    missing = "is not there" if not os.path.exists(path) else "cannot be run"
    raise console.Failure(f"the program {path} {missing}; {ways}")


def check_command(command: Sequence[str]) -> None:
    """Ends a tool whose COMMAND, the system under test, is not there or is not executable."""
    word = command[0]
    if shutil.which(word):
        return
    if os.path.isdir(word):
        why = "is a directory"
    elif not os.path.exists(word):
        why = "is not there" if os.path.dirname(word) else "is not on the PATH"
    elif not os.path.dirname(word):
        why = f"is not on the PATH; did you mean ./{word}?"
    else:
        why = f"is not executable; `chmod +x {word}` makes it so"
    raise console.Failure(f"COMMAND {console.printable(word)} {why}")


def why_not_run(name: str | os.PathLike[str], error: OSError) -> str:
    """Why a file that is executable was not started."""
    why = error.strerror or str(error)
    if error.errno == errno.ENOEXEC:
        why += "; a script begins with `#!` and the path of its interpreter"
    elif error.errno == errno.ENOENT and os.path.exists(name):
        why = "the interpreter that it names is not there"
    return f"{os.fspath(name)} cannot be run: {why}"


def busy() -> str:
    """That the machine is busy, if it is: what doesn't end in time may be slow for that alone."""
    load, processors = os.getloadavg()[0], os.cpu_count() or 1
    if load <= processors:
        return ""
    return f"this machine is busy (load average {load:.0f}, processors: {processors}): give it more time by --seconds"


def begin(
    command: Sequence[str | os.PathLike[str]], source: IO[bytes], output: IO[bytes] | int | None = subprocess.PIPE
) -> subprocess.Popen[bytes]:
    """Starts a command, with a file as its standard input. With none as its standard output it has this process's."""
    try:
        return children.start(command, stdin=source, stdout=output, stderr=subprocess.PIPE)
    except OSError as error:
        raise console.Failure(why_not_run(command[0], error)) from None


def run(command: Sequence[str | os.PathLike[str]], text: bytes, seconds: float) -> Ran:
    """Runs a command over a text on its standard input, for so many seconds at most."""
    end, status = time.monotonic() + seconds, None
    with console.scratch() as source:
        source.write(text)
        source.seek(0)
        with begin(command, source) as process:
            try:
                output, message, fault = read_both(process, end)
                if not fault:
                    status = process.wait(max(end - time.monotonic(), 0.1))
            except subprocess.TimeoutExpired:
                fault = "does not end"
            finally:
                if process.returncode is None:
                    children.stop(process)
                children.end(process)
    if fault is None and status:
        fault = f"ends with status {status}" if status > 0 else f"ends by signal {signal.Signals(-status).name}"
    return Ran(output.decode("utf-8", "replace"), fault, message.decode("utf-8", "replace"))


def read_both(process: subprocess.Popen[bytes], end: float) -> tuple[bytes, bytes, str | None]:
    """Standard output and standard error up to their ends, and none; or what came of them until that was too long or too much."""
    assert process.stdout and process.stderr
    read: dict[IO[bytes], list[bytes]] = {process.stdout: [], process.stderr: []}
    size, fault = 0, None
    with selectors.DefaultSelector() as selector:
        for stream, pieces in read.items():
            selector.register(stream, selectors.EVENT_READ, pieces)
        while selector.get_map() and fault is None:
            ready = selector.select(max(end - time.monotonic(), 0))
            if not ready and time.monotonic() >= end:
                fault = "does not end"
            for key, _ in ready:
                piece = os.read(key.fd, 1 << 20)
                key.data.append(piece)
                size += len(piece)
                if not piece:
                    selector.unregister(key.fileobj)
            if size > MOST_OUTPUT:
                fault = "writes on and on"
    return b"" if fault else b"".join(read[process.stdout]), b"".join(read[process.stderr])[-10_000:], fault
