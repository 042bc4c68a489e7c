"""Answers traces with what a system answers."""

import contextlib
import os
import resource
from collections.abc import Iterator
from pathlib import Path

from ..traces import File, Trace, read_trace
from .empty import check_empty, stack_limit
from .known import System
from .places import Refused, check_window
from .running import HUNG, Once, Ran, prepare_processes
from .scripts import script_of
from .searches import check_searches
from .telling import told

OPEN_MODES = {"r": os.O_RDONLY, "w": os.O_WRONLY, "rw": os.O_RDWR}


class Adapter:
    """Runs traces on a system, one after the other."""

    def __init__(self, system: System, is_served: bool = False, folder: Path | None = None) -> None:
        if folder and system.boots:
            raise Refused(2, "--folder is of this machine, and the system is one of its own")
        prepare_processes()
        self.system, self.folder = system, folder
        self.runner = system.runner(is_served and folder is None)

    def answer(self, data: bytes, seconds: float | None = None) -> str:
        """The output of a trace. Raises BadLine where the bytes are none, and Refused where it is not run."""
        trace = read_trace(data)
        system, limit = self.system, min(seconds or self.system.seconds, self.system.seconds)
        most_areas = 0
        if system.window:
            check_window(trace, system.window)
        else:
            kernel = system.kernel()
            check_empty(trace, kernel)
            most_areas = kernel.most_areas
        with self.files(trace) as descriptors:
            script = script_of(trace, system.window, most_areas, int(limit + 1) if system.boots else 0, descriptors)
            ran = self.run(script, trace, limit, descriptors)
        check_begun(ran)
        check_searches(trace, ran.texts, system.window)
        return "".join(text + "\n" for text in told(trace, ran.texts, ran.ending))

    def run(self, script: bytes, trace: Trace, seconds: float, descriptors: dict[int, int]) -> Ran:
        if isinstance(self.runner, Once):
            self.runner.descriptors = list(descriptors.values())
            if self.system.window is None:  # it decides about `top`
                _, hard = resource.getrlimit(resource.RLIMIT_STACK)
                resource.setrlimit(resource.RLIMIT_STACK, (stack_limit(trace), hard))
        return self.runner.run(script, seconds)

    @contextlib.contextmanager
    def files(self, trace: Trace) -> Iterator[dict[int, int]]:
        """The trace's files as descriptors, by their place, where they are made in a folder. Otherwise the runner makes them."""
        opened: dict[int, int] = {}
        try:
            if self.folder:
                raise_open_files(2 * len(trace.files) + 64)
                for place, file in enumerate(trace.files):
                    opened[place] = open_file(place, file, self.folder)
            yield opened
        finally:
            for descriptor in opened.values():
                os.close(descriptor)

    def close(self) -> None:
        self.runner.close()


def raise_open_files(wanted: int) -> None:
    soft, hard = resource.getrlimit(resource.RLIMIT_NOFILE)
    if soft != resource.RLIM_INFINITY and soft < wanted:
        with contextlib.suppress(ValueError):
            resource.setrlimit(resource.RLIMIT_NOFILE, (wanted, hard))


def open_file(place: int, file: File, folder: Path) -> int:
    """A file without contents in a folder, opened as the trace says. Its name tells its place among the files."""
    path = folder / f"{os.getpid()}-vmatrace-{place}"
    try:
        made = os.open(path, os.O_RDWR | os.O_CREAT | os.O_EXCL, 0o700)
        try:
            os.ftruncate(made, file.size)
            return os.open(path, OPEN_MODES[file.mode])
        finally:
            os.close(made)
            path.unlink()
    except OSError as error:
        raise Refused(
            4, f"the file of descriptor {file.descriptor}, of {file.size} bytes, cannot be made: {error.strerror}"
        ) from None


def check_begun(ran: Ran) -> None:
    """Refuses a run in which the system did not come to the trace."""
    first = ran.texts[0] if ran.texts else ""
    if first.startswith(("shift", "stop")):
        return
    if ran.ending == HUNG:
        raise Refused(6, "the system does not begin in time; `--seconds N` gives it more")
    if ran.ending == "killed by signal 31":
        raise Refused(5, "a sandbox ends the program that makes the calls, at a system call that it forbids")
    said = ran.message.strip() or first
    raise Refused(5, f"the system does not begin ({ran.ending or 'it writes something else'}): {said[-400:]}")
