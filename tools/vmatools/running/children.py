"""Processes that a tool starts, each in a session of its own. They end where the tool ends, by whatever, and so does what they
have started themselves."""

import contextlib
import os
import signal
import subprocess
import sys
import threading
from collections.abc import Iterable, Sequence
from concurrent.futures import Future, wait
from typing import Any, NamedTuple

from . import keeper

RUNNING: set[subprocess.Popen[bytes]] = set()
LOCK = threading.Lock()


class Keeper(NamedTuple):
    """The process that ends all others after this one."""

    told: int  # the descriptor by which it is told
    mark: int  # one that each process has from its first moment, before the keeper is told of it


KEEPERS: list[Keeper] = []  # the one, where it runs


def start(
    command: Sequence[str | os.PathLike[str]], pass_fds: Sequence[int] = (), is_apart: bool = True, **streams: Any
) -> subprocess.Popen[bytes]:
    """Starts a command, which hears this terminal's Ctrl-C itself where it isn't apart. Whoever starts it calls `end` when it has
    ended, or is to end."""
    kept = [*pass_fds, the_keeper().mark]
    process = subprocess.Popen(command, start_new_session=is_apart, pass_fds=kept, **streams)
    keep(process.pid)
    RUNNING.add(process)
    return process


def the_keeper() -> Keeper:
    """The keeper, which is started at first."""
    with LOCK:
        if not KEEPERS:
            KEEPERS.append(start_keeper())
    return KEEPERS[0]


def keep(process: int) -> None:
    """Has a process end where the tool ends, by its number, with all that it has started."""
    the_keeper()
    tell(f"+{process}")


def let_go(process: int) -> None:
    """Lets a process be."""
    tell(f"-{process}")


def start_keeper() -> Keeper:
    """Starts it. It sees the end of this process by the end of its input, and has the mark as its standard output, so that no
    other pipe gets that name."""
    source, told = os.pipe()
    mark, other = os.pipe()
    words = [sys.executable, "-I", "-S", keeper.__file__, f"pipe:[{os.fstat(mark).st_ino}]"]
    actions = [(os.POSIX_SPAWN_DUP2, source, 0), (os.POSIX_SPAWN_DUP2, mark, 1)]
    errors = (os.POSIX_SPAWN_OPEN, 2, os.devnull, os.O_WRONLY, 0)
    os.posix_spawn(words[0], words, os.environ, file_actions=[*actions, errors], setsid=True)
    os.close(source)
    os.close(other)
    return Keeper(told, mark)


def tell(line: str) -> None:
    with contextlib.suppress(OSError):
        os.write(KEEPERS[0].told, f"{line}\n".encode())


def stop(process: subprocess.Popen[bytes]) -> None:
    """Kills a process with all that it has started. SIGTERM would do nothing in an emulator that hangs."""
    keeper.end([process.pid])


def end(process: subprocess.Popen[bytes]) -> None:
    """Ends a process that has ended or is to end, with its session, and forgets it."""
    with contextlib.suppress(OSError):
        os.killpg(process.pid, signal.SIGKILL)
    process.wait()
    RUNNING.discard(process)
    let_go(process.pid)


def stop_all() -> None:
    """Ends all that runs, where the tool itself is ended."""
    keeper.end([process.pid for process in list(RUNNING)])


def stop_work(work: Iterable[Future[Any]]) -> None:
    """Gives up what threads are to do or do now: ends all that they run, until they are done."""
    while left := [future for future in work if not future.cancel() and not future.done()]:
        stop_all()
        wait(left, 0.1)
