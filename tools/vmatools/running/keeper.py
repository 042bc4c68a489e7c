"""Ends what a tool has started, where the tool itself has ended, by whatever.

`children` runs this as a process of its own. Standard input has a line `+PID` for each session that is started, and `-PID`
where one has ended. At its end, which is the tool's, all processes of the sessions that are left are killed, with what these
have started in sessions of their own. So are those that have the pipe open which the one argument names: a process has it from
its first moment, and the tool may end before it has written `+PID`.
"""

import contextlib
import os
import signal
import sys
from collections.abc import Iterable

PROCESSES = "/proc"


def families() -> dict[int, tuple[int, int]]:
    """Of each process that has not ended: its parent and its session."""
    found = {}
    for name in os.listdir(PROCESSES) if os.path.isdir(PROCESSES) else []:
        with contextlib.suppress(OSError, IndexError, ValueError):
            with open(f"{PROCESSES}/{name}/stat", "rb") as file:
                state, parent, _, session = file.read().rpartition(b")")[2].split()[:4]
            if state not in b"ZX":
                found[int(name)] = int(parent), int(session)
    return found


def opened(process: int) -> set[str]:
    """What a process has open, by the names of /proc."""
    folder, found = f"{PROCESSES}/{process}/fd", set[str]()
    with contextlib.suppress(OSError):
        for name in os.listdir(folder):
            with contextlib.suppress(OSError):  # closed since then
                found.add(os.readlink(f"{folder}/{name}"))
    return found


def members(sessions: Iterable[int]) -> set[int]:
    """The processes of these sessions, and all that they have started."""
    left, wanted = families(), set(sessions)
    found = {process for process, (_, session) in left.items() if session in wanted or process in wanted}
    new = found
    while new:
        new = {process for process, (parent, _) in left.items() if parent in new} - found
        found |= new
    return found - {os.getpid()}


def send(processes: Iterable[int], number: int) -> None:
    for process in processes:
        with contextlib.suppress(OSError):
            os.kill(process, number)


def end(sessions: Iterable[int]) -> None:
    """Kills these sessions with all that they have started. They are stopped first: who is stopped starts nothing more."""
    sessions, stopped = list(sessions), set[int]()
    while new := members([*sessions, *stopped]) - stopped:
        send(new, signal.SIGSTOP)
        stopped |= new
    send(stopped, signal.SIGKILL)
    for session in sessions:  # where there is no /proc
        with contextlib.suppress(OSError):
            os.killpg(session, signal.SIGKILL)


def main() -> None:
    for number in (signal.SIGINT, signal.SIGTERM, signal.SIGHUP):
        signal.signal(number, signal.SIG_IGN)
    os.chdir("/")
    sessions: set[int] = set()
    for line in sys.stdin:
        (sessions.add if line[0] == "+" else sessions.discard)(int(line[1:]))
    marks = set(sys.argv[1:])
    end(sessions | {process for process in families() if marks & opened(process)} - {os.getpid()})


if __name__ == "__main__":
    main()
