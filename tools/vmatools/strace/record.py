"""Runs a command under strace, and keeps its log and the VMAs of each program in it.

It writes three files. NAME.log is the log of strace, with the calls that `vma import` reads: those of memory and of
processes, and those that open files or give their sizes. NAME.maps is /proc/PID/maps right after the execve, before the
first instruction. NAME.lists has the lists of all processes of the command: before each execve, when the new program
begins, and before its end. Address randomisation is off, so the same command has the same addresses each time. NAME is the
command's name. Then

    tools/vma import NAME.log --maps NAME.lists --all FOLDER

makes a trace of each address space, and

    tools/vma import NAME.log --maps NAME.maps --replies NAME.kernel > NAME.trace

one of the first alone.

The command has this terminal and this environment. The log has its words and the names of the files that it opens, but not
its environment, nor what it reads. The lists are read while the command waits in a call, by a filter of seccomp(2). A
command that listens to such filters itself, as a container's runtime may, needs --no-lists. Under strace and with the
filter, programs with a set-user-ID bit have no more rights than you.

SIGTERM and SIGHUP end the command too. What is kept by then is whole.

Exit status: the command's, or 128 plus the number of the signal that ended it or this tool; 125 if strace isn't there or may
not trace, if what it keeps can't be written, and on wrong use; 127 if the command isn't there.
"""

import argparse
import ctypes
import os
import shutil
import signal
import subprocess
import sys
import threading
import time
from pathlib import Path
from typing import BinaryIO, NoReturn

from ..console import Ended, Failure, reason, say, write_error, write_file
from ..running import children, keeper
from . import watching

ADDR_NO_RANDOMIZE = 0x0040000
PTRACE_TRACEME, PTRACE_DETACH = 0, 17
PR_SET_PTRACER, ANY = 0x59616D61, -1
TRACED = (
    "%memory,%process,open,openat,openat2,creat,close,close_range,dup,dup2,dup3,fcntl,fstat,newfstatat,statx,ftruncate,"
    "memfd_create,shmget"
)
IN_FULL = "fstat,newfstatat,statx"  # with device and inode; the environment of an execve stays out of the log
SECONDS = 10
MOST_SAID = 100  # lines of strace that are passed on

LIBC = ctypes.CDLL(None, use_errno=True)
LIBC.ptrace.argtypes = [ctypes.c_long, ctypes.c_long, ctypes.c_void_p, ctypes.c_void_p]
LIBC.ptrace.restype = ctypes.c_long


def fail(status: int, text: str) -> NoReturn:
    raise Failure(text, status)


def started(path: str, words: list[str], lists: BinaryIO | None) -> tuple[int, watching.Watcher | None]:
    """A child that stands still right after its execve, with randomisation off, and who reads its lists."""
    reader, writer = os.pipe()
    child = os.fork()
    if child == 0:
        try:
            os.close(reader)
            LIBC.personality(ctypes.c_ulong(ADDR_NO_RANDOMIZE))
            LIBC.prctl(PR_SET_PTRACER, ctypes.c_ulong(ANY & 2**64 - 1), 0, 0, 0)  # strace, a sibling, may trace it
            if LIBC.ptrace(PTRACE_TRACEME, 0, None, None) == -1:
                os.write(2, b"vma record: ptrace(2) is forbidden here\n")
                os._exit(125)
            if lists:
                os.write(writer, b"%d" % watching.install())
            os.close(writer)
            os.execv(path, words)
        except OSError as error:
            os.write(2, f"vma record: {path}: {error.strerror}\n".encode())
        finally:
            os._exit(127)
    os.close(writer)
    watcher = watcher_of(child, reader, lists) if lists else None
    _, status = os.waitpid(child, 0)
    if not os.WIFSTOPPED(status):
        sys.exit(os.waitstatus_to_exitcode(status) if os.WIFEXITED(status) else 125)
    return child, watcher


def watcher_of(child: int, reader: int, lists: BinaryIO) -> watching.Watcher | None:
    """Who reads the lists of a child that has said where its filter is heard; none where it may have no filter."""
    with open(reader, "rb") as told:
        number = int(told.read() or b"-1")
    listener = watching.taken_from(child, number) if number >= 0 else None
    if listener is None:
        say("a seccomp filter is forbidden here: the lists of the programs after the first are not kept")
        return None
    watcher = watching.Watcher(listener, lists)
    watcher.start()
    return watcher


def quoted(word: str) -> str:
    """A word as strace writes strings."""
    plain = {ord('"'): '\\"', ord("\\"): "\\\\", ord("\n"): "\\n", ord("\t"): "\\t"}
    return '"' + "".join(plain.get(b) or (chr(b) if 32 <= b < 127 else f"\\{b:03o}") for b in os.fsencode(word)) + '"'


def keep_beginning(child: int, path: str, words: list[str], choices: argparse.Namespace) -> None:
    """The maps, and the log's first line, as strace comes only after the execve."""
    write_file(choices.name + ".maps", Path(f"/proc/{child}/maps").read_bytes())
    write_file(choices.name + ".log", f"{child} execve({quoted(path)}, [{', '.join(map(quoted, words))}], ...) = 0\n")


class Tracer:
    """strace while it traces a child. What it says on standard error is passed on, each line once: it names a full device at
    each call."""

    def __init__(self, words: list[str]) -> None:
        self.process = subprocess.Popen(
            words, stdin=subprocess.DEVNULL, stderr=subprocess.PIPE, start_new_session=True
        )
        children.keep(self.process.pid)
        self.said: dict[str, None] = {}
        self.hears = threading.Thread(target=self.hear, daemon=True)
        self.hears.start()

    def hear(self) -> None:
        assert self.process.stderr
        with self.process.stderr:
            for line in self.process.stderr:
                text = line.decode(errors="replace").rstrip()
                if text not in self.said and len(self.said) < MOST_SAID:
                    self.said[text] = None
                    write_error(f"{text}\n")

    def end(self) -> None:
        """Waits for its end: that of the last process that it traces. Those that the command left behind go on without it."""
        try:
            self.process.wait(SECONDS)
        except (subprocess.TimeoutExpired, KeyboardInterrupt):
            self.process.terminate()
            self.process.wait()
        self.hears.join(SECONDS)
        children.let_go(self.process.pid)

    def not_written(self, log: str) -> str | None:
        """Why the log is not whole."""
        front = f"strace: {log}: "
        return next((text.removeprefix(front) for text in self.said if text.startswith(front)), None)


def traced(child: int, log: str) -> Tracer:
    """strace, once it traces the child. Where it cannot, the child is ended."""
    # The child stops by a signal of its own, so that it waits for strace.
    LIBC.ptrace(PTRACE_DETACH, child, None, signal.SIGSTOP)
    os.waitpid(child, os.WUNTRACED)
    kept = ["-e", f"trace={TRACED}", "-e", f"abbrev=!{IN_FULL}", "-e", "signal=all"]
    tracer = Tracer(["strace", "-f", "-qq", "-y", "-A", "-o", log, *kept, "-p", str(child)])
    until = time.monotonic() + SECONDS
    while tracer.process.poll() is None and time.monotonic() < until:
        with open(f"/proc/{child}/status") as status:
            if any(line.split() == ["TracerPid:", str(tracer.process.pid)] for line in status):
                return tracer
        time.sleep(0.005)
    os.kill(child, signal.SIGKILL)
    if tracer.process.poll() is not None:
        tracer.end()
        fail(125, "strace does not trace the command: what it says stands above")
    fail(125, f"strace has not begun to trace within {SECONDS} seconds")


def waited(child: int) -> int:
    """How the command ended, for the shell. It ends where this tool is ended."""
    while True:
        try:
            _, status = os.waitpid(child, 0)
            return os.WEXITSTATUS(status) if os.WIFEXITED(status) else 128 + os.WTERMSIG(status)
        except Ended:
            keeper.end([child])
            raise
        except KeyboardInterrupt:
            pass  # the command has the same terminal, and got the interruption itself


def add_arguments(parser: argparse.ArgumentParser) -> None:
    parser.usage = "vma record [-h] [-o NAME] [--no-lists] COMMAND ..."
    parser.add_argument("-o", dest="name", metavar="NAME", help="the front of the files' names (the command's name)")
    parser.add_argument("--no-lists", action="store_true", help="keeps the list of the first program alone")
    parser.add_argument("command", metavar="COMMAND", nargs=argparse.REMAINDER, help="the command and its words")


def path_of(word: str) -> str:
    path = shutil.which(word)
    if path is None:
        fail(127, f"{word}: no such command")
    if shutil.which("strace") is None:
        fail(125, "strace is not there (Debian: apt-get install strace)")
    return path


def run(choices: argparse.Namespace) -> int:
    words = choices.command[1:] if choices.command[:1] == ["--"] else choices.command
    if not words:
        fail(125, "no command; `vma record --help` says how")
    path = path_of(words[0])
    choices.name = choices.name or os.path.basename(words[0])
    try:
        lists = open(choices.name + ".lists", "wb") if watching.is_able() and not choices.no_lists else None
    except OSError as error:
        fail(125, reason(error))
    child, watcher = started(path, words, lists)
    children.keep(child)
    try:
        keep_beginning(child, path, words, choices)
    except Failure as failure:
        os.kill(child, signal.SIGKILL)
        fail(125, str(failure))
    tracer = traced(child, choices.name + ".log")
    os.kill(child, signal.SIGCONT)
    try:
        status = waited(child)
    finally:
        tracer.end()
        if watcher:
            watcher.end()
        children.let_go(child)
    for end, why in ((".log", tracer.not_written(choices.name + ".log")), (".lists", watcher and watcher.failure)):
        if why:
            fail(125, f"{choices.name}{end} is not whole: {why}")
    kept = [choices.name + end for end in (".log", ".maps", *([".lists"] if watcher else []))]
    say(f"{', '.join(kept[:-1])} and {kept[-1]} are written")
    return status
