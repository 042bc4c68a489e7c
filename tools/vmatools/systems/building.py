"""Compiles the runner, for a processor and an address, into a cache."""

import hashlib
import os
import platform
import shutil
import stat
import subprocess
import tempfile
from pathlib import Path

from .places import Refused

FOLDER = Path(__file__).resolve().parent
SOURCES = [FOLDER / "runner.c", FOLDER / "processor.h"]
FLAGS = (
    "-O2 -static -nostdlib -ffreestanding -fno-builtin -fno-stack-protector -fPIE -no-pie -fno-asynchronous-unwind-tables"
    " -fno-tree-loop-distribute-patterns -Wl,-z,max-page-size=4096 -Wl,-z,noexecstack -Wl,--build-id=none"
).split()
PROCESSOR_FLAGS: dict[str, list[str]] = {"x86_64": ["-fcf-protection=none"], "aarch64": []}


def cache_folders() -> list[Path]:
    """Where the compiled runner may stand. One for temporary files has to be nobody else's."""
    caches = [os.environ.get("XDG_CACHE_HOME", ""), os.path.expanduser("~/.cache")]
    own = [Path(home, "diltzekun") for home in caches if os.path.isabs(home)][:1]  # none where no home is known
    return [*own, Path(tempfile.gettempdir(), f"diltzekun-{os.getuid()}")]


def is_ours(folder: Path) -> bool:
    try:
        os.makedirs(folder, mode=0o700, exist_ok=True)
        found = os.lstat(folder)
    except OSError:
        return False
    is_private = stat.S_ISDIR(found.st_mode) and found.st_uid == os.getuid() and not found.st_mode & 0o022
    return is_private and os.access(folder, os.W_OK | os.X_OK)


def compiler_name(processor: str) -> str:
    """The compiler for a processor: that of this machine, or one for another."""
    return "cc" if processor == platform.machine() else f"{processor}-linux-gnu-gcc"


def compiler_of(processor: str) -> list[str]:
    """The compiler and its first words for a processor."""
    if platform.system() != "Linux" or platform.machine() not in PROCESSOR_FLAGS:
        raise Refused(
            5, f"it runs on Linux on x86-64 or aarch64 alone, and this is {platform.system()} on {platform.machine()}"
        )
    name = compiler_name(processor)
    if not shutil.which(name):
        package = "gcc" if name == "cc" else f"gcc-{processor.replace('_', '-')}-linux-gnu"
        raise Refused(
            5,
            f"`{name}` is missing: a C compiler makes the program that makes the calls"
            f" (Debian: apt-get install {package})",
        )
    return [name, *PROCESSOR_FLAGS[processor]]


def built(processor: str, link: int) -> Path:
    """The runner, linked at an address. Its name has a sum of its sources and flags, so that no old one is taken."""
    folder = next(filter(is_ours, cache_folders()), None)
    words = [*FLAGS, f"-Wl,-Ttext-segment={link:#x}"]
    compiler = compiler_of(processor)
    if folder is None:
        raise Refused(5, f"none of {', '.join(map(str, cache_folders()))} can be written, to compile the program there")
    parts = [*(source.read_bytes() for source in SOURCES), processor.encode(), " ".join(words).encode()]
    path = folder / f"runner-{hashlib.sha256(bytes().join(parts)).hexdigest()[:16]}"
    if not path.exists():
        compile_to(path, [*compiler, *words])
    return path


def compile_to(path: Path, command: list[str]) -> None:
    handle, fresh = tempfile.mkstemp(dir=path.parent)
    os.close(handle)
    try:
        done = subprocess.run(
            [*command, "-o", fresh, str(SOURCES[0])], stdin=subprocess.DEVNULL, capture_output=True, text=True
        )
        if done.returncode:
            raise Refused(5, f"`{command[0]}` fails on {SOURCES[0]}: {done.stderr.strip()[:400]}")
        os.chmod(fresh, 0o755)
        os.rename(fresh, path)  # at once, since another run may compile it too
    finally:
        if os.path.exists(fresh):
            os.unlink(fresh)
