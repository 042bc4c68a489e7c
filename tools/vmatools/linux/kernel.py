"""A kernel: its version, a machine's settings, and the process that makes the calls."""
from __future__ import annotations

from collections.abc import Iterator
from dataclasses import asdict, dataclass, field, fields, replace
from pathlib import Path

from ..traces import PAGE
from .versions import Rules, Version, WrongOracle, known, nearest, table, text_of, version_of

CHOICES = {"huge": ("always", "madvise", "never"), "files": ("memory", "disk"), "vsyscall": ("xonly", "emulate", "none")}


@dataclass(frozen=True)
class Settings:
    """A machine, and how it is set up. Each is a word `NAME=VALUE`, in options and in recorded answers. The defaults are
    the kernel's, and 16 GiB of memory."""

    built: int = 0x10000  # CONFIG_LSM_MMAP_MIN_ADDR, an address
    memory: int = 1 << 22  # pages of memory and of swap space together
    stack: int = 8 << 20  # RLIMIT_STACK, in bytes
    keys: int = 1  # whether the processor has protection keys
    huge: str = "always"  # /sys/kernel/mm/transparent_hugepage/enabled
    files: str = "memory"  # where the files of traces are; those on a disk (ext4, xfs) are aligned to 2 MiB
    vsyscall: str = "xonly"  # the page of [vsyscall]
    min: int = 0x1000  # vm.mmap_min_addr

    def words(self) -> str:
        """All of them, as words."""
        shown = {name: hex(value) if name in ("built", "min") else value for name, value in asdict(self).items()}
        return " ".join(f"{name}={value}" for name, value in shown.items())

    def changed(self, words: list[str]) -> Settings:
        """With the values of these words."""
        names = [one.name for one in fields(self)]
        values: dict[str, int | str] = {}
        for word in words:
            name, equals, value = word.partition("=")
            if name not in names or not equals:
                raise WrongOracle(f"{word} is no setting NAME=VALUE; there are {', '.join(names)}")
            if name in values:
                raise WrongOracle(f"{name} is set twice")
            values[name] = value_of(name, value)
        return replace(self, **values)

    def others(self) -> Iterator[tuple[str, Settings]]:
        """The same with another of the few values that a setting has, and the word that sets it."""
        choices: dict[str, tuple[str, ...]] = {"keys": ("0", "1"), **CHOICES}
        for name, values in choices.items():
            for word in (f"{name}={value}" for value in values if value != str(getattr(self, name))):
                yield word, self.changed([word])


def value_of(name: str, text: str) -> int | str:
    """The value of a setting."""
    if name in CHOICES:
        if text not in CHOICES[name]:
            raise WrongOracle(f"{name}={text}: it is {', '.join(CHOICES[name][:-1])} or {CHOICES[name][-1]}")
        return text
    try:
        value = int(text, 16) if text.startswith("0x") else int(text)
    except ValueError:
        raise WrongOracle(f"{name}={text}: it is no number") from None
    if not 0 <= value < 2**64 or name == "keys" and value > 1:
        raise WrongOracle(f"{name}={text}: it is from 0 to {1 if name == 'keys' else '2^64 - 1'}")
    if name in ("built", "min") and value % PAGE:
        raise WrongOracle(f"{name}={text}: it is no multiple of {PAGE}")
    return value


@dataclass(frozen=True)
class Process:
    """What the process that makes the calls has besides the VMAs of the trace."""

    areas: int = 0  # its own VMAs, which count where the trace sets no limit
    most_areas: int = 65530  # vm.max_map_count
    brk: int = 0  # its break, where the trace has no heap; 0 if it isn't known
    taken: tuple[tuple[int, int], ...] = ()  # pages of its own, which searches pass over


@dataclass(frozen=True)
class Kernel:
    """All that decides what is answered."""

    version: Version
    rules: Rules
    settings: Settings = field(default_factory=Settings)
    process: Process = field(default_factory=Process)

    @property
    def name(self) -> str:
        return f"linux-{text_of(self.version)}"

    def words(self) -> str:
        """Its name and its settings, as they name it anywhere."""
        return f"{self.name} {self.settings.words()}"

    def option(self) -> str:
        """The same as one word of a command, without the settings that are as kernels have them."""
        usual = Settings().words().split()
        return ",".join([self.name, *(word for word in self.settings.words().split() if word not in usual)])


def kernel_of(version: str, settings: Settings | None = None, process: Process | None = None) -> Kernel:
    """The kernel of a version, as `6.18`."""
    found = known(version)
    return Kernel(found, table()[found], settings or Settings(), process or Process())


def running_kernel() -> Kernel:
    """The running kernel, with the rules of the nearest version that is known, and this machine's settings."""
    version = running_version()
    return Kernel(version, table()[nearest(version)], machine_settings())


def running_version() -> Version:
    return version_of(Path("/proc/sys/kernel/osrelease").read_text(encoding="ascii").strip())


def machine_settings() -> Settings:
    """What this machine and its settings are. What can't be read is as kernels have it."""
    settings = Settings()
    memory = sum(
        int(line.split()[1]) * 1024 // PAGE
        for line in text_at("/proc/meminfo").splitlines()
        if line.startswith(("MemTotal:", "SwapTotal:"))
    )
    lowest = text_at("/proc/sys/vm/mmap_min_addr").strip()
    huge = text_at("/sys/kernel/mm/transparent_hugepage/enabled")
    return replace(
        settings,
        memory=memory or settings.memory,
        keys=int(" ospke " in text_at("/proc/cpuinfo").replace("\n", " ")),
        huge=next((name for name in CHOICES["huge"] if f"[{name}]" in huge), "never"),
        min=int(lowest) if lowest else settings.min,
    )


def text_at(path: str) -> str:
    try:
        return Path(path).read_text(encoding="utf-8", errors="replace")
    except OSError:
        return ""
