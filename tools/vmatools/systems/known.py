"""The systems that are known: how the runner gets into each, and where it may work there."""

import platform
import shlex
from collections.abc import Callable, Sequence
from dataclasses import dataclass, replace
from enum import Enum

from . import empty, machines
from .building import built
from .places import Refused, Window
from .running import Once, Runner, Served, started

WINDOW = Window(0x10000, 0x2000000)
LOW_LINK = 0x38000000  # above the window, and below what an emulator has of its own
BEGIN_SECONDS = 60.0
# A machine boots in six seconds of processor time, which a busy host may stretch to minutes; and so may a trace with it.
BOOT_SECONDS, MACHINE_SECONDS, MACHINE_GRACE = 600.0, 720.0, 60.0
GUEST = empty.Kernel(lowest=4096, most_areas=2000, is_wide=False)  # as the first process of a machine sets it up
EMPTY_SECONDS = 60.0


class Boot(Enum):
    """A machine of its own, which has to be booted."""

    USER_MODE = "user-mode Linux"
    KERNEL = "a kernel under qemu-system"


@dataclass(frozen=True)
class System:
    """A system that the runner runs on."""

    name: str
    says: str
    packages: str = ""  # of Debian, beside a compiler
    under: tuple[str, ...] = ()  # the command that runs the runner
    processor: str = ""  # that of this machine by default
    link: int = LOW_LINK
    window: Window | None = WINDOW
    boots: Boot | None = None
    image: str = ""  # its kernel, the newest that is installed by default
    seconds: float = 5.0  # how long a trace may take there
    has_keys: bool = True  # whether protection keys can be on there

    def runner(self, is_served: bool) -> Runner:
        """What runs scripts in this system: in a process for all of them, or in one for each."""
        program = built(self.processor or platform.machine(), self.link)
        if self.boots:
            return Served(machines.starts(program, self.boot_command()), BOOT_SECONDS, MACHINE_GRACE)
        words = [*self.under, str(program)]
        if self.window and is_served:
            return Served(lambda: started([*words, "serve"]), BEGIN_SECONDS)
        return Once(words, None if self.under else {})

    def boot_command(self) -> Callable[[str, int], Sequence[str]]:
        """The command of its machine, by its initramfs and the descriptor of its serial line."""
        if self.boots == Boot.USER_MODE:
            return machines.user_mode_linux
        return machines.qemu_system(self.image or machines.newest_image())

    def kernel(self) -> empty.Kernel:
        """What the kernel of an empty space has."""
        return GUEST if self.boots else empty.running_kernel()


KNOWN = {
    system.name: system
    for system in (
        System(
            "native",
            "the kernel of this machine, in an empty space",
            link=empty.LINK,
            window=None,
            seconds=EMPTY_SECONDS,
        ),
        System("window", "the kernel of this machine, in a window"),
        System(
            "qemu-x86_64",
            "QEMU's emulation of x86-64 for programs",
            "qemu-user-static",
            ("qemu-x86_64-static",),
            "x86_64",
            has_keys=False,
        ),
        System(
            "qemu-aarch64",
            "QEMU's emulation of aarch64 for programs",
            "qemu-user-static gcc-aarch64-linux-gnu",
            ("qemu-aarch64-static",),
            "aarch64",
            has_keys=False,
        ),
        System(
            "valgrind",
            "valgrind without a tool",
            "valgrind",
            ("valgrind", "-q", "--tool=none"),
            window=replace(WINDOW, shift=1 << 32),
        ),
        System(
            "gvisor",
            "gVisor's kernel in user space",
            "runsc",
            ("runsc", "--rootless", "--network=none", "--platform=ptrace", "do"),
        ),
        System("uml", "user-mode Linux", "user-mode-linux", boots=Boot.USER_MODE, seconds=20, has_keys=False),
        System(
            "machine",
            "a kernel of Debian under qemu-system",
            "qemu-system-x86 linux-image-cloud-amd64",
            link=empty.LINK,
            window=None,
            boots=Boot.KERNEL,
            seconds=20,
        ),
    )
}


def system_of(name: str) -> System:
    """A known system, by its name. `machine:IMAGE` is one with that kernel."""
    name, _, image = name.partition(":")
    if name not in KNOWN:
        raise Refused(2, f"{name} is no system; there are {', '.join(KNOWN)}")
    return replace(KNOWN[name], image=image)


def system_under(command: str) -> System:
    """A system that runs a program by a command."""
    words = tuple(shlex.split(command))
    if not words:
        raise Refused(2, "--under has no command")
    return System("yours", "the command of --under", under=words)
