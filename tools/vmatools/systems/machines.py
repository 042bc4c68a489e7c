"""Machines of their own that serve scripts over a serial line: user-mode Linux, and a kernel under qemu-system."""

import glob
import gzip
import os
import re
import shutil
import socket
import subprocess
import tempfile
from collections.abc import Callable, Sequence
from pathlib import Path

from ..running import children
from .places import Refused
from .running import Port

BURST = 2048  # bytes that a serial line takes at once; runner.c has the same
IMAGES = "/boot/vmlinuz-*-cloud-amd64"


def archive_of(runner: Path) -> bytes:
    """An initramfs whose only file is the runner, as its first process."""
    parts = [entry("init", runner.read_bytes(), 0o100755), entry("TRAILER!!!", b"", 0)]
    return gzip.compress(b"".join(parts), 1)


def entry(name: str, data: bytes, mode: int) -> bytes:
    """A file in a cpio archive of the form `newc`."""
    numbers = [1, mode, 0, 0, 1, 0, len(data), 0, 0, 0, 0, len(name) + 1, 0]
    head = b"070701" + b"".join(b"%08x" % number for number in numbers) + name.encode() + b"\0"
    return padded(head) + padded(data)


def padded(data: bytes) -> bytes:
    return data + bytes(-len(data) % 4)


def images() -> list[str]:
    """The kernels for machines in a cloud that are installed here, the newest last."""
    return sorted(
        glob.glob(IMAGES),
        key=lambda name: [int(part) if part.isdigit() else 0 for part in name.replace("-", ".").split(".")],
    )


def newest_image() -> str:
    """The newest of these kernels."""
    found = images()
    if not found:
        raise Refused(5, f"no kernel is there as {IMAGES} (Debian: apt-get install linux-image-cloud-amd64)")
    return found[-1]


def version_of(image: str) -> str:
    """The version of a kernel by the text in its file, whose place stands in the header of the boot protocol. Debian's name
    has a number of its own, as 6.1.0-57, and the version stands behind `Debian`."""
    try:
        with open(image, "rb") as file:
            head = file.read(0x210)
            file.seek(0x200 + int.from_bytes(head[0x20E:0x210], "little"))
            text = file.read(256).split(b"\0")[0].decode("ascii", "replace")
    except OSError as error:
        raise Refused(5, f"{image} cannot be read: {error.strerror}") from None
    found = re.search(r"Debian (\d+\.\d+\.\d+)", text) or re.match(r"(\d+\.\d+\.\d+)", text)
    if head[0x202:0x206] != b"HdrS" or not found:
        raise Refused(5, f"{image} is no kernel of Linux for x86")
    return found[1]


def user_mode_linux(initramfs: str, serial: int) -> Sequence[str]:
    return [
        "linux.uml",
        "mem=256M",
        f"initrd={initramfs}",
        "rdinit=/init",
        "con=null",
        "con0=null,fd:2",
        "ssl=null",
        f"ssl0=fd:{serial}",
        "quiet",
        "panic=1",
        f"umid=vma{os.getpid()}-{serial}",
        f"uml_dir={os.path.dirname(initramfs)}",
        "--",
        "/dev/ttyS0",
    ]


def qemu_system(image: str) -> Callable[[str, int], Sequence[str]]:
    """The command of a machine with a kernel, which runs on any host: all is emulated. Its addresses have 47 bits."""

    def command(initramfs: str, serial: int) -> Sequence[str]:
        return [
            "qemu-system-x86_64",
            "-M",
            "q35",
            "-accel",
            "tcg,thread=single",
            "-cpu",
            "max,la57=off",
            "-m",
            "1024",
            "-nodefaults",
            "-no-user-config",
            "-display",
            "none",
            "-no-reboot",
            "-kernel",
            image,
            "-initrd",
            initramfs,
            "-append",
            "panic=-1 quiet no_timer_check mitigations=off nokaslr rdinit=/init -- /dev/ttyS0",
            "-chardev",
            f"socket,id=line,fd={serial}",
            "-serial",
            "chardev:line",
        ]

    return command


def starts(runner: Path, command: Callable[[str, int], Sequence[str]]) -> Callable[[], Port]:
    """What starts a machine with the runner as its first process."""

    def start() -> Port:
        folder = tempfile.TemporaryDirectory(prefix="vma-machine-")
        initramfs = Path(folder.name, "initramfs")
        initramfs.write_bytes(archive_of(runner))
        ours, theirs = socket.socketpair()
        errors = tempfile.TemporaryFile()
        words = command(str(initramfs), theirs.fileno())
        if not shutil.which(words[0]):
            raise Refused(5, f"`{words[0]}` is not there")
        with theirs:
            process = children.start(
                words,
                stdin=subprocess.DEVNULL,
                stdout=errors,
                stderr=errors,
                pass_fds=[theirs.fileno()],
                env={**os.environ, "TMPDIR": folder.name},
            )
        return Port(process, ours.fileno(), ours.fileno(), errors, [ours, folder], BURST)

    return start
