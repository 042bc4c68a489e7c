"""The cases of suite/ with what kernels were recorded to answer: NAME.linux, where it isn't what NAME.out has."""

from collections.abc import Iterator
from pathlib import Path

from vmatools.linux import recorded
from vmatools.linux.kernel import Kernel, Settings, kernel_of
from vmatools.linux.versions import text_of
from vmatools.systems import empty
from vmatools.systems.places import Refused
from vmatools.traces import Trace, read_trace

# The kernels that were recorded, on machines with these settings.
SMALL = Settings(memory=245_000)
RUNNING = Settings(memory=6_170_807, huge="madvise")
RECORDED = {"6.1.192": SMALL, "6.12.117": SMALL, "6.18.15": SMALL, "6.18.44": RUNNING}
LEFT_OUT = ("wide", "maps-text")


def answers(path: Path) -> dict[str, str]:
    """What each version answered to a case, where that is not what the program gives."""
    return {text_of(kernel.version): part.answer for part in recorded.read(path) for kernel in part.kernels}


def is_had(trace: Trace) -> bool:
    """Whether the recorded kernels can have a case: else it wasn't run."""
    top = trace.settings.get("top", empty.TOP)
    if trace.version > 1 or trace.settings.get("min") not in (None, 4096) or not empty.LOWEST_TOP <= top <= empty.TOP:
        return False
    try:
        empty.check_empty(trace, empty.Kernel(4096, 2000, False))
    except Refused:
        return False
    return True


def cases(top: Path, version: str) -> Iterator[tuple[str, str, str]]:
    """The cases that a version answered: the name, the trace and the answer."""
    for path in sorted((top / "suite").rglob("*.trace")):
        if path.parent.name in LEFT_OUT or not path.with_suffix(".out").is_file():
            continue
        text, found = path.read_text(encoding="utf-8"), answers(path.with_suffix(".linux"))
        answer = found.get(version, path.with_suffix(".out").read_text(encoding="utf-8"))
        if answer and is_had(read_trace(text.encode())):
            yield f"{path.parent.name}/{path.stem}", text, answer


def kernel(version: str) -> Kernel:
    return kernel_of(version, RECORDED[version])
