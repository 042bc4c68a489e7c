"""Holds the model to a kernel that runs: what is equal, and where the first difference of each other trace is."""

from dataclasses import dataclass, field
from typing import NamedTuple, Optional

from ..oracles import Oracle
from ..outputs import parts_of
from ..systems.adapter import Adapter
from ..systems.linux_of import kernel_of
from ..systems.places import Refused
from ..traces import Trace
from .areas import NotModelled
from .kernel import Kernel

BREAK = b"vmatrace 1\n0 brk 0\n"
CANNOT = 4  # the status of a trace that a kernel can't run


def kernel_under(adapter: Adapter) -> Kernel:
    """The kernel that an adapter runs on, with the process that makes the calls there."""
    return kernel_of(adapter.system, int(adapter.answer(BREAK).split()[4], 16))


class Difference(NamedTuple):
    """The first operation of a trace to which the model and the kernel answer otherwise."""

    name: str
    trace: str
    model: str
    kernel: str


@dataclass
class Held:
    """What came of many traces."""

    operations: int = 0
    equal: int = 0  # operations before the first difference of their trace
    traces: int = 0
    equal_traces: int = 0
    refused: int = 0  # traces that the kernel or the model doesn't run
    differences: list[Difference] = field(default_factory=list)

    def add(self, name: str, trace: str, model: str, kernel: str) -> None:
        """Counts a trace."""
        ours, theirs = pieces(model), pieces(kernel)
        place = next((at for at, (one, two) in enumerate(zip(ours, theirs)) if one != two), min(len(ours), len(theirs)))
        is_equal = model == kernel
        self.operations += len(theirs)
        self.equal += len(theirs) if is_equal else place
        self.traces += 1
        self.equal_traces += is_equal
        if not is_equal:
            told = ("\n".join(side[place : place + 1]) for side in (ours, theirs))
            self.differences.append(Difference(name, trace, *told))

    def __str__(self) -> str:
        refused = f", {self.refused} not run" if self.refused else ""
        return (
            f"{self.equal:,} of {self.operations:,} operations equal, {self.equal_traces} of {self.traces} traces{refused}"
        )


def pieces(output: str) -> list[str]:
    """The output by operations: each result with its list."""
    return ["\n".join(part.lines) for part in parts_of(output)]


def kernel_answer(adapter: Adapter, trace: Trace) -> Optional[str]:
    """What a kernel answers, or nothing where it can't run the trace."""
    try:
        return adapter.answer(trace.text().encode())
    except Refused as refused:
        if refused.status != CANNOT:
            raise
        return None


def hold(held: Held, kernel: Kernel, name: str, trace: Trace, answer: Optional[str]) -> None:
    """Compares the model with what a kernel answered."""
    try:
        model = Oracle(kernel).output(trace)
    except NotModelled:
        answer = None
    if answer is None:
        held.refused += 1
    else:
        held.add(name, trace.text(), model, answer)
