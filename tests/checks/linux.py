"""Holds the model of Linux to what kernels answered: to recorded vectors, to the answers of the suite, and to the running kernel.

Of each version there are recorded vectors and answers, which need no kernel. Each wrong rule has to be noticed by the vectors.
Then random traces of all generators run on the running kernel, with a list after each call, and none may differ. Where the
kernel is of a version that was not run, it is said how many do, and nothing fails. Where no runner can be built, or a sandbox
forbids it, a line says so.
"""

import argparse
import itertools

import linux_mutants
from checking import TOP, fail, passed, skipped  # first: it sets where the tools are found

from vmatools import oracles
from vmatools.comparing import generator
from vmatools.comparing.fitting import fitted
from vmatools.linux import generators, recorded, vectors
from vmatools.linux.areas import NotModelled
from vmatools.linux.held import Held, hold, kernel_answer, kernel_under
from vmatools.linux.kernel import Kernel
from vmatools.linux.versions import table
from vmatools.oracles import Oracle
from vmatools.systems import rows
from vmatools.systems.adapter import Adapter
from vmatools.systems.known import system_of
from vmatools.systems.places import Refused
from vmatools.traces import Trace, read_trace

LINES = 30
SHOWN = 3
OPERATIONS = 20_000
PROCESS = "brk-none"  # the row whose answer is the process's own
KINDS = [*generators.KINDS, *(name for name in generator.PROFILES if name != "wide")]

Vectors = list[tuple[Kernel, list[tuple[Trace, vectors.Vector]]]]


def told(what: str, held: Held) -> None:
    """Fails where something differs, and shows the first of it."""
    for one in held.differences[:SHOWN]:
        print(f"--- {one.name}\n{one.trace}-- model\n{one.model}\n-- kernel\n{one.kernel}")
    if held.differences:
        fail(what, str(held))
    passed(f"{what}: {held}")


def all_vectors() -> Vectors:
    read = [vectors.read(path) for path in sorted((TOP / "suite/vectors").glob(f"*/{vectors.FILE}"))]
    return [(kernel, [(read_trace(one.trace.encode()), one) for one in found]) for kernel, found in read]


def all_rows() -> Vectors:
    """The rows of docs/KERNEL.md, as Linux 6.18 answered them."""
    head, read = rows.read_rows()
    found: dict[Kernel, list[tuple[Trace, vectors.Vector]]] = {}
    for row in read:
        if row.name != PROCESS:
            pair = read_trace(row.trace.encode()), vectors.Vector(row.name, row.trace, row.there)
            found.setdefault(rows.kernel_for(row.name, rows.recorder(head)), []).append(pair)
    return list(found.items())


def check_vectors(found: Vectors, what: str) -> None:
    for kernel, pairs in found:
        held = Held()
        for trace, one in pairs:
            hold(held, kernel, one.name, trace, one.answer)
        told(f"{kernel.name}, {what}", held)


def is_noticed(mutant: linux_mutants.Mutant | None, found: Vectors) -> bool:
    with linux_mutants.changed(mutant) as output:
        for kernel, pairs in found:
            for trace, one in pairs:
                try:
                    if output(trace, kernel) != one.answer:
                        return True
                except Exception as error:  # a wrong rule may break the model; the copy has its own NotModelled
                    if type(error).__name__ != NotModelled.__name__:
                        return True
    return False


def check_mutants(found: Vectors) -> None:
    if is_noticed(None, found):
        fail("the model's copy", "answers otherwise than the recorded vectors")
    missed = [mutant.rule for mutant in linux_mutants.MUTANTS if not is_noticed(mutant, found)]
    if missed:
        fail("wrong rules", f"no recorded vector notices these: {'; '.join(missed)}")
    passed(f"each of {len(linux_mutants.MUTANTS)} wrong rules is noticed")


# The suite


def check_suite() -> None:
    """The model with the version and the settings of each kernel that was recorded."""
    helds: dict[str, Held] = {}
    for path in sorted((TOP / "suite").glob("*/*.linux")):
        name, trace = f"{path.parent.name}/{path.stem}", read_trace(path.with_suffix(".trace").read_bytes())
        for part in recorded.read(path):
            for kernel in part.kernels if part.answer else ():
                if kernel.version in table():
                    hold(helds.setdefault(kernel.words(), Held()), kernel, name, trace, part.answer)
    for words, held in helds.items():
        told(f"{words}, answers of the suite", held)


# The running kernel


def drawn(kind: str, seed: str, kernel: Kernel) -> Trace:
    if kind in generators.KINDS:
        trace = generators.drawn(kind, seed, LINES, kernel)
    else:
        trace = fitted(generator.Generator(kind, seed, LINES, is_fitted=True).draw())
    return generators.with_lists(trace)


def check_running(operations: int, seed: str) -> None:
    try:
        adapter = Adapter(system_of("native"), is_served=True)
        kernel = kernel_under(adapter)
    except Refused as refused:
        return skipped("the running kernel", str(refused))
    held = Held()
    for number in itertools.count():
        kind = KINDS[number % len(KINDS)]
        trace = drawn(kind, f"{seed} {number}", kernel)
        hold(held, kernel, f"{kind} {seed} {number}", trace, kernel_answer(adapter, trace))
        if held.operations >= operations:
            break
    adapter.close()
    if kernel.version not in table() and held.differences:
        return skipped("the running kernel", unknown(kernel, held))
    told(f"{kernel.name}, the running kernel", held)


def unknown(kernel: Kernel, held: Held) -> str:
    first = held.differences[0]
    return (
        f"{kernel.name} was never run, and it answers {len(held.differences)} of {held.traces} traces otherwise than the nearest "
        f"version. Please report it with this trace:\n{first.trace}-- model\n{first.model}\n-- kernel\n{first.kernel}"
    )


def check(options: argparse.Namespace) -> None:
    found = all_vectors()
    check_vectors(found, "recorded vectors")
    check_vectors(all_rows(), "rows of docs/KERNEL.md")
    check_mutants(found + all_rows())
    check_suite()
    check_running(options.operations, options.seed)
    passed(f"{oracles.described(Oracle(found[-1][0]))}")


def add_arguments(parser: argparse.ArgumentParser) -> None:
    parser.add_argument("--operations", type=int, default=OPERATIONS, help=f"on the running kernel ({OPERATIONS:,})")
    parser.add_argument("--seed", default="1", help="of the random traces (1)")
