"""Measures a system case by case: runs the conformance suite on it, and prints a table by group and each case that fails.

COMMAND is the system's adapter, as for `vma compare`: it reads a trace on standard input and writes what the system
answers. Each case of suite/ is a trace of a few lines with the right output, or with several if threads race. If COMMAND
crashes or doesn't end, that case fails, and the others go on. A case that COMMAND ends with status 4 is left out: the
system can't run it.

    tools/vma conform -- ./my-adapter
    tools/vma conform --only mremap --only brk/raise -- ./my-adapter
    tools/vma conform --as linux --junit report.xml -- tools/vma kernel
    tools/vma conform --as linux --system native
    tools/vma conform --system qemu-x86_64
    tools/vma conform --live

Exit status: 0 if all cases pass, or are left out, 1 if one doesn't or if COMMAND writes nothing, 2 on wrong use, if the suite or
COMMAND can't be read or run, or if all cases are left out. Where the run ends early, a file of --tap, --json or --junit has each
case that wasn't run as an error.
"""

import argparse
import contextlib
import os
import shutil
import sys
import threading
from collections import Counter
from collections.abc import Callable, Iterator, Sequence
from concurrent.futures import ThreadPoolExecutor
from dataclasses import replace
from pathlib import Path

from .. import console, oracles
from ..comparing import conformance
from ..comparing.conformance import Case, Result, Verdict
from ..outputs import parts_of
from ..running import children, program
from ..running.live import LiveAdapter
from ..running.program import TOP, Ran, run as run_command
from ..systems.batch import Adapter, Adapters, capabilities_of
from ..systems.capabilities import PROBE
from ..systems.known import KNOWN, MACHINE_SECONDS, system_of
from ..systems.linux_of import oracle_of
from ..systems.places import NOT_EMPTY, finds_place
from ..systems.searches import is_place_of_search
from ..traces import read_trace
from ..words import count, repeated, time_limit

SECONDS = 10.0
ENDED = (console.INTERRUPTED, console.TERMINATED, console.HUNG_UP)
SUMMARY = "measure a system case by case, with the conformance suite"
FORMS: dict[str, Callable[[Sequence[Result]], Iterator[str]]] = {
    "tap": conformance.as_tap,
    "json": conformance.as_json,
    "junit": conformance.as_junit,
}


def add_arguments(parser: argparse.ArgumentParser) -> None:
    """The words of the command."""
    parser.add_argument(
        "--only",
        metavar="GROUP[/NAME]",
        action="append",
        default=[],
        help="these cases alone; may be given several times",
    )
    oracles.add_argument(parser, None, oracles.BY_SYSTEM)
    parser.add_argument(
        "--seconds", type=time_limit, default=SECONDS, metavar="T", help="how long COMMAND may take for a case (10)"
    )
    parser.add_argument(
        "--jobs", type=count, default=os.cpu_count() or 1, metavar="N", help="cases at once (as many as processors)"
    )
    parser.add_argument("--list", action="store_true", help="print the cases and what each shows, and run none")
    for form in FORMS:
        parser.add_argument(
            f"--{form}",
            metavar="FILE",
            help=f"write what came of each case there as {form.upper()}, or - for standard output",
        )
    parser.add_argument(
        "--batch", action="store_true", help="COMMAND answers many traces in one process (docs/COMPARE.md)"
    )
    parser.add_argument(
        "--system",
        metavar="NAME",
        help=f"one that is known, in place of COMMAND: {', '.join(KNOWN)}, or machine:IMAGE",
    )
    parser.add_argument(
        "--live",
        metavar="PATH",
        nargs="?",
        const="",
        help=f"diltzekun-live, in place of COMMAND (${program.LIVE.variable}, {program.LIVE.on_path} on the PATH, or the "
        "repository's crates/vma_live/out/vma_live)",
    )
    parser.add_argument(
        "command", metavar="COMMAND", nargs="*", help="the system under test and its arguments, behind --"
    )
    parser.set_defaults(is_windowed=False, is_unknown=False)


@contextlib.contextmanager
def runs(options: argparse.Namespace) -> Iterator[Callable[[Case], Ran]]:
    """Runs a case: in a process of its own, or with --batch and --live in one that answers many."""
    adapters = Adapters(options.command, Adapter if options.live is None else LiveAdapter) if options.batch else None
    has = None
    if options.is_unknown and adapters:
        has = adapters.capabilities(max(options.seconds, SECONDS))
    elif options.is_unknown:
        has = capabilities_of(options.command, options.seconds)

    def ran(case: Case) -> Ran:
        text = case.trace.encode()
        lacked = has.lacked(read_trace(text)) if has else None
        if lacked:
            return Ran("", conformance.CANNOT_RUN, f"the adapter has no {lacked}")
        if adapters is None:
            return run_command(options.command, text, options.seconds)
        answer = adapters.run(text, options.seconds)
        return Ran(answer.output, answer.fault, answer.message)

    try:
        yield ran
    finally:
        if adapters:
            adapters.close()


def searched_place(case: Case) -> int | None:
    """The first line to which a right output answers by a place that was searched in an empty space."""
    lines = {line.number: line for line in read_trace(case.trace.encode()).lines if finds_place(line)}
    parts = (part for right in case.right for part in parts_of(right))
    found = (part.number for part in parts if part.number in lines and is_place_of_search(lines[part.number], part.result))
    return min(found, default=None)


def check_writes(run_case: Callable[[Case], Ran], case: Case) -> None:
    """Ends where COMMAND writes nothing at all, which each case would say again."""
    for asked in (replace(case, trace=PROBE.decode()), case):
        ran = run_case(asked)
        if ran.fault or ran.output:
            return
    what = "COMMAND writes nothing, not even the list at the end"
    raise console.Failure(f"{what}: docs/TRACE.md has what it reads and writes", console.FOUND)


def each_result(cases: Sequence[Case], options: argparse.Namespace) -> Iterator[Result]:
    """What a system makes of each case, with a line that says how far it is. Where it doesn't run at all, the first case is
    the last: a machine that doesn't boot takes minutes to say so."""
    progress, has_run = console.Progress(), threading.Event()

    def result_of(case: Case, run_case: Callable[[Case], Ran]) -> Result:
        line = searched_place(case) if options.is_windowed else None
        if line is not None:
            return Result(case, Verdict.LEFT_OUT, message=f"line {line}: {NOT_EMPTY}")
        ran = run_case(case)
        if options.batch and ran.fault == conformance.NO_SYSTEM and not has_run.is_set():
            raise console.Failure(ran.message)
        if ran.fault != conformance.CANNOT_RUN:
            has_run.set()
        return conformance.judged(case, ran)

    with runs(options) as run_case, ThreadPoolExecutor(max_workers=options.jobs) as pool:
        if options.is_unknown:
            check_writes(run_case, cases[0])
        work = [pool.submit(result_of, case, run_case) for case in cases]
        try:
            for place, future in enumerate(work, 1):
                yield future.result()
                progress.tell(f"{place} of {len(cases)} cases")
        finally:
            children.stop_work(work)
            progress.clear()


def take_own_kernel(options: argparse.Namespace) -> None:
    """`tools/vma kernel` answers many traces in one process, which saves it a start for each."""
    first, *words = options.command
    if not options.batch and words[:1] == ["kernel"] and Path(shutil.which(first) or first).resolve() == TOP / "tools/vma":
        options.command, options.batch = [*options.command, "--batch"], True


def take_system(options: argparse.Namespace) -> None:
    """Takes a known system in the place of COMMAND. A machine of its own runs one case at a time, and takes its time to begin."""
    if not options.system:
        return
    if options.command:
        raise console.Failure("--system stands in the place of COMMAND: only one of them can be given")
    system = system_of(options.system)
    options.command, options.batch = [*program.VMA, "kernel", "--batch", "--system", options.system], True
    options.is_windowed = system.window is not None
    if system.boots:
        options.jobs, options.seconds = 1, MACHINE_SECONDS


def take_live(options: argparse.Namespace) -> None:
    """Takes diltzekun-live in the place of COMMAND."""
    if options.live is None:
        return
    if options.command or options.batch or options.system:
        raise console.Failure("--live stands in the place of COMMAND, --batch and --system: only one of them can be given")
    options.command, options.batch = [program.find(options.live, named=program.LIVE)], True


def repeating(given: argparse.Namespace, case: Case) -> str:
    """The command that runs a case again, by the words that were given."""
    words = ["--only", case.where]
    words += ["--as", given.oracle.option()] if given.oracle else []
    words += ["--seconds", f"{given.seconds:g}"] if given.seconds != SECONDS else []
    words += ["--batch"] if given.batch else []
    words += ["--system", given.system] if given.system else []
    words += ["--live", *([given.live] if given.live else [])] if given.live is not None else []
    return repeated("conform", [*words, *(["--", *given.command] if given.command else [])])


def report(results: Sequence[Result], given: argparse.Namespace) -> None:
    """The table, why cases were left out, and each case that isn't as it should be: what counts most first, and a call that
    the system hasn't once."""
    print("\n".join([*conformance.table(results), *conformance.left_out(results)]))
    wrong = conformance.wrong_ones(results)
    for call, times in Counter(result.missing_call for result in wrong if result.missing_call).items():
        print(f"\nfailed: {call}: not there, as each answer is {conformance.NOT_THERE}: {console.counted(times, 'case')}")
    for result in wrong:
        if not result.missing_call:
            print(f"\n{result.verdict.value}: {result.case.where}: {result.case.says}")
            print("\n".join([*conformance.described(result), f"  again: {repeating(given, result.case)}"]))
    hung = [result for result in results if result.verdict is Verdict.HUNG]
    if hung and (why := program.busy()):
        console.say(f"{console.counted(len(hung), 'case')} hung, and {why}")


def open_forms(options: argparse.Namespace, stack: contextlib.ExitStack) -> dict[str, console.NewFile | None]:
    """The files of the forms that are asked for, opened before the cases run; none for standard output."""
    places = {form: getattr(options, form) for form in FORMS}
    return {
        form: None if place == "-" else stack.enter_context(contextlib.closing(console.NewFile(place)))
        for form, place in places.items()
        if place
    }


def write_forms(forms: dict[str, console.NewFile | None], results: Sequence[Result]) -> console.Failure | None:
    """Writes each form, and returns the first failure: one that can't be written is no loss of the others."""
    failures = list[console.Failure]()
    for form, file in sorted(forms.items(), key=lambda item: item[1] is None):  # what goes to a pipe comes last
        try:
            (file.stream if file else sys.stdout).writelines(f"{line}\n" for line in FORMS[form](results))
            if file:
                file.take_place()
        except console.Failure as failure:
            failures.append(failure)
    return failures[0] if failures else None


def oracle_for(options: argparse.Namespace) -> oracles.Oracle:
    """What is right: what was asked for, else Linux beside a system, else the profile."""
    if options.oracle or not options.system or options.list:
        return options.oracle or oracles.PROFILE
    return oracle_of(system_of(options.system))


def run(options: argparse.Namespace) -> int:
    """Runs the suite."""
    cases = conformance.read_suite(names=options.only, oracle=oracle_for(options))
    if not cases:
        raise console.Failure(f"{conformance.SUITE} has no case")
    if options.list:
        print("\n".join(f"{case.where}: {case.says}" for case in cases))
        return 0
    given = argparse.Namespace(**vars(options))
    options.is_unknown = bool(options.command)
    take_live(options)
    take_system(options)
    if not options.command:
        raise console.Failure("COMMAND is missing: give the system under test after --")
    program.check_command(options.command)
    take_own_kernel(options)
    with contextlib.ExitStack() as stack:
        forms = open_forms(options, stack)
        results, failure = run_all(cases, options)
        not_run = [conformance.not_run(case, str(failure)) for case in cases[len(results) :]]
        not_written = write_forms(forms, [*results, *not_run])
    if None not in forms.values() and (failure is None or failure.status in ENDED):
        report(results, given)
    if failure or not_written:
        raise failure or not_written  # type: ignore[misc]
    if all(result.verdict is Verdict.LEFT_OUT for result in results):
        raise console.Failure("the system ran none of the cases")
    return 0 if all(result.verdict in (Verdict.PASSED, Verdict.LEFT_OUT) for result in results) else 1


def run_all(cases: Sequence[Case], options: argparse.Namespace) -> tuple[list[Result], console.Failure | None]:
    """What came of the cases, and why not of all of them."""
    results = list[Result]()
    try:
        for result in each_result(cases, options):
            results.append(result)
    except KeyboardInterrupt as interrupt:
        return results, console.interruption(interrupt, f": {len(results)} of {len(cases)} cases")
    except console.Failure as failure:
        return results, failure
    return results, None
