"""Compares your system with the program on random traces, and shows the smallest trace of each kind of difference.

COMMAND is your system's adapter. It reads a trace on standard input, makes its calls, and writes the results in the form of
`diltzekun serial`. docs/TRACE.md has both forms; docs/COMPARE.md shows an adapter, a session, and a run in a CI.

Two differences are of one kind if the same operation has the same pair of answers, or leaves lists that differ in the same
way. There are kinds for a COMMAND that ends by a signal or with a status other than 0, doesn't end within --seconds, or
writes more than 64 MiB, and for an output with `a line of no known form`, one that ends early, and one that goes on. When a
difference is found, its line is taken out and the rest of the trace runs again, so all differences of a trace are found. The
shortest trace of a kind is made as small as it can be while it still differs in the same way, of ten kinds, and of
each hang and crash. For each other one the report has the command that does so; --all does so for all.

What --ignore sets aside is counted. RULE is `list` (don't compare the lists at the end), `errors` (both sides
refuse, with different errors), or a kind as it is printed, OPERATION/PROGRAM/YOURS, where `*` stands for anything. A
--baseline has such kinds, each with a reason: they are counted too, and only others make the run fail.

Exit status: 0 if nothing differs but what is known, 1 if something does (with --strict also if a known difference doesn't
occur), 2 on wrong use, if the program or COMMAND can't be run, or if no trace came to its end within --for; 130, 143 and 129
if SIGINT, SIGTERM or SIGHUP ended the run, after its report. If a file can't be written, or nobody reads on, the run ends
there, and what was found by then is in the other files.
"""

import argparse
import difflib
import fnmatch
import os
import re
import sys
import time
from collections.abc import Iterator
from contextlib import ExitStack, closing, contextmanager
from pathlib import Path
from typing import Optional

from .. import console, oracles, traces
from ..comparing import comparison, conformance, findings as found, generator, threaded
from ..comparing.campaign import KIND_SECONDS, Campaign, Settings
from ..comparing.findings import MOST_SHOWN, Baseline, Findings, Journal
from ..comparing.keeping import Kept
from ..comparing.reports import Report
from ..oracles import PROFILE
from ..running import program
from ..systems import beside
from ..systems.batch import capabilities_of
from ..words import count, integer, shortened, time_limit

SUMMARY = "run random traces on the program and on a system of yours, and shrink what differs"
SIGNALS = {"SIGINT": console.INTERRUPTED, "SIGTERM": console.TERMINATED, "SIGHUP": console.HUNG_UP}
OPERATIONS = (*traces.FORMS, "list", "output", "run")  # of kinds


# Words


def profiles_of(text: str) -> list[str]:
    names = text.split(",")
    for name in names:
        if name not in generator.PROFILES:
            raise argparse.ArgumentTypeError(f"{name} is no profile; there are {', '.join(generator.PROFILES)}")
    return names


def numbers_of(text: str) -> list[int]:
    if not re.fullmatch("[0-9]{1,18}(,[0-9]{1,18})*", text):
        raise argparse.ArgumentTypeError(f"{shortened(text)} is no list of numbers of traces")
    return [int(word) for word in text.split(",")]


def rule(text: str) -> str:
    operation, slash, _ = text.partition("/")
    if text not in ("list", "errors") and text.count("/") < 2 and not text.startswith("*"):
        raise argparse.ArgumentTypeError(f"{text} is neither `list` nor `errors` nor OPERATION/PROGRAM/YOURS")
    if slash and not fnmatch.filter(OPERATIONS, operation):
        near = difflib.get_close_matches(operation, OPERATIONS, 1, 0.5)
        hint = f"; did you mean {near[0]}?" if near else f"; there are {', '.join(OPERATIONS)}"
        raise argparse.ArgumentTypeError(f"{text}: there is no operation {operation}{hint}")
    return text


def thread_count(text: str) -> int:
    value = count(text)
    if not 2 <= value <= 64:
        raise argparse.ArgumentTypeError(f"{text} is not from 2 to 64")
    return value


def report_file(text: str) -> Path:
    if text == "-":
        raise argparse.ArgumentTypeError("- is no file, and standard output has the text")
    return Path(text)


class OfMachine(argparse.Action):
    """What is right is this machine's Linux."""

    def __call__(self, parser: argparse.ArgumentParser, options: argparse.Namespace, *_: object) -> None:
        try:
            options.oracle = oracles.oracle_word("linux")
        except argparse.ArgumentTypeError as wrong:
            parser.error(f"--kernel: {wrong}")


def add_traces(parser: argparse.ArgumentParser, default: str = "200") -> None:
    """The words that say which traces there are, for `emit` too."""
    parser.add_argument("--runs", type=count, metavar="N", help=f"how many random traces ({default})")
    parser.add_argument("--lines", type=count, default=30, metavar="N", help="operations of a trace (30)")
    parser.add_argument("--seed", type=integer, default=1, metavar="S", help="the same seed gives the same traces (1)")
    parser.add_argument(
        "--profile",
        type=profiles_of,
        default=generator.IN_TURN,
        metavar="NAME[,NAME..]",
        help="these profiles in turn (all but `wide`)",
    )
    parser.add_argument(
        "--threads", type=thread_count, default=0, metavar="N", help="traces of N threads that race"
    )
    told = "\n".join(f"  {name:8} {profile.says}" for name, profile in generator.PROFILES.items())
    parser.epilog = f"profiles:\n{told}"


def add_arguments(parser: argparse.ArgumentParser) -> None:
    group = parser.add_argument_group("which traces")
    add_traces(group, "as many as there is time for")  # type: ignore[arg-type]
    parser.epilog = group.epilog  # type: ignore[attr-defined]
    group.add_argument(
        "--for",
        type=time_limit,
        dest="for_seconds",
        metavar="SECONDS",
        help=f"take so long for all of it ({beside.FOR_SECONDS:g}, if no other word says when it ends)",
    )
    group.add_argument("--only", type=numbers_of, default=[], metavar="K[,K..]", help="only these traces of the seed")
    group.add_argument(
        "--traces", type=Path, metavar="FOLDER", help="the files *.trace there, or one file, in place of random traces"
    )
    oracles.add_argument(parser, None, oracles.BY_SYSTEM)
    parser.add_argument("--kernel", nargs=0, action=OfMachine, help="another name for `--as linux`")
    group.add_argument(
        "--suite",
        action=argparse.BooleanOptionalAction,
        help="run the cases of the suite first (unless --profile, --threads, --only or --traces says which traces)",
    )
    aside = parser.add_argument_group("what is set aside")
    aside.add_argument(
        "--ignore",
        type=rule,
        action="append",
        default=[],
        metavar="RULE",
        help="set differences aside; may be given several times",
    )
    aside.add_argument(
        "--baseline", type=Path, metavar="FILE", help="known differences: lines `OPERATION/PROGRAM/YOURS # reason`"
    )
    aside.add_argument(
        "--with",
        action="append",
        choices=list(traces.FORMS),
        default=[],
        dest="kept_operations",
        metavar="OPERATION",
        help="keep an operation in the traces to which the system answers ENOSYS, and each of these answers is a difference",
    )
    aside.add_argument("--strict", action="store_true", help="fail where a known difference does not come")
    report = parser.add_argument_group("the report")
    report.add_argument(
        "--json",
        nargs="?",
        const="-",
        metavar="FILE",
        help="lines of JSON, a finding as it comes; without FILE on standard output, " "in place of the text",
    )
    report.add_argument("--junit", type=report_file, metavar="FILE", help="the report as JUnit's XML")
    report.add_argument(
        "--corpus",
        type=Path,
        metavar="FOLDER",
        help="keep the trace of each kind there, with both outputs, and those that reach something new; run first, and go on "
        "from, what an earlier run has kept",
    )
    report.add_argument(
        "--all",
        action="store_true",
        dest="makes_all",
        help=f"shrink a trace of each kind of difference, not of {MOST_SHOWN} and of each hang and crash",
    )
    report.add_argument(
        "--coverage", action="store_true", help="which rows of the tables of docs/MODEL.md the traces reached"
    )
    how = parser.add_argument_group("how it runs")
    how.add_argument(
        "--jobs", type=count, default=os.cpu_count() or 1, metavar="N", help="runs at once (as many as processors)"
    )
    how.add_argument(
        "--seconds", type=time_limit, default=10, metavar="T", help="how long COMMAND may take for a trace (10)"
    )
    how.add_argument(
        "--shrink-seconds",
        type=time_limit,
        default=1,
        metavar="T",
        help="the same while a trace is shrunk on which it does not end (1)",
    )
    how.add_argument(
        "--most",
        type=count,
        default=comparison.MOST_FINDINGS,
        metavar="N",
        help="differences of one trace at most " f"({comparison.MOST_FINDINGS})",
    )
    how.add_argument(
        "--live",
        metavar="PATH",
        help="diltzekun-live, which without --threads answers in the program's place (by default "
        "the one found where the program is; with --program, none)",
    )
    parser.set_defaults(kind_seconds=KIND_SECONDS, begin=time.monotonic(), is_asked=False)
    beside.add_arguments(parser)
    program.add_arguments(parser)
    parser.add_argument(
        "command", nargs="*", metavar="COMMAND", help="the system under test and its arguments, behind --"
    )


def settings_of(options: argparse.Namespace) -> Settings:
    """What the words ask for."""
    for_seconds = beside.FOR_SECONDS if beside.has_no_end(options) else options.for_seconds
    settings = Settings(
        options.command,
        options.profile,
        options.runs,
        options.lines,
        options.seed,
        options.jobs,
        options.oracle,
        options.threads,
        options.seconds,
        options.shrink_seconds,
        options.most,
        for_seconds,
        options.kind_seconds,
        options.makes_all,
        options.only,
        options.traces,
        has_coverage=options.coverage,
    )
    says_which = options.only or options.traces or options.threads or options.profile != generator.IN_TURN
    settings.grows = not options.threads and options.profile == generator.IN_TURN
    if options.suite or options.suite is None and not says_which:
        settings.suite = conformance.cases_in_order("wide" in options.profile)
    words: list[str] = []
    for name, value, default in (
        ("--seed", options.seed, 1),
        ("--lines", options.lines, 30),
        ("--threads", options.threads, 0),
        ("--seconds", options.seconds, 10),
        ("--program", getattr(options, "given_program", options.program), None),
        ("--live", getattr(options, "given_live", options.live), None),
    ):
        words += [name, f"{value:g}" if isinstance(value, float) else str(value)] if value != default else []
    words += ["--profile", ",".join(options.profile)] if options.profile != generator.IN_TURN else []
    words += ["--as", options.oracle.option()] if options.given_oracle else []
    words += beside.words_of(options)
    if options.system:
        settings.command = ["--system", options.system]
    words += [word for operation in options.kept_operations for word in ("--with", operation)]
    settings.words = words + [word for pattern in options.ignore for word in ("--ignore", pattern)]
    return settings


# The report


def status_of(findings: Findings, is_strict: bool, stopped: Optional[str]) -> int:
    if stopped:
        return SIGNALS[stopped]
    return 1 if findings.has_new or is_strict and findings.baseline.stale else 0


# Running


def make_sides(options: argparse.Namespace) -> comparison.Sides:
    rules = comparison.Rules(options.ignore)
    words = (options.program, options.command, options.seconds, rules, options.shrink_seconds)
    sides = threaded.Threads(*words) if options.threads else comparison.Sides(*words)
    sides.kept = set(options.kept_operations)
    sides.oracle = options.oracle
    return sides


def compare(options: argparse.Namespace) -> int:
    """The whole comparison: prints what differs, and returns the exit status."""
    settings, sides = settings_of(options), make_sides(options)
    with beside.prepared(options, settings, sides):
        return compare_sides(options, settings, sides)


def compare_sides(options: argparse.Namespace, settings: Settings, sides: comparison.Sides) -> int:
    """The comparison of two sides that are ready."""
    findings = Findings(Baseline.read(options.baseline) if options.baseline else Baseline())
    if options.system:
        sides.test_machine()
    kept = Kept.opened(options.corpus) if options.corpus else Kept()
    with ExitStack() as stack:
        journal = opened_journal(options, settings, kept, stack)
        junit = stack.enter_context(closing(console.NewFile(options.junit))) if options.junit else None
        if options.is_asked:
            beside.take_capabilities(settings, sides, capabilities_of(options.command, options.seconds))
        report = Report(sys.stdout, sides.oracle) if options.json != "-" else None
        campaign = Campaign(settings, sides, findings, journal, report, kept)
        campaign.begin = options.begin
        failures = Failures()
        with campaign.stoppable(), failures.kept():
            campaign.run()
        for _, kind in findings.in_order():
            campaign.ask_models(kind.shortest)
        stopped = campaign.stopped or (str(failures.first) if failures.first else None)
        status = failures.first.status if failures.first else ended_status(campaign, options.strict)
        with failures.kept():
            if journal:
                journal.write(findings.end_event(status, stopped))
        with failures.kept():
            if junit:
                junit.stream.write(found.junit_of(findings, options.strict, stopped))
                junit.take_place()
        with failures.kept():
            if report:
                report.end(findings, options.coverage, stopped)
        failures.end()
    tell_unused(sides.rules, findings)
    return status


class Failures:
    """What can't be run or written, of which each ends the run: the others get what was found all the same."""

    first: console.Failure | None = None

    @contextmanager
    def kept(self) -> Iterator[None]:
        try:
            yield
        except console.Failure as failure:
            self.first = self.first or failure

    def end(self) -> None:
        if self.first:
            raise self.first


def ended_status(campaign: Campaign, is_strict: bool) -> int:
    """The status of a run, and where no trace was run a line that says why."""
    findings, seconds = campaign.findings, campaign.settings.for_seconds
    status = status_of(findings, is_strict, campaign.stopped)
    if not status and findings.left_out and not findings.traces:
        console.say("the system ran none of the traces")
        return console.WRONG_USE
    if campaign.is_too_short:
        console.say(f"no trace came to its end in {seconds:g} seconds: give it more by --for")
        return console.WRONG_USE
    return status


def tell_unused(rules: comparison.Rules, findings: Findings) -> None:
    for pattern in rules.patterns:
        if not findings.aside[f"--ignore {pattern}"]:
            console.say(f"--ignore {pattern}: no difference is of this kind")


def opened_journal(options: argparse.Namespace, settings: Settings, kept: Kept, stack: ExitStack) -> Journal | None:
    """The lines of JSON, which begin with all that was kept before an older file of that name goes."""
    if not options.json:
        return None
    file = stack.enter_context(closing(console.NewFile(options.json))) if options.json != "-" else None
    journal = Journal(file.stream if file else sys.stdout)
    journal.write({"event": "begin", "identity": settings.identity(), "runs": settings.runs})
    for path, name in kept.before.items():
        if name:
            journal.write({"event": "kept", "name": name, "source": str(path)})
    if file:
        file.take_place()
    return journal


def take_program(options: argparse.Namespace) -> None:
    """Finds the program, and diltzekun-live where it is given, or where the place that names the program has it too."""
    options.given_program, options.given_live = options.program, options.live
    options.program = program.find(options.given_program, options.verbose)
    if options.given_live:
        options.live = program.find(options.given_live, options.verbose, program.LIVE)
    elif not options.threads:
        options.live = program.live_beside(options.given_program, options.verbose)


def check_oracle(options: argparse.Namespace) -> None:
    """What is legal for threads at once is proved for the profile alone, and said by no model of Linux."""
    options.oracle = options.oracle or PROFILE
    if options.threads and options.given_oracle and options.oracle.kernel:
        raise console.Failure("--threads is judged by the profile alone: what is legal there is proved for it, and for no Linux")
    if options.threads:
        options.oracle = PROFILE


def run(options: argparse.Namespace) -> int:
    options.begin = time.monotonic()
    options.given_oracle = options.oracle
    beside.take_system(options)
    check_oracle(options)
    if not options.command:
        raise console.Failure("COMMAND is missing: give the system under test after --")
    take_program(options)
    program.check_command(options.command)
    options.is_asked = not options.batch
    return compare(options)
