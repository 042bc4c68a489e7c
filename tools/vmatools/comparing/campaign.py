"""A comparison of many traces: runs what was kept and then the others, groups what differs, and makes the trace of each kind
small while it goes on."""

import itertools
import os
import signal
import time
from collections import Counter, deque
from collections.abc import Callable, Iterable, Iterator
from concurrent.futures import FIRST_COMPLETED, Future, ThreadPoolExecutor, wait
from contextlib import contextmanager, suppress
from dataclasses import dataclass, field
from pathlib import Path
from queue import SimpleQueue
from types import FrameType
from typing import Any, NamedTuple, Optional

from .. import outputs
from ..console import Failure, Progress, say
from ..oracles import PROFILE, Oracle
from ..profile import coverage
from ..running import children
from ..traces import BadLine, Trace, read_trace
from ..words import repeated
from . import conformance, generator, ranking
from .answers import answers_of
from .comparison import Examined, Found, Seen, Sides, Stopped, examine, without_all
from .corpus import Corpus, GivenUp
from .findings import MOST_SHOWN, Finding, Findings, Journal, Kind, Pairs
from .fitting import fitted
from .keeping import Kept
from .reports import Report
from .smaller import Smaller
from .windows import AnyFit

QUIET_SECONDS = 30  # a line says how far the run is, where nobody looks at a terminal
KIND_SECONDS = 10.0  # for making the trace of a kind small
WORKER_SECONDS = 0.2  # for the traces that a worker takes at once, which are so many at most
MOST_AT_ONCE = 64


@dataclass
class Settings:
    """What a comparison runs, and how."""

    command: list[str]
    profiles: list[str]
    runs: Optional[int]  # how many traces, none where only time ends the run
    lines: int = 30
    seed: int = 1
    jobs: int = 1
    oracle: Oracle = PROFILE  # what is right
    threads: int = 0
    seconds: float = 10
    short: float = 1
    most: int = 12
    for_seconds: Optional[float] = None  # for all of the run
    kind_seconds: float = KIND_SECONDS
    makes_all: bool = False  # the trace of each kind small, and not of so many
    only: list[int] = field(default_factory=list)
    folder: Optional[Path] = None
    has_coverage: bool = False
    fit: Optional[AnyFit] = None  # how traces become such as the system can run
    words: list[str] = field(default_factory=list)  # those that a command needs to repeat a finding
    suite: list[Path] = field(default_factory=list)  # cases that are run before random traces
    grows: bool = False  # whether random traces are those of a corpus

    def identity(self) -> dict[str, Any]:
        """What the findings depend on."""
        return {
            "command": self.command,
            "profiles": self.profiles,
            "lines": self.lines,
            "seed": self.seed,
            "as": self.oracle.words(),
            "threads": self.threads,
            "traces": str(self.folder) if self.folder else None,
        }


class Source(NamedTuple):
    """Where a trace comes from: its number, a name for a reader, the words that take it alone, and whether it was kept."""

    number: int
    name: str
    words: list[str]
    draw: Callable[[], Trace]
    is_kept: bool = False


class Told(NamedTuple):
    """What a trace has shown, and the rows that it reaches."""

    source: Source
    examined: Examined
    rows: Counter[str]


def corpus_of(settings: Settings, kept: Kept) -> Corpus:
    """What random traces are made of: the cases of the suite, and what was kept of earlier runs."""

    def seeds() -> Iterator[tuple[str, Trace]]:
        for path in [*conformance.cases_in_order(False), *kept.seeds]:
            trace = kept_trace(0, path).draw()
            if settings.fit is None or settings.fit.keeps(trace):
                yield str(path), trace

    is_fitted = settings.oracle.kernel is not None
    return Corpus(settings.seed, settings.lines, settings.profiles, seeds(), is_fitted, kept.write_seed)


def sources(settings: Settings, corpus: Optional[Corpus] = None) -> Iterator[Source]:
    """The traces of a run."""
    corpus = corpus or corpus_of(settings, Kept())
    if settings.folder:
        numbered: Iterator[tuple[int, Optional[Path]]] = enumerate(files_of(settings.folder))
    elif settings.only:
        numbered = ((number, None) for number in sorted(settings.only))
    else:
        yield from (kept_trace(number, path) for number, path in enumerate(settings.suite))
        numbered = ((number, None) for number in (itertools.count() if settings.runs is None else range(settings.runs)))
    for number, path in numbered:
        if path:
            yield kept_trace(number, path)
        else:
            yield grown_trace(settings, number, corpus) if settings.grows else drawn_trace(settings, number)


def files_of(folder: Path) -> list[Path]:
    """The traces of a folder, or one file."""
    if folder.is_file():
        return [folder]
    found = sorted(path for path in folder.rglob("*.trace") if path.is_file()) if folder.is_dir() else []
    if not found:
        raise Failure(f"{folder}: no file, and no folder with files *.trace")
    return found


def kept_trace(number: int, path: Path) -> Source:
    def read() -> Trace:
        try:
            return read_trace(path.read_bytes()).numbered()  # as it is without its comments
        except BadLine as bad:
            raise Failure(f"{path}: {bad}") from None
        except OSError as error:
            raise Failure(f"{path}: {error.strerror}") from None

    return Source(number, str(path), ["--traces", str(path)], read)


def grown_trace(settings: Settings, number: int, corpus: Corpus) -> Source:
    trace, what = corpus.trace(number)
    return Source(number, f"trace {number} of seed {settings.seed}, {what}", ["--only", str(number)], lambda: trace)


def drawn_trace(settings: Settings, number: int) -> Source:
    name = settings.profiles[number % len(settings.profiles)]
    is_fitted = settings.oracle.kernel is not None

    def draw() -> Trace:
        return generator.Generator(name, f"{settings.seed} {number}", settings.lines, settings.threads, is_fitted).draw()

    return Source(number, f"trace {number} of seed {settings.seed}, profile {name}", ["--only", str(number)], draw)


class Campaign:
    """Runs all traces, groups what differs, and makes the trace of each kind small."""

    def __init__(
        self,
        settings: Settings,
        sides: Sides,
        findings: Findings,
        journal: Optional[Journal] = None,
        report: Optional[Report] = None,
        kept: Optional[Kept] = None,
    ) -> None:
        self.settings, self.sides, self.findings, self.journal = settings, sides, findings, journal
        self.report, self.kept = report, kept or Kept()
        self.progress, self.pool = Progress(), ThreadPoolExecutor(max_workers=settings.jobs)
        self.small = ThreadPoolExecutor(max_workers=1)  # makes one kind small after the other
        self.corpus = corpus_of(settings, self.kept)
        self.corpus.is_over = lambda: self.is_over
        self.waiting: deque[Source] = deque()  # what a worker had no time for
        self.at_once = 1  # traces that a worker takes
        self.examining: dict[Future[list[Told]], list[Source]] = {}
        self.open: list[str] = []  # kinds that may be made small
        self.shrinking: dict[Future[Optional[Finding]], str] = {}
        self.made = 0  # kinds that are made small, or were
        self.cases = {str(path) for path in settings.suite}  # those that were not come to
        self.ran: set[str] = set()  # cases, and what was kept
        self.told: SimpleQueue[tuple[Source, Found]] = SimpleQueue()  # by the workers, at once
        self.found: dict[str, list[Finding]] = {}  # of each trace that runs, what it has shown until now
        self.stopped: Optional[str] = None  # the signal that ended the run
        self.stopped_at = 0.0
        self.begin = self.last_told = time.monotonic()
        findings.kept = {str(path): name for path, name in self.kept.before.items()}

    # Stopping

    @contextmanager
    def stoppable(self) -> Iterator[None]:
        """A first signal ends the run with a report of what was found; another one after it ends it at once."""
        heard = [signal.SIGINT, signal.SIGTERM]
        heard += [signal.SIGHUP] if signal.getsignal(signal.SIGHUP) != signal.SIG_IGN else []  # as it is under nohup
        kept = {name: signal.signal(name, self.stop) for name in heard}
        try:
            yield
        finally:
            for name, handler in kept.items():
                signal.signal(name, handler)

    def stop(self, number: int, _: Optional[FrameType]) -> None:
        now = time.monotonic()
        if self.stopped and now - self.stopped_at > 1:  # a first one may come twice, to the process and to its group
            children.stop_all()
            os._exit(128 + number)
        self.stopped, self.stopped_at = signal.Signals(number).name, now

    @property
    def is_over(self) -> bool:
        limit = self.settings.for_seconds
        return self.stopped is not None or limit is not None and time.monotonic() - self.begin > limit

    @property
    def is_too_short(self) -> bool:
        """Whether the time was over before a trace was, and nothing was found."""
        return self.stopped is None and not self.findings.traces and not self.findings.kinds and self.is_over

    # Running

    def run(self) -> None:
        """Examines the traces, those that were kept first, and makes each new kind small at once."""
        kept = [kept_trace(place, path)._replace(is_kept=True) for place, path in enumerate(self.kept.before)]
        rest = itertools.chain(kept, sources(self.settings, self.corpus))
        self.keep_lacks(self.settings.fit.lacks if self.settings.fit else ())
        try:
            while not self.is_over:
                self.make_small()
                with suppress(GivenUp):
                    self.fill(rest)
                if not self.shrinking and not self.examining:
                    break
                work: list[Future[Any]] = [*self.examining, *self.shrinking]
                wait(work, 0.1, FIRST_COMPLETED)
                self.take()
                self.tell()
        finally:
            self.give_up()
            self.findings.seconds = time.monotonic() - self.begin
            self.findings.cases_left = len(self.cases)
            self.findings.pairs = Pairs(*self.corpus.reached_of(self.ran))
            self.progress.clear()

    def fill(self, rest: Iterator[Source]) -> None:
        """Has as many traces run as workers are free, of which what is made small has half."""
        most = max(self.settings.jobs // 2, 1) if self.shrinking else self.settings.jobs + 1
        while len(self.examining) < most:
            taken = [self.waiting.popleft() for _ in range(min(self.at_once, len(self.waiting)))]
            taken += itertools.islice(rest, self.at_once - len(taken))
            if not taken:
                break
            self.examining[self.pool.submit(self.examined_all, taken)] = taken

    def examined_all(self, taken: list[Source]) -> list[Told]:
        """What a worker makes of some traces: of all where both sides answer these at once, else of what a short time is enough
        for; and how many the next one takes."""
        begin, told = time.monotonic(), list[Told]()
        traces = [self.ready(source) for source in taken]
        for source, trace, seen in zip(taken, traces, self.sides.seen(traces)):
            if told and seen.there is None and time.monotonic() > begin + WORKER_SECONDS:
                break
            told.append(self.examined(source, trace, seen))
        in_time = WORKER_SECONDS / (time.monotonic() - begin + 1e-6)
        self.at_once = max(min(int(len(told) * in_time), len(told) * 2, MOST_AT_ONCE), 1)
        return told

    def take(self) -> None:
        """Takes what is done by now."""
        done = [future for future in self.examining if future.done()]
        self.take_told()
        for future in done:
            taken, told = self.examining.pop(future), future.result()
            self.waiting += taken[len(told) :]
            for one in told:
                self.keep(*one)
        for small in [small for small in self.shrinking if small.done()]:
            self.keep_small(self.shrinking.pop(small), small.result())

    def take_told(self) -> None:
        """Tells of what was found in traces that may still run, and of each kind that is new."""
        while not self.told.empty():
            source, one = self.told.get()
            finding = self.finding(source, one)
            self.found.setdefault(source.name, []).append(finding)
            known = self.findings.baseline.of(finding.name)
            is_open = not known and finding.name not in self.findings.kinds
            self.findings.kinds.setdefault(finding.name, Kind(finding))
            if is_open:
                self.kept.write_trace(finding)
            self.write(finding, "finding", number=None if source.is_kept else source.number, known=known and known.reason)
            if is_open:
                self.see(finding.name, self.findings.kinds[finding.name])

    def give_up(self) -> None:
        """Ends what still runs. What it has shown until now counts."""
        self.sides.is_stopped = True
        children.stop_work([*self.examining, *self.shrinking])
        for found in self.found.values():
            self.findings.add(found, Counter())
        if self.stopped is None:
            for future, name in self.shrinking.items():  # what was found of it until now
                with suppress(Stopped, Failure):
                    self.keep_small(name, future.result() if not future.cancelled() else None)
        self.sides.is_stopped = False

    def ready(self, source: Source) -> Trace:
        """The trace of a source, as the system can run it."""
        trace, fit = without_all(source.draw(), self.sides.lacks), self.settings.fit
        if fit:
            return trace if source.is_kept and fit.keeps(trace) else fit.fitted(trace)
        kernel = self.settings.oracle.kernel
        return fitted(trace, kernel.settings.min) if kernel else trace

    def examined(self, source: Source, trace: Trace, seen: Seen) -> Told:
        if seen.right is None:
            self.sides.confirm(trace)
        rows = coverage.rows_of(trace) if self.settings.has_coverage else Counter[str]()
        told = examine(self.sides, trace, self.settings.most, lambda one: self.told.put((source, one)), seen)
        return Told(source, told, rows)

    def keep(self, source: Source, told: Examined, rows: Counter[str]) -> None:
        """Counts what a trace has shown."""
        self.keep_lacks(told.lacks)
        if source.is_kept and not told.left_out:
            self.findings.kept.pop(source.name)
        if (source.is_kept or source.name in self.cases) and not told.left_out:
            self.ran.add(source.name)
        self.cases.discard(source.name)
        if told.left_out:
            self.findings.left_out[told.left_out] += 1
            return
        found = self.found.pop(source.name, [])
        self.findings.is_cut |= told.has_more
        self.findings.add(found, told.aside)
        self.findings.coverage.update(rows)
        if source.is_kept and not found and self.kept.before[Path(source.name)]:
            self.findings.agree.append(source.name)

    def finding(self, source: Source, one: Found) -> Finding:
        name = "/".join(outputs.kind_of(one.difference))
        is_numbered = not self.settings.grows or self.findings.baseline.of(name)  # others depend on what was kept
        path = None if is_numbered else self.kept.path_of(name)
        words = ["--traces", str(path)] if path else source.words
        return Finding(name, one.difference, one.trace.text(), source.name, self.repeat(words))

    def keep_lacks(self, lacks: Iterable[str]) -> None:
        """An operation that the system hasn't is told once."""
        for operation in sorted(set(lacks) - self.findings.lacks):
            self.findings.lacks.add(operation)
            self.sides.lacks.add(operation)
            if self.report:
                self.progress.clear()
                self.report.lacks(operation)

    def see(self, name: str, kind: Kind) -> None:
        """A kind that is new: tells of it, and may have it made small."""
        if self.report:
            self.progress.clear()
            self.report.seen(name, kind)
        self.open.append(name)

    def make_small(self) -> None:
        """Has one kind after the other made small, what counts most first: so many, and each hang and crash."""
        if not self.open or self.shrinking:
            return
        kinds = self.findings.kinds
        ranks = {name: ranking.rank_of(kinds[name].shortest.difference) for name in self.open}
        name = min(self.open, key=lambda name: ranks[name])
        if self.settings.makes_all or self.made < MOST_SHOWN or ranks[name] in ranking.ENDS:
            self.open.remove(name)
            self.made += 1
            self.shrinking[self.small.submit(self.made_small, kinds[name].shortest)] = name

    def write(self, finding: Finding, what: str, **more: Any) -> None:
        if self.journal:
            self.journal.write(finding.event(what, **more))

    def repeat(self, words: list[str]) -> str:
        """The one command that repeats a finding."""
        system = self.settings.command if self.settings.command[:1] == ["--system"] else ["--", *self.settings.command]
        return repeated("compare", [*self.settings.words, *words, *system])

    def tell(self) -> None:
        """Says how far the run is."""
        findings, all_runs = self.findings, self.settings.runs
        of = f" of {all_runs + len(self.settings.suite)}" if all_runs and not self.settings.folder else ""
        limit = self.settings.for_seconds
        left = f", {max(self.begin + limit - time.monotonic(), 0):.0f} s to go" if limit else ""
        text = f"{findings.traces}{of} traces, {findings.differing} differ in {len(findings.kinds)} kinds{left}"
        self.progress.tell(text)
        now = time.monotonic()
        if not self.progress.is_wanted and now - self.last_told > QUIET_SECONDS:
            self.last_told = now
            say(text)

    # Smallest traces

    def made_small(self, finding: Finding) -> Optional[Finding]:
        """The finding on the smallest trace, or none; kept with what both sides answer."""
        settings, fit = self.settings, self.settings.fit
        short = min(settings.short, settings.seconds)
        seconds = (settings.seconds, short, settings.kind_seconds)
        smaller = Smaller(self.sides, self.pool, settings.jobs, *seconds, lambda: self.is_over)
        if fit:
            smaller.keeps = fit.keeps
        small = smaller.finding(finding)
        if small and self.kept.folder:
            trace = read_trace(small.trace.encode())
            self.kept.write_trace(small)
            self.kept.write(small, "program", self.sides.here(trace))
            self.kept.write(small, "yours", self.sides.there(trace).output)
        return small

    def ask_models(self, finding: Finding) -> None:
        """Says who is right: what the profile and Linux by version answer."""
        if not self.settings.threads and finding.answers is None:
            trace = read_trace(finding.trace.encode())
            finding.answers = answers_of(trace, finding.difference, self.sides.oracle, self.sides.shown)

    def keep_small(self, name: str, small: Optional[Finding]) -> None:
        """Tells of the smallest trace of a kind."""
        kind = self.findings.kinds[name]
        if small:
            kind.shortest, kind.is_shrunk = small, True
        kind.is_once = small is None and not self.is_over
        self.ask_models(kind.shortest)
        self.write(kind.shortest, "smallest", count=kind.count)
        kind.is_shown = True
        if self.report:
            self.progress.clear()
            self.report.small(name, kind)
