"""Tries `vma compare` on the program itself, and on systems that are wrong in one thing each.

The wrong systems are those of tests/models. Each that has a name has to be found, and of some of those by rule most; the smallest
trace has at most five lines below the header. Takes less than a minute; --runs 2000 takes longer.
"""

import argparse
import contextlib
import io
import json
import os
import pathlib
import re
import subprocess
import sys
import tempfile
import time
from concurrent.futures import ThreadPoolExecutor
from typing import NoReturn
from xml.etree import ElementTree

from checking import Failed, passed

from models import mutants, wrong
from vmatools import cli, traces
from vmatools.commands import compare
from vmatools.comparing import comparison, generator, keeping
from vmatools.comparing.campaign import sources
from vmatools.profile import serial
from vmatools.running import program as programs

TOOLS, DEV, TESTS = (os.path.join(programs.TOP, name) for name in ("tools", "dev", "tests"))

Job = tuple[str, list[str], int, str]  # a tool, its words, its status, and what it names
MOST_LINES = 5
RUNS = 1000  # of the wrong models
EACH, LEAST = 4, 0.8  # of the wrong models by rule, one in so many is tried, and such a part has to be found
KIND_SECONDS = 600.0  # for making the trace of a kind small: it ends by itself long before
WRONG = {  # of some wrong models: runs, profiles, and a pattern of the kind that has to be found
    "keeps-prefix": (30, "few,files,mremap", r"mprotect: program list: .*"),
    "from-below": (12, "few,files", r"mmap: program an address, yours another address"),
    "munmap-past-end": (60, "few,edges", r"munmap: program -1 EINVAL, yours -1 ENOMEM"),
}
ENDS = {  # of those that are run as commands: runs, profiles, how many seconds each may take (more on a slow machine), kind
    "crashes-at-zero": (60, "few", ["60"], r"munmap: program an output, yours ends with status 1"),
    "hangs-on-move": (4, "mremap", ["2", "10", "40"], r"mremap: program an output, yours does not end"),
}


def fail(what: str) -> NoReturn:
    raise Failed(what)


def told(name: str, began: float) -> None:
    passed(name, time.monotonic() - began)


class OfModel(comparison.Sides):
    """Sides whose system under test is a model in this process."""

    def there(self, trace: traces.Trace, seconds: float | None = None) -> programs.Ran:
        return programs.Ran(serial.serial_output(trace, (mutants.MUTANTS | mutants.ENDING)[self.command[0]]), None, "")


class InProcess(OfModel):
    """The same, with the model on both sides: what is tried is the report."""

    def here(self, trace: traces.Trace) -> str:
        return serial.serial_output(trace)


def options_of(words: list[str]) -> argparse.Namespace:
    """What these words ask for, as the command has it when it begins."""
    parser, _ = cli.parser_of(cli.COMMANDS["compare"])
    options = parser.parse_args(words)
    options.begin, options.given_oracle = time.monotonic(), options.oracle
    compare.check_oracle(options)
    return options


def compared(words: list[str], sides_type: type[comparison.Sides] | None = None) -> tuple[int, str]:
    """Status and text of a comparison with these words, which makes traces as small as it can, however busy the machine is."""
    options = options_of(words)
    options.kind_seconds = KIND_SECONDS
    kept, text = comparison.Sides, io.StringIO()
    setattr(comparison, "Sides", sides_type or kept)
    try:
        with contextlib.redirect_stdout(text):
            status = compare.compare(options)
    finally:
        setattr(comparison, "Sides", kept)
    return status, text.getvalue()


def smallest_traces(text: str) -> list[tuple[str, list[str]]]:
    """Of each kind in a report, its title and the lines below the header of its smallest trace."""
    kinds = re.findall(
        r"^\d+\. (.*?) \(--ignore .*\n   the smallest trace:\n((?:     .*\n)+)", text, re.MULTILINE
    )
    return [(title, [line.strip() for line in trace.splitlines()[1:]]) for title, trace in kinds]


def wrong_report(name: str, status: int, text: str, pattern: str) -> str | None:
    """What is wrong with a report, if something is."""
    found = smallest_traces(text)
    if status != 1 or not re.search(r"^\d+ traces?, ([1-9]\d* differ|1 differs)$", text, re.MULTILINE):
        return f"{name} is not found: status {status}\n{text[-2000:]}"
    if not any(re.fullmatch(pattern, title) for title, _ in found):
        return f"{name} is found as something else than {pattern}:\n{text[-4000:]}"
    long = [f"{title}` has {len(lines)}" for title, lines in found if len(lines) > MOST_LINES]
    return f"{name}: the smallest trace of `{long[0]} lines:\n{text[-4000:]}" if long else None


def check_itself(program: str, runs: int) -> None:
    began = time.monotonic()
    status, text = compared(["--no-suite", "--runs", str(runs), "--program", program, "--", program, "serial"])
    if status or not text.endswith(f"\n{runs} traces, 0 differ\n"):
        fail(f"the program differs from itself: status {status}\n{text[-4000:]}")
    told(f"the program against itself, {runs} traces", began)
    began = time.monotonic()
    status, text = compared(["--runs", "1", "--program", program, "--", "right"], OfModel)
    if status or not re.search(r"^[67]\d\d traces, 0 differ\n\Z", text, re.MULTILINE):
        fail(f"the model differs from the program on the suite: status {status}\n{text[-4000:]}")
    told("the cases of the suite", began)


def check_model(program: str, runs: int) -> None:
    """The model that the generator keeps is the program's, on all profiles."""
    began = time.monotonic()
    profiles = ",".join(generator.PROFILES)
    words = ["--runs", str(runs), "--program", program, "--profile", profiles, "--lines", "15", "--", "right"]
    status, text = compared(words, OfModel)
    if status:
        fail(f"the model of vmatools differs from the program:\n{text[-4000:]}")
    told(f"the model against the program, {runs} traces", began)


def check_models() -> None:
    """The options as they stand find each wrong model that has a name, and most of those by rule."""
    began = time.monotonic()
    drawn = [source.draw() for source in sources(compare.settings_of(options_of(["--no-suite", "--runs", str(RUNS)])))]
    for name, model in mutants.MUTANTS.items():
        sides = comparison.InProcess(model, comparison.Rules())
        if not any(comparison.examine(sides, trace, 1).findings for trace in drawn):
            fail(f"{name} is not found in {RUNS} traces: {model.__doc__}")
    pairs, tried = [(trace, serial.serial_output(trace)) for trace in drawn], wrong.shown()[::EACH]
    found = [one for one in tried if any(serial.serial_output(trace, one.space) != right for trace, right in pairs)]
    if len(found) < LEAST * len(tried):
        fail(f"of {len(tried)} wrong models by rule {len(found)} are found in {RUNS} traces")
    told(f"{len(mutants.MUTANTS)} wrong models found, and {len(found)} of {len(tried)} by rule", began)


def check_wrong(program: str) -> None:
    for name, (runs, profiles, pattern) in WRONG.items():
        began = time.monotonic()
        words = ["--runs", str(runs), "--program", program, "--profile", profiles, "--", name]
        wrong = wrong_report(name, *compared(words, OfModel), pattern)
        if wrong:
            fail(wrong)
        told(f"{name} found", began)
    for name, (runs, profiles, seconds, pattern) in ENDS.items():
        began = time.monotonic()
        command = ["env", f"PYTHONPATH={TOOLS}:{TESTS}", sys.executable, "-m", "models.mutants", name]
        wrong = None
        for limit in seconds:
            words = ["--runs", str(runs), "--lines", "12", "--seconds", limit, "--shrink-seconds", str(float(limit) / 2)]
            words += ["--program", program, "--profile", profiles, "--", *command]
            wrong = wrong_report(name, *compared(words), pattern)
            if not wrong:
                break
        if wrong:
            fail(wrong)
        told(f"{name} found", began)


def check_rules(program: str) -> None:
    """What is set aside is counted, and the rest of its trace is compared. --corpus leaves traces and outputs."""
    began = time.monotonic()
    words = ["--runs", "24", "--program", program, "--profile", "few,edges"]
    for rule in ("munmap/-1 EINVAL/-1 ENOMEM", "errors"):
        status, text = compared([*words, "--ignore", rule, "--", "munmap-past-end"], OfModel)
        if status or not re.search(rf"^set aside: \d+ times --ignore {re.escape(rule)}$", text, re.MULTILINE):
            fail(f"--ignore {rule}: status {status}\n{text[-2000:]}")
    with tempfile.TemporaryDirectory() as folder:
        compared([*words, "--corpus", folder, "--", "from-below"], OfModel)
        kept = sorted(name for name in os.listdir(folder) if name.startswith("mmap-an-address-another-address-"))
        if [pathlib.Path(name).suffix for name in kept] != [".program", ".trace", ".yours"]:
            fail(f"--corpus leaves {kept}")
        status, text = compared([*words[2:], "--only", "1000", "--corpus", folder, "--", "right"], OfModel)
        if status or "no difference now" not in text:
            fail(f"--corpus FOLDER doesn't run again what it has: status {status}\n{text[-2000:]}")
    told("--ignore and --corpus", began)


# An adapter of many traces that answers as a wrong model.
ANSWERS = """
import io, sys
from models import mutants
from vmatools import traces
from vmatools.profile import serial
from vmatools.systems.batch import requests
model = mutants.MUTANTS.get(sys.argv[1], serial.Space)
for request in requests(sys.stdin.buffer):
    output = serial.serial_output(traces.read_trace(request.text), model)
    print(f"{output}end {request.number}", flush=True)
"""
MOMENTS = 10  # at which a run is killed


def check_kept(program: str) -> None:
    """A run that was killed at any moment has lost nothing that it told, and no later one is green until its traces agree."""
    began = time.monotonic()
    with tempfile.TemporaryDirectory() as name:
        folder, events, report = (pathlib.Path(name, what) for what in ("kept", "events", "report.xml"))
        adapter = pathlib.Path(name, "adapter")
        adapter.write_text(ANSWERS, encoding="utf-8")
        words = ["--program", program, "--corpus", str(folder), "--json", str(events), "--junit", str(report), "--batch"]
        words += ["--runs", "40", "--profile", "few", "--seconds", "120"]  # an adapter may start on a busy machine
        command = [sys.executable, os.path.join(TOOLS, "vma"), "compare", *words, "--"]
        python = ["env", f"PYTHONPATH={TOOLS}:{TESTS}", sys.executable, str(adapter)]
        known: set[str] = set()
        for moment in range(MOMENTS):
            old = events.stat().st_ino if events.exists() else None
            with subprocess.Popen([*command, *python, "from-below"], stdout=subprocess.DEVNULL, stderr=subprocess.DEVNULL) as run:
                end = time.monotonic() + 300
                while moment and run.poll() is None and time.monotonic() < end and lines_of(events, old) < 2 * moment:
                    time.sleep(0.01)
                run.kill()
            kept = kinds_in(folder)
            missing = (known | told_in(events)) - kept
            if missing or report.exists() and not report.read_text(encoding="utf-8").endswith("</testsuite>\n"):
                fail(f"a run that was killed has lost {missing}, or left half a report")
            known = kept
        if not known:
            fail("no run found anything before it was killed")
        done = subprocess.run([*command, *python, "from-below"], capture_output=True, text=True)
        names = {case.get("name") for case in ElementTree.parse(report).getroot()}
        if done.returncode != 1 or not known <= told_in(events) & names:
            fail(f"a run after ten that were killed: status {done.returncode}\n{done.stderr[-500:]}")
        for system, wanted in (("from-below", 1), ("right", 0)):
            done = subprocess.run([*command, *python, system], capture_output=True, text=True)
            if done.returncode != wanted:
                fail(f"{system} on the traces that were kept: status {done.returncode}\n{done.stdout[-2000:]}")
    told(f"what is kept, over {MOMENTS} runs that are killed", began)


def lines_of(path: pathlib.Path, old: int | None) -> int:
    """How many lines a file has, if it is another one than it was."""
    return path.read_bytes().count(b"\n") if path.exists() and path.stat().st_ino != old else 0


def kinds_in(folder: pathlib.Path) -> set[str]:
    """The kinds of whole traces in a folder."""
    texts = (path.read_bytes() for path in folder.glob("*.trace"))
    return {keeping.name_in(text.decode()) for text in texts if traces.read_trace(text)}


def told_in(path: pathlib.Path) -> set[str]:
    """The kinds that lines of JSON name, but for a last one that is cut off."""
    lines = path.read_text(encoding="utf-8").split("\n")[:-1] if path.exists() else []
    return {event["name"] for event in map(json.loads, lines) if "name" in event}


def check_baseline(program: str, folder: str) -> None:
    """What is known does not fail, what does not come is told, and --strict fails on it."""
    base, words = os.path.join(folder, "base"), ["--runs", "24", "--program", program, "--profile", "few,edges"]
    known, gone = "munmap/-1 EINVAL/* # any range\n", "brk/* # gone\n"
    cases: list[tuple[str, list[str], int]] = [(known, [], 0), (known + gone, ["--strict"], 1), (gone, [], 1)]
    for text, more, wanted in cases:
        pathlib.Path(base).write_text(text)
        status, report = compared([*words, "--baseline", base, *more, "--", "munmap-past-end"], InProcess)
        if status != wanted or ("brk" in text) != ("did not come: brk/* # gone" in report):
            fail(f"--baseline with {text!r}: status {status}\n{report[-2000:]}")


def ran(command: str, words: list[str]) -> str:
    """What another command of the tools prints."""
    text = io.StringIO()
    with contextlib.redirect_stdout(text):
        parser, module = cli.parser_of(cli.COMMANDS[command])
        module.run(parser.parse_args(words))
    return text.getvalue()


def check_files(program: str, folder: str) -> None:
    """emit writes traces that --traces runs, JUnit's report is XML, and --coverage counts the rows of the tables."""
    kept, report = os.path.join(folder, "kept"), os.path.join(folder, "report.xml")
    ran("emit", ["--runs", "6", "--profile", "few,edges", kept])
    ran("emit", ["--runs", "2", "--generate", "30", kept])
    words = ["--program", program, "--traces", kept, "--junit", report, "--coverage", "--", "right"]
    status, text = compared(words, InProcess)
    has_row = re.search(r"^ +\d+  the range is cut out$", text, re.MULTILINE)
    if status or not text.endswith("8 traces, 0 differ\n") or not has_row:
        fail(f"--traces and --coverage: status {status}\n{text[-2000:]}")
    if ElementTree.parse(report).getroot().get("failures") != "0":
        fail(f"--junit: {pathlib.Path(report).read_text()}")


def check_threads(program: str) -> None:
    """What the program's threads do is legal, and what a wrong model does is found."""
    words = ["--threads", "3", "--runs", "12", "--lines", "12", "--program", program]
    status, text = compared([*words, "--", program, "threads"])
    if (status, text) != (0, "12 traces, 0 differ\n"):
        fail(f"--threads with the program: status {status}\n{text[-2000:]}")
    wrong = ["env", f"PYTHONPATH={TOOLS}:{TESTS}", sys.executable, "-m", "models.mutants", "from-below"]
    status, text = compared([*words, "--runs", "3", "--profile", "few", "--", *wrong])
    if status != 1 or "mmap: program legal, yours illegal: an address" not in text:
        fail(f"--threads with a wrong model: status {status}\n{text[-2000:]}")


def check_reports(program: str) -> None:
    began = time.monotonic()
    with tempfile.TemporaryDirectory() as folder:
        check_baseline(program, folder)
        check_files(program, folder)
    told("--baseline, emit, --traces, --junit and --coverage", began)
    began = time.monotonic()
    check_threads(program)
    told("--threads", began)


def check_statuses(program: str) -> None:
    """Wrong use and a missing program end with status 2 and a clear line, and what a system does wrong with 1."""
    began = time.monotonic()
    runs: list[tuple[list[str], int]] = [
        ([], 2),
        (["--runs", "0", "--", "true"], 2),
        (["--profile", "none", "--", "true"], 2),
        (["--", "no-such-command"], 2),
        (["--help"], 0),
        (["--no-suite", "--runs", "3", "--", "true"], 1),
        (["--no-suite", "--runs", "3", "--", "false"], 1),
        (["--no-suite", "--runs", "3", "--", "echo", "L2"], 1),
    ]
    vma, measure = os.path.join(TOOLS, "vma"), os.path.join(DEV, "measure")
    jobs: list[Job] = [(vma, ["compare", "--program", program, *words], wanted, "") for words, wanted in runs]
    jobs += [
        (os.path.join(TESTS, "run"), ["--program", "/no/program", name], 2, "rt run")
        for name in ("program", "compare", "judged_runs", "memory")
    ]
    jobs += [(measure, [what, "/no/program"], 2, "rt run") for what in ("runs", "faults", "sessions")]
    jobs += [
        (vma, ["compare", "--program", "/no/program", "--", "true"], 2, "rt run"),
        (measure, ["runs", "--only", "nosuch", program], 2, "nosuch"),
        (measure, ["runs", "--only", "many", "/bin/false"], 1, "status 1"),
        (vma, ["explain", "/no/trace"], 2, "/no/trace"),
        (vma, ["judge", "/no/trace", "/no/output"], 2, "/no/trace"),
    ]
    with ThreadPoolExecutor(max_workers=4) as pool:
        wrong = [why for why in pool.map(lambda job: wrong_status(*job), jobs) if why]
    if wrong:
        fail(wrong[0])
    told("exit statuses", began)


def wrong_status(tool: str, words: list[str], wanted: int, named: str) -> str | None:
    """What is wrong with the status of a tool, or with its line on standard error, if something is."""
    done = subprocess.run([sys.executable, tool, *words], capture_output=True, text=True)
    if done.returncode != wanted or named not in done.stderr or "Traceback" in done.stderr:
        return f"{tool} {' '.join(words)}: status {done.returncode}, and not {wanted}: {done.stderr[-500:]}"
    return None


def check_adapter() -> None:
    """The adapter of docs/COMPARE.md writes the form of an output."""
    for name in ("readme", "two-mappings"):
        front = os.path.join(programs.TOP, "examples", name)
        adapter = [sys.executable, os.path.join(programs.TOP, "examples/page-table")]
        done = subprocess.run(adapter, stdin=open(front + ".trace"), capture_output=True, text=True)
        if done.stdout != open(front + ".out").read():
            fail(f"examples/page-table on {name}.trace writes\n{done.stdout}{done.stderr}")


def add_arguments(parser: argparse.ArgumentParser) -> None:
    what = "traces on which the program is compared with itself (40)"
    parser.add_argument("--runs", type=int, default=40, metavar="N", help=what)


def check(options: argparse.Namespace) -> None:
    program: str = options.program
    check_itself(program, options.runs)
    check_model(program, 78)
    check_models()
    check_wrong(program)
    check_rules(program)
    check_kept(program)
    check_reports(program)
    check_adapter()
    check_statuses(program)
