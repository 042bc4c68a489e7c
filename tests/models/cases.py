"""Cases of the suite: what is wrong with their traces, and what has to be beside a trace.

Beside NAME.trace is NAME.out, what `serial` gives for it. In the group `threads`, NAME.legal has each legal output. Where
Linux answers otherwise, NAME.linux has what kernels answered.
"""

import re
from collections.abc import Iterator, Mapping
from pathlib import Path

from vmatools import model, traces
from vmatools.console import Failure
from vmatools.linux.recorded import PART
from vmatools.profile import serial
from vmatools.running import program

MOST_LINES = 12
SECONDS = 60
WITH_THREADS = "threads"  # the group
# A sentence begins with a capital or the name of a call, and with no word that goes on from another one. Its page ends it.
SENTENCE = re.compile(
    r"# (?!(?:And|Also|It|Its|Neither is|Nor|Not|One that|Or|So|Such|The same|There|They)\b)(?:[A-Z]|m[a-z]+ ).*: .*\."
)


def where(path: Path) -> str:
    return f"{path.parent.name}/{path.stem}"


# Traces


def faults_of(texts: Mapping[str, str]) -> Iterator[str]:
    """What is wrong with traces, by their names: no sentence, a sentence or a trace twice, too many lines."""
    bodies: dict[tuple[str, ...], str] = {}
    sentences: dict[str, str] = {}
    for name, text in texts.items():
        header, says, *lines = [*text.splitlines(), "", ""][: max(text.count("\n"), 2)]
        if not SENTENCE.fullmatch(says):
            yield f"{name}: line 2, `{says}`, is no `# SENTENCE: PAGE.` that can be read alone"
        elif sentences.setdefault(says, name) != name:
            yield f"{name}: says what {sentences[says]} does"
        if bodies.setdefault((header, *lines), name) != name:
            yield f"{name}: repeats {bodies[header, *lines]}"
        if text.count("\n") > MOST_LINES:
            yield f"{name}: has {text.count(chr(10))} lines, and not {MOST_LINES} at most"


def orders(lines: list[traces.Line]) -> Iterator[list[traces.Line]]:
    """Each order of the lines in which those of a thread are in theirs, and each is behind the line that it names."""
    if not lines:
        yield []
    for place, line in enumerate(lines):
        is_next = all(other.thread != line.thread for other in lines[:place])
        is_told = line.after is None or all(other.number != line.after for other in lines)
        if is_next and is_told:
            for rest in orders(lines[:place] + lines[place + 1 :]):
                yield [line, *rest]


def legal_outputs(trace: traces.Trace) -> list[str]:
    """Each legal output of a small trace once, that of `serial` first."""
    found: dict[str, None] = {}
    for order in orders(list(trace.lines)):
        run = serial.Run(model.Space(trace))
        for line in order:
            run.step(line)
        found["".join(f"{text}\n" for text in run.lines())] = None
    return list(found)


def beside(program_path: str, path: Path) -> dict[Path, str]:
    """What has to be beside a trace, by its file."""
    data = path.read_bytes()
    try:
        trace = traces.read_trace(data)
    except traces.BadLine as bad:
        raise Failure(f"{path}: {bad}") from None
    ran = program.run([program_path, "serial"], data, SECONDS)
    if ran.fault:
        raise Failure(f"{path}: the program {ran.fault}: {ran.message.strip()}")
    made = {path.with_suffix(".out"): ran.output}
    if path.parent.name == WITH_THREADS:
        made[path.with_suffix(".legal")] = PART.join(legal_outputs(trace))
    return made
