"""Which recorded traces become statements: of each version those that tell most, by the planted wrong rules that they
notice, what is answered, and which other versions answer otherwise; and one for each such rule that these don't notice. They
stand in the folder chosen, a file a version."""

import contextlib
import gzip
import re
from collections import Counter
from collections.abc import Iterator, Sequence
from dataclasses import replace
from pathlib import Path

from vmatools.linux.areas import NotModelled
from vmatools.linux.kernel import Kernel, kernel_of
from vmatools.linux.versions import table, text_of
from vmatools.oracles import Oracle
from vmatools.outputs import parts_of
from vmatools.traces import Trace, read_trace

from . import planting, suite
from .recordings import Recording, is_of_the_process, is_sayable

CHOSEN = Path(__file__).with_name("chosen")
MOST = 40
KERNEL = re.compile(r"^# (linux-.*)\n", re.M)
NAMED = re.compile(r"^== (\S+)\n", re.M)
ANSWER = "-- answer\n"


def recording(name: str, text: str, answer: str, kernel: Kernel) -> Recording:
    """A recorded trace as a statement has it."""
    name = name.replace("-", "_").replace("/", "_")
    return Recording(name, text_of(kernel.version), kernel.settings, read_trace(text.encode()), answer, text)


def recorded(top: Path, version: str, folder: Path) -> Iterator[Recording]:
    """What a version was recorded to answer: the cases of the suite, and its vectors."""
    if version in suite.RECORDED:
        for name, text, answer in suite.cases(top, version):
            yield recording(name, text, answer, suite.kernel(version))
    if (folder / version / "vectors.gz").is_file():
        yield from read_file(folder / version / "vectors.gz")


def kernel_named(words: str) -> Kernel:
    """The kernel that some words name, as `linux-6.18.44 keys=1`."""
    name, *settings = words.split()
    kernel = kernel_of(name.removeprefix("linux-"))
    return replace(kernel, settings=kernel.settings.changed(settings))


def read_file(file: Path) -> Iterator[Recording]:
    """The recordings of a file: below a line with a kernel each its name, its trace and the answer."""
    head, *pieces = NAMED.split(gzip.decompress(file.read_bytes()).decode())
    words = ""
    for name, text in zip(pieces[::2], pieces[1::2]):
        named = KERNEL.findall(head)
        words = named[-1] if named else words
        trace, answer = text.split(ANSWER)
        yield recording(name, trace, KERNEL.sub("", answer), kernel_named(words))
        head = text


def written(recordings: Sequence[Recording]) -> bytes:
    """A file of recordings, the same bytes for the same ones."""
    parts = []
    for one in recordings:
        words = replace(kernel_of(one.version), settings=one.settings).words()
        parts.append(f"# {words}\n== {one.name}\n{one.text}{ANSWER}{one.output}")
    return gzip.compress("".join(parts).encode(), 9, mtime=0)


def chosen() -> dict[str, Sequence[Recording]]:
    """The recordings of each version that are chosen."""
    files = {text_of(version): CHOSEN / f"{text_of(version)}.gz" for version in table()}
    return {version: list(read_file(file)) for version, file in files.items() if file.is_file()}


def output(trace: Trace, kernel: Kernel) -> str | None:
    """What the model answers, if it says."""
    with contextlib.suppress(NotModelled):
        return Oracle(kernel).output(trace)
    return None


def features(one: Recording) -> Iterator[object]:
    """What a recorded trace tells, planted rules apart."""
    words = {line.number: line.word for line in one.trace.lines}
    for part in parts_of(one.output):
        if part.number is not None:
            kind = "an address" if part.result.startswith("0x") else part.result.split(" page")[0].split(" ", 1)[-1]
            yield words[part.number], kind if "-" not in kind[:14] else "served"
    for version in table():
        if output(one.trace, kernel_of(text_of(version), one.settings)) not in (None, one.output):
            yield version


def best(told: dict[str, set[object]]) -> list[str]:
    """The names of those that tell most together: what few of the chosen tell counts most."""
    count: Counter[object] = Counter()
    names: list[str] = []
    while len(names) < min(MOST, len(told)):
        left = [name for name in sorted(told) if name not in names]
        name = max(left, key=lambda name: sum(4.0 ** -count[feature] for feature in told[name]))
        names.append(name)
        count.update(told[name])
    return sorted(names)


def completed(names: list[str], rules: dict[str, list[str]]) -> list[str]:
    """These, and of each wrong rule that none of them notices the shortest that does."""
    for noticing in rules.values():
        if noticing and not set(noticing) & set(names):
            names = [*names, noticing[0]]
    return sorted(names)


def told_by(found: Sequence[Recording], rules: dict[str, list[str]]) -> dict[str, set[object]]:
    """What each recorded trace tells."""
    told: dict[str, set[object]] = {one.name: set(features(one)) for one in found}
    for rule, names in rules.items():
        for name in names:
            told[name].add(rule)
    return told


def of_the_kernel(recordings: Iterator[Recording]) -> list[Recording]:
    """Those whose answers tell of the kernel alone, that terms can say, and that the definitions answer when evaluated."""
    return [
        one
        for one in recordings
        if not is_of_the_process(one.trace)
        and is_sayable(one)
        and not planting.is_noticed(planting.unchanged(planting.TOP), one)
        and output(one.trace, kernel_of(one.version, one.settings)) == one.output
    ]


def choose(top: Path, folder: Path, versions: Sequence[str]) -> None:
    """Chooses the recordings anew, of these versions or of all."""
    CHOSEN.mkdir(exist_ok=True)
    for version in versions or [text_of(version) for version in table()]:
        found = of_the_kernel(recorded(top, version, folder))
        rules = planting.noticed(planting.TOP, found)
        names = completed(best(told_by(found, rules)), rules)
        if names:
            (CHOSEN / f"{version}.gz").write_bytes(written([one for one in found if one.name in names]))
