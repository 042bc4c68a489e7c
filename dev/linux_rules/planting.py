"""Plants wrong rules in the definitions, one at a time, and tells which recorded traces notice: those whose answers the
definitions then compute otherwise. The definitions are evaluated in Python (evaluating.py), since the prover would take hours."""

from collections.abc import Callable, Sequence
from functools import lru_cache, partial
from itertools import islice
from pathlib import Path
from typing import Any

from . import statements
from .evaluating import Definitions, Function, chunks
from .planted import PLANTED, Planted
from .recordings import Recording, term

TOP = Path(__file__).resolve().parents[2]
SPECS = statements.CRATE / "specs"
NOTICING = 12  # of the traces that notice a wrong rule, the shortest


def changed(top: Path, planted: Planted) -> dict[str, str]:
    """The file of definitions with a wrong rule."""
    text = (top / SPECS / f"{planted.file}.antt").read_text(encoding="utf-8")
    if text.count(planted.old) != 1:
        raise ValueError(f"{planted.rule}: its text stands {text.count(planted.old)} times in {planted.file}.antt")
    return {planted.file: text.replace(planted.old, planted.new)}


@lru_cache(maxsize=None)
def unchanged(top: Path) -> Definitions:
    return Definitions(top)


@lru_cache(maxsize=None)
def values(kernel: str, steps: str) -> tuple[Any, Any]:
    """The kernel and the steps of a recording: no wrong rule changes what their words mean."""
    right = unchanged(TOP)
    return right.value(kernel), right.value(steps)


def values_of(recording: Recording) -> tuple[Any, Any]:
    return values(statements.kernel_term(recording), term(recording))


def is_noticed(definitions: Definitions, recording: Recording) -> bool:
    """Whether a trace's statement is false. Definitions that can't be evaluated any more make it false too."""
    try:
        kernel, steps = values_of(recording)
        here = definitions.replayed(kernel, steps)
    except (IndexError, KeyError, TypeError, RecursionError, UnboundLocalError):
        return True
    return bool(here != steps)


def changed_names(top: Path, planted: Planted) -> set[str]:
    """The definitions that a wrong rule changes."""
    old = set(chunks((top / SPECS / f"{planted.file}.antt").read_text(encoding="utf-8")))
    return {chunk.split(" ", 1)[0] for chunk in chunks(changed(top, planted)[planted.file]) if chunk not in old}


def itself(value: Any) -> Any:
    return value


def compared(here: Any, wrong: Callable[[], Any], note: Callable[[], None]) -> Any:
    """What a definition gives; it's noted where the wrong one gives something else."""
    try:
        other = wrong()
    except (IndexError, KeyError, TypeError, RecursionError, UnboundLocalError):
        note()
        return here
    if isinstance(here, Function):
        left = here.arity - len(here.given)
        return Function(left, lambda *more: compared(here(*more), lambda: other(*more), note))
    if here != other:
        note()
    return here


class Watched:
    """The definitions, with each wrong rule beside them: which of them make a difference to a trace."""

    def __init__(self, top: Path) -> None:
        self.differ: set[str] = set()
        hooks: dict[str, list[Callable[[dict[str, Any]], None]]] = {}
        for planted in PLANTED:
            hooks.setdefault(planted.file, []).append(self.hook(top, planted))
        self.definitions = Definitions(top, hooks=hooks)

    def hook(self, top: Path, planted: Planted) -> Callable[[dict[str, Any]], None]:
        wrong = Definitions(top, changed(top, planted))
        key = key_of(planted)

        def put(names: dict[str, Any]) -> None:
            for name in changed_names(top, planted):
                here = names[f"v_{name}"]
                there = wrong.file(planted.file)[f"v_{name}"]
                if isinstance(here, Function):
                    names[f"v_{name}"] = compared(here, partial(itself, there), partial(self.differ.add, key))
                else:
                    self.differ.add(key)

        return put

    def of(self, recording: Recording) -> set[str]:
        self.differ.clear()
        self.definitions.replayed(*values_of(recording))
        return set(self.differ)


def key_of(planted: Planted) -> str:
    return f"{planted.file}: {planted.old} -> {planted.new}"


def noticed(top: Path, recordings: Sequence[Recording]) -> dict[str, list[str]]:
    """The shortest traces that notice a wrong rule, by the rule."""
    watched = Watched(top)
    differ = {recording.name: watched.of(recording) for recording in recordings}
    shortest = sorted(recordings, key=lambda recording: (len(recording.trace.lines), recording.name))
    found = {}
    for planted in PLANTED:
        definitions, key = Definitions(top, changed(top, planted)), key_of(planted)
        noticing = (one.name for one in shortest if key in differ[one.name] and is_noticed(definitions, one))
        found[key] = list(islice(noticing, NOTICING))
    return found
