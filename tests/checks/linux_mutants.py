"""Rules of Linux's model, each changed a little: what a wrong rule would be. The recorded vectors have to notice it."""

import importlib
import re
import shutil
import sys
import tempfile
import types
from collections.abc import Callable, Iterator
from contextlib import contextmanager
from pathlib import Path
from typing import NamedTuple

import vmatools.linux
from vmatools.linux.kernel import Kernel
from vmatools.profile.serial import AnySpace, serial_output
from vmatools.traces import Trace

SOURCE = Path(vmatools.linux.__file__).parent
NAME = "vmatools.mutated"


class Mutant(NamedTuple):
    """A rule, the module that has it, the text there, and what stands in its place."""

    rule: str
    module: str
    old: str
    new: str


def mutants() -> list[Mutant]:
    """Those of the file beside this one, which says its form."""
    text = Path(__file__).with_suffix(".txt").read_text(encoding="utf-8")
    found = []
    for part in re.split(r"^== ", text, flags=re.MULTILINE)[1:]:
        rule, module, rest = part.rstrip("\n").split("\n", 2)
        old, new = re.split(r"^->\n?", rest + "\n", flags=re.MULTILINE)
        found.append(Mutant(rule, module, old.removesuffix("\n"), new.removesuffix("\n")))
    return found


MUTANTS = mutants()


@contextmanager
def changed(mutant: Mutant | None) -> Iterator[Callable[[Trace, Kernel], str]]:
    """The outputs of a model in which a rule is changed. Its package is a copy, under a name of its own."""
    with tempfile.TemporaryDirectory() as folder:
        copy = Path(folder, "mutated")
        shutil.copytree(SOURCE, copy, ignore=shutil.ignore_patterns("__pycache__"))
        if mutant:
            path = copy / f"{mutant.module}.py"
            text = path.read_text(encoding="utf-8")
            if text.count(mutant.old) != 1:
                raise ValueError(f"{mutant.rule}: {mutant.module} has its text {text.count(mutant.old)} times")
            path.write_text(text.replace(mutant.old, mutant.new), encoding="utf-8")
        package = types.ModuleType(NAME)
        package.__path__ = [str(copy)]
        sys.modules[NAME] = package
        try:
            space = importlib.import_module(f"{NAME}.space").LinuxSpace

            def output(trace: Trace, kernel: Kernel) -> str:
                def first(trace: Trace) -> AnySpace:
                    made: AnySpace = space(trace, kernel)
                    return made

                return serial_output(trace, first)

            yield output
        finally:
            for name in [name for name in sys.modules if name == NAME or name.startswith(NAME + ".")]:
                del sys.modules[name]
