"""Writes an adapter that runs: a small address space in Python, C, Rust or Go, in whose place your system comes.

FOLDER gets the adapter and, but in Python, the file that reads traces and writes the results, which depends on nothing. The
adapter is one of examples/batch, a sorted list of VMAs, and passes all cases of the suite that it has the calls for. The one in
Python imports vmatools: one on PYTHONPATH or an installed one, else that of the tools which wrote it.

Exit status: 0 if the files are written, 2 on wrong use, or if one of them is there already.
"""

import argparse
import os
import shlex
from contextlib import ExitStack, closing
from dataclasses import dataclass
from pathlib import Path

from .. import console
from ..running import program

SUMMARY = "write an adapter that runs, in whose place your system comes"
EXAMPLES = program.TOP / "examples/batch"
OWN_PLACE = """from pathlib import Path

sys.path.insert(0, str(Path(__file__).resolve().parents[2] / "tools"))  # where vmatools is, if it isn't installed
"""  # where the example in Python finds the tools
PLACE = """
sys.path.append({!r})  # where vmatools was when this was written; one on PYTHONPATH, or installed, comes before it
"""  # and where the written one does: it runs at once, and wherever it goes


@dataclass(frozen=True)
class Language:
    """Its files, and the command that makes a program of them, if one does."""

    files: tuple[str, ...]
    build: str = ""


LANGUAGES = {
    "python": Language(("adapter.py",)),
    "c": Language(("adapter.c", "vma_adapter.h"), "cc -O2 -o adapter adapter.c"),
    "rust": Language(("adapter.rs", "vma_adapter.rs"), "rustc -O --edition 2021 -o adapter adapter.rs"),
    "go": Language(("adapter.go", "vma_adapter.go"), "go build -o adapter adapter.go vma_adapter.go"),
}


def add_arguments(parser: argparse.ArgumentParser) -> None:
    parser.add_argument("language", metavar="LANGUAGE", choices=LANGUAGES, help=", ".join(LANGUAGES))
    parser.add_argument("folder", metavar="FOLDER", type=Path, help="where the files come; it is made if it isn't there")


def run(options: argparse.Namespace) -> int:
    language = LANGUAGES[options.language]
    console.make_folder(options.folder)
    for name in language.files:
        if os.path.lexists(options.folder / name):
            raise console.Failure(f"{options.folder / name}: it is there already")
    place = PLACE.format(str(Path(program.__file__).resolve().parents[2]))
    with ExitStack() as stack:
        files = [stack.enter_context(closing(console.NewFile(options.folder / name))) for name in language.files]
        for file, name in zip(files, language.files):
            file.stream.write((EXAMPLES / name).read_text(encoding="utf-8").replace(OWN_PLACE, place))
            file.stream.flush()
        for file in files:  # all are whole, or none is there
            file.take_place()
    made = "./adapter.py" if options.language == "python" else "./adapter"
    if options.language == "python":
        (options.folder / "adapter.py").chmod(0o755)
    print("\n".join(next_steps(options.folder, language, made)))
    return console.DONE


def next_steps(folder: Path, language: Language, made: str) -> list[str]:
    lines = [f"{folder / name}" for name in language.files]
    vma = program.TOP / "tools/vma"
    vma_word = str(vma) if vma.exists() else "vma"
    build = [f"  {language.build}"] if language.build else []
    vma_words = [f"  {shlex.join([vma_word, name, '--batch', '--', made])}" for name in ("conform", "compare")]
    return [*lines, "", f"In {folder}:", *build, *vma_words]
