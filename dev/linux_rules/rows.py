"""Rows of docs/KERNEL.md as theorems: what the profile answers and what Linux answers, by version, both computed."""

import contextlib
import re
from collections.abc import Sequence
from dataclasses import dataclass, replace
from pathlib import Path

from vmatools.linux.areas import NotModelled
from vmatools.linux.kernel import Kernel, Settings, kernel_of
from vmatools.linux.versions import table, text_of
from vmatools.oracles import PROFILE, Oracle
from vmatools.systems.rows import ON_DISK, read_rows
from vmatools.traces import Trace, read_trace

from . import statements, terms
from .recordings import Recording, term

CRATE = Path("crates/linux_beside")
PROFILE_MIN = 0x10000
RECORDED = "6.18.44"
GROUP = 16  # rows of one file
# Rows of which the profile's answer isn't computed: its search goes over all pages, and finds nothing near the top.
NOT_SEARCHED = {"overcommit", "overcommit_mprotect", "overcommit_brk", "mremap_too_long"}


@dataclass(frozen=True)
class Row:
    """A row: the profile's answer, and that of each version."""

    name: str
    profile: Recording
    linux: dict[str, Recording]

    @property
    def title(self) -> str:
        return "".join(word.capitalize() for word in self.name.split("_"))


def kernels(name: str) -> list[Kernel]:
    """The kernels of all versions, on the machine on which the rows were recorded."""
    settings = Settings(memory=6170807, huge="madvise", files="disk" if name in ON_DISK else "memory")
    return [kernel_of(text_of(version), settings) for version in table()]


def answered(name: str, trace: Trace, kernel: Kernel) -> Recording | None:
    """What the model answers to a trace, if it says."""
    version = text_of(kernel.version)
    with contextlib.suppress(NotModelled):
        return Recording(name, version, kernel.settings, trace, Oracle(kernel).output(trace))
    return None


def read(file: Path) -> list[Row]:
    """The rows whose recorded answer the model gives: the others tell of the process that made the calls."""
    rows = []
    for row in read_rows(file)[1]:
        trace, name = read_trace(row.trace.encode()), row.name.replace("-", "_")
        found = [answered(name, trace, kernel) for kernel in kernels(row.name)]
        linux = {recording.version: recording for recording in found if recording}
        if RECORDED not in linux or linux[RECORDED].output != row.there:
            continue
        settings = replace(linux[RECORDED].settings, min=PROFILE_MIN)
        rows.append(Row(name, Recording(name, "profile", settings, trace, PROFILE.output(trace)), linux))
    return rows


def answers(row: Row) -> dict[str, str]:
    """The lists of steps by their names: the profile's, that of Linux as recorded, and those of versions that differ."""
    found = {} if row.name in NOT_SEARCHED else {f"{row.name}_by_profile": term(row.profile)}
    found[f"{row.name}_by_linux"] = term(row.linux[RECORDED])
    for version, recording in row.linux.items():
        text = term(recording)
        if text != found[f"{row.name}_by_linux"] and text not in found.values():
            found[f"{row.name}_by_{statements.rules_name(version)}"] = text
    return found


def clauses(row: Row, named: dict[str, str]) -> list[str]:
    """What a row says: a field for the profile, and one for each version."""
    names = {text: name for name, text in reversed(named.items())}
    config = statements.configuration(row.profile)
    lines = [] if row.name in NOT_SEARCHED else [f"  pub profile : IsByProfile ({config}) {row.name}_by_profile"]
    for version, recording in row.linux.items():
        rules = statements.rules_name(version)
        on_disk = terms.boolean(recording.settings.files == "disk")
        kernel = f"on_the_machine {rules} {on_disk} ({statements.configuration(recording)})"
        lines.append(f"  pub {rules} : IsAsRecorded ({kernel}) {names[term(recording)]}")
    return lines


def row_text(row: Row) -> str:
    """A row's definitions."""
    named = answers(row)
    lists = [f"-- {row.name}\nabbrev pub {name} : List Step\n{name} =\n    {text}\n" for name, text in named.items()]
    head = [f"-- {row.name}: what the profile answers, and Linux", f"pub record {row.title} : Type 0 where"]
    return "\n".join([*lists, *head, *clauses(row, named), ""])


def uses(top: Path, text: str) -> list[str]:
    names = ", ".join(statements.step_words(top))
    rules = ", ".join(dict.fromkeys(statements.rules_name(text_of(version)) for version in table()))
    lines = [
        "Rattle.std.specs.Prelude.{List, ◌∷◌, [], true, false, pos, negsuc, Some, None, Ok, Err}",
        "Rattle.mm_types.specs.declared.area.Access.TheVariants.{Read, Write, Exec}",
        "Rattle.linux_rules.specs.declared.verdict.LinuxVerdict.TheVariants.{MapErr, AccErr, PkuErr, BusErr, NotCanonical}",
        f"Rattle.linux_rules.specs.Versions.{{{rules}}}",
        f"Rattle.linux_rules.specs.Steps.{{{names}}}",
        "Rattle.linux_rules.specs.Recorded.{IsAsRecorded}",
        "Rattle.linux_beside.specs.Sides.{IsByProfile, on_the_machine}",
    ]
    return statements.imported(text, lines)


def groups(rows: Sequence[Row]) -> list[tuple[str, Sequence[Row]]]:
    """The rows in files of some each."""
    return [(f"Rows{place // GROUP + 1}", rows[place : place + GROUP]) for place in range(0, len(rows), GROUP)]


def spec(top: Path, name: str, rows: Sequence[Row]) -> str:
    text = "\n".join(row_text(row) for row in rows)
    fields = "\n".join(f"  pub {row.name} : {row.title}" for row in rows)
    text += f"\n-- all rows of this file\npub record All{name} : Type 0 where\n{fields}\n"
    head = "-- Rows of docs/KERNEL.md. Made by dev/make-linux-rules from examples/kernel-rows.txt.\n"
    return head + "\n".join(uses(top, text)) + "\n\n" + text


def proof(top: Path, name: str, rows: Sequence[Row]) -> str:
    """Both sides of each row are computed."""
    opened = " ".join(statements.unfoldable(top, ("area_list", "area_rules", "linux_rules")))
    lines = [
        "-- Rows of docs/KERNEL.md are computed. Made by dev/make-linux-rules.",
        "use Rattle.std.specs.Prelude.{refl}",
        f"use Rattle.linux_beside.specs.{name}.{{All{name}}}",
    ]
    parts = []
    for row in rows:
        fields = [re.split(r"[ :]+", line.strip())[1] for line in clauses(row, answers(row))]
        parts.append(f"{row.name} = record {{ {'; '.join(f'{field} = refl' for field in fields)} }}")
    law = f"all_{name.lower()}"
    lines += ["", f"pub {law} : All{name}", f"unfolding {opened}", f"{law} = record {{"]
    return "\n".join([*lines, *[f"  {part};" for part in parts], "}", ""])


def contract(names: Sequence[str]) -> str:
    """The laws that have the rows as their clauses."""
    lines = ["//! Rows of docs/KERNEL.md, by both sides. Made by dev/make-linux-rules.", ""]
    lines += [f"ghost use Rattle.linux_beside.specs.{name}.{{All{name}}};" for name in names]
    lines += ["", "/// Rows of docs/KERNEL.md: what the profile answers, and what Linux answers, by version."]
    lines += ["pub fn rows_are_computed()"]
    lines += [f"    ensures {name.lower()} {{ All{name} }}" for name in names]
    return "\n".join([*lines, "{}", ""])


def law_answer(names: Sequence[str]) -> str:
    lines = ["-- For `rows_are_computed`: its goals."]
    lines += [f"use Rattle.linux_beside.proofs.{name}.{{all_{name.lower()}}}" for name in names]
    lines += ["use Rattle.linux_beside.proofs.rows.rows_are_computed.Goals as goal"]
    for name in names:
        goal = f"returns-clause-{name.lower()}"
        lines += ["", f"pub {goal} : goal.{goal}", f"{goal} c = all_{name.lower()}"]
    return "\n".join([*lines, ""])


def standing(top: Path) -> set[str]:
    """The names of the rows that are theorems."""
    texts = [file.read_text(encoding="utf-8") for file in (top / CRATE / "specs").glob("Rows*.antt")]
    return {name for text in texts for name in re.findall(r"^-- (\w+): what the profile answers", text, re.M)}


def files(top: Path, only: set[str] | None = None) -> dict[Path, str]:
    """All files that are made of the rows, or of some of them."""
    wanted = read(top / "examples" / "kernel-rows.txt")
    found = groups([row for row in wanted if only is None or row.name in only])
    names = [name for name, _ in found]
    made = {CRATE / "src" / "rows.rt": contract(names)}
    made[CRATE / "proofs" / "rows" / "rows_are_computed" / "Answers.antt"] = law_answer(names)
    for list_file in (CRATE / "specs/Lib.antt", CRATE / "proofs/Lib.antt"):
        made[list_file] = statements.modules(top / list_file, names)
    for name, rows in found:
        made[CRATE / "specs" / f"{name}.antt"] = spec(top, name, rows)
        made[CRATE / "proofs" / f"{name}.antt"] = proof(top, name, rows)
    return made
