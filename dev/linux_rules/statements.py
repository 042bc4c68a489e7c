"""Recorded traces as statements that the prover computes: the files Linux_VERSION of crates/linux_rules."""

import re
from collections.abc import Iterable, Sequence
from pathlib import Path

from vmatools.linux.kernel import Settings

from . import terms
from .recordings import Recording, term

CRATE = Path("crates/linux_rules")
PRELUDE = "List, ◌∷◌, [], Bool, true, false, pos, negsuc, Option, Some, None, Ok, Err"
USES = [
    f"Rattle.std.specs.Prelude.{{{PRELUDE}}}",
    "Rattle.mm_types.specs.declared.area.Access.TheVariants.{Read, Write, Exec}",
    "Rattle.linux_rules.specs.declared.kernel.Kernel.{Kernel}",
    "Rattle.linux_rules.specs.declared.kernel.Machine.{Machine}",
    "Rattle.linux_rules.specs.declared.kernel.Vsyscall.TheVariants.{Absent, Xonly, Emulate}",
    "Rattle.linux_rules.specs.declared.verdict.LinuxVerdict.TheVariants.{MapErr, AccErr, PkuErr, BusErr, NotCanonical}",
]
TOP, LIMIT = 0x7FFFF7FFF000, 65530
VSYSCALL = {"none": "Absent", "xonly": "Xonly", "emulate": "Emulate"}
WORDS = re.compile(r"[\w◌∷]+")
MADE = re.compile(r"(?:pub )?mod (?:Linux_|Rows)[0-9]")  # a line of a module that is made


def rules_name(version: str) -> str:
    """The definition that has the rules of a version of the table: `linux_6_18` for the newest of its series."""
    major, minor, patch = version.split(".")
    return "linux_6_18_15" if version == "6.18.15" else f"linux_{major}_{minor}"


def module_name(version: str) -> str:
    return rules_name(version).replace("linux", "Linux")


def machine(settings: Settings) -> str:
    """A machine, as a term."""
    return (
        f"record {{ lowest_built = {settings.built // 4096}; memory = {settings.memory}; stack = {settings.stack};"
        f" has_keys = {terms.boolean(settings.keys)}; huge_always = {terms.boolean(settings.huge == 'always')};"
        f" files_are_huge = {terms.boolean(settings.files == 'disk')}; vsyscall = {VSYSCALL[settings.vsyscall]} }}"
    )


def configuration(recording: Recording) -> str:
    """What the trace sets."""
    settings = recording.trace.settings
    files = terms.listed([terms.file_row(file) for file in recording.trace.files])
    heap = settings.get("heap", 0) // 4096 * 4096
    lowest, top = settings.get("min", recording.settings.min), settings.get("top", TOP)
    return f"config {lowest} {top} {settings.get('limit', LIMIT)} {heap} ({files})"


def kernel_term(recording: Recording) -> str:
    """The kernel that answered, as a term."""
    rules = rules_name(recording.version)
    return f"record {{ rules = {rules}; machine = {machine(recording.settings)}; config = {configuration(recording)} }}"


def statement(recording: Recording) -> str:
    """The kernel that answered a trace, and the steps."""
    return (
        f"-- {recording.name}: the kernel\nabbrev pub {recording.name}_on : Kernel\n"
        f"{recording.name}_on = {kernel_term(recording)}\n\n"
        f"-- {recording.name}: its answers\nabbrev pub {recording.name} : List Step\n{recording.name} =\n    {term(recording)}\n"
    )


def imported(text: str, lines: Iterable[str]) -> list[str]:
    """The lines of `use`, with what a text has of their names."""
    words = set(WORDS.findall(text))
    symbols = {"◌∷◌": "∷", "[]": "[]", "◌×◌": "×"}
    kept = []
    for line in lines:
        front, names = line.rstrip("}").split("{")
        used = [name for name in names.split(", ") if (symbols[name] in text if name in symbols else name in words)]
        kept += [f"use {front}{{{', '.join(used)}}}"] if used else []
    return kept


def step_words(top: Path) -> list[str]:
    """The words of recorded traces."""
    text = (top / CRATE / "specs" / "Steps.antt").read_text(encoding="utf-8")
    found = re.findall(r"^(?:abbrev pub|pub record|  )(?: ?)([A-Za-z_]+) (?::|\(|.*: Type 0 where$)", text, re.M)
    return list(dict.fromkeys(found))


def spec(version: str, recordings: Sequence[Recording], top: Path) -> str:
    """The statements of one version."""
    bodies = [statement(recording) for recording in recordings]
    names = [recording.name for recording in recordings]
    whole = "\n".join(
        [
            f"-- The definitions answer all of these traces as Linux {version} did.",
            f"pub record AllOf{module_name(version)} : Type 0 where",
            *[f"  pub {name}_holds : IsAsRecorded {name}_on {name}" for name in names],
            "",
        ]
    )
    text = "\n".join([*bodies, whole])
    uses = [
        *USES,
        f"Rattle.linux_rules.specs.Versions.{{{rules_name(version)}}}",
        f"Rattle.linux_rules.specs.Steps.{{{', '.join(step_words(top))}}}",
        "Rattle.linux_rules.specs.Recorded.{IsAsRecorded}",
    ]
    head = f"-- What Linux {version} answered to {len(recordings)} traces. Made by dev/make-linux-rules from suite/.\n"
    return head + "\n".join(imported(text, uses)) + "\n\n" + text


def unfoldable(top: Path, crates: Sequence[str] = ("linux_rules",)) -> list[str]:
    """What a computation opens."""
    names = ["Rattle.mm_types.specs.Records.holds_all"]
    for crate in crates:
        folder = top / "crates" / crate / "specs"
        for file in sorted(folder.rglob("*.antt")):
            found = re.findall(r"^unfoldable pub (\S+) :", file.read_text(encoding="utf-8"), re.M)
            module = ".".join(file.relative_to(folder).with_suffix("").parts)
            names += [f"Rattle.{crate}.specs.{module}.{name}" for name in found]
    return names


def proof(version: str, recordings: Sequence[Recording], top: Path) -> str:
    """The proof: all is computed."""
    module, law = module_name(version), f"all_of_{rules_name(version)}"
    lines = [
        f"-- The traces of Linux {version} are computed. Made by dev/make-linux-rules.",
        "use Rattle.std.specs.Prelude.{refl}",
        f"use Rattle.linux_rules.specs.{module}.{{AllOf{module}}}",
        "",
        f"pub {law} : AllOf{module}",
        f"unfolding {' '.join(unfoldable(top))}",
        f"{law} = record {{",
        *[f"  {recording.name}_holds = refl;" for recording in recordings],
        "}",
        "",
    ]
    return "\n".join(lines)


def contract(versions: Sequence[str]) -> str:
    """The laws that have the statements as their clauses."""
    lines = ["//! What kernels answered to recorded traces, which the definitions compute. Made by dev/make-linux-rules.", ""]
    lines += [f"ghost use Rattle.linux_rules.specs.{module_name(each)}.{{AllOf{module_name(each)}}};" for each in versions]
    for each in versions:
        lines += [
            "",
            f"/// The definitions answer the traces of suite/ that stand in specs/{module_name(each)}.antt as",
            f"/// Linux {each} did: each call, fault and list.",
            f"pub fn {rules_name(each)}_is_as_recorded()",
            f"    ensures {{ AllOf{module_name(each)} }}",
            "{}",
        ]
    return "\n".join([*lines, ""])


def law_answer(version: str) -> str:
    """The answer to the goal of a version's law."""
    law = f"{rules_name(version)}_is_as_recorded"
    return (
        f"-- For `{law}`: its goal.\n"
        f"use Rattle.linux_rules.proofs.{module_name(version)}.{{all_of_{rules_name(version)}}}\n"
        f"use Rattle.linux_rules.proofs.recorded.{law}.Goals as goal\n\n"
        f"pub returns : goal.returns\nreturns c = all_of_{rules_name(version)}\n"
    )


def modules(file: Path, names: Iterable[str]) -> str:
    """A crate's list of modules, in which these stand in place of those that were made before."""
    lines = file.read_text(encoding="utf-8").splitlines()
    is_made = [bool(MADE.match(line)) for line in lines]
    place = is_made.index(True) if any(is_made) else len(lines)
    kept = [line for line, made in zip(lines, is_made) if not made]
    public = "pub " if file.parent.name == "specs" else ""
    return "\n".join([*kept[:place], *(f"{public}mod {name}" for name in names), *kept[place:], ""])


def files(top: Path, recorded: dict[str, Sequence[Recording]]) -> dict[Path, str]:
    """All files that are made, by their paths below the repository."""
    versions = list(recorded)
    made = {CRATE / "src" / "recorded.rt": contract(versions)}
    for list_file in (CRATE / "specs/Lib.antt", CRATE / "proofs/Lib.antt"):
        made[list_file] = modules(top / list_file, map(module_name, versions))
    for each, recordings in recorded.items():
        folder = CRATE / "proofs" / "recorded" / f"{rules_name(each)}_is_as_recorded"
        made[CRATE / "specs" / f"{module_name(each)}.antt"] = spec(each, recordings, top)
        made[CRATE / "proofs" / f"{module_name(each)}.antt"] = proof(each, recordings, top)
        made[folder / "Answers.antt"] = law_answer(each)
    return made
