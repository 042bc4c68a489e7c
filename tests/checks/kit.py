"""Compares the logic of the Rattle kit that is here with the file kit-version, before an hour of proving.

Kits of the same logic accept the same proofs, whatever their letter. A kit of another logic is named. Where no kit is
installed that is said, and passed.
"""

import re
import shutil
import subprocess

from checking import TOP, Options, fail, passed, skipped


def check_logic(wanted: str, told: str) -> None:
    """The line of `rt version` has the logic that is wanted."""
    found = re.search(r"\blogic (\S+)", told)
    if found is None:
        fail("the kit", f"`rt version` says {told.strip()[:200]!r}, which names no logic")
    if found[1] != wanted:
        fail("the kit", f"its logic is {found[1]} ({told.split()[0]}), and kit-version has {wanted}: another kit is needed")
    passed(f"the kit, whose logic is {wanted}")


def check(_options: Options) -> None:
    if shutil.which("rt") is None:
        return skipped("the kit", "rt is not installed")
    told = subprocess.run(["rt", "version"], capture_output=True, text=True).stdout
    check_logic((TOP / "kit-version").read_text(encoding="utf-8").strip(), told)
