"""Checks that programs above mm_space do not compile: one that makes a Closed of its own, one that uses a pass that a closing
took, and one that makes a call with the pass of an area that it holds. Nor do two above mmap_lock that take the lock again while
they have it, at once or by a function that they call, which would wait for ever; nor mm_space with a fault that takes it twice.
Nor do two above node_slots that read a row on another count than the one that is handed: one that it begins, and a copy.

Each is a file of tests/checks/programs, made as a crate with one empty test in a copy of the repository, and compiled there
from the sources by `rt try`, which proves nothing. It has to refuse it for the reason that is named here, and to accept the
same program without the line in question. No edit of the gate can say this, since each of those has to compile.
"""

import re
import shutil
import tempfile
from concurrent.futures import ThreadPoolExecutor
from pathlib import Path

from checking import TOP, Options, fail, passed, run_kept
from vmatools.running import children

FOLDER = TOP / "tests/checks/programs"
# Each program of the folder, with a word of the reason for which it is refused; none for one that is accepted.
PROGRAMS = {
    "closes": None,
    "makes_a_closed": "private",
    "uses_a_pass_that_is_gone": "moved",
    "holds": None,
    "calls_while_it_holds": "moved",
    "reads_under_a_lock": None,
    "takes_a_lock_twice": "borrow",
    "reads_while_it_has_the_lock": "borrow",
    "takes_a_lock_twice_with_one_loan": "moved",
    "forges_a_token": "private",
    "reads_on_a_count": None,
    "begins_a_count_of_its_own": "borrow",
    "copies_a_count": "clone",
}
TESTED = "\n#[cfg(test)]\nmod tests {\n    #[test]\n    fn compiles() {}\n}\n"  # rt try asks for a test

# a file of mm_space, a line that stands in it once, and what stands in its place
TAKES_TWICE = (
    "crates/mm_space/src/space.rt",
    "        let path = Path::Slow(miss);\n",
    "        let path = Path::Slow(miss);\n        let _again = self.state.take(rt, Lent::of(&mut pass.unlocked));\n",
)


def libraries() -> str:
    """mm_space and all that it stands on, as crates.txt names them."""
    found = re.search(r"^mm_space\b[^:]*:(.*)$", (TOP / "crates.txt").read_text(), re.MULTILINE)
    if not found:
        fail("crates.txt", "has no mm_space")
    return f"{found[1].strip()} mm_space"


def write_all(copy: Path) -> None:
    """A copy of the repository, with a crate for each program."""
    shutil.copytree(TOP / "crates", copy / "crates", ignore=shutil.ignore_patterns("out"))
    shutil.copy(TOP / "HANDLES", copy)
    lines = "".join(f"{name}: {libraries()}\n" for name in PROGRAMS)
    (copy / "crates.txt").write_text((TOP / "crates.txt").read_text() + lines)
    for name in PROGRAMS:
        (copy / "crates" / name / "src").mkdir(parents=True)
        (copy / "crates" / name / "src/lib.rt").write_text((FOLDER / f"{name}.rt.txt").read_text() + TESTED)


def judge(copy: Path, name: str, reason: str | None) -> str | None:
    """What is wrong with the answer on a program, or nothing."""
    status, said = run_kept(["rt", "try", "--test"], cwd=copy / "crates" / name)
    if reason is None and status:
        return f"was refused:\n{said[-4000:]}"
    if reason is not None and (status == 0 or reason not in said):
        return f"was not refused as {reason}:\n{said[-4000:]}"
    return None


def check(_options: Options) -> None:
    with tempfile.TemporaryDirectory() as folder:
        copy = Path(folder)
        write_all(copy)
        with ThreadPoolExecutor(max_workers=3) as pool:
            work = {name: pool.submit(judge, copy, name, reason) for name, reason in PROGRAMS.items()}
            try:
                for name, answer in work.items():
                    if wrong := answer.result():
                        fail(name, wrong)
                    passed(f"{name}, {'refused' if PROGRAMS[name] else 'accepted'}")
            finally:
                children.stop_work(work.values())
        check_lock(copy)


def check_lock(copy: Path) -> None:
    """A fault that takes the lock twice is refused."""
    file, old, new = TAKES_TWICE
    path = copy / file
    text = path.read_text()
    if text.count(old) != 1:
        fail(file, f"does not have that line once:\n{old}")
    path.write_text(text.replace(old, new))
    wrong = judge(copy, "holds", "borrow")  # a program that stands on it: mm_space has no test of its own
    if wrong:
        fail("a fault takes the lock twice", wrong)
    passed("a fault takes the lock twice, refused")
