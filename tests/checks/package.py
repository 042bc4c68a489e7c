"""Makes the packages twice, and runs the tools from one that is unpacked into an empty folder.

Nothing of the checkout is on a path then. Both times the files have to be the same byte by byte. From the package run conform
on all cases, compare, explain, draw, new-adapter and man. The completion is one that bash and zsh take. `pip install .` gives
the tools and the suite. Where this is root and may mount, apt-get installs the package over a copy of this system, and
removes it again.
"""

import importlib.util
import os
import shutil
import subprocess
import sys
import tempfile
from pathlib import Path

from checking import TOP, Options, fail, live_of, passed, skipped
from vmatools import versions

SECONDS = 1800
BAD = "vmatrace 1\n0 munmap 4096\n"
# A copy of this system in which what is written goes to memory, and a package is installed and removed.
INSTALLS = """set -e
mount -t tmpfs none {folder}
mkdir {folder}/upper {folder}/work {folder}/system
mount -t overlay overlay -o lowerdir=/,upperdir={folder}/upper,workdir={folder}/work {folder}/system
cp {deb} {folder}/system/root/diltzekun.deb
echo mounted
exec chroot {folder}/system sh -ec '
    mount -t proc proc /proc
    apt-get install -y --no-install-recommends --allow-downgrades /root/diltzekun.deb
    cd /
    env -i PATH=/usr/bin:/bin vma --version
    env -i PATH=/usr/bin:/bin vma serial /usr/share/diltzekun/examples/readme.trace
    apt-get remove -y diltzekun
    ! test -e /usr/bin/vma'
"""


class Package:
    """A package that is unpacked, and what runs from it."""

    def __init__(self, usr: Path, empty: Path) -> None:
        self.usr, self.empty = usr, empty
        self.share = usr / "share/diltzekun"
        self.bare = {"PATH": f"{usr}/bin:/usr/bin:/bin", "HOME": str(empty), "LANG": "C.UTF-8", "NO_COLOR": "1"}

    def run(self, *words: str, status: int = 0) -> str:
        """What a command writes, which ends with this status."""
        none = subprocess.DEVNULL
        done = subprocess.run(
            words, cwd=self.empty, env=self.bare, stdin=none, capture_output=True, text=True, timeout=SECONDS, check=False
        )
        if done.returncode != status:
            fail(" ".join(words), f"has status {done.returncode}, and not {status}: {(done.stderr or done.stdout)[-500:]}")
        if str(TOP) in done.stdout + done.stderr:
            fail(" ".join(words), f"names {TOP}, of which nothing is in the package")
        return done.stdout + done.stderr

    def has(self, text: str, *words: str, status: int = 0) -> None:
        told = self.run(*words, status=status)
        if text not in told:
            fail(" ".join(words), f"has no `{text}`: {told[-500:]}")


def check_tools(package: Package, programs: list[str]) -> None:
    trace = str(package.share / "examples/readme.trace")
    bad = package.empty / "bad.trace"
    bad.write_text(BAD)
    standing = "proved: " if all(versions.is_proved(Path(path)) for path in programs) else "not known to be proved"
    package.has(f"diltzekun: {package.usr}/bin/diltzekun (the PATH): {standing}", "vma", "--version")
    off_path = ("env", "PATH=/usr/bin:/bin", f"{package.usr}/bin/vma")
    package.has(f"diltzekun: {package.usr}/bin/diltzekun (the package)", *off_path, "--version")
    package.has((package.share / "examples/readme.out").read_text(), "vma", "serial", trace)
    cases = len(list((TOP / "suite").glob("*/*.trace")))
    package.has(f"{'all':12}{cases:6}{cases:10}", "vma", "conform", "--", "diltzekun", "serial")
    passed(f"conform from the package, on {cases} cases")
    package.has("10 traces, 0 differ", "vma", "compare", "--no-suite", "--runs", "10", "--", "diltzekun", "serial")
    package.has("(cause 6, Arity", "vma", "explain", str(bad), status=1)
    package.has("<svg", "vma", "draw", trace)
    package.run("vma", "new-adapter", "python", "mine")
    package.has("10 traces, 0 differ", "vma", "compare", "--runs", "10", "--profile", "few", "--batch", "--", "mine/adapter.py")
    passed("the other tools from the package")


def check_pages(package: Package) -> None:
    """Each manual page is shown by man, and mandoc finds nothing wrong with it."""
    pages = sorted((package.usr / "share/man/man1").glob("*.1.gz"))
    if shutil.which("man"):
        for page in pages:
            package.has(page.name.removesuffix(".1.gz"), "man", "-P", "cat", "-l", str(page))
    if shutil.which("mandoc"):
        for page in pages:
            package.run("sh", "-c", f"zcat {page} | mandoc -T lint -W warning")
    passed(f"{len(pages)} manual pages")


def check_completion(package: Package) -> None:
    script = package.usr / "share/bash-completion/completions/vma"
    words = f"source {script}; COMP_WORDS=(vma conform --ba); COMP_CWORD=2; _vma; echo ${{COMPREPLY[@]}}"
    package.has("--batch", "bash", "-c", words)
    passed("completion in bash")
    if shutil.which("zsh") is None:
        return skipped("completion in zsh", "zsh is not installed")
    package.run("zsh", "-fn", str(package.usr / "share/zsh/vendor-completions/_vma"))
    passed("completion in zsh")


def check_pip(folder: Path) -> None:
    """`pip install .` gives the command with the model and the suite. Without wheel, setuptools alone makes the same folders."""
    if importlib.util.find_spec("setuptools") is None:
        return skipped("pip install", "this Python has no setuptools")
    source, name, words = folder / "source", "pip install", ["-m", "pip", "install", "--no-deps", "--no-build-isolation"]
    words += ["--no-index", "--target", str(folder / "pip"), "."]
    missing = [name for name in ("pip", "wheel") if importlib.util.find_spec(name) is None]
    if missing:
        skipped(name, f"this Python has no {' and no '.join(missing)}; setuptools builds what it would install")
        name, words = "setuptools' build", ["-c", "import setuptools; setuptools.setup()", "build"]
        words += ["--build-lib", str(folder / "pip")]
    files = subprocess.run(["git", "-C", str(TOP), "ls-files", "-z"], capture_output=True, check=True).stdout
    for path in files.decode().split("\0")[:-1]:
        if path.startswith(("tools/", "suite/", "examples/")) or "/" not in path:
            (source / path).parent.mkdir(parents=True, exist_ok=True)
            shutil.copy(TOP / path, source / path)
    done = subprocess.run([sys.executable, *words], cwd=source, capture_output=True, text=True, check=False)
    if done.returncode:
        fail(name, done.stdout[-500:] + done.stderr[-500:])
    installed = Package(folder, folder / "empty")
    installed.bare["PYTHONPATH"] = str(folder / "pip")
    vma = [sys.executable, "-m", "vmatools"]
    installed.has(f"diltzekun: {folder}/pip/vmatools/unproved/diltzekun (the model)", *vma, "--version")
    installed.has("brk/raise", *vma, "conform", "--list")
    passed(name)


def check_installed(deb: Path, folder: Path) -> None:
    """apt-get installs the package over a copy of this system, and removes it."""
    name = "apt-get install"
    if os.geteuid() or not shutil.which("apt-get"):
        return skipped(name, "this isn't root, or apt-get is not here")
    script = INSTALLS.format(folder=folder, deb=deb)
    done = subprocess.run(["unshare", "-m", "sh", "-c", script], capture_output=True, text=True, timeout=SECONDS, check=False)
    if "mounted" not in done.stdout:
        return skipped(name, f"nothing can be mounted here: {done.stderr.strip()[-200:]}")
    if done.returncode or (TOP / "examples/readme.out").read_text() not in done.stdout:
        fail(name, f"{done.stdout[-800:]}{done.stderr[-800:]}")
    passed("the package is installed, runs, and is removed")


def made(options: Options, folder: Path) -> list[Path]:
    """The package and the .tar.gz."""
    words = [sys.executable, str(TOP / "dev/package"), "--program", options.program, "--live", live_of(options.live), str(folder)]
    done = subprocess.run(words, capture_output=True, text=True, check=False)
    if done.returncode:
        fail("dev/package", done.stderr[-800:])
    return sorted(folder.iterdir())


def check(options: Options) -> None:
    if shutil.which("dpkg-deb") is None:
        return skipped("the package", "dpkg-deb is not installed")
    with tempfile.TemporaryDirectory() as name:
        folder = Path(name)
        tarred, deb = made(options, folder / "first")
        for one, other in zip((tarred, deb), made(options, folder / "second")):
            if one.read_bytes() != other.read_bytes():
                fail(one.name, "is another one at the second time")
        passed("the packages are the same twice")
        for place in ("root", "empty", "tar", "system"):
            (folder / place).mkdir()
        subprocess.run(["dpkg-deb", "-x", str(deb), str(folder / "root")], check=True)
        package = Package(folder / "root/usr", folder / "empty")
        check_tools(package, [options.program, live_of(options.live)])
        check_pages(package)
        check_completion(package)
        subprocess.run(["tar", "-xzf", str(tarred), "-C", str(folder / "tar"), "--strip-components=1"], check=True)
        Package(folder / "tar", folder / "empty").has(f"diltzekun: {folder}/tar/bin/diltzekun", "vma", "--version")
        passed("the .tar.gz")
        check_pip(folder)
        check_installed(deb, folder / "system")
