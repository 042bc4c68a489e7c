"""What strace writes, in each of its forms, and the trace that is made of it."""

import platform
import subprocess
import unittest
from pathlib import Path

from models.loading import needs
from unit.common import VMA, InFolder, vma as run
from vmatools import traces
from vmatools.commands.lists import last_list
from vmatools.running.program import TOP
from vmatools.strace.areas import read_sections
from vmatools.strace.log import Log

LOGS = TOP / "tests/logs"
EXEC = '7 execve("/bin/a", ["a"], 0x1 /* 1 var */) = 0\n'
MMAP = "mmap(NULL, 8192, PROT_READ, MAP_PRIVATE|MAP_ANONYMOUS, -1, 0) = 0x7ffff7ffd000"
MUNMAP = "munmap(0x7ffff7ffd000, 8192)"
OPERATIONS = ["0 mmap 0 8192 PROT_READ MAP_PRIVATE|MAP_ANONYMOUS -1 0", "0 munmap 0x7ffff7ffd000 8192"]

# Forms of the same two calls.
FORMS = {
    "plain": f"7 {MMAP}\n7 {MUNMAP} = 0\n",
    "with the time": f"7 12:00:00.000100 {MMAP}\n7 12:00:00.000200 {MUNMAP} = 0\n",
    "with the time that each takes": f"7 {MMAP} <0.000010>\n7 {MUNMAP} = 0 <0.000020>\n",
    "with [pid]": f"[pid     7] {MMAP}\n[pid     7] {MUNMAP} = 0\n",
    "unfinished": f"7 {MMAP}\n7 munmap(0x7ffff7ffd000, 8192 <unfinished ...>\n7 <... munmap resumed>) = 0\n",
    "with signals and ends": f"7 {MMAP}\n7 --- SIGCHLD {{si_signo=SIGCHLD}} ---\n7 {MUNMAP} = 0\n7 +++ exited with 0 +++\n",
}
MANY = "9" * 4301


def vma(*words: str, text: str = "") -> subprocess.CompletedProcess[str]:
    done = run(*words, input=text)
    assert "Traceback" not in done.stderr, done.stderr
    return done


def imported(log: str, *words: str) -> subprocess.CompletedProcess[str]:
    return vma("import", "-", "--elsewhere", *words, text=log)


def operations(text: str) -> list[str]:
    return [traces.line_text(line) for line in traces.read_trace(text.encode()).lines]


class Forms(InFolder):
    def test_each_form_is_the_same_trace(self) -> None:
        for name, lines in FORMS.items():
            with self.subTest(name):
                done = imported(EXEC + lines)
                self.assertEqual(done.returncode, 0, done.stderr)
                self.assertEqual(operations(done.stdout), OPERATIONS)

    def test_the_saved_logs(self) -> None:
        """Their traces and replies are those that are kept, and what is left out is named."""
        logs: tuple[tuple[str, list[str], list[str]], ...] = (
            ("plain", [], ["MAP_HUGETLB 1", "madvise 1", "--exec 2 takes it"]),
            ("mixed", ["--maps", str(LOGS / "mixed.maps")], ["MAP_LOCKED 2", "shmat 1", "of 1 child"]),
        )
        for name, more, left_out in logs:
            replies = self.top / "replies"
            done = imported((LOGS / f"{name}.log").read_text(), "--hints", "--replies", str(replies), *more)
            self.assertEqual(done.stdout, (LOGS / f"{name}.trace").read_text())
            self.assertEqual(replies.read_text(), (LOGS / f"{name}.kernel").read_text())
            for words in left_out:
                self.assertIn(words, done.stderr)

    def test_calls_of_another_form(self) -> None:
        opened = ('openat(AT_FDCWD, "x") = 3', 'open("x") = 3', "ftruncate(3) = 0", "close_range(3) = 0")
        calls = (*opened, "close(007) = 0", "clone() = 08")
        stats = (f"fstat(3, {{st_dev=makedev({numbers}), st_ino=5}}) = 0" for numbers in ("08, 1", "x, y", "0x8, 0x1"))
        done = imported(EXEC + "".join(f"7 {call}\n" for call in (*calls, *stats, MMAP)))
        self.assertEqual((done.returncode, operations(done.stdout)), (0, OPERATIONS[:1]), done.stderr)

    def test_numbers_of_many_digits(self) -> None:
        calls = (f"mmap(NULL, {MANY}, PROT_READ, MAP_PRIVATE, 3, 0) = 0x7ffff7ffd000", f"munmap(0x1000, 1) = {MANY}")
        for call in (*calls, f"close_range({MANY}, {MANY}, 0) = 0", f'openat({MANY}, "x", O_RDONLY) = {MANY}'):
            done = imported(EXEC + f"7 {call}\n7 {MMAP}\n{MANY} {MMAP}\n")
            self.assertEqual(done.returncode, 0, done.stderr)
            self.assertNotIn("Traceback", done.stderr)
            self.assertEqual(operations(done.stdout), OPERATIONS[:1])


class Maps(InFolder):
    AREA = "555555554000-555555555000 r--p 00000000 fe:00 7".ljust(73) + "{}\n"

    def warned(self, name: str) -> bool:
        done = imported(EXEC + FORMS["plain"], "--maps", str(self.put("a.maps", self.AREA.format(name))))
        self.assertEqual(done.returncode, 0, done.stderr)
        return "are these the areas of another program?" in done.stderr

    def test_replies_that_are_no_numbers(self) -> None:
        maps = str(self.put("a.maps", self.AREA.format("/bin/a")))
        for reply in ("0x555555556000 x", "x", "0x"):
            done = imported(f"{EXEC}7 brk(NULL) = {reply}\n7 {MMAP}\n", "--maps", maps)
            self.assertEqual(done.returncode, 0, done.stderr)

    def test_a_name_with_the_ends_of_lines_of_other_systems(self) -> None:
        name = "/bin/a\x0b\x0c\x1c\x85\u2028"
        self.assertEqual([area.name for area in read_sections(self.AREA.format(name), "maps")[0].areas], [name])
        output = "maps 1\n" + self.AREA.format(name)
        self.assertEqual([area.name for area in last_list(output, "output")], [name])

    def test_maps_of_another_program_are_warned_of(self) -> None:
        self.assertFalse(self.warned("/bin/a"))
        self.assertFalse(self.warned("/bin/a.real"))
        self.assertTrue(self.warned("/bin/other"))


class Refused(InFolder):
    def test_what_is_no_log(self) -> None:
        for text in ("", "hello\n", "\0\0\0\n", "neither\na call\nnor (a signal\n"):
            self.assertEqual(imported(text).returncode, 2)
        self.assertEqual(imported(EXEC + "7 getpid() = 7\n7 +++ exited with 0 +++\n").returncode, 1)
        log = str(LOGS / "plain.log")
        refused: list[list[str]] = [[], ["/no/such/log"], [log, "--exec", "9"], [log, "--maps", VMA[1]]]
        for words in refused:
            self.assertEqual(vma("import", *words).returncode, 2, words)

    def test_lines_that_end_with_a_carriage_return(self) -> None:
        why = "-: line 1: a carriage return stands at the end: lines end with a newline byte alone"
        self.assertIn(why.replace("-", "standard input", 1), imported((EXEC + FORMS["plain"]).replace("\n", "\r\n")).stderr)
        maps = self.put("a.maps", Maps.AREA.format("/bin/a").replace("\n", "\r\n"))
        done = imported(EXEC + FORMS["plain"], "--maps", str(maps))
        self.assertEqual(done.returncode, 2)
        self.assertIn("line 1: a carriage return stands at the end", done.stderr)

    def test_a_long_text_without_a_call_is_not_read_to_its_end(self) -> None:
        read = Log("\n" * 10_000_000)
        self.assertEqual(read.calls, [])
        self.assertLess(read.lines, 20_000)
        self.assertEqual(len(Log("hello\n" * 5_000 + EXEC).calls), 1)

    def test_a_list_of_which_no_trace_can_be_made(self) -> None:
        maps = self.put("a.maps", "00010000-00011000 rw-p 00000000 08:01 99999999999999999999 /a\n")
        why = f"{maps}: what was made of it is no trace: 99999999999999999999 is not an inode"
        self.assertIn(why, vma("import", "--elsewhere", "--maps", str(maps)).stderr)

    def test_replies_that_cannot_be_written(self) -> None:
        done = imported(EXEC + FORMS["plain"], "--replies", "/no/such/folder/replies")
        self.assertEqual((done.returncode, done.stdout), (2, ""))
        self.assertIn("/no/such/folder/replies: No such file or directory", done.stderr)


class Record(InFolder):
    def test_wrong_use(self) -> None:
        self.assertEqual(vma("record").returncode, 125)

    @unittest.skipUnless(platform.machine() == "x86_64", "strace's log is read as that of x86-64")
    @needs("strace")
    def test_a_command_and_the_trace_of_its_log(self) -> None:
        front = f"{self.top}/sh"
        done = vma("record", "-o", front, "sh", "-c", "echo heard; exit 7")
        if done.returncode == 125:
            self.skipTest(f"strace may not trace here: {done.stderr}")
        self.assertEqual((done.returncode, done.stdout), (7, "heard\n"), done.stderr)
        words = ("--maps", f"{front}.maps", "--hints", "--replies", f"{front}.kernel")
        made = traces.read_trace(vma("import", f"{front}.log", *words).stdout.encode())
        areas = [line for line in Path(f"{front}.maps").read_text().splitlines() if not line.endswith("[vsyscall]")]
        self.assertEqual(len(Path(f"{front}.kernel").read_text().splitlines()), len(made.lines))
        self.assertGreaterEqual(len(made.lines), len(areas))
        self.assertEqual(vma("record", "-o", front, "/no/such/command").returncode, 127)
