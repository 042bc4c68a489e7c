"""The command `vma`: its subcommands, how it finds the program, and how it ends."""

import contextlib
import io
import os
import re
import shutil
import signal
import subprocess
import sys
import time
import unittest
from dataclasses import replace
from functools import partial
from pathlib import Path
from typing import Any
from unittest import mock

from models.loading import needs
from unit.common import VMA, InFolder, vma as run
from vmatools import VERSION, cli, console, versions
from vmatools.comparing.campaign import Campaign
from vmatools.running import program
from vmatools.running.program import TOP
from vmatools.systems import adapter, batch

TRACE = str(TOP / "examples/readme.trace")
NEEDS_CC = needs("cc")


class Commands(InFolder):
    def test_each_command_has_its_words_and_an_example(self) -> None:
        for command in cli.COMMANDS.values():
            with self.subTest(command.name):
                parser, module = cli.parser_of(command)
                self.assertTrue(module.SUMMARY)
                self.assertIn(f"vma {command.name}", parser.format_usage())
                self.assertRegex(parser.format_help(), rf"\nexample:\n +tools/vma {command.name} ")

    def test_help_speaks_of_a_file_where_there_is_one(self) -> None:
        for command in cli.COMMANDS.values():
            parser, _ = cli.parser_of(command)
            if re.search("FILE is a", parser.format_help()):
                self.assertRegex(parser.format_usage(), "FILE|TRACE", command.name)

    def test_help_has_each_command_once(self) -> None:
        text = cli.whole_help()
        for name in cli.COMMANDS:
            self.assertEqual(len(re.findall(rf"^  {name} ", text, re.MULTILINE)), 1, name)

    def test_help_has_the_same_words_at_each_width_and_breaks_none(self) -> None:
        for command in cli.COMMANDS.values():
            said = set()
            for columns in ("40", "80", "400"):
                with mock.patch.dict(os.environ, COLUMNS=columns), self.subTest(command.name, columns=columns):
                    text = cli.parser_of(command)[0].format_help().partition("\n\n")[2]
                    said.add(" ".join(text.split()))
                    wide = [line for line in text.splitlines() if len(line) > min(int(columns), console.WIDEST)]
                    self.assertEqual([line for line in wide if not line.startswith("    ") or len(line.split()) == 1], [])
            self.assertEqual(len(said), 1, command.name)

    def test_items_of_a_text_hang_and_what_is_further_in_stays(self) -> None:
        lines = ["a b", "c d e", "- f g", "  h i j", "  k   l m n", "      o p", "    q   r s t u v w"]
        hung = ["a b c d e", "- f g h i", "  j", "  k   l m", "      n o", "      p", "    q   r s t u v w"]
        self.assertEqual(console.filled("\n".join(lines), 10), hung)

    def test_an_unknown_word_has_the_nearest(self) -> None:
        self.assertEqual(cli.unknown("compair"), "'compair' is no command; did you mean compare?")
        self.assertEqual(cli.unknown("xyzzy"), "'xyzzy' is no command; `vma --help` lists them")
        self.assertEqual(run("expalin").returncode, console.WRONG_USE)

    def test_what_is_compiled_is_not_beside_the_sources(self) -> None:
        environment = {name: value for name, value in os.environ.items() if name != "PYTHONDONTWRITEBYTECODE"}
        run("emit", "--help", env={**environment, "XDG_CACHE_HOME": str(self.top)})
        self.assertTrue(list((self.top / "diltzekun/python").rglob("vmatools/*.pyc")))

    def test_help_of_a_command(self) -> None:
        self.assertEqual(run("help", "judge").stdout, run("judge", "--help").stdout)
        self.assertEqual(run("help", "nosuch").returncode, console.WRONG_USE)

    def test_wrong_use_is_one_line(self) -> None:
        for words, status in ((("compare", "--nosuch"), console.WRONG_USE), (("record", "--color", "x", "true"), 125)):
            done = run(*words)
            self.assertEqual((done.returncode, done.stdout), (status, ""), words)
            self.assertRegex(done.stderr, rf"^vma {words[0]}: [^\n]*; `vma {words[0]} --help` lists the words\n$")


class Modes(InFolder):
    """The modes of the program, by the model, which answers where no program is found."""

    def setUp(self) -> None:
        super().setUp()
        self.bare = {**os.environ, "PATH": "/usr/bin:/bin", program.VARIABLE: str(program.PROGRAM.model)}
        self.bare[program.LIVE.variable] = str(program.LIVE.model)

    def vma(self, *words: str, text: str | None = None) -> tuple[int, str, str]:
        given: dict[str, Any] = {"stdin": subprocess.DEVNULL} if text is None else {"input": text}
        done = run(*words, env=self.bare, **given)
        return done.returncode, done.stdout, done.stderr.replace(f"vma {words[0]}: {program.NOT_BUILT}\n", "")

    def test_a_trace_from_a_file_and_from_a_pipe(self) -> None:
        output, text = Path(TRACE.replace("trace", "out")).read_text(), Path(TRACE).read_text()
        self.assertEqual(self.vma("serial", TRACE), (0, output, ""))
        self.assertEqual(self.vma("threads", "-", text=text), (0, output, ""))
        self.assertEqual(self.vma("live", TRACE), (0, output, ""))
        self.assertEqual(self.vma("serial", TRACE, TRACE)[1], f"==> {TRACE} <==\n{output}\n==> {TRACE} <==\n{output}")

    def test_a_model_says_once_that_it_is_one(self) -> None:
        done = run("serial", TRACE, TRACE, env=self.bare)
        self.assertEqual(done.stderr, f"vma serial: {program.NOT_BUILT}\n")
        for words in ("draw", TRACE), ("judge", TRACE, TRACE.replace("trace", "out")):
            self.assertEqual(run(*words, env=self.bare).stderr, f"vma {words[0]}: {program.NOT_BUILT}\n")
            self.assertEqual(run(*words, "--as", "linux-6.18", env=self.bare).stderr, "")

    def test_a_bad_line_is_told_in_words(self) -> None:
        text = "vmatrace 1\n0 mmap 0 4096 PROT_RW MAP_PRIVATE|MAP_ANONYMOUS -1 0\n"
        status, output, said = self.vma("serial", text=text)
        self.assertEqual((status, output), (console.WRONG_USE, ""))
        self.assertIn("vma serial: standard input is no trace: line 2: PROT_RW", said)
        self.assertIn("line 1: this is no line of a maps text", self.vma("query", "0", text="x\n")[2])
        self.assertIn("cause 1, Header (docs/SCRIPTS.md)", self.vma("steps", TRACE)[2])

    def test_a_bad_output_ends_with_1(self) -> None:
        output = TRACE.replace("trace", "out")
        other = str(TOP / "examples/tour.out")
        self.assertEqual(self.vma("check", TRACE, output), (0, "legal\n", ""))
        status, said, why = self.vma("check", TRACE, other)
        self.assertEqual((status, said), (console.FOUND, "bad 1\n"))
        self.assertIn(f"`tools/vma judge {TRACE} {other}` says why", why)
        joined = f"{Path(TRACE).read_text()}==\n{Path(output).read_text()}"
        self.assertEqual(self.vma("check", text=joined), (0, "legal\n", ""))

    def test_what_check_refuses(self) -> None:
        fork = str(TOP / "examples/fork.trace")
        self.assertIn("it forks", self.vma("check", fork, fork)[2])
        self.assertIn("no line `==`", self.vma("check", TRACE)[2])
        self.assertIn("give OUTPUT or that, not both", self.vma("check", "-", TRACE, text="vmatrace 1\n==\n")[2])

    def test_other_modes(self) -> None:
        self.assertEqual(self.vma("generate", "20000", "1")[1].splitlines()[0], "calls 15001")
        line = "00010000-00011000 rw-p 00000000 00:00 0 \n"
        self.assertEqual(self.vma("query", "0x10fff", text=line)[1], line.rstrip(" \n") + "\n")
        self.assertIn("0 mmap 0x10000 4096", self.vma("retrace", text=line)[1])
        script = TOP / "examples/reader-inside.steps"
        self.assertEqual(self.vma("steps", str(script))[1], script.with_suffix(".out").read_text())

    def test_a_full_device(self) -> None:
        with open("/dev/full", "w") as full:
            done = run("serial", TRACE, env=self.bare, capture_output=False, stdout=full, stderr=subprocess.PIPE)
        self.assertEqual(done.returncode, console.NOT_WRITTEN)
        self.assertIn("vma serial: standard output: not all of it could be written\n", done.stderr)

    def test_a_pipe_that_nobody_reads(self) -> None:
        read, write = os.pipe()
        os.close(read)
        self.addCleanup(os.close, write)
        for words in (("serial", TRACE), ("generate", "9", "1")):
            done = run(*words, env=self.bare, capture_output=False, stdout=write, stderr=subprocess.PIPE)
            self.assertEqual(done.returncode, console.NOT_READ_ON)
            self.assertIn(f"vma {words[0]}: standard output: nobody reads on\n", done.stderr)
        done = run("live", TRACE, env=self.bare, capture_output=False, stdout=write, stderr=subprocess.PIPE)
        self.assertEqual((done.returncode, done.stderr.splitlines()[-1]), (5, "write fault"))  # as diltzekun-live itself

    def test_the_version_tells_which_program_and_whether_it_is_proved(self) -> None:
        first, main, live = self.vma("--version")[1].splitlines()
        self.assertEqual(first, f"diltzekun {VERSION}")
        for line, named in ((main, program.PROGRAM), (live, program.LIVE)):
            self.assertIn(f"{named.on_path}: {named.model} (${named.variable}): not proved", line)
        with mock.patch.object(versions, "SUMS", self.top / "sums"):
            self.assertEqual(versions.standing(Path("/bin/true"), program.PROGRAM), "not known to be proved")
            sums = self.put("sums", f"{versions.sum_of(Path('/bin/true'))}  usr/bin/diltzekun\n")
            self.assertEqual(versions.standing(Path("/bin/true"), program.PROGRAM), f"proved: {sums} has its sum")

    def test_what_merely_lies_where_the_kit_builds_is_not_called_proved(self) -> None:
        built = self.put("built", "proved")
        named = replace(program.PROGRAM, default=built)
        with mock.patch.object(versions, "SUMS", self.put("sums", f"{versions.sum_of(built)}  built\n")):
            self.assertRegex(versions.standing(built, named), "^proved: ")
            self.put("built", "copied over")
            self.assertRegex(versions.standing(built, named), "^built, but not known to be proved: ")


class Program(InFolder):
    def test_the_first_place_that_names_one(self) -> None:
        given, named, on_path = (str(self.put_program(name, "")) for name in ("given", "variable", program.ON_PATH))
        with mock.patch.dict(os.environ, {"PATH": str(self.top), program.VARIABLE: named}):
            self.assertEqual(program.find(given), given)
            self.assertEqual(program.find(), named)
            del os.environ[program.VARIABLE]
            self.assertEqual(program.find(), on_path)

    def test_the_one_of_a_package_that_is_not_on_the_path(self) -> None:
        made = self.put_program("bin/diltzekun", "")
        with mock.patch.dict(os.environ, {"PATH": "/no/such/folder"}, clear=True):
            with mock.patch.object(program, "TOP", self.top / "share/diltzekun"):
                self.assertEqual(program.PROGRAM.place(), (made, "the package"))
                self.assertIsNone(program.LIVE.packaged)

    def test_the_model_stands_in_where_none_is_built(self) -> None:
        named = replace(program.PROGRAM, default=Path("/no/program"))
        with mock.patch.dict(os.environ, {"PATH": "/no/such/folder"}, clear=True):
            with mock.patch.object(program, "PROGRAM", named), mock.patch.object(program, "DEFAULT_PROGRAM", named.default):
                self.assertEqual(program.find(named=named), str(named.model))
                with self.assertRaisesRegex(console.Failure, "is not there"):
                    program.find_built()

    def test_one_that_is_missing(self) -> None:
        with self.assertRaises(console.Failure) as caught:
            program.find("/no/program")
        self.assertEqual(caught.exception.status, console.WRONG_USE)
        self.assertIn("rt run", str(caught.exception))

    def test_one_that_is_missing_away_from_a_checkout(self) -> None:
        shutil.copytree(TOP / "tools", self.top / "tools", ignore=shutil.ignore_patterns("__pycache__"))
        words = [sys.executable, str(self.top / "tools/vma"), "compare", "--program", "/nowhere", "--", "true"]
        done = subprocess.run(words, capture_output=True, text=True, env={"PATH": "/usr/bin:/bin"})
        ways = "; name one by --program PATH or $DILTZEKUN, or put `diltzekun` on the PATH\n"
        self.assertEqual(done.stderr, f"vma compare: the program /nowhere is not there{ways}")
        self.assertEqual(done.returncode, console.WRONG_USE)

    def test_a_command_that_is_not_there(self) -> None:
        plain = self.put("plain", "maps 0\n")
        for word, why in (
            (f"{self.top}/none", "is not there"),
            ("no-such-program", "is not on the PATH"),
            (str(self.top), "is a directory"),
            (str(plain), f"is not executable; `chmod \\+x {plain}` makes it so"),
        ):
            with self.assertRaisesRegex(console.Failure, f"^COMMAND {word} {why}$"):
                program.check_command([word])
        with contextlib.chdir(self.top), self.assertRaisesRegex(console.Failure, r"on the PATH; did you mean \./plain\?"):
            program.check_command(["plain"])

    def test_a_command_that_is_no_program(self) -> None:
        for text, why in (
            ("print('maps 0')\n", "Exec format error; a script begins with `#!` and the path of its interpreter"),
            ("#!/no/such/python\n", "the interpreter that it names is not there"),
        ):
            script = self.put_program("adapter", "#!")
            script.write_text(text)
            told = f"^{script} cannot be run: {why}$"
            with self.assertRaisesRegex(console.Failure, told):
                program.run([script], b"", 5)
            with self.assertRaisesRegex(console.Failure, told):
                batch.Adapter([str(script)]).begin()


class Ends(InFolder):
    def test_a_full_device(self) -> None:
        with open("/dev/full", "w") as full:
            done = run("draw", TRACE, capture_output=False, stdout=full, stderr=subprocess.PIPE)
        self.assertEqual(done.returncode, console.NOT_WRITTEN)
        self.assertEqual(done.stderr, "vma draw: standard output: No space left on device\n")

    def test_a_full_device_of_another_file(self) -> None:
        log = str(TOP / "tests/logs/plain.log")
        conform = ("conform", "--only", "brk/raise", "--tap", "/dev/full", "--", "echo", "maps 0")
        for words in (("import", log, "--replies", "/dev/full"), conform):
            done = run(*words)
            self.assertEqual(done.returncode, console.NOT_WRITTEN)
            self.assertEqual(done.stderr, f"vma {words[0]}: /dev/full: No space left on device\n")

    def test_files_are_opened_before_the_work(self) -> None:
        path, mark = f"{self.top}/none/x", f"{self.top}/mark"
        compare = ("compare", "--program", "/bin/true", "--json", path, "--", "touch", mark)
        for words in (("conform", "--junit", path, "--", "touch", mark), compare):
            done = run(*words)
            self.assertEqual(done.returncode, console.WRONG_USE)
            self.assertEqual(done.stderr, f"vma {words[0]}: {path}: No such file or directory\n")
        self.assertFalse(os.path.exists(mark))

    def test_a_file_that_has_no_end(self) -> None:
        with self.assertRaises(console.Failure) as caught:
            console.whole("/dev/zero", 1000)
        self.assertEqual(str(caught.exception), "/dev/zero: it has more than 1,000 bytes")
        self.assertEqual(caught.exception.status, console.WRONG_USE)

    def test_one_standard_input(self) -> None:
        for words in (("lists", "-", "-"), ("judge", "-", "-"), ("import", "-", "--maps", "-")):
            self.assertIn("only one file can be standard input", run(*words, stdin=subprocess.DEVNULL).stderr)

    def test_numbers_that_are_none(self) -> None:
        long = "9" * 4301
        for words in (
            ("draw", "--most", "-1", TRACE),
            ("draw", "--list", long, TRACE),
            ("conform", "--jobs", "0", "--", "true"),
            ("conform", "--seconds", "nan", "--", "true"),
            ("compare", "--runs", long, "--", "true"),
            ("import", "--most", "-1", TRACE),
            ("lists", "--child", "-1", TRACE, TRACE),
            ("compare", "--for", "0", "--", "true"),
        ):
            done = run(*words)
            self.assertEqual((done.returncode, done.stdout), (console.WRONG_USE, ""), words[:2])
            said = done.stderr.splitlines()[-1]
            self.assertRegex(said, rf"^vma {words[0]}: argument {words[1]}: \S+ is no number ")
            self.assertLess(len(said), 200)

    def test_a_closed_pipe(self) -> None:
        read, write = os.pipe()
        os.close(read)
        done = run("draw", TRACE, capture_output=False, stdout=write, stderr=subprocess.PIPE)
        os.close(write)
        self.assertEqual(
            (done.returncode, done.stderr), (console.NOT_READ_ON, "vma draw: standard output: nobody reads on\n")
        )

    def test_an_output_that_is_not_there(self) -> None:
        done = subprocess.run(["sh", "-c", f"{VMA[1]} explain {TRACE} >&-"], stderr=subprocess.PIPE, text=True)
        self.assertEqual((done.returncode, "Traceback" in done.stderr), (console.NOT_WRITTEN, False))

    def test_an_interruption(self) -> None:
        path = str(self.top / "trace")
        os.mkfifo(path)
        with subprocess.Popen([*VMA, "explain", path], stderr=subprocess.PIPE) as process:
            with open(path, "wb"):  # it is open once the command reads it
                time.sleep(0.5)
                process.send_signal(signal.SIGINT)
                _, message = process.communicate(timeout=300)
        self.assertEqual((process.returncode, message), (console.INTERRUPTED, b"vma explain: interrupted\n"))

    @NEEDS_CC
    def test_a_trace_that_is_given_as_a_word(self) -> None:
        given = run("kernel", TRACE, stdin=subprocess.DEVNULL)
        with open(TRACE, "rb") as source:
            read = run("kernel", stdin=source)
        self.assertEqual((given.returncode, given.stdout, given.stderr), (read.returncode, read.stdout, read.stderr))
        done = run("kernel", "/no/trace")
        told = "vma kernel: /no/trace: No such file or directory\n"
        self.assertEqual((done.returncode, done.stderr), (console.WRONG_USE, told))
        done = run("kernel", "--batch", TRACE)
        told = f"vma kernel: with --batch the traces come on standard input, and not in {TRACE}\n"
        self.assertEqual((done.returncode, done.stderr), (console.WRONG_USE, told))

    @NEEDS_CC
    def test_an_input_that_is_closed(self) -> None:
        done = run("kernel", preexec_fn=partial(os.close, 0))
        self.assertEqual((done.returncode, done.stderr), (console.WRONG_USE, "vma kernel: standard input: it is closed\n"))

    def test_a_system_that_is_not_installed(self) -> None:
        path = {**os.environ, "PATH": "/no/such/folder"}
        done = run("kernel", "--system", "gvisor", stdin=subprocess.DEVNULL, env=path)
        self.assertEqual((done.returncode, done.stdout), (5, ""))
        self.assertEqual(done.stderr, "vma kernel: gvisor is not installed (Debian: apt-get install runsc)\n")

    def test_a_folder_that_is_a_file(self) -> None:
        file = self.put("file", "")
        done = run("emit", "--runs", "1", str(file))
        self.assertEqual(done.stderr, f"vma emit: {file}: it is a file, and has to be a folder\n")
        self.assertEqual(done.returncode, console.WRONG_USE)

    def test_a_time_in_which_no_trace_ends(self) -> None:
        slow = str(self.put_program("slow", "exec sleep 1\n"))
        done = run("compare", "--for", "0.1", "--jobs", "1", "--program", slow, "--", slow)
        self.assertEqual(done.returncode, console.WRONG_USE)
        self.assertRegex(done.stdout, r"\A[0-9]+ cases of the suite not run: the run ended before\n0 traces, 0 differ\n\Z")
        self.assertEqual(done.stderr, "vma compare: no trace came to its end in 0.1 seconds: give it more by --for\n")

    def test_a_time_in_which_all_traces_are_left_out(self) -> None:
        words = ["compare", "--no-suite", "--runs", "2", "--for", "600", "--jobs", "1", "--", "sh", "-c", "exit 4"]
        said = io.StringIO()
        with mock.patch.object(Campaign, "is_too_short", True), contextlib.redirect_stderr(said):
            with self.put("output", "").open("w") as output, contextlib.redirect_stdout(output):
                self.assertEqual(cli.main(words), console.WRONG_USE)
        self.assertEqual(said.getvalue().splitlines()[-1], "vma compare: the system ran none of the traces")

    def test_a_row_of_nearly_this_name(self) -> None:
        done = run("rows", "--as", "profile", "--program", sys.executable, "limit-jion")
        self.assertIn("no row has the name limit-jion; did you mean limit-join?", done.stderr)

    @NEEDS_CC
    def test_a_row_of_a_trace_of_ones_own(self) -> None:
        program = str(self.put_program("program", "cat > /dev/null\necho maps 0\n"))
        text = "vmatrace 1\n0 brk 0\n"
        trace = str(self.put("my.trace", text))
        answer = "L2 t0 v1 = 0x7fffff17d000\nmaps 0\n"  # the break of the process that makes the calls
        with (
            mock.patch.object(adapter.Adapter, "answer", lambda _, __: answer),
            mock.patch.object(console, "whole_text", lambda path: text),
        ):
            for name in (trace, "-"):
                with self.subTest(name=name), contextlib.redirect_stdout(io.StringIO()) as said:
                    options = cli.parser_of(cli.COMMANDS["rows"])[0].parse_args(["--program", program, name])
                    self.assertEqual(cli.COMMANDS["rows"].load().run(options), 1)
                self.assertEqual(said.getvalue(), f"== {name}\n{text}+L2 t0 v1 = BREAK\n\n1 row, 1 otherwise\n")
        done = run("rows", "--as", "profile", "--program", program, trace)
        self.assertIn("`--as profile` leaves Linux out", done.stderr)

    def test_a_file_that_cannot_be_read(self) -> None:
        for path, why in (("/no/trace", "No such file or directory"), ("/", "Is a directory")):
            done = run("explain", path)
            self.assertEqual((done.returncode, done.stderr), (console.WRONG_USE, f"vma explain: {path}: {why}\n"))

    def test_a_child_that_no_line_forked(self) -> None:
        done = run("draw", "--child", "3", TRACE)
        self.assertEqual((done.returncode, done.stderr), (console.WRONG_USE, "vma draw: there is no child 3\n"))
        self.assertEqual(done.stdout, "")

    def test_colour(self) -> None:
        outputs = {
            when: run("judge", "--color", when, TRACE, TRACE.replace("trace", "out")).stdout for when in console.WHEN
        }
        self.assertEqual(outputs["auto"], "legal\n")
        self.assertEqual(outputs["never"], "legal\n")
        self.assertEqual(outputs["always"], "\x1b[32mlegal\x1b[0m\n")


class Statuses(unittest.TestCase):
    def test_their_table_is_in_the_documents(self) -> None:
        page = (TOP / "docs/COMPARE.md").read_text(encoding="utf-8")
        rows = dict(
            re.findall(r"^\| (\d+) \| (.*) \|$", page.split("## Exit statuses")[1].split("\n## ")[0], re.MULTILINE)
        )
        for status, what in console.STATUSES.items():
            self.assertEqual(rows.get(str(status)), what)


class Words(unittest.TestCase):
    def test_what_can_be_shown(self) -> None:
        self.assertEqual(console.printable("a\tb\r\x1b[2J\udcff"), "a\\tb\\r\\x1b[2J\\xff")
        self.assertEqual(len(console.printable("x" * 1000)), 200)

    def test_a_failure_of_the_system_has_no_number(self) -> None:
        self.assertEqual(console.reason(OSError(2, "No such file", "/a")), "/a: No such file")
        self.assertEqual(console.reason(OSError(28, "No space left"), "b"), "b: No space left")
