"""Tools that are ended early, and whose files and descriptors fail: what was found stays, and nothing runs on."""

import os
import resource
import signal
import subprocess
import sys
import tempfile
import time
import unittest
from functools import partial
from pathlib import Path
from unittest import mock

from unit.common import VMA, InFolder, vma as run
from unit.test_children import waited
from vmatools import console
from vmatools.comparing.corpus import Corpus, GivenUp
from vmatools.comparing.generator import PROFILES
from vmatools.running import keeper, program
from vmatools.running.program import TOP
from vmatools.systems import batch, building

TRACE, OUTPUT = (str(TOP / f"examples/readme.{end}") for end in ("trace", "out"))
WRONG = "#!/bin/sh\ncat > /dev/null; echo maps 7\n"
FEW_BYTES = 20_000  # of a file, where more has to fail as on a full device


def few_bytes() -> None:
    resource.setrlimit(resource.RLIMIT_FSIZE, (FEW_BYTES, FEW_BYTES))


class EndedEarly(InFolder):
    """A signal ends a command as Ctrl-C does."""

    def ended_by(self, number: int, *command: str) -> tuple[int, str, str]:
        """Status and outputs of a command that is ended when what it runs has begun, all of which is gone then."""
        pids = self.put("pids", "")
        with subprocess.Popen(command, stdout=subprocess.PIPE, stderr=subprocess.PIPE, text=True) as tool:
            self.assertTrue(waited(lambda: pids.read_text() or tool.poll() is not None))
            tool.send_signal(number)
            output, message = tool.communicate(timeout=60)
        started = {int(line) for line in pids.read_text().split()}
        self.assertTrue(started)
        self.assertTrue(waited(lambda: not started & set(keeper.families())), "what was started runs on")
        return tool.returncode, output, message

    def slow(self) -> str:
        return str(self.put_program("slow", f"echo $$ >> {self.top}/pids\nexec sleep 1000\n"))

    def test_what_a_mode_runs_ends_with_it(self) -> None:
        for number, status in ((signal.SIGTERM, 143), (signal.SIGHUP, 129), (signal.SIGKILL, -9)):
            for words in (("serial", "--program", self.slow(), TRACE), ("generate", "--program", self.slow(), "9", "1")):
                with self.subTest(number=number, words=words):
                    self.assertEqual(self.ended_by(number, *VMA, *words)[0], status)

    def test_what_is_recorded_ends_with_the_recorder(self) -> None:
        if not Path("/usr/bin/strace").exists():
            self.skipTest("strace is not installed")
        for number, status in ((signal.SIGTERM, 143), (signal.SIGKILL, -9)):
            with self.subTest(number=number):
                self.assertEqual(self.ended_by(number, *VMA, "record", "-o", f"{self.top}/r", self.slow())[0], status)

    def test_conform_writes_what_there_is(self) -> None:
        junit, words = self.top / "report.xml", ["--only", "brk", "--jobs", "1", "--junit", f"{self.top}/report.xml"]
        for number, status in ((signal.SIGTERM, 143), (signal.SIGHUP, 129)):
            said = self.ended_by(number, *VMA, "conform", *words, "--", self.slow())
            self.assertEqual(said[0], status)
            self.assertRegex(said[2], rf"vma conform: ended by {signal.Signals(number).name}: 0 of [0-9]+ cases\n$")
            self.assertIn("not run: ended by", junit.read_text())

    def test_a_hangup_that_is_ignored_ends_nothing(self) -> None:
        script = f"import signal, sys; sys.path.insert(0, {str(TOP / 'tools')!r}); from vmatools import console\n"
        script += "console.hear_signals(); signal.raise_signal(signal.SIGHUP); print('on')"
        ignoring = partial(signal.signal, signal.SIGHUP, signal.SIG_IGN)
        done = subprocess.run([sys.executable, "-c", script], stdout=subprocess.PIPE, text=True, preexec_fn=ignoring)
        self.assertEqual((done.returncode, done.stdout), (0, "on\n"))

    def test_checks_end_with_their_runner(self) -> None:
        self.put_program("rt", f"echo $$ >> {self.top}/pids\nexec sleep 1000\n")
        path = {"PATH": f"{self.top}:{os.environ['PATH']}"}
        with mock.patch.dict(os.environ, path):
            for number in (signal.SIGTERM, signal.SIGKILL):
                words = [sys.executable, str(TOP / "tests/run"), "refused_programs"]
                self.assertEqual(self.ended_by(number, *words)[0], -number)

    def test_traces_that_nobody_waits_for_any_more(self) -> None:
        corpus = Corpus(1, 5, [next(iter(PROFILES))], [])
        end = time.monotonic() + 0.2
        corpus.is_over = lambda: time.monotonic() > end
        self.assertRaises(GivenUp, corpus.trace, 10**12)

    def test_a_trace_of_a_number_that_is_far_off(self) -> None:
        done = run("compare", "--only", "1" + 12 * "0", "--for", "2", "--", str(self.put_program("wrong", WRONG)), timeout=60)
        self.assertEqual(done.returncode, console.WRONG_USE)
        self.assertIn("no trace came to its end in 2 seconds", done.stderr)


class Reports(InFolder):
    """Each report is written as far as it can be."""

    def test_compare_whose_output_nobody_reads(self) -> None:
        junit, lines = self.top / "report.xml", self.top / "report.json"
        words = ["--runs", "2", "--no-suite", "--jobs", "1", "--junit", str(junit), "--json", str(lines)]
        read, write = os.pipe()
        os.close(read)
        self.addCleanup(os.close, write)
        wrong = str(self.put_program("wrong", WRONG))
        done = run("compare", *words, "--", wrong, capture_output=False, stdout=write, stderr=subprocess.PIPE)
        self.assertEqual(done.returncode, console.NOT_READ_ON)
        self.assertIn("nobody reads on", junit.read_text())
        last = lines.read_text().splitlines()[-1]
        self.assertRegex(last, r'^{"event": "end".*"status": 141, "stopped": "standard output: nobody reads on"}$')

    def test_compare_whose_corpus_cannot_be_written(self) -> None:
        corpus, junit = self.top / "corpus", self.top / "report.xml"
        words = ["--runs", "2", "--no-suite", "--profile", "few", "--corpus", str(corpus), "--junit", str(junit)]
        corpus.mkdir()
        wrong = str(self.put_program("wrong", f"cat > /dev/null; rm -rf {corpus}; echo maps 7\n"))
        done = run("compare", *words, "--", wrong)
        self.assertEqual((done.returncode, "Traceback" in done.stderr), (console.WRONG_USE, False))
        self.assertIn("\nwhat counts most first:\n", done.stdout)
        self.assertRegex(done.stdout, r"stopped by .*: No such file or directory\n[0-9]+ traces?, [0-9]+ differs?\n$")
        self.assertIn("<failure", junit.read_text())

    def test_a_form_that_cannot_be_written_is_no_loss_of_the_others(self) -> None:
        junit, wrong = self.top / "report.xml", str(self.put_program("wrong", WRONG))
        done = run("conform", "--only", "brk/raise", "--tap", "/dev/full", "--junit", str(junit), "--", wrong)
        self.assertEqual(done.returncode, console.NOT_WRITTEN)
        self.assertIn("<failure", junit.read_text())
        self.assertIn("\nfailed: brk/raise: ", done.stdout)
        self.assertEqual(done.stderr.splitlines()[-1], "vma conform: /dev/full: No space left on device")

    def test_a_file_that_is_given_twice(self) -> None:
        file = self.put("report", "old")
        done = run("conform", "--only", "brk/raise", "--tap", str(file), "--json", str(file), "--", "true")
        self.assertEqual(done.stderr, f"vma conform: {file}: it is given twice: each needs a file of its own\n")
        self.assertEqual((done.returncode, file.read_text()), (console.WRONG_USE, "old"))
        done = run("compare", "--junit", "-", "--", "true")
        self.assertIn("argument --junit: - is no file", done.stderr)

    def test_a_pipe_in_a_corpus_is_no_trace(self) -> None:
        os.mkfifo(self.top / "x.trace")
        right = str(program.PROGRAM.model)
        words = ["--runs", "1", "--no-suite", "--corpus", str(self.top), "--program", right, "--", right, "serial"]
        self.assertEqual(run("compare", *words, timeout=120).returncode, console.DONE)


class Files(InFolder):
    def test_a_new_file_goes_where_a_link_leads(self) -> None:
        real, link = self.put("real", "old"), self.top / "link"
        real.chmod(0o640)
        link.symlink_to("real")
        console.replace_file(link, "new")
        self.assertEqual((real.read_text(), link.is_symlink(), real.stat().st_mode & 0o777), ("new", True, 0o640))

    def test_import_keeps_an_old_file_where_it_fails(self) -> None:
        log, replies = str(self.put("log", "no log\n")), self.put("replies", "old")
        missing = self.top / "missing"
        self.assertEqual(run("import", log, "--replies", str(replies), "--final", str(missing)).returncode, console.WRONG_USE)
        self.assertEqual((replies.read_text(), missing.exists()), ("old", False))
        done = run("import", log, "--replies", str(replies), "--final", str(replies))
        self.assertEqual(done.stderr, f"vma import: {replies}: it is given twice: each needs a file of its own\n")

    def test_a_new_file_takes_no_name_that_is_taken(self) -> None:
        own, file = self.put("file.new", "own"), self.top / "file"
        console.replace_file(file, "text")
        self.assertEqual((own.read_text(), file.read_text()), ("own", "text"))
        self.assertEqual(file.stat().st_mode & 0o777, 0o666 & ~console.umask())
        self.assertEqual(sorted(os.listdir(self.top)), ["file", "file.new"])

    @unittest.skipIf(os.geteuid(), "only root can be somebody else")
    def test_a_file_that_may_not_be_written_stays(self) -> None:
        file = self.put("file", "old")
        self.top.chmod(0o777)
        file.chmod(0o444)
        os.seteuid(65534)
        try:
            with self.assertRaisesRegex(console.Failure, f"^{file}: Permission denied$"):
                console.replace_file(file, "new")
        finally:
            os.seteuid(0)
        self.assertEqual(file.read_text(), "old")

    def test_a_temporary_file_that_cannot_be_written(self) -> None:
        text = "vmatrace 1\n" + "0 brk 0\n" * 5_000
        trace = str(self.put("long.trace", text))
        told = rf"^vma \w+: a temporary file in {self.top}: File too large$"
        more = {"preexec_fn": few_bytes, "env": {**os.environ, "TMPDIR": str(self.top)}}
        for words, given in ((["serial"], text), (["check", trace, OUTPUT], ""), (["rows", "--as", "linux-6.18", trace], "")):
            with self.subTest(words=words):
                done = run(*words, input=given, **more)
                self.assertEqual((done.returncode, done.stdout), (console.NOT_WRITTEN, ""))
                self.assertRegex(done.stderr.splitlines()[-1], told)

    def test_no_folder_for_temporary_files(self) -> None:
        with mock.patch.object(tempfile, "tempdir", None), mock.patch.object(tempfile, "_candidate_tempdir_list", list):
            with self.assertRaisesRegex(console.WriteFailure, "^a temporary file: No usable temporary directory found"):
                console.scratch()

    def test_no_home_is_no_folder_of_that_name(self) -> None:
        with mock.patch.dict(os.environ, {"XDG_CACHE_HOME": "here"}), mock.patch.object(os.path, "expanduser", str):
            self.assertEqual([folder.name for folder in building.cache_folders()], [f"diltzekun-{os.getuid()}"])

    def test_files_are_closed(self) -> None:
        for words in (["judge", TRACE, OUTPUT], ["draw", TRACE, OUTPUT], ["record", "-o", f"{self.top}/r", "true"]):
            done = subprocess.run([sys.executable, "-X", "dev", *VMA[1:], *words], capture_output=True, text=True)
            self.assertNotIn("ResourceWarning", done.stderr)


class Descriptors(InFolder):
    def test_what_is_said_where_standard_error_is_closed(self) -> None:
        for words, status in ((("judge", TRACE, OUTPUT), console.DONE), (("judge", "--nosuch"), console.WRONG_USE)):
            done = run(*words, preexec_fn=partial(os.close, 2), stderr=None, capture_output=False, stdout=subprocess.PIPE)
            self.assertEqual((done.returncode, done.stdout), (status, "legal\n" if status == console.DONE else ""))

    def test_a_terminal_that_is_gone(self) -> None:
        with mock.patch.object(sys, "stderr", mock.Mock(write=mock.Mock(side_effect=OSError(5, "gone")), isatty=lambda: True)):
            progress = console.Progress()
            progress.begin -= 3
            progress.tell("1 of 2")
            progress.clear()


class FloodedErrors(unittest.TestCase):
    def test_what_an_adapter_says_fills_no_disk(self) -> None:
        says = "read a; head -c 5000000 /dev/zero >&2; sleep 1.5; echo last >&2; echo maps 0; echo end 1; read a; read a; exit 3"
        adapter = batch.Adapter(["sh", "-c", says])
        self.addCleanup(adapter.close)
        with mock.patch.object(batch, "MOST_OUTPUT", 1 << 20):
            self.assertEqual(adapter.run(b"vmatrace 1\n", 30).output, "maps 0\n")
            assert adapter.errors is not None
            self.assertLess(os.fstat(adapter.errors.fileno()).st_blocks * 512, 1 << 20)
        self.assertEqual(adapter.said(), "last\n")


class LongWords(InFolder):
    def test_a_failure_is_one_line_that_is_read(self) -> None:
        known = str(self.put("known", "x" * 100_000))
        for words in (("--seed", "9" * 5_000), ("--only", "9" * 5_000), ("--only", "٣"), ("--baseline", known)):
            done = run("compare", *words, "--", "true", timeout=60)
            said = done.stderr.splitlines()[-1]
            self.assertEqual((done.returncode, done.stdout), (console.WRONG_USE, ""))
            self.assertRegex(said, "^vma compare: .* is no (number|list|name) of ")
            self.assertLess(len(said), 600)


class Requests(unittest.TestCase):
    """What comes on the standard input of `--batch`."""

    def test_what_begins_no_trace(self) -> None:
        for text in ("foo\n", "trace 1\n", "trace 1 x\n", "\n", "trace 1 5"):
            done = run("kernel", "--batch", input=text, timeout=60)
            self.assertEqual((done.returncode, done.stdout), (console.WRONG_USE, ""))
            told = f"`{text.strip()}` begins no trace: `trace N SECONDS` does (docs/COMPARE.md)"
            self.assertEqual(done.stderr, f"vma kernel: {told}\n")

    def test_an_end_within_a_trace(self) -> None:
        text, told = "trace 1 5\nvmatrace 1\n", "the input ends within trace 1: no line `end 1` came\n"
        done = run("kernel", "--batch", input=text, timeout=60)
        self.assertEqual((done.returncode, done.stdout, done.stderr), (console.WRONG_USE, "", f"vma kernel: {told}"))
        words = [sys.executable, str(TOP / "examples/batch/adapter.py")]
        done = subprocess.run(words, input=text, capture_output=True, text=True, timeout=60)
        self.assertEqual((done.returncode, done.stderr), (1, told))

    def test_what_is_sent_is_taken(self) -> None:
        for seconds in (0.5, 10, 1e-5, 999_999.5):
            with tempfile.TemporaryFile() as file:
                file.write(batch.Adapter(["true"]).request(3, b"vmatrace 1\n", seconds))
                file.seek(0)
                self.assertEqual([one.text for one in batch.requests(file)], [b"vmatrace 1\n"])
