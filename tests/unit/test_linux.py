"""Linux's model: its versions, its settings, and what it says of single rules."""

import argparse
import gzip
import unittest
from dataclasses import replace
from itertools import pairwise
from unittest import mock

from models.loading import module_of
from unit.common import InFolder, vma as run
from vmatools import oracles, traces
from vmatools.commands import conform
from vmatools.comparing import answers as answers_of_models
from vmatools.console import Failure
from vmatools.linux import by_version, generators, selecting, vectors, versions
from vmatools.linux.areas import NotModelled
from vmatools.linux.kernel import Kernel, Settings, kernel_of, running_version
from vmatools.linux.space import LinuxSpace
from vmatools.linux.versions import WrongOracle
from vmatools.running.program import TOP
from vmatools.systems import rows

ANONYMOUS = "MAP_PRIVATE|MAP_ANONYMOUS|MAP_FIXED -1 0"
MOVED = "MREMAP_MAYMOVE|MREMAP_FIXED"
READ, WRITE = f"PROT_READ {ANONYMOUS}", f"PROT_READ|PROT_WRITE {ANONYMOUS}"


def trace_of(*lines: str) -> traces.Trace:
    return traces.read_trace("\n".join(["vmatrace 1", "min 0x1000", *lines, ""]).encode())


def answers(name: str, *lines: str) -> list[str]:
    """What each line is answered, without the last list."""
    output = oracles.oracle_of(name).output(trace_of(*lines))
    return [line.split(" = ")[1] for line in output.splitlines() if " = " in line]


def borders(name: str, *lines: str) -> list[str]:
    """The last list: where each VMA begins and ends."""
    output = oracles.oracle_of(name).output(trace_of(*lines)).splitlines()
    return [line.split()[0] for line in output[output.index(next(one for one in output if one.startswith("maps"))) + 1 :]]


class Versions(unittest.TestCase):
    def test_the_table_has_every_rule(self) -> None:
        found = versions.table()
        self.assertEqual(list(found), sorted(found))
        self.assertTrue(found[6, 18, 44].merges_unfaulted)
        self.assertFalse(found[6, 12, 117].merges_unfaulted)

    def test_a_series_means_its_newest_version(self) -> None:
        self.assertEqual(versions.known("6.18"), (6, 18, 44))
        self.assertEqual(versions.known("6.18.15"), (6, 18, 15))
        for name in ("5.4", "6.18.16", "", "6", "6.18x", "x"):
            with self.subTest(name), self.assertRaises(WrongOracle):
                print(versions.known(name))

    def test_a_version_that_was_not_run_has_the_rules_of_the_nearest(self) -> None:
        for given, wanted in (
            ((6, 18, 16), (6, 18, 15)),
            ((6, 18, 90), (6, 18, 44)),
            ((6, 14, 2), (6, 12, 117)),
            ((7, 9, 0), (7, 2, 12)),
            ((5, 4, 0), (6, 1, 192)),
            ((6, 18), (6, 18, 15)),
        ):
            self.assertEqual(versions.nearest(given), wanted)

    def test_a_release_has_a_version(self) -> None:
        self.assertEqual(versions.version_of("6.18.44-fc-v595"), (6, 18, 44))
        self.assertEqual(versions.version_of("6.1.0+x"), (6, 1, 0))


class Names(unittest.TestCase):
    def test_settings_are_words(self) -> None:
        settings = Settings().changed(["keys=0", "memory=1000", "built=0x2000"])
        self.assertEqual((settings.keys, settings.memory, settings.built), (0, 1000, 0x2000))
        self.assertEqual(Settings().changed(settings.words().split()), settings)

    def test_wrong_words_are_named(self) -> None:
        for word, said in (
            ("key=0", "key=0 is no setting"),
            ("keys", "keys is no setting"),
            ("keys=2", "keys=2: it is from 0 to 1"),
            ("memory=-1", "memory=-1: it is from 0"),
            ("memory=x", "memory=x: it is no number"),
            ("huge=yes", "huge=yes: it is always, madvise or never"),
            ("built=5", "built=5: it is no multiple of 4096"),
            ("keys=0 keys=1", "keys is set twice"),
        ):
            with self.subTest(word), self.assertRaisesRegex(WrongOracle, said):
                Settings().changed(word.split())

    def test_an_oracle_is_named_with_its_settings(self) -> None:
        oracle = oracles.oracle_of("linux-6.12,keys=0 huge=never")
        self.assertEqual(oracles.oracle_of(oracle.words()), oracle)
        self.assertIn("linux-6.12.117 built=0x10000", oracles.described(oracle))
        self.assertEqual(oracles.oracle_of("profile"), oracles.PROFILE)
        self.assertIn("not proved", oracles.described(oracles.oracle_of("linux")))
        for name in ("profile keys=0", "windows", "linux-5", ""):
            with self.subTest(name), self.assertRaises(WrongOracle):
                oracles.oracle_of(name)


class Rules(unittest.TestCase):
    def test_a_written_vma_joins_one_that_was_not(self) -> None:
        lines = [f"0 mmap 0x100000 4096 {WRITE}", f"0 mmap 0x101000 4096 {READ}", "0 fault 0x100000 w"]
        lines += ["0 mprotect 0x101000 4096 PROT_READ|PROT_WRITE"]
        self.assertEqual(borders("linux-6.18", *lines), ["00100000-00102000"])

    def test_only_new_kernels_join_a_written_vma_to_an_unwritten_one(self) -> None:
        lines = [f"0 mmap 0x100000 4096 {WRITE}", f"0 mmap 0x101000 4096 PROT_READ|PROT_WRITE|PROT_EXEC {ANONYMOUS}"]
        lines += ["0 fault 0x101000 w", "0 mprotect 0x101000 4096 PROT_READ|PROT_WRITE"]
        self.assertEqual(borders("linux-6.18", *lines), ["00100000-00102000"])
        self.assertEqual(borders("linux-6.12", *lines), ["00100000-00101000", "00101000-00102000"])

    def test_6_17_forgets_what_was_written_to_memory_that_moves(self) -> None:
        lines = (f"0 mmap 0x101000 4096 {WRITE}", "0 fault 0x101000 w", f"0 mremap 0x101000 4096 4096 {MOVED} 0x180000")
        moved = (*lines, f"0 mmap 0x100000 4096 {WRITE}", f"0 mremap 0x180000 4096 4096 {MOVED} 0x101000")
        for name, last in (("linux-6.17", "00100000-00103000"), ("linux-6.18.15", "00102000-00103000")):
            self.assertEqual(borders(name, *moved, "0 fork 1", f"1 mmap 0x102000 4096 {WRITE}")[-1], last)

    def test_7_2_tests_each_mremap_against_the_limit_and_asks_for_less_room(self) -> None:
        moved = "0 mremap 0x100000 4096 4096 MREMAP_MAYMOVE|MREMAP_FIXED 0x200000"
        lines = ["limit areas 5", f"0 mmap 0x100000 8192 {READ}", moved]
        self.assertEqual(answers("linux-6.18", *lines)[1], "-1 ENOMEM")
        self.assertEqual(answers("linux-7.2", *lines)[1], "0x200000")
        lines = ["limit areas 4", f"0 mmap 0x100000 8192 {READ}", "0 mremap 0x100000 8192 4096 0"]
        self.assertEqual(answers("linux-6.18", *lines)[1], "0x100000")
        self.assertEqual(answers("linux-7.2", *lines)[1], "-1 ENOMEM")

    def test_a_refused_call_leaves_a_split(self) -> None:
        lines = (f"0 mmap 0x100000 8192 {WRITE}", f"0 mmap 0x102000 4096 {READ}", "0 mseal 0x102000 4096 0")
        self.assertEqual(answers("linux-6.18", *lines, "0 munmap 0x101000 8192")[-1], "-1 EPERM")
        self.assertEqual(borders("linux-6.18", *lines, "0 munmap 0x101000 8192")[0], "00100000-00101000")
        self.assertEqual(borders("profile", *lines, "0 munmap 0x101000 8192")[0], "00100000-00102000")

    def test_settings_decide_answers(self) -> None:
        line = f"0 mmap 0x100000 4096 PROT_EXEC {ANONYMOUS}"
        self.assertEqual(answers("linux-6.18", line, "0 fault 0x100000 r")[-1], "SIGSEGV SEGV_PKUERR")
        self.assertIn("served", answers("linux-6.18 keys=0", line, "0 fault 0x100000 r")[-1])
        much = f"0 mmap 0x100000 8192 {WRITE}"
        self.assertEqual(answers("linux-6.18 memory=1", much), ["-1 ENOMEM"])
        self.assertEqual(answers("linux-6.18 memory=2", much), ["0x100000"])

    def test_state_tells_what_a_list_hides(self) -> None:
        trace = trace_of(f"0 mmap 0x100000 4096 {WRITE}", "0 fault 0x100000 w", "0 fork 1")
        space = LinuxSpace(trace, kernel_of("6.18"))
        for line in trace.lines[:2]:
            space.answer(line)
        (state,) = space.state()
        self.assertEqual((state.lo, state.hi, state.pgoff, state.anon), (0x100, 0x101, 0x100, (0, False)))
        self.assertEqual(space.child().state()[0].anon, (0, True))


class NotGuessed(unittest.TestCase):
    def says(self, kernel: Kernel, *lines: str) -> str:
        with self.assertRaises(NotModelled) as caught:
            print(oracles.Oracle(kernel).output(trace_of(*lines)))
        return str(caught.exception)

    def test_what_is_not_modelled_is_told_by_line(self) -> None:
        kernel = kernel_of("6.18", Settings(memory=10))
        self.assertIn("line 3: every process has a break", self.says(kernel, "0 brk 0x100000"))
        many = [f"0 mmap {0x100000 + place * 0x1000:#x} 4096 {WRITE}" for place in range(11)]
        self.assertIn("line 14: a fork", self.says(kernel, *many, "0 fork 1"))
        self.assertIn("line 3: this version has no mseal", self.says(kernel_of("6.1"), "0 mseal 0x100000 4096 0"))
        wide = traces.read_trace(b"vmatrace 2\n0 munmap 0x800000000000 4096\n")
        with self.assertRaisesRegex(NotModelled, "line 2: what Linux does with addresses above 47 bits"):
            oracles.Oracle(kernel).output(wide)

    def test_other_lines_are_kept(self) -> None:
        trace, gaps = oracles.Oracle(kernel_of("6.18")).modelled(trace_of("0 brk 0x100000", "0 munmap 0x100000 4096"))
        self.assertEqual([line.word for line in trace.lines], ["munmap"])
        self.assertEqual([gap.line for gap in gaps], [3])


class Pages(InFolder):
    def cells(self, *lines: str, case: str = "") -> list[str]:
        return by_version.Told("a-row", case, trace_of(*lines), kernel_of("6.18")).cells()

    def test_a_row_says_what_the_profile_and_each_version_answer(self) -> None:
        mapped = f"0 mmap 0x100000 4096 {WRITE}"
        moved = "0 mremap 0x100000 4096 140737488355328 MREMAP_MAYMOVE"
        self.assertEqual(self.cells(mapped, moved), ["a-row", f"`{moved[2:]}`", "ENOMEM", "EINVAL", *["ENOMEM"] * 3, *"==="])
        sealed = self.cells(mapped, "0 mseal 0x100000 4096 0", case="a seal")
        self.assertEqual(sealed[1:5], ["a seal", "0; 100-101 rw-p", "0; 100-101 rw-p", "-"])

    def test_a_call_is_one_cell(self) -> None:
        self.assertIn("PROT_READ\\|PROT_WRITE", self.cells(f"0 mmap 0x8000 4096 {WRITE}")[1])

    def test_vmas_are_shown_where_only_lists_tell(self) -> None:
        lines = [f"0 mmap 0x100000 4096 {WRITE}", f"0 mmap 0x101000 4096 PROT_READ|PROT_WRITE|PROT_EXEC {ANONYMOUS}"]
        lines += ["0 fault 0x101000 w", "0 mprotect 0x101000 4096 PROT_READ|PROT_WRITE"]
        apart = "100-101 rw-p, 101-102 rw-p"
        self.assertEqual(self.cells(*lines)[2:], ["100-102 rw-p", "100-102 rw-p", apart, apart, *"===="])

    def test_lists_that_are_read_tell_where_the_last_does_not(self) -> None:
        grown = f"0 mmap 0x100000 4096 {WRITE}".replace(" -1", "|MAP_GROWSDOWN -1")
        told = self.cells(grown, "0 fault 0xfe000 w", "0 maps", "0 munmap 0xfe000 12288")[2:4]
        self.assertEqual(told, ["SEGV_MAPERR; 100-101 rw-p", "served fe-101 rw-p; fe-101 rw-p"])

    def test_a_table_is_made_between_its_marks(self) -> None:
        page = (TOP / "docs/KERNEL.md").read_text(encoding="utf-8")
        self.assertEqual(by_version.put(page.replace("| EFAULT |", "| EPERM |")), page)
        for words, told in (("fork grow", "not one table for each of the rows grow-far, .*"), ("forks", "no rows forks")):
            with self.assertRaisesRegex(Failure, f"{told}$"):
                by_version.put(page.replace("rows fork,", f"rows {words},"))

    def test_every_file_of_vectors_is_of_its_version(self) -> None:
        for path in (TOP / "suite/vectors").glob("*/*.gz"):
            kernel, found = vectors.read(path)
            self.assertEqual(versions.text_of(kernel.version), path.parent.name)
            self.assertEqual(vectors.written(kernel, found), path.read_bytes())

    def test_directed_traces_tell_each_version_from_the_one_before(self) -> None:
        """By what the version itself was recorded to answer: the rules of the one before give another answer to one of them."""
        for before, version in pairwise(versions.table()):
            kernel, found = vectors.read(TOP / "suite/vectors" / versions.text_of(version) / vectors.FILE)
            older = oracles.Oracle(replace(kernel, version=before, rules=versions.table()[before]))
            asked = [(traces.read_trace(one.trace.encode()), one.answer) for one in found if vectors.is_directed(one.name)]
            told = [trace for trace, answer in asked if not older.gap(trace) and older.output(trace) != answer]
            self.assertTrue(told, versions.text_of(version))

    def test_recorded_traces_are_asked_again(self) -> None:
        """Each once, whichever version has it, and no others where they are enough."""
        given = {"6.12.117": ["hard-1"], "6.17.13": ["directed-a"], "6.18.44": ["directed-a", "directed-b"]}
        for version, names in given.items():
            found = [vectors.Vector(name, "vmatrace 1\n0 maps\n", "L2 t0 v0 = maps 0\nmaps 0\n") for name in names]
            self.put(f"{version}/{vectors.FILE}", "").write_bytes(vectors.written(kernel_of(version), found))
        names = ["hard-1", "directed-a", "directed-b"]
        self.assertEqual(list(vectors.recorded(self.top)), names)
        tool = module_of(TOP / "dev/linux-versions")
        added = self.put("c.trace", "vmatrace 1\n0 brk 0\n")
        for add, asked in (([], names), ([added], ["directed-c"])):
            words = argparse.Namespace(images=["native"], vectors=1, record=self.top, add=add)
            with mock.patch.object(tool, "words", lambda words=words: words), mock.patch.object(tool, "hold_image") as hold:
                self.assertEqual(tool.main(), 0)
            self.assertEqual([name for name, _ in hold.call_args[0][2]], asked)
        self.assertEqual(len(tool.asked(self.top, 3)), len(names) + 3)

    def test_what_is_added_stands_beside_what_the_same_machine_answered(self) -> None:
        tool, kernel = module_of(TOP / "dev/linux-versions"), kernel_of("6.18")
        told = (("a", "1\n"), ("b", "2\n"), ("a", "3\n"))
        one, other, new = (vectors.Vector(name, "vmatrace 1\n", answer) for name, answer in told)
        path = self.top / vectors.FILE
        path.write_bytes(vectors.written(kernel, [one, other]))
        self.assertEqual(tool.kept(path, kernel, [new]), [other])
        with self.assertRaisesRegex(Failure, "and this is linux-6.18.44 .*keys=0.*: record all again"):
            tool.kept(path, kernel_of("6.18", Settings(keys=0)), [new])

    def test_a_file_that_is_none_is_named(self) -> None:
        for data in (b"", b"text", gzip.compress(b"# linux-5\n")):
            path = self.put("none", "")
            path.write_bytes(data)
            with self.assertRaisesRegex(WrongOracle, "it is no file of vectors"):
                vectors.read(path)


class Rows(unittest.TestCase):
    def test_the_trace_of_a_row_is_of_its_name(self) -> None:
        names = ["seal-dontunmap", "seal-several", "seal-denied", "seal-hole", "seal-other-error", "mremap-dontunmap"]
        for row in rows.read_rows()[1]:
            if row.name in names:
                trace = traces.read_trace(row.trace.encode())
                self.assertEqual(answers_of_models.row_of(trace, kernel_of("6.18")), row.name)


class Generators(unittest.TestCase):
    def test_the_same_words_give_the_same_trace(self) -> None:
        kernel = kernel_of("6.17")
        for kind in generators.KINDS:
            first, second = (generators.with_lists(generators.drawn(kind, "7 3", 12, kernel)).text() for _ in range(2))
            self.assertEqual(first, second)
            self.assertEqual(traces.read_trace(first.encode()).text(), first)

    def test_chosen_traces_tell_versions_apart(self) -> None:
        for _, trace in selecting.chosen(4):
            self.assertTrue(selecting.apart(traces.read_trace(trace.text().encode()), selecting.kernels()))


class Commands(InFolder):
    """The subcommands that take `--as`."""

    def vma(self, *words: str, text: str = "") -> tuple[int, str, str]:
        done = run(*words, input=text)
        return done.returncode, done.stdout, done.stderr

    def test_serial_and_judge_take_linux(self) -> None:
        text = trace_of(f"0 mmap 0x100000 4096 PROT_EXEC {ANONYMOUS}", "0 fault 0x100000 r").text()
        status, output, _ = self.vma("serial", "--as", "linux-6.18", text=text)
        self.assertEqual((status, output.splitlines()[1]), (0, "L4 t0 v1 = SIGSEGV SEGV_PKUERR"))
        paths = [str(self.put("a.trace", text)), str(self.put("a.out", output))]
        for oracle, said in (("linux-6.18", "legal\n"), ("linux-6.18,keys=0", "not legal: line 2"), ("profile", "not legal")):
            self.assertIn(said, self.vma("judge", "--as", oracle, *paths)[1])

    def test_a_line_that_is_not_modelled_is_an_error(self) -> None:
        status, _, message = self.vma("serial", "--as", "linux-6.18", text="vmatrace 1\n0 brk 0x100000\n")
        self.assertEqual(status, 2)
        self.assertIn("line 2: every process has a break", message)

    def test_what_is_right_by_default(self) -> None:
        for system, given, right in (
            (None, None, oracles.PROFILE),
            (None, oracles.oracle_of("linux-6.12"), oracles.oracle_of("linux-6.12")),
            ("native", oracles.PROFILE, oracles.PROFILE),
        ):
            options = argparse.Namespace(system=system, oracle=given, list=False)
            self.assertEqual(conform.oracle_for(options), right)
        options = argparse.Namespace(system="native", oracle=None, list=False)
        self.assertEqual(conform.oracle_for(options).name, f"linux-{versions.text_of(running_version())}")

    def test_live_answers_as_linux(self) -> None:
        sealed = (f"0 mmap 0x100000 8192 {WRITE}", "0 mseal 0x101000 4096 0")
        lines = (*sealed, "query 0x100000", "0 mprotect 0x100000 8192 PROT_READ")
        text = "\n".join(["vmatrace 1", *lines, ""])
        for name, second, found, third in (
            ("linux-6.18", "L3 t0 v2 = 0", "00100000-00101000 rw-p", "L5 t0 v3 = -1 EPERM"),
            ("linux-6.1", "trace line 3 not modelled: this version has no mseal", "00100000-00102000 rw-p", "L5 t0 v2 = 0"),
        ):
            with self.subTest(name):
                status, output, message = self.vma("live", "--as", name, text=text)
                told = output.splitlines()
                self.assertEqual((status, message, told[1], told[2][:22], told[3]), (0, "", second, found, third))
                self.assertEqual(told[2], told[2].rstrip(" "))
                self.assertEqual(told[5][18:22], "r--p")  # as far as the sealed page

    def test_draw_marks_what_linux_answers_otherwise(self) -> None:
        mapped = "0 mmap 0x100000 4096 PROT_READ MAP_SHARED|MAP_FIXED 3 0"
        lines = (mapped, f"0 mmap 0x200000 4096 PROT_EXEC {ANONYMOUS}", "0 fault 0x200000 r")
        text = trace_of("file 3 r 4096 8:1 7 /a", *lines).text()
        trace = self.put("a.trace", text)
        output = self.put("a.out", self.vma("serial", "--as", "profile", str(trace))[1])
        status, page, message = self.vma("draw", "--as", "linux-6.18", str(trace), str(output))
        self.assertIn("the output says v2 = served", message)
        self.assertIn("and linux-6.18.44 v2 = SIGSEGV SEGV_PKUERR", message)
        self.assertEqual((status, "A run of a.trace, beside linux-6.18.44" in page), (1, True))
        self.assertEqual(self.vma("draw", "--as", "linux-6.18,keys=0", "--svg", str(trace), str(output))[0], 0)
        drawn = self.vma("draw", "--as", "linux-6.18", "--list", "2", str(trace))[1]
        self.assertEqual(drawn, "maps" + self.vma("serial", "--as", "linux-6.18", str(trace))[1].split("maps")[1])
        trace.write_text("vmatrace 1\n0 brk 0\n")
        self.assertIn("line 2: every process has a break", self.vma("draw", "--as", "linux-6.18", str(trace))[2])

    def test_explain_names_the_rows(self) -> None:
        lines = ["vmatrace 1", "0 brk 0", "# a seal", f"0 mmap 0x100000 8192 {WRITE}", "0 mseal 0x101000 4096 0"]
        text = "\n".join([*lines, "0 mprotect 0x100000 8192 PROT_READ", "0 fault 0x100000 w", ""])
        status, output, _ = self.vma("explain", "--as", "linux-6.18", "-", text=text)
        self.assertEqual(status, 0)
        self.assertIn("line 2, not modelled: every process has a break", output)
        self.assertIn("line 6, mprotect: profile list: permissions, linux-6.18.44 list: other permissions (seal-prefix: ", output)
        self.assertNotIn("line 7", output)  # which differs for line 6 alone
        output = self.vma("explain", "--as", "linux-6.18", "-", text="vmatrace 1\n")[1]
        self.assertIn("linux-6.18.44 answers each of them as the profile does", output)

    def test_rows_run_on_a_model(self) -> None:
        status, output, _ = self.vma("rows", "--as", "linux-6.18", "brk-none", "aligned-file")
        self.assertEqual((status, output.splitlines()[0]), (0, "brk-none: not modelled"))
        self.assertIn("\n2 rows, 0 otherwise\n", output)
        status, output, _ = self.vma("rows", "--as", "linux-6.12", "seal-several")
        self.assertIn("seal-several: linux-6.12.117 answers otherwise\n", output)
        self.assertEqual((status, output.splitlines()[-1]), (1, "1 row, 1 otherwise"))
        message = self.vma("rows", "--as", "linux", "--system", "native")[2]
        self.assertIn("--as stands in the place of the kernel of --system", message)

    def test_emitted_answers_name_their_kernel(self) -> None:
        words = ("--runs", "2", "--profile", "few", "--as", "linux-6.12,keys=0", str(self.top))
        self.assertEqual(self.vma("emit", *words)[0], 0)
        head, output = (self.top / "few-1-0.out").read_text().split("\n", 1)
        oracle = oracles.oracle_of(head.removeprefix("# "))
        self.assertEqual(oracle, oracles.oracle_of("linux-6.12,keys=0"))
        self.assertEqual(oracle.output(traces.read_trace((self.top / "few-1-0.trace").read_bytes())), output)

    def test_the_version_says_what_an_oracle_is(self) -> None:
        status, output, _ = self.vma("--version", "--as", "linux-6.12")
        self.assertEqual(status, 0)
        self.assertIn("linux-6.12.117 built=0x10000", output)
        self.assertIn("tested against kernels, not proved", output)
