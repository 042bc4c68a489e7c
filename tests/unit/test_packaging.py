"""What a package has beside files of the repository: manual pages and completion, and what its programs need."""

import argparse
import unittest
from pathlib import Path
from unittest import mock

import tomllib

from dev.packaging import completion, manual
from models.loading import module_of
from unit.common import InFolder
from vmatools import VERSION, cli, versions
from vmatools.running import program
from vmatools.running.program import TOP


class Pages(unittest.TestCase):
    def test_nothing_of_a_text_is_a_macro(self) -> None:
        self.assertEqual(manual.escaped(".SH a-b\\n"), "\\&.SH a\\-b\\en")
        self.assertEqual(manual.written([".SH A", ".PP", "b", ".PP", "c"]), ".SH A\nb\n.PP\nc\n")

    def test_each_command_has_a_page_with_all_its_options(self) -> None:
        pages = manual.pages("2000-01-02")
        self.assertEqual(len(pages), len(cli.COMMANDS) + 1)
        self.assertIn("\\-\\-batch", pages["vma-conform.1"])
        self.assertIn('.TH VMA-SERIAL 1 "2000-01-02"', pages["vma-serial.1"])
        self.assertNotIn("tools/vma ", pages["vma-serial.1"])

    def test_the_values_of_an_option_are_filled_in(self) -> None:
        parser = argparse.ArgumentParser()
        action = parser.add_argument("--most", default=3, metavar="N", help="at most (%(default)s)")
        self.assertEqual(manual.of_action(action), [".B \\-\\-most N", "at most (3)"])


class Completion(unittest.TestCase):
    def test_it_has_each_command_and_the_words_of_an_option(self) -> None:
        for text in (completion.bash(), completion.zsh()):
            for name in cli.COMMANDS:
                self.assertIn(f" {name}) ", text)
        self.assertIn('"draw --color") COMPREPLY=($(compgen -W "auto always never"', completion.bash())

    def test_a_quote_is_one(self) -> None:
        self.assertEqual(completion.quoted("isn't"), "'isn'\\''t'")


class Package(InFolder):
    def test_what_the_programs_need(self) -> None:
        package = module_of(TOP / "dev/package")
        for told, needs in (
            (" (NEEDED) x: [libm.so.6]\n (NEEDED) x: [libc.so.6]\n GLIBC_2.9 GLIBC_2.34 GLIBC_2.4\n", "libc6 (>= 2.34)"),
            ("nothing is needed\n", ""),
        ):
            with mock.patch.object(package.subprocess, "run", return_value=mock.Mock(stdout=told)):
                self.assertEqual(package.needs(Path("x")), needs)
        with mock.patch.object(package.subprocess, "run", return_value=mock.Mock(stdout="(NEEDED) x: [libnew.so]\n")):
            with self.assertRaisesRegex(SystemExit, "needs libnew.so, and no package is known"):
                package.needs(Path("x"))

    def test_only_programs_whose_sums_the_full_check_noted_are_called_proved(self) -> None:
        package = module_of(TOP / "dev/package")
        paths = {option: self.put(option, option) for option in ("program", "live")}
        options = argparse.Namespace(**paths)
        sums = self.put("sums", "".join(f"{versions.sum_of(path)}  {path}\n" for path in paths.values()))
        with mock.patch.object(versions, "SUMS", sums):
            self.assertEqual(package.sources_of(options).version, VERSION)
            self.put("live", "copied over")
            self.assertEqual(package.sources_of(options).version, f"{VERSION}~unproved")


class Installed(InFolder):
    def test_all_packages_of_the_tools_are_installed(self) -> None:
        settings = tomllib.loads((TOP / "pyproject.toml").read_text(encoding="utf-8"))["tool"]["setuptools"]
        tools = TOP / "tools"
        there = {".".join(path.parent.relative_to(tools).parts) for path in tools.rglob("__init__.py")}
        self.assertEqual(set(settings["packages"]), there | {"vmatools.suite", "vmatools.examples"})

    def test_what_the_tools_read_is_beside_them_or_in_the_checkout(self) -> None:
        tools = self.top / "tools/vmatools"
        self.assertEqual(program.top_of(tools), self.top)
        (tools / "suite").mkdir(parents=True)
        self.assertEqual(program.top_of(tools), tools)
