"""Shows that the runner skips a check, and names the module, if a module of Python is not installed. If a
module of the repository itself is missing, the check fails. A planted mistake counts as refused only by a check that passes without it.
Each check answers `--help`.
"""

import os
import shutil
import subprocess
import sys
import unittest
from pathlib import Path
from unittest import mock

from checks import TOP
from checks.lib.case import Check
from checks.lib.running import modules_of

# These are packages of the distribution, or of pip.
OTHERS = (
    *("aiohttp", "hypothesis", "jsonschema", "PIL", "prometheus_client", "psycopg", "pymodbus"),
    *("qrcode", "reportlab", "serial", "serial_asyncio"),
)


class Runner(Check):
    """The import of checks on a machine that lacks modules."""

    def raised(self, *names: str) -> BaseException:
        """Return what the import of the check of papers raises without these modules."""
        with mock.patch.dict(sys.modules):
            for it in [*sys.modules]:
                if it.startswith(("checks.paper", "checks.lib.paper")):
                    del sys.modules[it]
            sys.modules.update(dict.fromkeys(names))  # type: ignore[arg-type]
            with self.assertRaises((unittest.SkipTest, ModuleNotFoundError)) as caught:
                modules_of("paper")
        return caught.exception

    def test_missing_module(self) -> None:
        error = self.raised("PIL")
        self.assertIsInstance(error, unittest.SkipTest)
        self.assertEqual("PIL is not installed", str(error))

    def test_missing_module_of_the_repository(self) -> None:
        self.assertIsInstance(self.raised("checks.lib.paper_roll"), ModuleNotFoundError)

    def test_list_without_any(self) -> None:
        code = f"import runpy, sys; sys.modules.update(dict.fromkeys({OTHERS})); "
        code += "sys.argv[1:] = ['--list']; runpy.run_module('checks', run_name='__main__')"
        ran = subprocess.run(
            ["/usr/bin/python3", "-c", code], cwd=TOP, capture_output=True, text=True
        )
        self.same("status and errors", (0, ""), (ran.returncode, ran.stderr))
        self.holds("checks are listed", "test_support.Support.test_file\n" in ran.stdout)

    def test_part_of_a_folder(self) -> None:
        words = [sys.executable, "-m", "checks", "--list", "head_office_functions"]
        ran = subprocess.run(words, cwd=TOP, capture_output=True, text=True)
        its = {it.rpartition(".")[0] for it in ran.stdout.splitlines()}
        self.same("its tests", {"head_office_tests.test_functions.Functions"}, its)


class Help(Check):
    """`--help` of each check's file."""

    seconds = 30

    def test_each(self) -> None:
        for it in sorted((TOP / "checks").iterdir()):
            if it.is_file() and os.access(it, os.X_OK):
                words = [str(it), "--help"]
                ran = subprocess.run(words, capture_output=True, text=True, timeout=30)
                says = ran.stdout.count("\n") > 2
                found = (ran.returncode, says, ran.stderr)
                self.same(
                    f"{it.name} --help: its status, and that it says something",
                    (0, True, ""),
                    found,
                )


# A mistake removes the first text from a file that has "one two two". The others are its check, and how its row ends.
MISTAKES = (
    ("one", "grep -q one file", "refused ("),
    ("one", "grep -q two file", "NOT REFUSED ("),
    ("two", "grep -q two file", "CAN'T BE MADE: file has it 2 times: 'two'"),
    ("one", "grep -q six file", "FAILS WITHOUT A MISTAKE (status 1): grep -q six file"),
)


class Mistakes(Check):
    """`tools/mistakes`, over its tables and over those of one row."""

    def test_each_can_be_made(self) -> None:
        ran = subprocess.run([TOP / "tools" / "mistakes", "--list"], capture_output=True, text=True)
        self.same("what can't be made", (0, ""), (ran.returncode, ran.stderr))
        self.holds("there are hundreds", ran.stdout.count("\n") > 800, ran.stdout[-300:])

    def test_rows(self) -> None:
        for old, check, end in MISTAKES:
            top = Path(self.folder()) / "top"
            (top / "checks" / "mistakes").mkdir(parents=True)
            (top / "tools").mkdir()
            shutil.copy(TOP / "tools" / "mistakes", top / "tools")
            (top / "file").write_text("one two two")
            row = f"[[mistake]]\nfile = 'file'\nold = '{old}'\nnew = ''\nharms = 'x'\n"
            (top / "checks" / "mistakes" / "part.toml").write_text(f"{row}check = '{check}'\n")
            ran = subprocess.run([top / "tools" / "mistakes"], capture_output=True, text=True)
            is_refused = end.startswith("refused")
            self.holds(f"{old} by {check}: {end}", end in ran.stdout, ran.stdout + ran.stderr)
            last = "1 refused, 0 not" if is_refused else "0 refused, 1 not"
            self.same("the last line", last, ran.stdout.splitlines()[-1])
            self.same("its status", int(not is_refused), ran.returncode)
            self.same("the file", "one two two", (top / "file").read_text())
