"""The base class of all checks. It says what a check needs and how it may be run, and has the few assertions that unittest lacks."""

import importlib.util
import os
import re
import shutil
import subprocess
import sys
import tempfile
import unittest
from collections.abc import Callable
from typing import Any, ClassVar

from checks.lib.waiting import wait_until

from checks import TOP
from checks.lib import program

# Set it to keep the folders of a test, as --keep does.
KEEP = "CHECKS_KEEP"
# How many times the usual number of random or repeated trials is made, as --times sets it.
TIMES = "CHECKS_TIMES"
# A class that tries the built program needs this. `python3 -m checks` builds the program first.
PROGRAM = "the program"
# Names that stand for more than a command or a module of Python.
OTHERS: dict[str, tuple[str, Callable[[], bool]]] = {
    PROGRAM: ("the program is not there", lambda: os.access(program.PROGRAM, os.X_OK)),
    "root": ("the check isn't run by root", lambda: os.geteuid() == 0),
    "the kit": ("the kit is not installed", lambda: shutil.which("rt") is not None),
}

# The values of all options of this run, by their names without dashes.
given: dict[str, Any] = {}


def many(usual: int) -> int:
    """Return how many trials to make in place of the usual number."""
    return max(1, round(usual * float(os.environ.get(TIMES, 1))))


def lacked(names: tuple[str, ...]) -> list[str]:
    """Return a sentence for each command or module that this machine lacks."""
    words = []
    for name in names:
        why, is_there = OTHERS.get(name, (f"{name} is not installed", lambda: False))
        if not (is_there() or shutil.which(name) or importlib.util.find_spec(name)):
            words.append(why)
    return words


def skip_without(*names: str) -> Callable[[Any], Any]:
    """Skip a test, or a class, unless this machine has all these commands and modules."""
    words = lacked(names)
    return unittest.skipIf(bool(words), "; ".join(words))


def called_at() -> str:
    """Return where a test is: the file and the line of the first caller outside of this file."""
    frame = sys._getframe(1)
    while frame.f_code.co_filename == __file__ and frame.f_back:
        frame = frame.f_back
    return f"{os.path.relpath(frame.f_code.co_filename, TOP)}:{frame.f_lineno}"


class Check(unittest.TestCase):
    """A check. `python3 -m checks` decides by its attributes when it runs, and which others run meanwhile."""

    needs: ClassVar[tuple[str, ...]] = ()
    """Commands and modules of Python. The class is skipped without one of them."""
    slow: ClassVar[bool] = False
    """It runs only with --slow."""
    alone: ClassVar[bool] = False
    """No other runs meanwhile, because it measures time or changes what others use."""
    seconds: ClassVar[int] = 10
    """About how long it takes on a quiet machine. Only the order depends on it."""
    options: ClassVar[dict[str, str]] = {}
    """Options of its check's file, such as `--report`, each with the name of its value, or with "" if it has none. `given` has their values. `PROGRAM` isn't an option, but
    a built program that is named in place of the launcher."""
    maxDiff = None

    def __init_subclass__(cls, **more: Any) -> None:
        super().__init_subclass__(**more)
        if words := lacked(cls.needs):
            unittest.skip("; ".join(words))(cls)

    def folder(self) -> str:
        """Return a new folder. It is removed after the test, but with --keep."""
        path = tempfile.mkdtemp(prefix=f"{type(self).__name__.lower()}-")
        if os.environ.get(KEEP):
            print(f"kept: {path}", flush=True)
        else:
            self.addCleanup(shutil.rmtree, path, ignore_errors=True)
        return path

    def same(self, what: str, wanted: object, found: object) -> None:
        """Compare two values as a case of its own. The test continues after a difference."""
        where = called_at()
        with self.subTest(what):
            self.assertEqual(wanted, found, f"{where}: the first is wanted, the second was found")

    def holds(self, what: str, is_so: object, found: object = "") -> None:
        """Show that something is so, as a case of its own. If it isn't, the failure shows `found`."""
        where = called_at()
        with self.subTest(what):
            if not is_so:
                self.fail(f"{where}: it isn't so. {found}".rstrip())

    def becomes(
        self, what: str, wanted: object, look: Callable[[], object], seconds: float = 20
    ) -> None:
        """Look until the wanted value is found, as a case of its own."""
        with self.subTest(what):
            wait_until(what, look, lambda found: found == wanted, seconds)

    def comes(self, what: str, look: Callable[[], Any], seconds: float = 20) -> Any:
        """Look until something is there, and return it, as a case of its own."""
        found = None
        with self.subTest(what):
            found = wait_until(what, look, seconds=seconds)
        return found

    def passes_unittest(self, part: str) -> None:
        """Show that the tests pass that a part of this repository has in its own folder."""
        words = [sys.executable, "-B", "-m", "unittest", "discover", "-s", ".", "-t", "."]
        ran = subprocess.run(words, cwd=TOP / part, stderr=subprocess.PIPE, text=True)
        self.same(
            f"status of the tests in {part}/tests",
            (0, ""),
            (ran.returncode, ran.stderr if ran.returncode else ""),
        )
        self.holds(f"tests in {part}/tests", re.search(r"^Ran [1-9]", ran.stderr, re.M), ran.stderr)
