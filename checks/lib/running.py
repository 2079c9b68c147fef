"""Runs the classes of a check within this process, and shows a line for each case."""

import argparse
import fnmatch
import importlib
import json
import os
import sys
import unittest
from collections.abc import Iterator
from dataclasses import dataclass, field
from pathlib import Path
from types import ModuleType, TracebackType

from checks.lib import showing
from checks.lib.case import KEEP, TIMES, Check, given
from checks.lib.leftovers import Stopped, end_marked, new_mark, stop_on_signals, until_the_end

from checks import FOLDERS, TOP

HERE = Path(__file__).resolve().parent.parent
# Debian's own Python, for which the packages of the distribution are.
DEBIANS = "/usr/bin/python3"
# The file that gets the counts of a run, if the variable is set.
COUNTS = "CHECKS_COUNTS"
Fault = tuple[type[BaseException], BaseException, TracebackType]


@dataclass
class Counts:
    """How the tests of a run went. `cases` also counts the parts of tests that have a name of their own."""

    passed: int = 0
    failed: int = 0
    skipped: int = 0
    cases: int = 0
    lacks: list[str] = field(default_factory=list)

    def __str__(self) -> str:
        return f"{self.passed} passed, {self.failed} failed, {self.skipped} skipped"


class Shown(unittest.TestResult):
    """Prints a line for each test, and for each named part of it, when it ends."""

    def __init__(self) -> None:
        super().__init__()
        self.counts = Counts()
        self.parts_failed = 0
        self.shown_before = 0
        self.test: unittest.TestCase | None = None

    def say(self, word: str, what: str, why: str = "") -> None:
        print(f"{word:7} {what}{f': {why}' if why else ''}", flush=True)

    def startTest(self, test: unittest.TestCase) -> None:
        super().startTest(test)
        self.test = test
        self.parts_failed = 0
        self.shown_before = showing.shown

    def addSubTest(  # type: ignore[override]
        self, test: unittest.TestCase, subtest: unittest.TestCase, err: Fault | None
    ) -> None:
        super().addSubTest(test, subtest, err)
        self.counts.cases += 1
        what = str(subtest).removeprefix(f"{test} ").removeprefix("[").removesuffix("]")
        if err is None:
            self.say("ok", what)
        else:
            self.parts_failed += 1
            self.say("FAILED", what, self._exc_info_to_string(err, test))  # type: ignore[attr-defined]

    def addSuccess(self, test: unittest.TestCase) -> None:
        super().addSuccess(test)
        self.counts.passed += 1
        self.counts.cases += 1
        self.say("ok", name_of(test))

    def _bad(self, test: unittest.TestCase, err: Fault) -> None:
        self.parts_failed = 0
        self.counts.failed += 1
        self.counts.cases += 1
        self.say("FAILED", name_of(test), self._exc_info_to_string(err, test))  # type: ignore[attr-defined]

    def addFailure(self, test: unittest.TestCase, err: Fault) -> None:  # type: ignore[override]
        super().addFailure(test, err)
        self._bad(test, err)

    def addError(self, test: unittest.TestCase, err: Fault) -> None:  # type: ignore[override]
        super().addError(test, err)
        self._bad(test, err)

    def addSkip(self, test: unittest.TestCase, reason: str) -> None:
        super().addSkip(test, reason)
        self.counts.skipped += 1
        self.counts.lacks.append(reason)
        self.say("skipped", name_of(test), reason)

    def stopTest(self, test: unittest.TestCase) -> None:
        super().stopTest(test)
        self.counts.cases += showing.shown - self.shown_before
        if self.parts_failed:
            self.counts.failed += 1
            self.say("FAILED", name_of(test), f"{self.parts_failed} cases")


def name_of(test: unittest.TestCase) -> str:
    """Return a test's name without its package: `test_support.Support.test_file`."""
    return test.id().removeprefix("checks.")


def names_of_checks() -> list[str]:
    """Return the names of the checks. A check is a file `test_NAME.py`, or a folder `NAME_tests` of such files."""
    files = {it.stem.removeprefix("test_") for it in HERE.glob("test_*.py")}
    folders = {it.parent.name.removesuffix("_tests") for it in HERE.glob("*_tests/__init__.py")}
    return sorted(files | folders)


def names_of_parts() -> dict[str, str]:
    """Return the modules that a file of checks/ runs without the rest of their folder, by its name. `NAME_PART` runs `NAME_tests/test_PART.py`."""
    modules = {
        f"{it.parent.name.removesuffix('_tests')}_{it.stem.removeprefix('test_')}": it
        for it in HERE.glob("*_tests/test_*.py")
    }
    return {
        name: f"checks.{it.parent.name}.{it.stem}"
        for name, it in modules.items()
        if (HERE / name).is_file()
    }


def modules_of(name: str) -> list[ModuleType]:
    """Import a check: the module that says what it shows, and then those of its folder. Raise SkipTest if this machine lacks a module that one of them imports."""
    folder = HERE / f"{name}_tests"
    names = [f"checks.test_{name}"]
    if folder.is_dir():
        parts = [f"checks.{folder.name}.{it.stem}" for it in sorted(folder.glob("test_*.py"))]
        names = [f"checks.{folder.name}", *parts]
    if part := names_of_parts().get(name):
        names = [part]
    try:
        return [importlib.import_module(it) for it in names]
    except ModuleNotFoundError as error:
        missing = (error.name or "").partition(".")[0]
        if is_ours(missing):
            raise
        raise unittest.SkipTest(f"{missing} is not installed") from error


def is_ours(name: str) -> bool:
    """Return whether a module of this name belongs to the repository, so that it can't be missing."""
    return any(
        (TOP / folder / it).exists() for folder in (".", *FOLDERS) for it in (name, f"{name}.py")
    )


def classes_of(modules: list[ModuleType]) -> list[type[Check]]:
    """Return the classes of a check that have tests, in the order of the files."""
    return [
        it
        for module in modules
        for it in vars(module).values()
        if isinstance(it, type)
        and issubclass(it, Check)
        and it.__module__ == module.__name__
        and unittest.defaultTestLoader.getTestCaseNames(it)
    ]


def chosen(each: type[Check], patterns: list[str] | None) -> Iterator[Check]:
    """Return the tests of a class whose name has one of the patterns, as with `python3 -m unittest -k`."""
    for method in unittest.defaultTestLoader.getTestCaseNames(each):
        test = each(method)
        if not patterns or any(
            fnmatch.fnmatchcase(name_of(test), it if "*" in it else f"*{it}*") for it in patterns
        ):
            yield test


def run(classes: list[type[Check]], patterns: list[str] | None, failfast: bool = False) -> Counts:
    """Run the tests of these classes."""
    suite = unittest.TestSuite(
        unittest.TestSuite(tests) for each in classes if (tests := [*chosen(each, patterns)])
    )
    result = Shown()
    result.failfast = failfast
    try:
        suite.run(result)
    except Stopped:
        # unittest passes it on without the cleanups of the test
        if result.test:
            result.test.doCleanups()
            type(result.test).doClassCleanups()
        raise
    return result.counts


def use_debians_python() -> None:
    """Continue under Debian's own Python, unless this is it."""
    if os.path.exists(DEBIANS) and not os.path.samefile(sys.executable, DEBIANS):
        os.execv(DEBIANS, [DEBIANS, *sys.orig_argv[1:]])


def use_program(options: argparse.ArgumentParser, path: str) -> None:
    """Begin again with a built program in place of the launcher. The converter is the one in its folder, or the one that was built."""
    if not os.access(path, os.X_OK):
        options.error(f"{path}: name one built program")
    os.environ["WEIGHBRIDGE_PROGRAM"] = os.path.abspath(path)
    converter = os.path.join(os.path.dirname(os.path.abspath(path)), "weighbridge-converter")
    if os.path.exists(converter):
        os.environ["WEIGHBRIDGE_CONVERTER_PROGRAM"] = converter
    os.execv(sys.executable, [it for it in sys.orig_argv if it != path])


def arguments(name: str, words: str | None) -> argparse.ArgumentParser:
    """Return the options that each check takes."""
    options = argparse.ArgumentParser(
        prog=name, description=words, formatter_class=argparse.RawDescriptionHelpFormatter
    )
    options.add_argument(
        "-k", action="append", metavar="PATTERN", help="only tests whose name has it"
    )
    options.add_argument("--slow", action="store_true", help="run those that take long, too")
    options.add_argument("--list", action="store_true", help="only print the tests' names")
    options.add_argument("--keep", action="store_true", help="keep the folders of the tests")
    options.add_argument(
        "--times", type=float, metavar="FACTOR", help="multiply the number of trials"
    )
    return options


def use(asked: argparse.Namespace) -> None:
    """Let the tests of this process, and of those below it, do as the options say."""
    if asked.keep:
        os.environ[KEEP] = "1"
    if asked.times is not None:
        os.environ[TIMES] = str(asked.times)


def alone(name: str) -> int:
    """Run one check within this process, as its file in checks/ does. Return its status."""
    use_debians_python()
    try:
        modules = modules_of(name)
    except unittest.SkipTest as why:
        print(f"{name}: skipped, since {why}")
        return 0
    options = arguments(f"checks/{name}", modules[0].__doc__)
    options.add_argument("--failfast", action="store_true", help="stop at the first failure")
    classes = classes_of(modules)
    for option, value in (it for each in classes for it in each.options.items()):
        if not option.startswith("-"):
            options.add_argument(option.lower(), nargs="?", metavar=option)
        elif value:
            options.add_argument(option, metavar=value)
        else:
            options.add_argument(option, action="store_true")
    asked = options.parse_args()
    if path := vars(asked).get("program"):
        use_program(options, path)
    given.update(vars(asked))
    # A check whose classes are all slow is run only by its name, so it runs.
    classes = [it for it in classes if asked.slow or not it.slow] or classes
    if asked.list:
        print("\n".join(name_of(it) for each in classes for it in chosen(each, asked.k)))
        return 0
    use(asked)
    stop_on_signals()
    mark = new_mark()
    try:
        counts = run(classes, asked.k, asked.failfast)
    except Stopped as why:
        print(f"{name}: stopped by {why}", flush=True)
        return why.status
    finally:
        until_the_end.close()
        if left := end_marked(mark):
            print(f"{name}: {left} processes were left, and killed", flush=True)
    if path := os.environ.get(COUNTS):
        Path(path).write_text(json.dumps(vars(counts)), encoding="utf-8")
    print(f"{name}: {counts}")
    return 1 if counts.failed or not counts.passed + counts.skipped else 0
