"""Runs the checks whose needs are there, several at a time, and prints a row for each. Quick ones come first.

Usage: python3 -m checks [--logs FOLDER] [--slow] [--at-once N] [-k PATTERN] [--list] [CHECK..]

CHECK is a check of docs/checks.md, or one class of it: `support` or `support.Support`. If none is named, all run but the slow ones. The output of each
class goes to FOLDER/CHECK.CLASS.log. A class that lacks a tool says so and counts as skipped. Classes that measure time run afterwards, one at a time.

The program is built first, if one of them needs it and it isn't built. The last line counts tests: `N passed, N failed, N skipped`. The status is 1 if one failed, or if docs/checks.md
doesn't list the checks that are here.
"""

import difflib
import json
import os
import subprocess
import sys
import tempfile
import time
import unittest
from concurrent.futures import ThreadPoolExecutor
from dataclasses import dataclass
from pathlib import Path

from checks.lib import formerly
from checks.lib.case import PROGRAM
from checks.lib.leftovers import Stopped, end_marked, new_mark, stop_on_signals
from checks.lib.program import PROGRAM as BUILT
from checks.lib.running import (
    COUNTS,
    Counts,
    arguments,
    chosen,
    classes_of,
    modules_of,
    name_of,
    names_of_checks,
    names_of_parts,
    use,
    use_debians_python,
)

from checks import TOP

running: list[subprocess.Popen[bytes]] = []
# A class that takes no longer begins before all others, so that a mistake shows early.
QUICK = 10


@dataclass(frozen=True)
class Unit:
    """A class of a check, or a check that is a program of its own. It runs as one process."""

    name: str
    slow: bool
    alone: bool
    seconds: int
    words: list[str]
    lacks: str = ""
    tests: tuple[str, ...] = ()
    needs_program: bool = True

    @property
    def order(self) -> tuple[bool, bool, int]:
        """Quick ones come first, and then the longest."""
        is_quick = self.seconds <= QUICK
        return self.slow, not is_quick, self.seconds if is_quick else -self.seconds


def units(patterns: list[str] | None) -> list[Unit]:
    """Return what can be run, in the order of the names."""
    found = [
        Unit(it.name, it.slow, it.alone, it.seconds, [str(TOP / "checks" / it.name)])
        for it in formerly.programs()
    ]
    for name in names_of_checks():
        words = [str(TOP / "checks" / name), "--slow"]
        try:
            modules = modules_of(name)
        except unittest.SkipTest as why:
            found.append(Unit(name, False, False, 0, words, str(why)))
            continue
        for it in classes_of(modules):
            if tests := tuple(name_of(test) for test in chosen(it, patterns)):
                # with both dots, so that no class runs whose name only ends like this one's
                only = [f"-k={test}" for test in tests] if patterns else [f"-k=*.{it.__name__}.*"]
                found.append(
                    Unit(
                        f"{name}.{it.__name__}",
                        it.slow,
                        it.alone,
                        it.seconds,
                        [*words, *only],
                        tests=tests,
                        needs_program=PROGRAM in it.needs,
                    )
                )
    return found


def is_picked(unit: Unit, there: list[Unit], named: list[str], with_slow: bool) -> bool:
    """Return whether a unit runs. A slow one needs --slow, unless its class is named, or a check of which all classes are slow."""
    check = unit.name.partition(".")[0]
    if unit.name in named:
        return True
    if named and check not in named:
        return False
    others = [it for it in there if it.name.partition(".")[0] == check]
    return with_slow or not unit.slow or bool(named) and all(it.slow for it in others)


def run(unit: Unit, logs: Path) -> Counts:
    """Run a unit, print its row, and return the counts of its tests."""
    began, log, counted = time.monotonic(), logs / f"{unit.name}.log", logs / f"{unit.name}.json"
    counted.unlink(missing_ok=True)
    status: int | OSError
    if unit.lacks:
        counts, status = Counts(skipped=1, lacks=[unit.lacks]), 0
    else:
        with open(log, "w", encoding="utf-8") as file:
            try:
                process = subprocess.Popen(
                    unit.words,
                    stdin=subprocess.DEVNULL,
                    stdout=file,
                    stderr=subprocess.STDOUT,
                    env={**os.environ, COUNTS: str(counted)},
                    start_new_session=True,
                )
                running.append(process)
                status = process.wait()
            except OSError as error:
                status = error
        if counted.exists():
            counts = Counts(**json.loads(counted.read_text(encoding="utf-8")))
        else:
            counts = formerly.counts_of(log, status)
    went = "failed" if status else "skipped" if not counts.passed else "passed"
    if status and not counts.failed:
        counts.failed = 1
    row = [
        unit.name,
        str(counts.cases or ""),
        f"{time.monotonic() - began:.0f}",
        went + (f", status {status}: {log}" if status else ""),
        "; ".join(dict.fromkeys(counts.lacks)),
    ]
    print("| " + " | ".join(row) + " |", flush=True)
    return counts


def main() -> int:
    use_debians_python()
    options = arguments("python3 -m checks", __doc__)
    options.add_argument("checks", nargs="*", metavar="CHECK")
    options.add_argument(
        "--long", action="store_true", dest="slow", help="the former name of --slow"
    )
    options.add_argument("--logs", type=Path, help="the folder of the logs; a new one if not given")
    options.add_argument(
        "--at-once",
        type=int,
        default=max(1, len(os.sched_getaffinity(0)) // 2),
        metavar="N",
        help="how many run at a time; half as many as there are processors if it isn't given",
    )
    asked = options.parse_args()
    if asked.at_once < 1:
        options.error("--at-once: it must be 1 or more")
    there = units(asked.k)
    named = {it.name for it in there} | {it.name.partition(".")[0] for it in there}
    # a file that runs one module of a folder stands for the module's classes
    for part in [it for it in asked.checks if it in names_of_parts()]:
        folder = names_of_parts()[part].split(".")[1].removesuffix("_tests")
        try:
            classes = classes_of(modules_of(part))
        except unittest.SkipTest as why:
            options.error(f"{part}: {why}")
        asked.checks.remove(part)
        asked.checks += [f"{folder}.{it.__name__}" for it in classes]
    if unknown := [it for it in asked.checks if it not in named]:
        near = ", ".join(difflib.get_close_matches(unknown[0], named, 3))
        options.error(
            f"there is no check {unknown[0]}; --list has all names" + (near and f", such as {near}")
        )
    picked = [
        it
        for it in sorted(there, key=lambda it: it.order)
        if is_picked(it, there, asked.checks, asked.slow) and (it.tests or not asked.k)
    ]
    if asked.list:
        print("\n".join(it for unit in picked for it in unit.tests or [unit.name]))
        return 0
    logs = asked.logs or Path(tempfile.mkdtemp(prefix="checks-"))
    logs.mkdir(parents=True, exist_ok=True)
    use(asked)
    stop_on_signals()
    mark = new_mark()
    try:
        return run_all(picked, logs, asked.at_once, not asked.checks)
    except Stopped as why:
        print(f"stopped by {why}", flush=True)
        return why.status
    finally:
        end_running(mark)


def end_running(mark: str) -> None:
    """Let each unit that runs clean up, for ten seconds at most, and kill what is left of all."""
    begun = [it for it in running if it.poll() is None]
    for it in begun:
        it.terminate()
    until = time.monotonic() + 10
    for it in begun:
        try:
            it.wait(max(0, until - time.monotonic()))
        except subprocess.TimeoutExpired:
            pass
    end_marked(mark)


def run_all(picked: list[Unit], logs: Path, at_once: int, is_whole: bool) -> int:
    """Run the units, and return the status of all."""
    if any(it.needs_program for it in picked):
        subprocess.run([BUILT, "--version"], check=True, stdout=subprocess.DEVNULL)
    print("| Check | cases | seconds | | lacked |\n|---|---|---|---|---|")
    all_counts = []
    if is_whole and subprocess.run([str(TOP / "tools" / "list_checks"), "--check"]).returncode:
        print("| docs/checks.md | | | failed: it lists other checks than these | |")
        all_counts.append(Counts(failed=1))
    for is_slow in (False, True):
        ranked = [it for it in picked if it.slow == is_slow]
        pool = ThreadPoolExecutor(at_once)
        try:
            all_counts += pool.map(lambda it: run(it, logs), [it for it in ranked if not it.alone])
        finally:
            pool.shutdown(wait=False, cancel_futures=True)
        all_counts += [run(it, logs) for it in ranked if it.alone]
    total = Counts(
        *(sum(getattr(it, name) for it in all_counts) for name in ("passed", "failed", "skipped"))
    )
    print(total)
    return 1 if total.failed else 0


if __name__ == "__main__":
    sys.exit(main())
