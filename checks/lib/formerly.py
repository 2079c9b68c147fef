"""The checks that are programs of their own, and no classes yet. A new check belongs in a class; this module goes with the last of them."""

import os
import re
from dataclasses import dataclass
from pathlib import Path

from checks.lib.running import Counts, names_of_checks, names_of_parts

from checks import TOP

# These are no checks themselves.
NO_CHECKS = {"all", "gate"}
# They run only with --slow.
SLOW = {
    "wrong_bodies",
}
# They measure how late something comes, or change what the launcher built.
ALONE = {
    "wrong_bodies",
}
# About how many seconds the others take, if it is more than a minute.
SECONDS = {
    "release": 400,
    "units": 250,
}
# The end, or the beginning, of a line that reports a case.
CASE = re.compile(r"ok\b|.*(?:[:,] ok(?: \(.*\))?|\| ok \|)$")


@dataclass(frozen=True)
class Program:
    """A check that is a program of its own."""

    name: str
    slow: bool
    alone: bool
    seconds: int


def programs() -> list[Program]:
    """Return those in checks/ that can be run, and are no check of the package."""
    classes = {*NO_CHECKS, *names_of_checks(), *names_of_parts()}
    names = (
        it.name
        for it in sorted((TOP / "checks").iterdir())
        if it.is_file() and not it.suffix and it.name not in classes and os.access(it, os.X_OK)
    )
    return [Program(it, it in SLOW, it in ALONE, SECONDS.get(it, 60)) for it in names]


def counts_of(log: Path, status: int | OSError) -> Counts:
    """Return what a program's lines say. It counts as one test."""
    said = log.read_text(encoding="utf-8", errors="replace").rstrip().split("\n")
    is_skipped = not status and "skipped, since" in said[-1]
    lacks = [
        found[1] for it in said if (found := re.search(r"(?:skipped|left out), since (.*)", it))
    ]
    return Counts(
        passed=int(not status and not is_skipped),
        failed=int(bool(status)),
        skipped=int(is_skipped),
        cases=sum(bool(CASE.match(it)) for it in said),
        lacks=lacks,
    )
