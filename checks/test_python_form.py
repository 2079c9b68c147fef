"""Shows that all Python has the layout that black gives it, that flake8 finds nothing in it, and that it passes mypy --strict, by the settings in pyproject.toml and .flake8.

The types of the counter are left out if its library aiohttp isn't installed.

Usage: checks/python_form [--write]     --write lays the files out instead of naming them
"""

import collections
import importlib.util
import os
import re
import subprocess
from pathlib import Path

from checks import FOLDERS, TOP
from checks.lib.case import Check, given, skip_without
from checks.lib.tracked import tracked

PACKAGE = "checks"
# The model imports nothing of this repository but itself.
MODEL = "checks/model"


def checked_with(folder: str) -> str:
    """Return the folder with whose files the types of this folder's are checked."""
    if re.fullmatch(r"checks(/lib|/\w+_tests)?", folder):
        return PACKAGE
    return "counter" if folder.startswith("counter/") else folder


def run(*words: str, **more: str) -> tuple[int, str]:
    """Return a tool's status, and what it says."""
    ran = subprocess.run(words, cwd=TOP, env={**os.environ, **more}, capture_output=True, text=True)
    return ran.returncode, ran.stdout + ran.stderr


class PythonForm(Check):
    """black, flake8 and mypy over all Python."""

    needs = ("git", "black")
    options = {"--write": ""}
    seconds = 5

    def setUp(self) -> None:
        self.files = tracked(str(TOP), "python3", ".py")

    def test_layout(self) -> None:
        words = ["black", "--quiet", "--config", "pyproject.toml"]
        words += [] if given.get("write") else ["--check"]
        if run(*words, *self.files)[0]:
            refused = [it for it in self.files if run(*words, it)[0]]
            self.same("files for checks/python_form --write", [], refused)

    @skip_without("flake8")
    def test_findings(self) -> None:
        self.assertEqual((0, ""), run("flake8", *self.files))

    @skip_without("mypy")
    def test_types(self) -> None:
        """Show what mypy refuses. It runs once for each folder, because two programs may have one name."""
        folders = collections.defaultdict(list)
        for path in self.files:
            folders[checked_with(str(Path(path).parent))].append(path)
        if not importlib.util.find_spec("aiohttp"):
            del folders["counter"]
        words = ["mypy", "--config-file", "pyproject.toml", "--scripts-are-modules"]
        words += ["--follow-imports", "silent"]
        for folder, chosen in folders.items():
            bases = ["--explicit-package-bases"] if folder in (PACKAGE, MODEL) else []
            own = {PACKAGE: [".", *FOLDERS], MODEL: [MODEL]}
            path = ":".join(own.get(folder, [folder, *FOLDERS, "."]))
            status, said = run(*words, *bases, *chosen, MYPYPATH=path)
            self.same(f"types in {folder}", (0, ""), (status, said if status else ""))
