"""Shows that shellcheck finds nothing in the shell scripts, including the maintainer scripts of the packages.

A script is a file that git tracks, and whose name ends in .sh or whose first line names sh or bash. If a rule doesn't fit a place, the line above the
place leaves the rule out, and a comment says why.
"""

import subprocess

from checks import TOP
from checks.lib.case import Check
from checks.lib.tracked import tracked


class ShellForm(Check):
    """shellcheck over all scripts."""

    needs = ("git", "shellcheck")

    def test_shellcheck_finds_nothing(self) -> None:
        # gcc: a line for each place, with its path
        words = ["shellcheck", "--external-sources", "--format", "gcc"]
        ran = subprocess.run(
            [*words, *tracked(str(TOP), "sh|bash", ".sh")], cwd=TOP, capture_output=True, text=True
        )
        self.assertEqual((0, ""), (ran.returncode, ran.stdout + ran.stderr))
