"""Shows that the program agrees with a model over 126 histories worked out by hand and 3,000 random traces. A reader of
the rules who hadn't seen the crates wrote the model.

The model is in checks/model.
"""

import subprocess
import sys

from checks import TOP
from checks.lib.case import PROGRAM, Check, many
from checks.lib.program import compiled


class ReplayAgainstModel(Check):
    """The program's replay next to the model's, trace by trace."""

    needs = (PROGRAM,)
    slow = True
    seconds = 600

    def agrees(self, script: str, *words: str) -> None:
        """Show that a script of the model finds no difference, which it says by its status."""
        command = [sys.executable, "-B", script, compiled(), *words]
        ran = subprocess.run(command, cwd=TOP / "checks" / "model")
        self.assertEqual(0, ran.returncode, script)

    def test_histories(self) -> None:
        self.agrees("histories.py")

    def test_random_traces(self) -> None:
        self.agrees("random_traces.py", str(many(3_000)), "1")
