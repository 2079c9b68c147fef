"""Shows that a day's replay, checks and exports use no memory wrongly and lose none."""

import os
import sqlite3
import subprocess
from pathlib import Path

from checks.lib import day
from checks.lib.case import PROGRAM, Check
from checks.lib.journal import make_journal
from checks.lib.program import compiled

LEAKS = ["--leak-check=full", "--show-leak-kinds=all", "--errors-for-leak-kinds=all"]


class ReplayUnderValgrind(Check):
    """Runs of the program, plain and under valgrind."""

    needs = (PROGRAM, "valgrind")
    seconds = 120

    def setUp(self) -> None:
        self.box = self.folder()

    def watched(self, wanted: int, *words: str, given: str = "") -> None:
        """Show that a run prints the same under valgrind, which finds nothing, and ends with this status."""
        log = os.path.join(self.box, "log")
        valgrind = ["valgrind", "--quiet", "--error-exitcode=99", *LEAKS, f"--log-file={log}"]

        def run(*before: str) -> tuple[int, str]:
            command, pipe = [*before, compiled(), *words], subprocess.PIPE
            it = subprocess.run(
                command, input=given, stdout=pipe, stderr=subprocess.STDOUT, text=True
            )
            return it.returncode, it.stdout

        plain, watched = run(), run(*valgrind)
        found = Path(log).read_text(encoding="utf-8", errors="replace")
        self.same(f"{' '.join(words)}: valgrind's log", "", found)
        what = f"{words[0]}, {plain[1].count(chr(10))} lines"
        self.same(what, [(wanted, plain[1])] * 2, [plain, watched])

    def test_day(self) -> None:
        self.watched(0, "replay", given=day.trace())

    def test_file_without_a_byte(self) -> None:
        path = os.path.join(self.box, "journal.db")
        open(path, "wb").close()
        self.watched(0, "check", "--file", path)

    def test_journal(self) -> None:
        path = os.path.join(self.box, "journal.db")
        make_journal(path, 2)
        self.watched(0, "check", "--file", path)
        self.watched(0, "export", "--file", path, "--what", "journal")
        self.watched(0, "export", "--file", path, "--what", "tickets")
        with sqlite3.connect(path) as database:
            database.execute("UPDATE journal SET gross_kg = 18360 WHERE number = 1")
        database.close()
        self.watched(1, "check", "--file", path)
        self.watched(1, "export", "--file", path, "--what", "tickets")
