"""Shows that `./weighbridge try replay` prints what the proved program prints, that it refuses by a line what can't be
tried, and that two builds wait for each other.
"""

import fcntl
import os
import subprocess

from checks import TOP
from checks.lib.case import PROGRAM, Check

SAID = "weighbridge: a trial: nothing is proved; bounds and overflows are checked while it runs"


def ran(words: list[str], trace: str = "") -> tuple[str, int, list[str]]:
    run = subprocess.run([TOP / "weighbridge", *words], input=trace, capture_output=True, text=True)
    return run.stdout, run.returncode, run.stderr.splitlines()


def day() -> tuple[str, str]:
    """Return the trace of docs/day.md, and what the page shows that it prints."""
    page = (TOP / "docs" / "day.md").read_text(encoding="utf-8")
    lines = [line for line in page.splitlines() if line.startswith("    ")]
    trace = [line[4:] for line in lines if not line.startswith(" " * 12)]
    printed = [line[12:] for line in lines if line.startswith(" " * 12)]
    return "".join(f"{line}\n" for line in trace), "".join(f"{line}\n" for line in printed)


class TryReplay(Check):
    """The unproved source next to the proved program. It changes what the launcher built."""

    needs = (PROGRAM, "the kit")
    alone = True
    seconds = 330

    def test_traces(self) -> None:
        trace, printed = day()
        setup = ["--serial", "A7", "--interval", "50"]
        ran(["--version"])
        rows: list[tuple[str, list[str], str, str, int]] = [
            ("the day of docs/day.md", [], trace, printed, 0),
            ("a setup that is given", setup, "t I4\n", 't I4 A "A7"\n', 0),
            ("a line that isn't understood", [], "t I4\nq\n", 't I4 A "WB01"\n', 1),
        ]
        for what, options, given, wanted, status in rows:
            self.same(f"{what}, proved", (wanted, status), ran(["replay", *options], given)[:2])
            tried = ran(["try", "replay", *options], given)
            self.same(f"{what}, tried", (wanted, status, [SAID]), (*tried[:2], tried[2][:1]))

    def test_refusals(self) -> None:
        rows: list[tuple[list[str], str]] = [
            (["serve"], "serve"),
            (["check", "--file", "journal.db"], "check"),
            (["export"], "export"),
            ([], "replay"),
        ]
        for words, command in rows:
            out, status, told = ran(["try", *words])
            what = f"try {' '.join(words)}"
            self.same(f"{what}: nothing is printed", ("", 1, 1), (out, status, len(told)))
            self.assertRegex(told[0], rf"\./weighbridge {command}$", what)

    def test_build_next_to_another(self) -> None:
        """Show that a build waits for another one, says so, and then continues."""
        out = TOP / "crates" / "weighbridge" / "out"
        os.utime(out / "proved" / "stamp", (0, 0))
        with open(out / "building", "w", encoding="utf-8") as held:
            fcntl.flock(held, fcntl.LOCK_EX)
            words, pipe = [str(TOP / "weighbridge"), "--version"], subprocess.PIPE
            second = subprocess.Popen(words, stdout=pipe, stderr=pipe, text=True)
            assert second.stderr is not None  # it is a pipe
            said = second.stderr.readline()
            is_said = said.startswith("weighbridge: another ./weighbridge is building")
            self.holds("it says so", is_said, said)
            self.same("and waits", None, second.poll())
        printed, err = second.communicate(timeout=60)
        self.same("then it continues", (ran(["--version"])[0], ""), (printed, err))
