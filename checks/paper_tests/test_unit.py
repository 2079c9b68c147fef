"""The tests of printouts that are in the counter's own folder."""

import subprocess
import sys

from checks.lib.case import Check

from checks import TOP

MODULES = ("tests.test_paper_text", "tests.test_paper_printing", "tests.test_counter_papers")


class Unit(Check):
    """Tests that need no built program."""

    needs = ("reportlab", "qrcode", "PIL", "serial", "aiohttp", "prometheus_client")
    seconds = 40

    def test_unit(self) -> None:
        words = [sys.executable, "-B", "-m", "unittest", *MODULES]
        it = subprocess.run(words, cwd=TOP / "counter", capture_output=True, text=True)
        self.same("the unit tests of papers", 0, it.returncode)
        self.holds("and there are some", "\nRan 0 " not in it.stderr, it.stderr[-2000:])
