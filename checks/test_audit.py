"""Shows that the audit trail notes each event once, even if the power goes within a line, and that a changed trail is found.

- The tests in audit/tests play a bridge, its clocks and the system's journal. The power goes after each of many bytes of a line.
- The real script, in folders as the package installs them, looks at this machine twice. Its trail is whole by the program and by the script that
  inspection.md gives an inspector. Both find a changed byte and a repeated line, and the comparison with a copy finds a cut end.
"""

import os
import re
import subprocess
import sys
from pathlib import Path

from checks import TOP
from checks.lib.case import Check
from checks.lib.installed import install


def by_hand(path: str) -> int:
    """Return the status of the program that inspection.md gives for a check by another hand."""
    page = (TOP / "docs" / "inspection.md").read_text(encoding="utf-8")
    found = re.search(r"^python3 - trail\.jsonl << 'END'\n(.*?)^END$", page, re.M | re.S)
    assert found is not None, "inspection.md has no check of the trail by another hand"
    words = [sys.executable, "-I", "-", path]
    return subprocess.run(words, input=found[1], capture_output=True, text=True).returncode


class Audit(Check):
    """The tests of the part, and the script as it is installed."""

    def setUp(self) -> None:
        box = self.folder()
        self.script, self.state = install(box, "audit", "night", "support"), f"{box}/state"
        self.path, self.copy = Path(self.state, "trail.jsonl"), Path(box, "copy")
        os.mkdir(self.state)

    def collect(self) -> None:
        words = [self.script, "collect", "--state", self.state]
        ran = subprocess.run(words, capture_output=True, text=True)
        self.assertEqual((0, ""), (ran.returncode, ran.stderr), "a look")

    def run_script(self, *words: str) -> tuple[int, str]:
        """Return the status of the script, and what it prints."""
        ran = subprocess.run([self.script, *words], capture_output=True, text=True)
        return ran.returncode, ran.stdout

    def found(self, data: bytes) -> tuple[int, int]:
        """Return what the program and the other hand find in these bytes."""
        self.copy.write_bytes(data)
        return self.run_script("check", "--file", str(self.copy))[0], by_hand(str(self.copy))

    def test_tests_of_the_part(self) -> None:
        self.passes_unittest("audit")

    def test_trail(self) -> None:
        self.collect()
        self.collect()
        data = self.path.read_bytes()
        self.same("a look without news adds no line", 1, data.count(b"\n"))
        # a setup of this test makes more lines; the trail isn't changed, only added to
        for number in range(2):
            os.remove(f"{self.state}/last.json")
            self.path.write_bytes(self.path.read_bytes() + b"x" * number + b"cut")
            self.collect()
        longer = self.path.read_bytes()
        self.same("nothing that was written is changed", data, longer[: len(data)])
        # without what was torn, which the other hand calls a line that doesn't fit
        self.same("the program accepts what a cut left", 0, self.found(longer)[0])
        self.path.write_bytes(data)
        words = ("--file", str(self.path), "--against", str(self.copy))
        status, said = self.run_script("check", *words)
        self.same("a cut end", (1, True), (status, "its end was cut off" in said))

    def test_changes(self) -> None:
        self.collect()
        data = self.path.read_bytes()
        lines = data.splitlines(keepends=True)
        self.same("a whole trail", (0, 0), self.found(data))
        for at in (2, len(data) // 2, len(data) - 5):
            byte = bytes([data[at] ^ 1])
            self.same(f"byte {at} changed", (1, 1), self.found(data[:at] + byte + data[at + 1 :]))
        self.same("a line twice", (1, 1), self.found(lines[0] + lines[0]))
        status, said = self.run_script("show", "--file", str(self.path))
        self.same("it is shown", (0, True), (status, "The chain is whole" in said))
