"""Shows that the file for a service company has what it needs, no plate, key or secret, and says why a part is missing.

- The tests in support/tests play a bridge, and take each of its sources away in turn. They hide 3,000 random plates and keys in several forms of a
  line.
- The real script, in folders as the package installs them, runs on this machine. Its file has each part, and the owner's mode. A file that is there,
  and a folder that isn't, are refused by name.
"""

import os
import stat
import subprocess
from pathlib import Path

from checks.lib.case import Check
from checks.lib.installed import install


TITLES = (
    "Versions;Clock;Units;/etc/weighbridge.conf;/etc/weighbridge-alarm.toml;Health of the counter;"
    "Check by the office;Alarm;Audit trail;Last night;/var/lib/weighbridge;Disks;Memory;"
    "The last hour's lines"
).split(";")


class Support(Check):
    """The tests of the part, and the script as it is installed."""

    def test_tests_of_the_part(self) -> None:
        self.passes_unittest("support")

    def test_file(self) -> None:
        box = self.folder()
        script, path = install(box, "support", "night", "alarm"), os.path.join(box, "file.txt")

        def written(to: str) -> subprocess.CompletedProcess[str]:
            return subprocess.run([script, "--output", to], capture_output=True, text=True)

        ran = written(path)
        self.same("the file is written", 0, ran.returncode)
        self.same("where it is", f"{path}: written, ", ran.stdout[: len(path) + 11])
        self.same("only its owner reads it", 0o600, stat.S_IMODE(os.stat(path).st_mode))
        text = Path(path).read_text(encoding="utf-8")
        missing = [it for it in TITLES if f"\n== {it} ==\n" not in text]
        self.same("parts that are missing", [], missing)
        setup = "/etc/weighbridge-alarm.toml"
        is_said = f"== {setup} ==\nnot available: " in text or os.path.exists(setup)
        self.holds("a setup that isn't there is named", is_said, text)
        again = (written(path).returncode, Path(path).read_text(encoding="utf-8"))
        self.same("a file that is there stays", (1, text), again)
        gone = written(f"{box}/gone/x")
        words = "No such file or directory; name a new file with --output"
        wanted = (1, f"weighbridge-support: {box}/gone/x: {words}")
        found = (gone.returncode, gone.stderr.splitlines()[-1])
        self.same("a folder that isn't there is named", wanted, found)
        shown = written("-")
        self.same("on the screen", (0, True), (shown.returncode, "== Versions ==" in shown.stdout))
