"""Shows that the second verifier agrees with `weighbridge check` on the journals that other checks make, even after kills and power cuts.

Other checks run here in a copy of the repository. A script replaces the built program there. It passes everything on. Before each `weighbridge check
--file`, it copies the journal with its log and its witness, and lets the program and inspect/verify.c judge the copy. Every verdict must be the same: the
faulty number, the count of a sound journal, or a journal that is refused. Each different one is a failure that shows both texts, and its files stay for a
look. The checks are those that make many journals with python3 only, or those that CHECKS_OF_AGREEMENT names.
"""

import json
import os
import shutil
import subprocess
import sys
import tempfile
import unittest
from collections import Counter
from pathlib import Path

from checks import TOP
from checks.lib.case import PROGRAM, Check
from checks.lib.second_verifier import LIBRARIES, SOURCE, STRICT, lacking

BUILT = "crates/weighbridge/out/weighbridge"
CHECKS = (
    "beside_the_journal broken_files lost_entries night serve_changed_file serve_killed "
    "serve_same_key sqlite3_on_the_file verify"
).split()
NAMED = os.environ.get("CHECKS_OF_AGREEMENT", "").split() or CHECKS


def copy_of_repository(to: Path) -> None:
    """Copy the repository by links, without its history."""
    subprocess.run(["cp", "-al", "--", str(TOP), str(to)], check=True)
    shutil.rmtree(to / ".git", ignore_errors=True)


def put_script(copy: Path, folder: Path) -> None:
    """Put the script in the place of the program. The built program stays under another name."""
    program = copy / BUILT
    program.rename(folder / "weighbridge")
    text = (TOP / "checks" / "lib" / "compared_check.py").read_text(encoding="utf-8")
    for place, path in (("@program@", folder / "weighbridge"), ("@folder@", folder)):
        text = text.replace(place, str(path))
    program.write_text(text.replace("@top@", str(TOP)), encoding="utf-8")
    program.chmod(0o755)


class Agreement(Check):
    """Other checks, in a copy of the repository whose program is a script that compares each verdict."""

    needs = (PROGRAM, "cc")
    slow = True
    seconds = 2_000

    @unittest.skipIf(lacking(), lacking())
    def test_verdicts(self) -> None:
        kept = Path(self.folder())
        # next to the repository, since links don't lead to another disk
        folder = Path(tempfile.mkdtemp(prefix="agreement-", dir=TOP.parent))
        self.addCleanup(shutil.rmtree, folder, ignore_errors=True)
        verifier = ["cc", *STRICT, "-O2", "-o", str(kept / "verify"), str(SOURCE), *LIBRARIES]
        subprocess.run(verifier, check=True)
        copy_of_repository(folder / "copy")
        put_script(folder / "copy", kept)
        (kept / "differ").mkdir()
        words = [sys.executable, "-B", "-m", "checks", "--slow", "--logs", str(kept / "logs")]
        run = subprocess.run([*words, *NAMED], cwd=folder / "copy", stdin=subprocess.DEVNULL)
        self.same("the checks pass with the script in the program's place", 0, run.returncode)
        with open(kept / "verdicts", encoding="utf-8") as file:
            verdicts = [json.loads(line) for line in file]
        counted = Counter(it["kind"] for it in verdicts)
        for kind, count in sorted(counted.items()):
            print(f"{kind}: {count}", flush=True)
        for it in verdicts:
            if it["kind"] == "differs":
                print(json.dumps(it, indent=1))
        if counted["differs"]:
            stay = tempfile.mkdtemp(prefix="differ-")
            shutil.copytree(kept / "differ", stay, dirs_exist_ok=True)
            print(f"the journals are in {stay}")
        self.same("verdicts that differ", 0, counted["differs"])
        compared = sum(count for kind, count in counted.items() if kind.startswith("both say"))
        self.holds("at least a hundred were compared", compared >= 100, compared)
