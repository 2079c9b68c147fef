"""Shows that without the kit the launcher `weighbridge` says in two lines what it needs and what to install instead, with
status 2.

It runs the first command of README.md and others in a copy of the sources in which nothing was built. One `PATH` has no
`rt`, the other one an `rt` that fails. A program that was built runs without the kit.
"""

import os
import re
import shutil
import subprocess
import sys

from checks import TOP
from checks.lib.case import Check

BUILDS = "this command builds the program from its source, which needs the kit's rt in the PATH"
INSTALL = "weighbridge: to run a weighbridge, install the package instead: docs/install.md#1-install-the-packages"


def first_command() -> str:
    """Return the first command of README.md."""
    page = (TOP / "README.md").read_text(encoding="utf-8")
    found = re.search(r"(?m)^```sh kit\n(.*\./weighbridge .*)$", page)
    assert found, "README.md has a command for the kit"
    return found[1]


def write(path: str, text: str) -> None:
    """Write a file that can be run."""
    with open(path, "w", encoding="utf-8") as file:
        file.write(text)
    os.chmod(path, 0o755)


def ran(folder: str, path: str, command: str) -> tuple[int, str, list[str]]:
    """Run a command. Returns its status, and what it printed and reported."""
    own, words = {"PATH": path, "HOME": folder}, ["sh", "-c", command]
    it = subprocess.run(words, cwd=folder, env=own, capture_output=True, text=True)
    return it.returncode, it.stdout, it.stderr.splitlines()


class WithoutTheKit(Check):
    """The launcher on a machine that can't build."""

    def setUp(self) -> None:
        folder = self.folder()
        self.sources, self.tools, self.broken = (
            f"{folder}/{it}" for it in ("sources", "tools", "broken")
        )
        unneeded = shutil.ignore_patterns("out")
        shutil.copytree(TOP / "crates", f"{self.sources}/crates", ignore=unneeded)
        shutil.copy(TOP / "weighbridge", self.sources)
        os.chmod(f"{self.sources}/weighbridge", 0o755)
        shutil.copy(TOP / "crates.txt", self.sources)
        os.symlink("weighbridge", f"{self.sources}/weighbridge-converter")
        for at in (self.tools, self.broken):
            os.mkdir(at)
            os.symlink("/bin/sh", f"{at}/sh")
            os.symlink("/usr/bin/env", f"{at}/env")
            os.symlink(sys.executable, f"{at}/python3")
        write(f"{self.broken}/rt", "#!/bin/sh\nexit 3\n")

    def test_nothing_is_built(self) -> None:
        for path, why in (
            (self.tools, "rt: No such file or directory"),
            (self.broken, "`rt doc` ended with status 3"),
        ):
            for command in (
                first_command(),
                "./weighbridge replay",
                "./weighbridge --version",
                "./weighbridge-converter --help",
            ):
                wanted = (2, "", [f"weighbridge: {why}; {BUILDS}", INSTALL])
                self.same(f"{command}, {why}", wanted, ran(self.sources, path, command))

    def test_program_that_is_built(self) -> None:
        out = f"{self.sources}/crates/weighbridge/out"
        os.makedirs(f"{out}/proved")
        write(f"{out}/weighbridge", "#!/bin/sh\necho built\n")
        write(f"{out}/compiled_by", "rattle")
        write(f"{out}/proved/stamp", "")
        found = ran(self.sources, self.tools, "./weighbridge replay")
        self.assertEqual((0, "built\n", []), found)

    def test_heading_of_the_page(self) -> None:
        page = (TOP / "docs" / "install.md").read_text(encoding="utf-8")
        self.assertRegex(page, r"(?m)^## 1\. Install the packages$")
