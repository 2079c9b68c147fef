"""Shows that everything in a release, built twice from one commit in two folders, is the same bytes.

These are program, packages, sources, bill of materials, wheel and checksums. It needs what packaging/package and
library/wheel need.

Usage: `checks/same_package [--anew]`. The check copies what is already proved here of the crates below the programs and
the library. So only their own crates are proved twice, in some ten minutes. With `--anew` every crate is, in an hour.
WEIGHBRIDGE_LIBRARY names what library/build made before, as there.
"""

import hashlib
import os
import shutil
import subprocess
from pathlib import Path

from checks import TOP
from checks.lib.case import Check, given

PACKAGES = ("weighbridge", "weighbridge-counter", "weighbridge-doc", "weighbridge-head-office")
PROVED = ("wb_*/out/proved", "wb_terminal_c/out/*.a", "wb_terminal_c/out/*.stamp")
BUILT = ("weighbridge/out/weighbridge", "weighbridge_converter/out/weighbridge_converter")


def run(*words: str | Path, **more: str) -> None:
    """Run a command, whose output is shown only if it fails."""
    environment = {**os.environ, **more}
    ran = subprocess.run(words, env=environment, capture_output=True, text=True)
    if ran.returncode:
        raise AssertionError(f"{words[0]}: {ran.stdout[-2000:]}{ran.stderr[-2000:]}")


def build(folder: Path, commit: str, is_anew: bool) -> dict[str, str]:
    """Build the programs and packages of a commit in this folder, and return their checksums. .buildinfo and .changes depend on the machine and the moment."""
    packages = folder / "packages"
    packages.mkdir(parents=True)
    run("sh", "-c", f"git -C '{TOP}' archive {commit} | tar -x -C '{folder}'")
    for pattern in () if is_anew else PROVED:
        for it in (TOP / "crates").glob(pattern):
            target = folder / it.relative_to(TOP)
            target.parent.mkdir(parents=True, exist_ok=True)
            if it.is_dir():
                shutil.copytree(it, target, symlinks=True)
            else:
                shutil.copy2(it, target)
    for name in (*PACKAGES, "weighbridge-terminal"):
        run(folder / "packaging" / "package", name, packages)
    run(folder / "library" / "wheel", packages, PATH=f"/usr/bin:{os.environ['PATH']}")
    made = [folder / "crates" / it for it in BUILT]
    made += [it for it in packages.rglob("*") if it.is_file()]
    return {
        str(it.relative_to(folder)): hashlib.sha256(it.read_bytes()).hexdigest()
        for it in sorted(made)
        if it.suffix not in (".buildinfo", ".changes")
    }


class SamePackage(Check):
    """A release that is built in two folders."""

    needs = ("git", "dpkg-buildpackage", "dh", "pybuild", "pip", "setuptools", "wheel", "the kit")
    options = {"--anew": ""}
    slow = True
    alone = True
    seconds = 1200

    def test_two_folders(self) -> None:
        commit = subprocess.check_output(["git", "rev-parse", "HEAD"], cwd=TOP, text=True).strip()
        box, is_anew = Path(self.folder()), bool(given.get("anew"))
        first = build(box / "first", commit, is_anew)
        another = build(box / "another" / "of-a-longer-name", commit, is_anew)
        self.same("what is built", [*first], [*another])
        for name, checksum in first.items():
            self.same(f"{checksum}  {name}", checksum, another.get(name))
        self.holds("packages are built", any(it.endswith(".deb") for it in first))
