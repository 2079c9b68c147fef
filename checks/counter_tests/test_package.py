"""The package: it is the same bytes each time, and its programs run from its own tree with its own setup."""

import re
import subprocess
import tempfile
from pathlib import Path
from typing import ClassVar

from checks.lib import case
from checks.lib.case import Check
from checks.lib.nginx import replaced

from checks import TOP

PACKAGING = TOP / "packaging"
PROGRAMS = ("weighbridge-counter", "weighbridge-demo", "weighbridge-paper")


def run(*words: str | Path) -> subprocess.CompletedProcess[str]:
    return subprocess.run([*words], capture_output=True, text=True)


class Package(Check):
    """The package as packaging/build_counter makes it."""

    needs = ("aiohttp", "prometheus_client", "dpkg-deb")
    seconds = 60

    box: ClassVar[Path]
    package: ClassVar[Path]
    root: ClassVar[Path]

    @classmethod
    def setUpClass(cls) -> None:
        """Build the package once, because that takes long."""
        cls.box = Path(cls.enterClassContext(tempfile.TemporaryDirectory(prefix="package-")))
        cls.package, cls.root = cls.build("one"), cls.box / "root"
        subprocess.run(["dpkg-deb", "-x", cls.package, cls.root], check=True)

    @classmethod
    def build(cls, name: str) -> Path:
        """Build the package in a folder of its own, and return its path."""
        (cls.box / name).mkdir()
        it = run(PACKAGING / "build_counter", cls.box / name)
        it.check_returncode()
        return Path(it.stdout.strip())

    def test_same_bytes(self) -> None:
        is_same = self.package.read_bytes() == self.build("other").read_bytes()
        self.holds("the package is the same bytes each time", is_same)

    def test_setup(self) -> None:
        for name, words, in_order in (
            ("counter", (), "the page will be at http://127.0.0.1:882/"),
            ("paper", ("--setup",), "printers: none; each weighing is printed by: none"),
        ):
            path = self.root / "etc" / f"weighbridge-{name}.toml"
            state = ("/var/lib/weighbridge-counter", str(self.box))
            text = replaced(path.name, path.read_text(encoding="utf-8"), state)
            path.write_text(text, encoding="utf-8")
            it = run(self.root / f"usr/bin/weighbridge-{name}", "--check", *words, path)
            self.same(
                f"weighbridge-{name} takes the setup of its package",
                (0, f"{path}: in order; {in_order}\n", ""),
                (it.returncode, it.stdout, it.stderr),
            )

    def test_manual_pages(self) -> None:
        for name in PROGRAMS:
            page = PACKAGING / "counter" / f"{name}.1"
            manual = page.read_text(encoding="utf-8").replace("\\", "")
            told = run(self.root / "usr" / "bin" / name, "--help").stdout
            options = re.findall(r"--[a-z]+", told)
            missing = [it for it in options if it not in manual]
            what = f"each option of the help is in {name}'s manual page"
            self.same(what, (True, []), (bool(options), missing))

    @case.skip_without("man")
    def test_man(self) -> None:
        for name in PROGRAMS:
            page = PACKAGING / "counter" / f"{name}.1"
            it = run("man", "--warnings", "-E", "UTF-8", "-l", "-Tutf8", "-Z", page)
            self.same(f"man has nothing to say of {name}", "", it.stderr)

    @case.skip_without("lintian")
    def test_lintian(self) -> None:
        it = run("lintian", "--allow-root", self.package)
        self.same("nor lintian of the package", "", it.stdout + it.stderr)

    @case.skip_without("systemd-analyze")
    def test_unit(self) -> None:
        unit = self.root / "usr/lib/systemd/system/weighbridge-counter.service"
        it = run("systemd-analyze", "security", "--offline=true", unit)
        found = re.search(r"exposure level for \S+: ([\d.]+)", it.stdout)
        is_little = found is not None and float(found[1]) <= 1.5
        self.holds("the unit is little exposed", is_little, found[1] if found else it.stderr)
