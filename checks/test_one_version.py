"""Shows that each place that says a version says the same one, and that tools/tag_releases knows the commit of each release before.
"""

import os
import re
import subprocess
import unittest
from collections.abc import Iterator

from checks import TOP
from checks.lib.case import Check, skip_without

# Each place: a file, and the text around its version. A number in digits only is 10,000 for the first place, 100 for the second, 1 for the third.
PLACES = [
    ("packaging/weighbridge/debian/changelog", r"\Aweighbridge \((.*?)\)"),
    ("CHANGELOG.md", r"^## (\S+),"),
    ("crates/wb_command/src/words.rt", r'^pub const VERSION: &str = "(.*)";'),
    ("crates/wb_converter_command/src/words.rt", r'^const VERSION: &str = "(.*)";'),
    ("crates/wb_terminal_c/src/exports.rt", r"^const VERSION: u32 = ([\d_]+);"),
    (
        "library/weighbridge_terminal_declarations.h",
        r"^#define WEIGHBRIDGE_TERMINAL_VERSION (\d+)",
    ),
    ("library/python/pyproject.toml", r'^version = "(.*)"'),
    ("library/python/weighbridge_terminal/__init__.py", r'^__version__ = "(.*)"'),
    ("docs/library.md", r"\b(\d+) for \d+\.\d+\.\d+"),
    ("docs/library.md", r"\b\d+ for (\d+\.\d+\.\d+)"),
    ("counter/openapi.json", r'^    "version": "(.*)"'),
    ("clients/openapi.json", r'^    "version": "(.*)"'),
    # the last release of the plan, which is behind all others
    ("head_office/sqitch.plan", r"(?s)\A.*^@(\S+) "),
    ("checks/test_check_and_export.py", r'version = "weighbridge (\S+)"'),
]
# The pages' output of the program, and the names of packages in them; not the reports of another program, and not the upgrade from 1.0.0.
SHOWN = re.compile(
    r"^    weighbridge (\d+\.\d+\.\d+)$|\b(?:lib)?(?:python3-)?weighbridge[\w-]*_(\d+\.\d+\.\d+)(?:-1)?_\w+\.deb",
    re.M,
)


def read(path: str) -> str:
    return (TOP / path).read_text(encoding="utf-8")


def spelled(version: str) -> str:
    """Return a version with its points."""
    digits = version.replace("_", "")
    if not digits.isdigit():
        return version
    return f"{int(digits) // 10000}.{int(digits) // 100 % 100}.{int(digits) % 100}"


def found() -> Iterator[tuple[str, str]]:
    """Return each place with the version that it says."""
    for path, pattern in PLACES:
        there = os.path.exists(os.path.join(TOP, path)) and re.search(pattern, read(path), re.M)
        yield path, spelled(there[1]) if there else "none"
    for folder, _, names in os.walk(os.path.join(TOP, "packaging")):
        for name in sorted(names):
            if re.search(r"\.[1-9]$", name):
                path = os.path.relpath(os.path.join(folder, name), TOP)
                there = re.match(r'\.TH \S+ \d "" "weighbridge (\S+)"', read(path))
                yield path, there[1] if there else "none"
    for name in sorted(os.listdir(os.path.join(TOP, "docs"))):
        if name.endswith(".md"):
            for at in SHOWN.finditer(read(f"docs/{name}")):
                if "dpkg-deb -x" not in at.string[at.string.rindex("\n", 0, at.start()) : at.end()]:
                    yield f"docs/{name}", at[1] or at[2]


class OneVersion(Check):
    """The version, and the commits of the releases."""

    def test_version(self) -> None:
        places = list(found())
        wanted = places[0][1]
        self.holds("the places", len(places) > len(PLACES), places)
        for path, version in places:
            self.same(path, wanted, version)

    @skip_without("git")
    @unittest.skipUnless((TOP / ".git").exists(), "there is no .git")
    def test_commits_of_the_releases(self) -> None:
        ran = subprocess.run([str(TOP / "tools" / "tag_releases"), "--check"], check=False)
        self.assertEqual(0, ran.returncode)
