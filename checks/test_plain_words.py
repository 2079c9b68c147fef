"""Shows that no file has more places that docs/STYLE.md rules out than the list of old ones says.

`tools/plain` finds the places. checks/data/plain_words.txt has a line with a count and a path for each file that still has some. Above these lines it
gives the reason for them. A file that isn't listed may have none. If a file has fewer places than its line says, the check passes and names the file,
so that --lower can lower the count.

Usage: checks/plain_words [--lower]. --lower writes the list again with the present counts. It raises no count and adds no line.
"""

import collections
import re
import subprocess
import sys

from checks import TOP
from checks.lib.case import Check, given

LIST = TOP / "checks" / "data" / "plain_words.txt"
ROW = re.compile(r" *(\d+) (\S+)")


def places() -> dict[str, list[str]]:
    """Return the places that `tools/plain` finds in each file."""
    words = [sys.executable, str(TOP / "tools" / "plain")]
    ran = subprocess.run(words, cwd=TOP, capture_output=True, text=True)
    if ran.returncode not in (0, 1) or ran.stderr:
        raise AssertionError(f"tools/plain: {ran.stderr}")
    found: dict[str, list[str]] = collections.defaultdict(list)
    for line in ran.stdout.splitlines():
        if row := re.match(r"(\S+?):\d+: ", line):
            found[row[1]].append(line)
    return found


class PlainWords(Check):
    """The places, and the list of those that may be there."""

    options = {"--lower": ""}

    def test_places(self) -> None:
        lines = LIST.read_text(encoding="utf-8").splitlines()
        allowed = {row[2]: int(row[1]) for row in map(ROW.fullmatch, lines) if row}
        found = places()
        more = {path: some for path, some in found.items() if len(some) > allowed.get(path, 0)}
        for path, some in more.items():
            with self.subTest(path):
                listed = allowed.get(path, 0)
                self.fail(f"{len(some)} places, {listed} of them listed: {'; '.join(some[:20])}")
        fewer = [path for path, count in allowed.items() if len(found[path]) < count]
        if given.get("lower") and not more:
            rows = {path: f"{len(found[path]):5} {path}" for path in allowed}
            kept = [
                rows[row[2]] if row else line
                for line in lines
                if not (row := ROW.fullmatch(line)) or found[row[2]]
            ]
            LIST.write_text("\n".join(kept) + "\n", encoding="utf-8")
        elif fewer:
            print(f"fewer places than listed: {', '.join(fewer)}: checks/plain_words --lower")
        print(f"{sum(map(len, found.values()))} places, {sum(allowed.values())} of them listed")
