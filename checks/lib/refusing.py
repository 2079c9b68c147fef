"""Runs a program whose allocations are refused, each in turn."""

import os
import re
import subprocess
from pathlib import Path

from checks import TOP

SOURCE = TOP / "checks" / "lib" / "refuse.c"


class Refusing:
    """The library that refuses an allocation by its number, compiled into a folder."""

    def __init__(self, folder: str) -> None:
        self.library = os.path.join(folder, "refuse.so")
        words = ["cc", "-O1", "-shared", "-fPIC", "-o", self.library, str(SOURCE), "-ldl"]
        subprocess.run(words, check=True)

    def run(
        self, words: list[str], number: int, given: bytes = b""
    ) -> subprocess.CompletedProcess[bytes]:
        """Run a program whose allocation of this number is refused, or none if it is 0."""
        environment = {**os.environ, "LD_PRELOAD": self.library, "FAIL_AT": str(number)}
        return subprocess.run(words, input=given, capture_output=True, env=environment)

    def allocations(self, words: list[str], given: bytes = b"") -> int:
        """Return how many allocations a run makes."""
        found = re.search(rb"allocations (\d+)", self.run(words, 0, given).stderr)
        assert found is not None, "the library counted nothing"
        return int(found[1])


def last_lines(refusing: Refusing, program: Path) -> dict[str, int]:
    """Refuse each allocation of a program in turn. Return how often each last line came."""
    counts: dict[str, int] = {}
    program.chmod(0o755)
    for number in range(1, refusing.allocations([str(program)]) + 1):
        ran = refusing.run([str(program)], number)
        said = (ran.stdout + ran.stderr).decode().splitlines()
        last = said[-1] if said else ""
        if last not in ("done", "done after a refusal", "not begun"):
            raise AssertionError(f"allocation {number}, status {ran.returncode}: {said}")
        counts[last] = counts.get(last, 0) + 1
    return counts
