"""Shows that each command of docs/tutorial.md prints what the page shows."""

from checks.lib.case import PROGRAM, Check
from checks.lib.page import shown


class Tutorial(Check):
    """The commands of the page."""

    needs = (PROGRAM, "bash", "curl", "mkfifo", "nc")

    def test_commands(self) -> None:
        for where, wanted, found in shown("docs/tutorial.md", [4001, 8080]):
            self.same(where, wanted, found)
