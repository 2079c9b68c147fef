"""Shows that each command of docs/till.md, docs/integrating.md and docs/mt_sics.md prints what the page shows, including
the till of the first page.
"""

from checks.lib.case import PROGRAM, Check
from checks.lib.page import shown


class Integrating(Check):
    """The commands of the pages."""

    needs = (PROGRAM, "bash", "curl", "nc", "od")
    seconds = 60

    def show(self, page: str) -> None:
        for where, wanted, found in shown(f"docs/{page}.md", [4001, 8080]):
            self.same(where, wanted, found)

    def test_till(self) -> None:
        self.show("till")

    def test_integrating(self) -> None:
        self.show("integrating")

    def test_mt_sics(self) -> None:
        self.show("mt_sics")
