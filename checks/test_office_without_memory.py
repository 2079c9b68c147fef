"""Shows that an office request whose allocations are refused gets `15 store` or its usual answer. Nothing is lost, and nothing
is stored twice. It takes ten minutes.

It builds a small program in a temporary folder, in minutes if the gate has run here.
"""

from checks.lib.built_over import build_over
from checks.lib.case import Check
from checks.lib.refusing import Refusing, last_lines


class OfficeWithoutMemory(Check):
    """A small program over the crates, each of whose allocations is refused."""

    needs = ("cc", "the kit")
    slow = True
    seconds = 600

    def test_each_allocation(self) -> None:
        folder = self.folder()
        program = build_over("office_days", folder)
        counts = last_lines(Refusing(folder), program)
        print(counts)
        self.holds("a request answered 15", counts.get("done after a refusal"), counts)
