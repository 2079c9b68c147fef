"""Shows that a store whose allocations are refused isn't opened, or reports `Memory` once. The next call returns its usual
result.

It builds a small program in a temporary folder, in minutes if the gate has run here.
"""

from checks.lib.built_over import build_over
from checks.lib.case import Check
from checks.lib.refusing import Refusing, last_lines


class StoreWithoutMemory(Check):
    """A small program over the crates, each of whose allocations is refused."""

    needs = ("cc", "the kit")
    seconds = 450

    def test_each_allocation(self) -> None:
        folder = self.folder()
        program = build_over("store_calls", folder)
        counts = last_lines(Refusing(folder), program)
        print(counts)
        self.holds("a call that answered `Memory`", counts.get("done after a refusal"), counts)
