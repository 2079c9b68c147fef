"""The base class of the checks of the demo."""

import re
import signal
from typing import Any

from checks.lib.case import Check
from checks.lib.program import compiled, compiled_converter, printed
from checks.lib.demoing import Running


WEIGHBRIDGE, CONVERTER = compiled(), compiled_converter()
PROGRAMS = ["--weighbridge", WEIGHBRIDGE, "--converter", CONVERTER]
ENDS_WITHIN = 10  # seconds


class DemoCheck(Check):
    """A check that starts demos, which end with the test."""

    def started(self, *words: str, programs: list[str] = PROGRAMS, **how: Any) -> Running:
        """Start a demo, which isn't up yet."""
        return self.enterContext(Running(programs, *words, **how))

    def demo(self, *words: str, **how: Any) -> Running:
        """Start a demo without a browser, and wait until it is up."""
        return self.started("--no-browser", *words, **how).wait_until_up()

    def leaves_nothing(self, demo: Running, what: str = "and leaves no process") -> None:
        self.same(what, {}, demo.left())

    def process_of(self, demo: Running, name: str) -> int:
        """Return the number of the process of a part."""
        number = demo.process_of(name)
        assert number is not None, name
        return number

    def says(self, demo: Running) -> str:
        """Return what the demo wrote to standard error."""
        return "\n".join(demo.err)

    def ends_well(self, demo: Running, number: signal.Signals, count: int | None = None) -> None:
        """Show that a signal ends the demo, and that its journal is sound, with this number of entries."""
        name = number.name
        status, seconds = demo.ends(number)
        self.same(f"{name} ends it, with status 0", 0, status)
        self.holds(f"{name}: within {ENDS_WITHIN} s", seconds < ENDS_WITHIN, f"{seconds:.1f} s")
        self.leaves_nothing(demo, f"{name} leaves no process")
        found = re.search(r"The journal is (\S+?),? ", demo.printed())
        self.holds(f"{name}: it prints where the journal is", found, demo.printed()[-300:])
        if found:
            status, out, err = printed("check", "--file", found[1], program=WEIGHBRIDGE)
            sound = r"SOUND \d+\n" if count is None else f"SOUND {count}\n"
            is_so = status == 0 and re.fullmatch(sound, out)
            self.holds(f"{name}: that journal is sound", is_so, out + err)
        self.same(f"{name}: nothing on standard error", [], demo.err)
