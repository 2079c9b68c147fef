"""The base classes of the checks that try the counter over a real service, and its page in a browser."""

import random
import time
from collections.abc import Callable
from typing import Any, ClassVar

from checks.lib.bridge import kg_of
from checks.lib.case import Check
from checks.lib.clerk import ENTER, ESCAPE, Clerk, at_of
from checks.lib.counter import Bridge

# Measures from the Enter key to the answer on the page.
WATCH = """window.took = 0; window.pressed = 0;
    document.addEventListener('keydown', event => { if (event.key === 'Enter') window.pressed ||= performance.now(); }, { capture: true });
    new MutationObserver(() => { if (window.pressed && !window.took && document.getElementById('guide').dataset.look === 'ok') window.took = performance.now() - window.pressed; })
      .observe(document.getElementById('guide'), { attributes: true });"""


class CounterCheck(Check):
    """A check that starts bridges with counters, and clerks at their pages."""

    def new_bridge(self, pace: float = 10, settings: str = "", **more: Any) -> Bridge:
        """Start a service, and a counter that isn't started yet. Both end with the test."""
        return self.enterContext(Bridge(pace, settings, self.folder(), **more))

    def new_clerk(self, at: str, **more: Any) -> Clerk:
        """Open a page of a counter in a browser that ends with the test."""
        return self.enterContext(Clerk(at, case=self.subTest, **more))


class AtTheCounter(CounterCheck):
    """A check with a bridge and a counter, of which each test has its own."""

    pace: ClassVar[float] = 10
    settings: ClassVar[str] = ""

    def setUp(self) -> None:
        self.bridge = self.new_bridge(self.pace, self.settings).start_counter()
        self.noted = 0

    def note_entries(self) -> None:
        """Note how many entries there are, for `added`."""
        self.noted = len(self.bridge.entries())

    def added(self) -> list[tuple[str, str]]:
        """Return kind and plate of each entry that was stored since they were noted."""
        return self.bridge.weighings()[self.noted :]


class AtThePage(AtTheCounter):
    """A check with a clerk at the page, and nothing on the bridge at first."""

    def setUp(self) -> None:
        super().setUp()
        self.bridge.put(0)
        self.clerk = self.page_of(self.bridge.http)
        self.clerk.sees("The bridge is empty")

    def page_of(self, port: int) -> Clerk:
        """Open the page of the counter that listens at this port."""
        return self.new_clerk(at_of(port))

    def never_old(self, what: str, seconds: float = 6, may_show_none: bool = False) -> list[float]:
        """Show that each weight that is seen while loads change was on the bridge within the last second, and what it takes to look.

        Return the seconds from each change to the weight on the page, sorted.
        """
        late, seen, at, is_shown, delays = [], 0, 0, True, []
        converter, until = self.bridge.converter, time.monotonic() + seconds
        while time.monotonic() < until:
            at += 1
            if at % 12 == 0:
                converter.now = 1000 + 10 * (at % 2500)
                changed, is_shown = time.monotonic(), False
            began = time.monotonic()
            kg = self.clerk.kg()
            if kg is None:
                continue
            seen += 1
            if not is_shown and kg == kg_of(converter.now):
                delays.append(time.monotonic() - changed)
                is_shown = True
            if kg not in {kg_of(load) for load in converter.sent_since(began - 1.3)}:
                late.append(kg)
        delays.sort()
        said = f"{seen} looks; {len(late)} old"
        if delays:
            said += f"; a change is shown after {1000 * delays[len(delays) // 2]:.0f} ms median"
        print(f"{what}: {said}", flush=True)
        is_so = not late and (may_show_none or seen > 5)
        self.holds(f"{what}: no weight is more than a second old", is_so, said)
        return delays

    def press_to_ticket(
        self,
        count: int = 9,
        most: int = 200,
        before: Callable[[], object] = lambda: None,
        where: str = "",
    ) -> None:
        """Measure the milliseconds from the Enter key to the answer on the page, by the page's own clock. `before` is called before each press."""
        times = []
        for number in range(count):
            self.bridge.next_vehicle(9170)
            what = None if number == 0 else f"ready, the {number + 1}th time"
            self.clerk.is_ready_for("PRESS-" + "ABCDEFGHJ"[number] * 4, what)
            self.clerk.run(WATCH)
            before()
            time.sleep(random.random() / self.bridge.pace)
            self.clerk.keys(ENTER)
            self.comes("and weighed", lambda: self.clerk.run("return window.took"))
            times.append(self.clerk.run("return window.took"))
            self.clerk.keys(ESCAPE)
        times.sort()
        said = f"median {times[count // 2]:.0f} ms, worst {times[-1]:.0f} ms of {count}"
        print(f"from the press to the answer{where}: {said}", flush=True)
        what = f"from the press to the answer on the page{where}, at {self.bridge.pace} readings a second"
        self.holds(what, times[count // 2] <= most, said)

    def nothing_comes_of(self, what: str, act: Callable[[], object], plate: str) -> None:
        """Show that `act` stores nothing, that no request is under way, and that the plate in the form is `plate`."""
        before = len(self.bridge.entries())
        act()
        time.sleep(0.5)
        self.same(
            f"{what}: nothing is stored",
            ([], None, plate),
            (self.bridge.entries()[before:], self.clerk.kept(), self.clerk.plate()),
        )
