"""How old a weight may be on the page, and how soon the page says what is wrong: over what is killed, held, slow, gone or suspended."""

import math
import os
import signal
import subprocess
import time
from collections.abc import Callable, Iterator
from contextlib import AbstractContextManager, contextmanager

from checks.lib.case import PROGRAM
from checks.lib.clerk import Clerk
from checks.lib.counter import held, silent
from checks.lib.counter_case import AtThePage
from checks.lib.network import Network

FAULTS = (
    "No connection to the counter's program.",
    "The scale's program isn't running.",
    "The scale doesn't answer.",
)
MOST_TRIES = 3  # of a measurement, because the machine does other things too
Fault = Callable[[], AbstractContextManager[None]]


class Ages(AtThePage):
    """A clerk over a network that can be slow or gone. It measures time, so nothing else runs then."""

    needs = (PROGRAM, "aiohttp", "prometheus_client", "chromium", "chromedriver")
    alone = True
    seconds = 150

    def page_of(self, port: int) -> Clerk:
        self.network = self.enterContext(Network(port))
        return super().page_of(self.network.port)

    @contextmanager
    def without_counter(self) -> Iterator[None]:
        self.bridge.kill_counter()
        yield
        self.bridge.start_counter()

    @contextmanager
    def without_network(self) -> Iterator[None]:
        self.network.is_there.clear()
        yield
        self.network.is_there.set()

    def gone_after(self, fault: Fault) -> tuple[float, str]:
        """Return the seconds from a fault to the moment at which no weight is shown any more, and what the page says then."""
        with fault():
            began = time.monotonic()
            while self.clerk.kg() is not None and time.monotonic() - began < 5:
                time.sleep(0.02)
            took = time.monotonic() - began
            what = "and a sentence says what is wrong"
            self.comes(what, lambda: self.clerk.words().startswith(FAULTS), 8)
            words = self.clerk.words()
        self.comes("it comes back automatically", lambda: self.clerk.kg() is not None, 12)
        return took, words

    def test_weight_within_a_second(self) -> None:
        bridge, clerk = self.bridge, self.clerk
        bridge.put(9170)
        self.becomes("a weight is shown", 18340, clerk.kg)
        faults: list[tuple[str, Fault]] = [
            ("the counter stands still", lambda: held(bridge.process)),
            ("the service stands still", lambda: held(bridge.service.process)),
            ("the counter is killed", self.without_counter),
            ("the network is gone", self.without_network),
        ]
        for what, fault in faults:
            tries = [self.gone_after(fault)]
            while min(tries)[0] >= 1.25 and len(tries) < MOST_TRIES:
                self.becomes("the weight is there again", 18340, clerk.kg)
                tries.append(self.gone_after(fault))
            took, words = min(tries)
            said = f"{took:.2f} s, of {len(tries)} tries; {words}"
            print(f"{what}: {said}", flush=True)
            self.holds(f"{what}: the weight is gone within a second", took < 1.25, said)
        with silent(bridge.converter):
            words = "The scale gives no weight."
            clerk.sees(words, what="a silent converter: the scale gives no weight")
        self.becomes("it comes back", 18340, clerk.kg)

    def test_press_to_ticket(self) -> None:
        self.press_to_ticket()

    def test_a_change_at_the_page(self) -> None:
        """Measure from the converter's line to the page."""
        bridge, clerk, network = self.bridge, self.clerk, self.network
        delays = self.never_old("on a good network")
        median = delays[len(delays) // 2] if delays else math.inf
        what = "a change of load is at the page in at most 120 ms, median"
        self.holds(what, median <= 0.12, f"{1000 * median:.0f} ms with the look itself")
        network.delay, network.speed = 0.3, 8000
        time.sleep(2)
        self.never_old("on a slow network of 300 ms and 8 kB a second")
        network.delay, network.speed = 0.0, 400
        self.never_old("on one of 400 bytes a second", may_show_none=True)
        network.speed = 1e9
        time.sleep(3)
        bridge.put(9170)
        self.becomes("a weight is shown", 18340, clerk.kg)
        words = ["pgrep", "-f", clerk.folder]
        found = subprocess.run(words, capture_output=True, text=True).stdout.split()
        suspended = [int(it) for it in found]
        for it in suspended:
            os.kill(it, signal.SIGSTOP)
        bridge.converter.now = 4070
        time.sleep(3)
        for it in suspended:
            os.kill(it, signal.SIGCONT)
        time.sleep(0.3)
        kg = clerk.kg()
        is_so = kg in (None, 8140) and len(suspended) > 1
        what = "a browser that was suspended shows no old weight"
        self.holds(what, is_so, f"{kg}, {len(suspended)} processes")
        self.becomes("and then the new one", 8140, clerk.kg)
