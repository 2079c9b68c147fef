"""A day of sixty vehicles with twenty-one kinds of trouble, only at the page, by a clerk whose aim is a false ticket.

The clerk types only the plate of the vehicle on the bridge, or of the one that comes next, but presses whatever there is at any time. A ticket is false if its
plate isn't that of the vehicle on the bridge. Between two vehicles the bridge is empty, so it is certain which of them an entry is of.
"""

import hashlib
import itertools
import subprocess
import time
from collections.abc import Callable
from typing import Any

from checks.lib.case import PROGRAM
from checks.lib.clerk import ENTER, ESCAPE, F3, F4, F7, F8, F10, TEN, Clerk
from checks.lib.counter import held, silent
from checks.lib.counter_case import AtThePage
from checks.lib.network import Network

VEHICLES, SEEN_BY_NOBODY = 60, 9
HIDE = """Object.defineProperty(document, 'hidden', { configurable: true, value: arguments[0] });
    document.dispatchEvent(new Event('visibilitychange'));"""
PRESS = "[...document.querySelectorAll(arguments[0])].find(it => it.textContent.includes(arguments[1]))?.click()"


def plate_of(number: int) -> str:
    """Return a plate that is like no other, so that the page asks nothing."""
    digest = hashlib.sha256(b"%d" % number).digest()
    letters = "".join(chr(ord("A") + it % 26) for it in digest[:4])
    return f"{letters[:2]}-{letters[2:]}-{int.from_bytes(digest[4:6], 'big') % 9000 + 1000}"


class Enemy(AtThePage):
    """The clerk who wants a false ticket."""

    needs = (PROGRAM, "aiohttp", "prometheus_client", "chromium", "chromedriver")
    slow = True
    seconds = 700

    def setUp(self) -> None:
        super().setUp()
        self.plate, self.number, self.seen = "", 0, 0
        self.false: list[tuple[str, ...]] = []
        self.stored: dict[str, list[str]] = {}

    def page_of(self, port: int) -> Clerk:
        self.network = self.enterContext(Network(port))
        return super().page_of(self.network.port)

    # ---- vehicles

    def comes_on(self, may_sway: bool = False) -> None:
        """Let the next vehicle drive on."""
        self.number += 1
        self.plate = plate_of(self.number)
        self.bridge.converter.sway = 100 if may_sway else 0
        self.bridge.converter.now = 4000 + 10 * self.number

    def leaves(self) -> None:
        """Empty the bridge, and look whose entries were stored."""
        self.bridge.converter.now = self.bridge.converter.sway = 0
        time.sleep(1.5)
        entries = self.bridge.entries()
        for it in entries[self.seen :]:
            self.stored.setdefault(it[3], []).append(it[2])
            if it[3] != self.plate:
                self.false.append((self.plate, *it[:4]))
        self.seen, self.plate = len(entries), ""

    def swaps(self, may_sway: bool = False) -> None:
        self.leaves()
        self.comes_on(may_sway)
        time.sleep(1.2)

    # ---- the clerk

    def types(self) -> None:
        self.clerk.keys(ESCAPE + ESCAPE + self.plate)
        time.sleep(0.5)

    def hammers(self, keys: str = TEN) -> None:
        self.clerk.browser.hammer(keys, 0.1)
        time.sleep(0.5)

    def swaps_and_hammers(self) -> None:
        self.swaps()
        self.hammers()

    def ends(self) -> None:
        """Weigh the vehicle as a clerk does who looks, if it isn't weighed yet, and let it leave."""
        self.types()
        for _ in range(30):
            if self.clerk.is_ready():
                self.clerk.keys(ENTER)
                time.sleep(1)
                break
            time.sleep(0.2)
        self.leaves()
        self.clerk.keys(ESCAPE + ESCAPE)

    # ---- the kinds of trouble, each with a vehicle on the bridge at its beginning and at its end

    def enter_is_hammered(self) -> None:
        self.types()
        self.hammers()

    def it_drives_off_unweighed(self) -> None:
        self.types()
        self.swaps_and_hammers()

    def it_sways_and_drives_off(self) -> None:
        self.bridge.converter.sway = 100
        self.types()
        self.clerk.keys(ENTER)
        self.swaps(may_sway=True)
        self.hammers()
        self.bridge.converter.sway = 0
        time.sleep(3)

    def the_converter_is_silent(self) -> None:
        self.types()
        with silent(self.bridge.converter):
            time.sleep(SEEN_BY_NOBODY)
            self.bridge.converter.now = 0
        self.swaps_and_hammers()

    def over_silence(self, begin: Callable[[], object], end: Callable[[], object]) -> None:
        """Swap the vehicles while the page sees nothing."""
        self.types()
        begin()
        began = time.monotonic()
        self.swaps()
        time.sleep(max(0, SEEN_BY_NOBODY - (time.monotonic() - began)))
        end()
        time.sleep(1.5)
        self.hammers()

    def the_network_is_gone(self) -> None:
        self.over_silence(self.network.is_there.clear, self.network.is_there.set)

    def the_counter_is_killed(self) -> None:
        self.over_silence(self.bridge.kill_counter, self.bridge.start_counter)

    def the_tab_is_hidden(self) -> None:
        run = self.clerk.run
        self.over_silence(lambda: run(HIDE, True), lambda: run(HIDE, False))

    def the_service_is_killed(self) -> None:
        self.types()
        self.bridge.kill_service()
        self.bridge.converter.now = 0
        self.bridge.start_service()
        self.bridge.wait_until_up()
        self.swaps_and_hammers()

    def the_answer_is_lost(self) -> None:
        self.types()
        self.network.is_there.clear()
        self.clerk.keys(ENTER)
        time.sleep(2)
        self.swaps()
        self.network.is_there.set()
        time.sleep(4)
        self.hammers()

    def over_a_hold(self, process: subprocess.Popen[Any]) -> None:
        """Press while a program is held, and swap the vehicles."""
        self.types()
        with held(process):
            self.clerk.keys(ENTER)
            time.sleep(2.5)
            self.bridge.converter.now = 0
            time.sleep(1)
        time.sleep(1.5)
        self.swaps_and_hammers()

    def the_counter_is_held(self) -> None:
        self.over_a_hold(self.bridge.process)

    def the_service_is_held(self) -> None:
        self.over_a_hold(self.bridge.service.process)

    def a_colleague_is_faster(self) -> None:
        self.types()
        self.bridge.weigh(f"colleague-{self.number}", "first", self.plate)
        self.hammers()
        self.swaps_and_hammers()

    def the_page_is_loaded_again(self) -> None:
        self.types()
        self.network.is_there.clear()
        self.clerk.keys(ENTER)
        time.sleep(1)
        self.network.is_there.set()
        self.clerk.load()
        self.swaps_and_hammers()

    def other_keys_are_hammered(self) -> None:
        self.types()
        self.hammers(3 * (F3 + F7 + F10 + F8) + TEN)

    def over_a_window(self, words: str) -> None:
        """Open a window for this vehicle, and let another one come meanwhile."""
        self.types()
        self.clerk.run(PRESS, "#others button", words)
        time.sleep(0.3)
        self.swaps()
        self.clerk.keys("3000" + ENTER)
        self.hammers()
        self.clerk.keys(ESCAPE + ESCAPE)

    def the_tare_s_window_is_open(self) -> None:
        self.over_a_window("Tare from papers")

    def the_goods_window_is_open(self) -> None:
        self.over_a_window("Goods, order, driver")

    def the_search_is_open(self) -> None:
        self.types()
        self.clerk.keys(F4)
        self.swaps()
        self.clerk.keys(ESCAPE)
        self.hammers()

    def another_language(self) -> None:
        self.types()
        self.clerk.speak("de")
        self.swaps_and_hammers()
        self.clerk.load()

    def it_is_withdrawn(self) -> None:
        self.types()
        self.clerk.keys(ENTER)
        time.sleep(1.5)
        self.clerk.run(PRESS, "#site .main", self.plate)
        self.hammers()
        self.bridge.ask("POST", "/voids", {"key": f"void-{self.number}", "plate": self.plate})
        self.hammers()
        self.swaps_and_hammers()

    def a_tare_is_kept_meanwhile(self) -> None:
        self.types()
        self.bridge.keep_tare(self.plate, 3000)
        self.hammers()

    def letters_come_before_the_answer(self) -> None:
        self.types()
        self.clerk.browser.hammer(ENTER + plate_of(self.number + 1), 0.03)
        time.sleep(1)
        self.swaps_and_hammers()

    def test_no_false_ticket(self) -> None:
        troubles: list[Callable[[], None]] = [
            self.enter_is_hammered,
            self.it_drives_off_unweighed,
            self.it_sways_and_drives_off,
            self.the_converter_is_silent,
            self.the_network_is_gone,
            self.the_counter_is_killed,
            self.the_tab_is_hidden,
            self.the_service_is_killed,
            self.the_answer_is_lost,
            self.the_counter_is_held,
            self.the_service_is_held,
            self.a_colleague_is_faster,
            self.the_page_is_loaded_again,
            self.other_keys_are_hammered,
            self.the_tare_s_window_is_open,
            self.the_goods_window_is_open,
            self.the_search_is_open,
            self.another_language,
            self.it_is_withdrawn,
            self.a_tare_is_kept_meanwhile,
            self.letters_come_before_the_answer,
        ]
        count = 0
        for trouble in itertools.cycle(troubles):
            self.comes_on()
            time.sleep(1.2)
            trouble()
            self.ends()
            what = trouble.__name__.replace("_", " ")
            self.same(f"{self.number} vehicles, {what}: no false ticket", [], self.false)
            self.false, count = [], count + 1
            if self.number >= VEHICLES:
                break
        weighed = sum("first" in it or "single" in it for it in self.stored.values())
        self.holds("each kind of trouble was there", count >= len(troubles), count)
        what = "most vehicles are weighed"
        self.holds(what, weighed > VEHICLES // 2, f"{weighed} of {self.number}")
        self.holds("the journal is sound", self.bridge.is_sound())
