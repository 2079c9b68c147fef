"""How the page looks in each state, size, language and light: nothing sideways, nothing faint, and nothing that isn't a word."""

import re
import time

from checks.lib.case import PROGRAM
from checks.lib.clerk import ESCAPE, Clerk, at_of
from checks.lib.counter import held, silent
from checks.lib.counter_case import AtTheCounter
from checks.lib.looks import FAINT, WIDE

LOOKS = (
    (1280, 800, False, "en"),
    (1280, 800, True, "de"),
    (1920, 1080, False, "fr"),
    (360, 740, False, "de"),
    (360, 740, True, "en"),
    (1000, 640, False, "fr"),
    (360, 640, True, "es"),
    (1280, 900, False, "es"),
    (640, 400, False, "de"),  # 1280 by 800 px at a zoom of 200 %
)
IN_SIGHT = "const it = document.getElementById('go').getBoundingClientRect(); return it.top >= 0 && it.bottom <= innerHeight"
NO_WORD = r"\b(?:link|refused|counter|kind|done|weigh)_\w+|undefined|NaN|\{\w+\}"


class Looks(AtTheCounter):
    """A page for each size, language and light."""

    needs = (PROGRAM, "aiohttp", "prometheus_client", "chromium", "chromedriver")
    seconds = 350

    def test_looks(self) -> None:
        self.bridge.weigh_next(9170, "look-1", "first", "LOOK-ALIKE-1")
        self.bridge.weigh("look-x", "first", "LOOK-ALIKE-2", port=self.bridge.office)
        self.bridge.keep_tare("LOOK-SINGLE", 5000)
        for width, height, is_dark, lang in LOOKS:
            self.bridge.put(80)
            since = time.monotonic()
            at = at_of(self.bridge.http)
            with Clerk(at, width, height, is_dark, lang, case=self.subTest) as clerk:
                time.sleep(max(0, since + 5.5 - time.monotonic()))
                found = self.found_in_each_state(clerk, width)
            what = f"{width} px, {lang}, {'dark' if is_dark else 'light'}: in fifteen states nothing sideways, nothing below a contrast of 4.5, nothing without a word"
            self.same(what, [], found[:6])

    def found_in_each_state(self, clerk: Clerk, width: int) -> list[str]:
        """Bring the page, which is off zero, into each of its states, and return what is wrong in one of them."""
        bridge = self.bridge
        found: list[str] = []

        def look(state: str) -> None:
            time.sleep(0.35)
            text = clerk.run("return document.body.innerText")
            faults = clerk.run(WIDE) + clerk.run(FAINT)
            faults += [f"no word {it}" for it in re.findall(NO_WORD, text)]
            found.extend(f"{state}: {it}" for it in faults)

        look("off zero")
        found.extend([] if "160" in clerk.words() else [f"off zero: {clerk.words()}"])
        bridge.put(9170)
        clerk.keys("LOOK-SINGLE")
        look("a Single off zero")
        clerk.keys(ESCAPE + "LOOK-ALIKE-1")
        look("a small net")
        found.extend([] if clerk.answers() else [f"a small net: {clerk.words()}"])
        clerk.keys(ESCAPE)
        bridge.put(0)
        look("empty")
        bridge.put(4070)
        clerk.keys("LOOK-ALIKE-3")
        look("alike")
        clerk.keys(ESCAPE + "LOOK-ALIKE-1")
        look("ready")
        if width > 360 and not clerk.run(IN_SIGHT):
            found.append("ready: the green button is out of sight")
        clerk.keys(ESCAPE + "A B!")
        look("no plate")
        clerk.keys(ESCAPE)
        bridge.terminal_says("till", "TA 3000 kg")
        look("net")
        bridge.terminal_says("till", "TAC")
        clerk.browser.click("#find")
        clerk.keys("LOOK")
        look("search")
        clerk.keys(ESCAPE)
        clerk.browser.click("#today button")
        look("entry")
        clerk.keys(ESCAPE)
        clerk.browser.click("#plate")
        clerk.keys("NEW-1")
        time.sleep(1)
        clerk.browser.click("#others button:last-child")
        look("tare")
        clerk.keys(ESCAPE)
        with silent(bridge.converter):
            time.sleep(1.3)
            look("no weight")
        with held(bridge.process):
            time.sleep(1.8)
            look("no counter")
        bridge.wait_until_up()
        bridge.kill_service()
        time.sleep(0.6)
        look("no service")
        bridge.start_service()
        bridge.wait_until_up()
        look("a start")
        return found
