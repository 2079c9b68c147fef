"""The page of the played bridge in Chromium: what a learner does there, and how it looks in each size, light and language."""

import os
import re
import time

from checks.lib.case import PROGRAM
from checks.lib.clerk import ENTER, F6, F9
from checks.lib.demo_case import DemoCheck
from checks.lib.demo_window import Window, has_settled
from checks.lib.demoing import asked
from checks.lib.looks import FAINT

# The test writes pictures of both pages into this folder, if the variable is set.
PICTURES = os.environ.get("CHECKS_PICTURES")
ARROW_LEFT, ARROW_RIGHT = "\ue012", "\ue014"
# Finds the elements that are wider than the window without its scroll bar.
WIDE = """const width = document.documentElement.clientWidth;
return [...document.querySelectorAll('body *')].filter(it => it.checkVisibility() && !it.closest('#paper, .away') && it.getBoundingClientRect().right > width + 1)
  .map(it => `wide: ${it.tagName}#${it.id}`).concat(document.documentElement.scrollWidth > width ? ['wide: the page'] : [])"""
LOOKS = (
    (360, 740, False, "de"),
    (360, 740, True, "es"),
    (1280, 800, False, "en"),
    (1280, 800, True, "fr"),
    (1920, 1080, False, "es"),
    (1920, 1080, True, "de"),
)
WORDS = {
    "en": "A lorry drives on",
    "de": "Ein Lastwagen fährt auf",
    "fr": "Un camion monte",
    "es": "Sube un camión",
}
SLIDER = "const it = document.getElementById('load'); it.value = arguments[0]; it.dispatchEvent(new Event('input')); "
MARKED = "return document.querySelector('[aria-current]')?.textContent ?? ''"


class Pages(DemoCheck):
    """Both pages of one demo, and a learner."""

    needs = (
        PROGRAM,
        "aiohttp",
        "prometheus_client",
        "reportlab",
        "qrcode",
        "chromium",
        "chromedriver",
    )
    seconds = 120

    def setUp(self) -> None:
        self.running = self.demo("--quick", "--empty")
        self.window = self.enterContext(Window(self.running.page))

    def phase(self) -> object:
        return self.running.state()["phase"]

    def reads(self, what: str, part: str, words: str, window: Window | None = None) -> None:
        """Show that a part of a page comes to have these words."""
        shown = window or self.window
        self.comes(what, lambda: words in shown.text(part))

    def weigh(self, what: str, key: str, plate: str) -> None:
        """Weigh the vehicle in that is on the bridge, under this plate."""
        self.running.becomes(has_settled)
        status = self.running.weigh(key, plate, "first")[0]
        self.same(what, 201, status)

    def test_by_hand(self) -> None:
        self.buttons()
        self.slider()
        self.a_wrong_plate()

    def buttons(self) -> None:
        demo, window = self.running, self.window
        self.reads("the page says that the bridge is empty", "happens", "empty")
        found = (window.is_off("on"), window.is_off("off"))
        self.same("nothing can drive off", (False, True), found)
        window.press("on")
        window.press_at_once("on")
        self.reads("a lorry stands on the bridge", "happens", "stands on the bridge")
        stay = demo.state()["stay"]
        plate, tons = stay["plate"], f"{stay['kg'] / 1000:.1f} t"
        self.same(
            "the page shows its plate as on the vehicle, and its weight",
            (plate[::-1].replace("-", " ", 1)[::-1], f"stands on the bridge, {tons}"),
            (window.text("plate"), window.text("happens")),
        )
        todo = window.text("todo")
        self.holds("and says what to type", f"Type {plate} " in todo, todo)
        self.same("a second press brought no second lorry", True, window.is_off("on"))
        self.weigh("it is weighed", "HAND-1", plate)
        self.reads("and the page says so", "todo", "Weighed as number")
        window.press("off")
        self.reads("it drives off", "happens", "empty")

    def slider(self) -> None:
        run = self.window.browser.run
        run(SLIDER, 23_400)
        self.becomes("the slider puts a load on", 23_400, lambda: self.running.state()["kg"])
        self.reads("which the page shows", "happens", "23.4 t")
        for it in range(20):
            run(SLIDER, 23_400 + 1000 * it)
        what = "of many moves the last one counts"
        self.becomes(what, 42_400, lambda: self.running.state()["kg"])
        run(SLIDER, 0)
        self.becomes("and takes it off", "empty", self.phase)

    def a_wrong_plate(self) -> None:
        """Weigh a vehicle with another plate, and read what the page says."""
        self.window.press("on")
        self.comes("another lorry stands", lambda: has_settled(self.running.state()))
        self.weigh("it is weighed by another plate", "HAND-2", "XX-1")
        plate = self.running.state()["stay"]["plate"]
        what = "the page says what was typed, and which vehicle it is"
        self.reads(what, "todo", f"Weighed as XX-1, but this is {plate}.")
        self.window.press("off")
        self.becomes("it is gone", "empty", self.phase)

    def test_the_day(self) -> None:
        demo, window = self.running, self.window
        window.press("play")
        self.becomes("the day begins", 0, lambda: demo.state()["now"])
        self.becomes("its button stops it", "Stop the day", lambda: window.text("play"))
        what = "the list marks the vehicle that is on the bridge"
        self.comes(what, lambda: window.browser.run(MARKED).startswith("06:40RA-KM 1236"))
        status = demo.next_weighing(1)[0]
        self.same("the first vehicle of the day is weighed", 201, status)
        self.reads("the list says that it was", "done", "1 of 38 done")
        window.press("play")
        self.becomes("the day stops", False, lambda: demo.state()["is_playing"])
        self.becomes("and can be continued", "Play the day", lambda: window.text("play"))

    def test_clerks_page(self) -> None:
        """Read the bar on the clerk's page, and follow the links between both pages."""
        demo = self.running
        clerk = self.enterContext(Window(demo.clerk))
        run = clerk.browser.run
        words = "DEMO The weights are simulated."
        self.comes("the clerk's page says DEMO", lambda: clerk.text("demo").startswith(words))
        title = run("return document.title")
        self.same("its title too", "DEMO · Played weighbridge", title)
        self.becomes("and the scale's serial", "DEMO", lambda: clerk.text("serial"))
        link = run("return document.querySelector('#demo a').href")
        self.same("its link leads to the played bridge", f"{demo.page}?lang=en", link)
        run("document.querySelector('#demo a').removeAttribute('target')")
        clerk.browser.click("#demo a")
        self.comes("which opens", lambda: clerk.text("plate"))
        run("document.getElementById('clerk').removeAttribute('target')")
        href = "return document.getElementById('clerk').href"
        self.becomes("and has a link back", f"{demo.clerk}?lang=en", lambda: run(href))
        clerk.browser.click("#clerk")
        self.comes("which opens the clerk's page", lambda: clerk.text("words"))

    def test_rare_things(self) -> None:
        """Practise what the page about the counter names: the empty bridge off zero, and a plate like one on site."""
        demo, bridge = self.running, self.window.browser
        clerk = self.enterContext(Window(demo.clerk))
        self.becomes("the bridge is empty", "empty", self.phase)
        self.reads("the clerk's page too", "words", "The bridge is empty", clerk)
        bridge.run("document.getElementById('load').focus()")
        bridge.keys(ARROW_RIGHT * 8)
        self.becomes("the right arrow key pushes 160 kg", 160, lambda: demo.state()["kg"])
        what = "after five seconds the clerk's page asks for zero"
        self.becomes(what, "The empty bridge shows 160 kg. Set zero.", lambda: clerk.text("words"))
        clerk.browser.keys(F9)
        self.comes("which F9 sets", lambda: re.search(r"^\D*0 kg", clerk.text("weight")))
        bridge.run("document.getElementById('load').focus()")
        bridge.keys(ARROW_LEFT * 8)
        self.becomes("and the bridge is empty again", "empty", self.phase)
        asked("POST", f"{demo.clerk}zero")
        demo.push("load", {"kg": 19_120})
        self.weigh("RA-KM-1286 is weighed in", "RARE-1", "RA-KM-1286")
        self.clears()
        demo.push("load", {"kg": 19_640})
        demo.becomes(has_settled)
        self.reads("the next one stands", "words", "Type the plate", clerk)
        clerk.browser.keys("RA-KM 1268")
        words = "RA-KM-1286 is on site. Is it this one?"
        self.reads("the clerk's page asks if it is RA-KM-1286", "words", words, clerk)
        clerk.browser.keys(F6)
        self.reads("F6 says that it isn't", "words", "Ready.", clerk)
        clerk.browser.keys(ENTER)
        self.reads("and it is weighed in", "more", "RA-KM-1268 is weighed in", clerk)
        self.clears()

    def clears(self) -> None:
        """Empty the bridge."""
        self.running.push("load", {"kg": 0})
        self.running.becomes(lambda it: it["phase"] == "empty")

    def test_looks(self) -> None:
        """Look at both pages in each size, light and language, and end the demo."""
        demo = self.running
        demo.push("play")
        demo.becomes(lambda it: it["phase"] == "stands")
        for width, height, is_dark, lang in LOOKS:
            light = "dark" if is_dark else "light"
            found = []
            for page, at in (("bridge", demo.page), ("clerk", demo.clerk)):
                with Window(at, lang, width, height, is_dark) as window:
                    found += [f"{page}: {it}" for it in self.faults_of(window, page, lang)]
                    if PICTURES:
                        path = f"{PICTURES}/demo_{page}_{width}_{light}.png"
                        with open(path, "wb") as file:
                            file.write(window.browser.picture())
            what = f"{width} px, {light}, {lang}: DEMO, nothing sideways, nothing below a contrast of 4.5"
            self.same(what, [], found[:6])
        demo.ends()
        is_hidden = "return document.getElementById('gone').hidden"
        what = "once the demo has ended, the page says so"
        self.becomes(what, False, lambda: self.window.browser.run(is_hidden))

    def faults_of(self, window: Window, page: str, lang: str) -> list[str]:
        """Return what is wrong in a window once the page has loaded."""
        until = time.monotonic() + 5
        while not window.text("demo").startswith("DEMO") and time.monotonic() < until:
            time.sleep(0.05)
        time.sleep(0.7)
        run = window.browser.run
        text = run("return document.body.innerText")
        found: list[str] = run(WIDE) + run(FAINT)
        found += [] if "DEMO" in text else ["no DEMO"]
        if page == "bridge" and WORDS[lang] not in text:
            found.append(f"not in its language: {text[:80]}")
        return found + [it for it in ("undefined", "NaN", "{") if it in text]
