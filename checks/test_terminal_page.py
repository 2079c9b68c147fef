"""Shows that the page to try the terminal prints in a real browser what `weighbridge replay` prints for its trace.

The page and the module of library/build are served from a clean folder. The page that has the module in it is opened as
a file, without a server. A headless Chromium loads the page, sets loads by its slider and its box, loses readings,
types lines, uses the keys, disconnects, and opens terminals of other setups. A setup with a fault is refused by name,
and the terminal continues. Then the check gives random readings and lines under random setups with the clock stopped.
Each time the page printed what `weighbridge replay` prints for the trace that the page shows. The page requests only
itself and its module. In three sizes, in light and in dark, by keyboard and by touch, nothing is wider than the window.
Each control is reached by Tab, has a name, and is large enough for a finger.

CHECKS_PICTURES names a folder for pictures of the page.
"""

import functools
import http.server
import os
import random
import shutil
import subprocess
import tempfile
import threading
import time
from pathlib import Path
from typing import Any

from checks import TOP
from checks.lib.browser import Browser
from checks.lib.case import PROGRAM, Check, many
from checks.lib.ports import HOST, free_port
from checks.lib.program import PROGRAM as BUILT

PICTURES = os.environ.get("CHECKS_PICTURES")
SIZES = {"wide": (1280, 1000), "tablet": (800, 1100), "narrow": (360, 760)}
# The side of the smallest control that a finger finds, in pixels.
FINGER = 24
# Keys, as WebDriver names them.
TAB, ENTER, UP, RIGHT = "\ue004", "\ue007", "\ue013", "\ue014"
LINES = ["S", "SI", "SIR", "Z", "T", "TA", "TAC", "@", "I0", "I4", "TA 5000 kg", "TA 10 kg", "x"]
LINES += ["", "TA 1"]
OWN = {"/terminal.html", "/weighbridge_terminal.wasm"}
KEY_SI = "[...document.querySelectorAll('#keys button')].find(it => it.textContent === 'SI')"
CONTROLS = "[...document.querySelectorAll('button, input, select, summary, #log')]"
SMALL = f"""
return {CONTROLS}.filter(it => it.offsetParent).map(it => [it.id || it.textContent, it.getBoundingClientRect()])
  .filter(([, at]) => at.height < arguments[0] || at.width < arguments[0]).map(([name]) => name)"""
UNNAMED = """
return [...document.querySelectorAll('button, input, select, textarea, summary, #log, canvas')]
  .filter(it => !(it.textContent.trim() || it.getAttribute('aria-label') || (it.labels && it.labels.length)) || it.tabIndex < 0 && it.tagName !== 'CANVAS')
  .map(it => it.id || it.outerHTML)"""
WIDER = "return document.documentElement.scrollWidth - document.documentElement.clientWidth"
COLOURS = """
let it = document.querySelector(arguments[0]); const text = getComputedStyle(it).color;
while (getComputedStyle(it).backgroundColor === 'rgba(0, 0, 0, 0)') it = it.parentElement;
return [text, getComputedStyle(it).backgroundColor]"""
# Keeps the texts that the page draws.
KEEP_DRAWN = """
const draw = CanvasRenderingContext2D.prototype, own = draw.fillText; window.drawn = [];
draw.fillText = function (text, ...at) { window.drawn.push(text); own.call(this, text, ...at); };"""
SET_UP = """
for (const [name, value] of Object.entries(arguments[0])) document.getElementById('part-' + name).value = value;
document.getElementById('apply').click(); weighing.stop()"""
GIVE = (
    "for (const it of arguments[0]) typeof it === 'string' ? weighing.send(it) : weighing.take(it)"
)
SET_LOAD = """
const it = document.getElementById(arguments[0]); it.value = arguments[1]; it.dispatchEvent(new Event('input'))"""


class Served(http.server.SimpleHTTPRequestHandler):
    """Serves a folder, and keeps what was requested."""

    asked: set[str] = set()

    def do_GET(self) -> None:
        Served.asked.add(self.path)
        super().do_GET()

    def log_message(self, *words: object) -> None:
        pass


def replayed(trace: dict[str, Any]) -> list[str]:
    words = [BUILT, "replay", *trace["words"].split()]
    given: str = trace["text"]
    return subprocess.run(words, input=given, capture_output=True, text=True).stdout.splitlines()


def contrast(colours: list[str]) -> float:
    """Return the contrast of a text's colour and of what is behind it, by WCAG."""
    lights = []
    for colour in colours:
        parts = [int(it) / 255 for it in colour.partition("(")[2].rstrip(")").split(",")[:3]]
        parts = [it / 12.92 if it <= 0.03928 else ((it + 0.055) / 1.055) ** 2.4 for it in parts]
        lights.append(0.2126 * parts[0] + 0.7152 * parts[1] + 0.0722 * parts[2])
    return (max(lights) + 0.05) / (min(lights) + 0.05)


def random_setup(made: random.Random) -> dict[str, int]:
    interval = made.choice([1, 2, 5, 10, 20, 50])
    return {
        "interval_kg": interval,
        "max_kg": interval * made.choice([500, 3000, 10000]),
        "window": made.choice([4, 5, 64]),
        "band": made.choice([1, 2]),
        "pace": made.choice([2, 10, 50]),
        "wait": made.choice([1, 3, 20]),
    }


def random_steps(made: random.Random, most: int) -> list[str | int | None]:
    """Return lines, and readings of loads about levels of which one is near Max."""
    steps: list[str | int | None] = []
    level = 0
    for _ in range(300):
        if made.random() < 0.1:
            levels = [0, 0, 100, -100, 500, 9170, most + made.randint(80, 100), -200]
            level = made.choice(levels)
        if made.random() < 0.25:
            steps.append(made.choice(LINES))
        else:
            is_lost = made.random() < 0.02
            steps.append(None if is_lost else level + made.choice([0, 0, 0, 1, -1, 3]))
    return steps


class TerminalPage(Check):
    """The page in a browser of three sizes."""

    needs = (PROGRAM, "cc", "chromium", "chromedriver")
    seconds = 120
    built: str
    page: str
    browser: Browser

    @classmethod
    def setUpClass(cls) -> None:
        cls.built = subprocess.check_output([TOP / "library" / "build"], text=True).strip()
        site = cls.enterClassContext(tempfile.TemporaryDirectory())
        shutil.copy(TOP / "library" / "terminal.html", site)
        shutil.copy(os.path.join(cls.built, "weighbridge_terminal.wasm"), site)
        handler = functools.partial(Served, directory=site)
        server = cls.enterClassContext(http.server.ThreadingHTTPServer((HOST, 0), handler))
        threading.Thread(target=server.serve_forever, daemon=True).start()
        cls.addClassCleanup(server.shutdown)
        cls.page = f"http://{HOST}:{server.server_port}/terminal.html"

    def tearDown(self) -> None:
        self.same("what else the page requested", set(), Served.asked - OWN)

    def open(self, name: str = "wide") -> None:
        """Open the page in a new browser of this size."""
        width, height = SIZES[name]
        self.browser = Browser(free_port(), self.folder(), width, height)
        self.addCleanup(self.browser.close)
        size = {"width": width, "height": height, "deviceScaleFactor": 1}
        is_narrow = name == "narrow"
        self.browser.tool("Emulation.setDeviceMetricsOverride", **size, mobile=is_narrow)
        if is_narrow:
            self.browser.tool("Emulation.setTouchEmulationEnabled", enabled=True)
        self.browser.go(self.page)
        self.runs(f"{name}: the page runs")
        self.same(f"{name}: what it can't do", "", self.browser.text("#cannot"))

    def runs(self, what: str) -> None:
        look = functools.partial(self.browser.run, "return typeof window.weighing")
        self.becomes(what, "object", look)

    def value(self, element: str, name: str = "value") -> Any:
        return self.browser.run(f"return document.getElementById('{element}').{name}")

    def set_value(self, element: str, value: str) -> None:
        self.browser.run(f"document.getElementById('{element}').value = '{value}'")

    def set_load(self, kilograms: int, field: str = "load-box") -> None:
        self.browser.run(SET_LOAD, field, kilograms)

    def says(self, what: str, wanted: str) -> None:
        self.becomes(what, wanted, lambda: self.browser.text("#said"))

    def weighs(self, what: str, net: int, gross: int | None = None) -> None:
        gross = net if gross is None else gross
        self.says(what, f"Stable: net {net} kg, gross {gross} kg")

    def prints(self, what: str, *wanted: str) -> None:
        """Show that these become the last lines that the page prints."""

        def last() -> list[str]:
            lines = self.browser.text("#log").splitlines()[-len(wanted) :]
            return [it.strip() for it in lines]

        self.becomes(what, [*wanted], last)

    def press_key(self, name: str) -> None:
        self.browser.run(f"{KEY_SI.replace('SI', name)}.click()")

    def as_replayed(self, what: str) -> int:
        """Compare what the page printed since its terminal was opened with a replay of its trace. Return how many replies there are."""
        trace = self.browser.run("return weighing.trace()")
        self.assertTrue(trace["whole"], f"{what}: the trace isn't whole")
        self.same(f"{what}: replies as replayed", replayed(trace), trace["printed"])
        return len(trace["printed"])

    def test_by_hand(self) -> None:
        self.open()
        browser = self.browser
        self.weighs("the indication of an empty bridge", 0)
        self.set_load(18340)
        self.weighs("a load by the box", 18340)
        self.same("the slider follows the box", "18340", self.value("load"))
        self.set_load(8140, "load")
        self.weighs("a load by the slider", 8140)
        self.same("the box follows the slider", "8140", self.value("load-box"))
        browser.type("#line", "TA 5000 kg\n")
        self.prints("a line with its reply", "> TA 5000 kg", "TA A       5000 kg")
        self.weighs("a net weight", 3140, 8140)
        lamps = [self.value(f"lamp-{it}", "className") for it in ("stable", "net", "zero")]
        self.same("the lamps", ["on", "on", ""], lamps)
        browser.type("#line", "TAC\n")
        self.set_load(10)
        self.weighs("half an interval", 20)
        browser.type("#line", "T\n")
        self.prints("it is weighed as a tare", "T S         20 kg")
        self.set_load(18340)
        self.weighs("a net that equals the gross", 18340)
        self.same("is marked as one", "on", self.value("lamp-net", "className"))
        self.press_key("TAC")
        browser.click("#empty")
        self.becomes("zero", "on", lambda: self.value("lamp-zero", "className"))
        self.same("without a tare it isn't", "", self.value("lamp-net", "className"))
        browser.click("#lost")
        self.says("lost readings", "No load")
        self.press_key("SI")
        self.prints("no weight without readings", "S I")
        browser.click("#lost")
        self.set_load(62000)
        self.says("overload", "Overload")
        self.set_load(9170)
        self.set_value("noise", "20")
        browser.type("#line", "SIR\n")
        time.sleep(1.5)
        browser.click("#hang-up")
        self.set_value("noise", "0")
        browser.type("#line", "S\n")
        self.prints("a stable weight with S", "S S       9180 kg")
        browser.run("document.getElementById('line').focus()")
        browser.run("weighing.stop()")
        self.as_replayed("by hand")
        self.change_the_setup()

    def change_the_setup(self) -> None:
        browser = self.browser
        browser.run("document.getElementById('setup').open = true")
        browser.type("#part-max_kg", "60001")
        browser.click("#apply")
        fault = "Max is not 500 to 10,000 whole intervals"
        self.same("a setup outside its limits is named", fault, browser.text("#setup-fault"))
        focus = browser.run("return document.activeElement.id")
        self.same("its field has the focus", "part-max_kg", focus)
        browser.run("weighing.send('SI')")
        self.as_replayed("after a refused setup")
        browser.type("#part-max_kg", "30000")
        self.set_value("part-interval_kg", "10")
        browser.type("#part-serial", "A1")
        browser.click("#apply")
        self.same("a setup that is one", "", browser.text("#setup-fault"))
        browser.type("#line", "I4\n")
        self.prints("its serial", 'I4 A "A1"')
        self.set_load(9170)
        self.weighs("its interval", 9170)
        browser.run("weighing.stop()")
        self.as_replayed("of another setup")

    def test_why_it_waits(self) -> None:
        """Show, with the clock stopped, what the page says and draws for readings that agree, that don't, and that are lost."""
        self.open()
        browser = self.browser
        browser.run("weighing.stop()")
        browser.reload()
        self.runs("the page runs again")
        browser.run("weighing.stop(); document.getElementById('apply').click(); weighing.stop()")
        browser.run(KEEP_DRAWN)
        spread = "S waits: the last 4 readings spread over 3 tenths of e (6 kg), and 2 may be."
        for loads, wanted in (
            ([9170] * 3, "S waits for 1 more reading: 4 have to agree."),
            ([9172], "S answers: the last 4 readings are within 2 tenths of e (4 kg)."),
            ([9173], spread),
            ([None], "S waits for 4 more readings: 4 have to agree."),
            ([10] * 4, "S answers: the last 4 readings are the same."),
            ([-3, -3, -3, -4], "S answers: the last 4 readings are within 1 tenth of e (2 kg)."),
        ):
            browser.run("for (const load of arguments[0]) weighing.take(load)", loads)
            self.same(f"why S waits after {loads}", wanted, browser.text("#why"))
            lamp = "on" if wanted.startswith("S answers") else ""
            self.same(f"the lamp after {loads}", lamp, self.value("lamp-stable", "className"))
        time.sleep(0.3)
        drawn = set(browser.run("return window.drawn"))
        self.same("no -0 on an axis", set(), drawn & {"-0", "-0 kg", "−0 kg"})
        axes = {"0 kg", "Max", "40 kg", "-40 kg", "20000 kg"}
        self.same("the axes", axes, drawn & axes)
        marks = [browser.text("#mark-zero"), browser.text("#mark-max")]
        self.same("the marks of the slider", ["0", "Max 60000 kg"], marks)

    def test_random_histories(self) -> None:
        self.open()
        made, replies = random.Random(1), 0
        for number in range(many(40)):
            setup = random_setup(made)
            self.browser.run(SET_UP, setup)
            most = 10 * setup["max_kg"] // setup["interval_kg"]
            self.browser.run(GIVE, random_steps(made, most))
            replies += self.as_replayed(f"random history {number} under {setup}")
        print(f"{replies} replies")

    def test_by_keyboard(self) -> None:
        """Use the page only by keys: each control is reached by Tab, the load is moved by arrows, a line is typed and called again."""
        self.open()
        browser = self.browser
        browser.run("document.activeElement.blur(); scrollTo(0, 0)")
        reached: list[str] = []
        for _ in range(60):
            browser.keys(TAB)
            name = browser.run("const it = document.activeElement; return it.id || it.textContent")
            is_body = browser.run("return document.activeElement === document.body")
            if name in reached or not name or is_body:
                break
            reached.append(name)
        seen = ".filter(it => it.checkVisibility()).map(it => it.id || it.textContent)"
        wanted, found = (
            [it for it in names if it != "log"]
            for names in (browser.run(f"return {CONTROLS}{seen}"), reached)
        )
        self.same("controls that Tab reaches, in their order", wanted, found)
        browser.run("document.getElementById('load').focus()")
        browser.keys(RIGHT * 10)
        self.same("ten steps to the right", "20", self.value("load-box"))
        self.weighs("they are weighed", 20)
        browser.run("const it = document.getElementById('line'); it.focus(); it.select()")
        browser.keys(f"I4{ENTER}")
        self.prints("a line by keys", 'I4 A "WB01"')
        browser.keys(f"SI{ENTER}{UP}{UP}{ENTER}")
        self.prints("an older line by arrows", "> I4", 'I4 A "WB01"')

    def tap(self, script: str) -> None:
        """Touch the middle of the element that the script returns."""
        x, y = self.browser.run(
            f"const it = {script}; it.scrollIntoView({{block: 'center'}}); const at = it.getBoundingClientRect();"
            "return [at.x + at.width / 2, at.y + at.height / 2]"
        )
        for kind, points in (("touchStart", [{"x": x, "y": y}]), ("touchEnd", [])):
            self.browser.tool("Input.dispatchTouchEvent", type=kind, touchPoints=points)

    def test_by_touch(self) -> None:
        self.open("narrow")
        self.set_load(4000)
        self.weighs("a load", 4000)
        self.tap(KEY_SI)
        self.prints("SI by a touch", "S S       4000 kg")
        self.tap("document.getElementById('empty')")
        self.weighs("an empty bridge by a touch", 0)
        self.tap("document.querySelector('#setup summary')")
        self.becomes("the setup by a touch", True, lambda: self.value("setup", "open"))

    def test_sizes(self) -> None:
        """Show that nothing is wider than the window, and that each control has a name, can be reached by Tab and is large enough for a finger."""
        for name in SIZES:
            self.open(name)
            run = self.browser.run
            self.same(f"{name}: what is wider than the window", 0, run(WIDER))
            self.same(f"{name}: controls too small for a finger", [], run(SMALL, FINGER))
            self.same(f"{name}: controls without a name, or that Tab leaves out", [], run(UNNAMED))
            for scheme in ("light", "dark"):
                feature = {"name": "prefers-color-scheme", "value": scheme}
                self.browser.tool("Emulation.setEmulatedMedia", features=[feature])
                if scheme == "light" and PICTURES:
                    self.act()
                time.sleep(0.3)
                for lamp in ("#lamp-net", "#lamp-zero"):
                    found = contrast(run(COLOURS, lamp))
                    self.holds(f"{name}, {scheme}: the contrast of {lamp}", found >= 4.5, found)
                self.photograph(f"{name}-{scheme}")
        self.same("what the page requested", OWN, Served.asked)

    def photograph(self, name: str) -> None:
        self.browser.run("scrollTo(0, 0)")
        if PICTURES:
            os.makedirs(PICTURES, exist_ok=True)
            Path(PICTURES, f"terminal-{name}.png").write_bytes(self.browser.picture())

    def act(self) -> None:
        """Play a minute's part of a weighing, for the pictures."""
        for kilograms, seconds, line in (
            (0, 2, "Z"),
            (6200, 0.6, None),
            (14100, 0.5, None),
            (18340, 3, "SI"),
            (18340, 2, "TA 5000 kg"),
            (18340, 3, "SI"),
        ):
            self.set_load(kilograms)
            time.sleep(seconds)
            if line:
                self.browser.run("weighing.send(arguments[0])", line)

    def test_as_a_file(self) -> None:
        """Open the one file that has the page, with the module in it."""
        self.open()
        self.browser.go(f"file://{self.built}/terminal.html")
        self.runs("the page runs from a file")
        self.set_load(9170)
        self.weighs("it weighs", 9180)
