"""A day of thirty vehicles with eight faults, worked at the page only, by a clerk who does what its sentence says and nothing else.

At the end, the page, the journal and the lists have said the same. The check prints each sentence that the page showed for long, with its seconds: a new
clerk reads them so.
"""

import random
import re
import time
from collections.abc import Callable

from checks.lib.case import PROGRAM
from checks.lib.clerk import ENTER, ESCAPE, F1, F6, F7, F9, Clerk
from checks.lib.counter import NO_TARE, held, silent
from checks.lib.counter_case import AtThePage
from checks.lib.network import Network

VEHICLES, PATIENCE = 30, 60
LOADS_WITHIN = 3  # seconds: a page that was just loaded may say nothing yet
# The clerk does what the first of these that is found in a sentence asks for.
ASKED = (
    ("Zero is set", "wait"),
    ("The bridge is empty", "drive on"),
    ("Let the vehicle drive off, and on again", "off and on"),
    ("The bridge was not empty", "off and on"),
    ("Let it drive off", "drive off"),
    ("may drive off", "drive off"),
    ("The page had no weight for a while", "wait"),
    ("Type the plate", "type"),
    ("Is it this one?", "look"),
    ("Is it one of them?", "look"),
    ("The net would be only", "right"),
    ("One moment", "wait"),
    ("The empty bridge shows", "zero"),
    ("Ready.", "press"),
    ("A tare of", "choose"),
    ("A tare is set", "wait"),
    ("No answer came to", "choose"),
    ("Wait until", "wait"),
    ("It is still moving", "wait"),
    ("Sent.", "wait"),
    ("No answer yet", "wait"),
    ("The scale gives no weight", "wait"),
    ("The scale doesn't answer", "wait"),
    ("doesn't run", "wait"),
    ("No connection", "wait"),
    ("Not sent", "wait"),
    ("Zero was not set", "wait"),
)


class Day(AtThePage):
    """The clerk who does as the page says."""

    needs = (PROGRAM, "aiohttp", "prometheus_client", "chromium", "chromedriver")
    slow = True
    seconds = 400

    def setUp(self) -> None:
        super().setUp()
        self.rng = random.Random(3)
        self.told: list[tuple[int, str]] = []
        self.long: list[tuple[str, int]] = []
        self.doubts: list[str] = []
        self.site: dict[str, int] = {}

    def page_of(self, port: int) -> Clerk:
        self.network = self.enterContext(Network(port))
        return super().page_of(self.network.port)

    # ---- the faults, each of which comes right after the press

    def counter_killed(self) -> None:
        self.bridge.kill_counter()
        time.sleep(1)
        self.bridge.start_counter()

    def service_killed(self) -> None:
        self.bridge.kill_service()
        time.sleep(1)
        self.bridge.start_service()

    def service_held(self) -> None:
        with held(self.bridge.service.process):
            time.sleep(2.5)

    def counter_held(self) -> None:
        with held(self.bridge.process):
            time.sleep(2.5)

    def network_gone(self) -> None:
        self.network.is_there.clear()
        time.sleep(4)
        self.network.is_there.set()

    def converter_silent(self) -> None:
        with silent(self.bridge.converter):
            time.sleep(3)

    def tare_of_a_till(self) -> None:
        self.bridge.terminal_says("till", "TA 3000 kg")

    def page_loaded_again(self) -> None:
        self.clerk.load()

    # ---- the clerk

    def work(self, plate: str, load: int, typed: str, fault: Callable[[], None] | None) -> None:
        """Work one vehicle, from driving on to driving off, as the sentences say."""
        converter, clerk = self.bridge.converter, self.clerk
        is_on, since, shown, until = False, time.monotonic(), "", time.monotonic() + PATIENCE
        while time.monotonic() < until:
            words, more = clerk.sentence()
            if words != shown:
                if time.monotonic() - since > 3:
                    self.long.append((shown, round(time.monotonic() - since)))
                shown, since = words, time.monotonic()
            if not words and time.monotonic() - since < LOADS_WITHIN:
                time.sleep(0.15)
                continue
            done = re.match(r"(?:Slip|Ticket) (\d+): ", words) or re.match(
                rf"{plate} is weighed, (?:Slip|Ticket) (\d+)", words
            )
            if done and plate in words + more and is_on:
                self.told.append((int(done[1]), plate))
                converter.now = 0
                return
            what = next((act for start, act in ASKED if start in words or start in more), None)
            if what is None:
                self.doubts.append(f"{words} | {more}")
                return
            alarms = clerk.alarms()
            is_unknown = "Its zero may be lost" in alarms or "whether zero was set" in alarms
            if what == "zero" or is_unknown and converter.now == 0 and "empty" in words:
                clerk.keys(F9)
                time.sleep(0.6)
            elif what == "drive on":
                converter.now, is_on = load, True
            elif what == "off and on":
                converter.now = 0
                time.sleep(1.5)
                converter.now = load
            elif what == "drive off" and not is_on:
                converter.now = 0
            elif what == "type" and is_on:
                clerk.keys(ESCAPE + typed)
            elif what == "look":
                answers = [it.split()[0] for it in clerk.answers()]
                clerk.keys(chr(ord(F1) + answers.index(plate)) if plate in answers else F6)
            elif what == "right":
                clerk.keys(F7)
            elif what == "press" and clerk.plate() == plate:
                clerk.keys(ENTER)
                if fault:
                    time.sleep(self.rng.uniform(0, 0.25))
                    fault()
                    fault = None
            elif what == "choose":
                clerk.choose()
            time.sleep(0.15)
        self.doubts.append(
            f"{plate}: nothing came of it in {PATIENCE} s: {clerk.words()} | {clerk.more()}"
        )
        converter.now = 0

    def vehicle(self, number: int, fault: Callable[[], None] | None) -> None:
        """Let a vehicle come that is weighed in, or one that is on site."""
        rng = self.rng
        if self.site and rng.random() < 0.5:
            plate = rng.choice(list(self.site))
            load = self.site.pop(plate) - rng.randrange(2500, 5000)
            is_short = rng.random() < 0.3
            typed = plate.replace("-", "") if is_short else plate.lower().replace("-", " ")
        else:
            letters = rng.choice("ABCDEFGH") + rng.choice("KLMNP")
            plate = f"HB-{letters}-{number}{rng.randrange(10, 99)}"
            load = self.site[plate] = rng.randrange(8000, 16000)
            typed = plate.lower()
        self.work(plate, load, typed, fault)

    def test_day(self) -> None:
        bridge = self.bridge
        faults: list[Callable[[], None]] = [
            self.counter_killed,
            self.service_killed,
            self.service_held,
            self.network_gone,
            self.converter_silent,
            self.tare_of_a_till,
            self.counter_held,
            self.page_loaded_again,
        ]
        # the fourth vehicle has the first fault, and each third one after it the next
        for number in range(VEHICLES):
            at = number // 3 - 1
            is_faulty = number % 3 == 0 and 0 <= at < len(faults)
            self.vehicle(number, faults[at] if is_faulty else None)
        time.sleep(4)
        rows = [(int(it[0]), it[3]) for it in bridge.entries()]
        self.same("no sentence left the clerk in doubt", [], self.doubts)
        self.same("what the page said is what is stored", rows, self.told)
        self.same("each vehicle is weighed", VEHICLES, len(rows))
        self.holds("the journal is sound", bridge.is_sound())
        self.becomes(
            "the lists have all of them",
            (len(rows), True),
            lambda: (bridge.metric("entries"), bridge.state()["lists_whole"]),
        )
        self.same("no tare is left", NO_TARE, bridge.tare())
        for words, seconds in self.long:
            print(f"    {seconds:3} s  {words}", flush=True)
