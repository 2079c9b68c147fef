"""A clerk in a hurry, who hammers or holds a key, clicks twice, or treats a bridge as empty that isn't at zero.

The counter stores only what the clerk asked for by the key of that answer, and never a ticket of another plate.
"""

import time
from collections.abc import Callable

from checks.lib.case import PROGRAM
from checks.lib.clerk import ENTER, ESCAPE, F1, F4, F6, F7, F9, F10, SPACE, TEN
from checks.lib.counter import held, silent
from checks.lib.counter_case import AtThePage

KNOWN, NEW, ON_SITE = "RA-KM-1238", "RA-KM-1237", "RA-KM-1236"
WAITS, ARMED = "Wait until it stands still.", "is weighed as soon as it stands still."
GONE = "The vehicle has left the bridge."
# The page fetches by these functions in place of its own.
NOTED = "(target, how) => { (window.asked ??= []).push(new URL(target, location.origin).pathname); return realFetch(target, how); }"
ASKED = "return window.asked.filter(it => it.startsWith(arguments[0])).length"
CUT = "async (target, how) => { if (target.endsWith('/weighings')) throw new TypeError('cut'); return realFetch(target, how); }"
LATE = """async (target, how, milliseconds, saysWhen = true) => {
  if (target.endsWith('/weighings')) {
    (window.weighed ??= []).push(how.body.get('key'));
    if (window.weighed.length === 1) await new Promise(done => setTimeout(done, milliseconds));
    if (!saysWhen) how.body.delete('at');
  }
  return realFetch(target, how);
}"""


class InAHurry(AtThePage):
    """The base of the classes of this file."""

    def hammer(self) -> None:
        """Press Enter ten times in a second."""
        self.clerk.browser.hammer(TEN, 0.1)

    def hold_enter(self) -> None:
        self.clerk.browser.hold("Enter", 1.3)

    def nothing_comes_of_enter(self, what: str, plate: str) -> None:
        """Show that nothing comes of Enter while the page asks something."""
        self.nothing_comes_of(f"{what}: Enter hammered", self.hammer, plate)
        self.nothing_comes_of(f"{what}: Enter held", self.hold_enter, plate)

    def armed(self, plate: str, load: int = 7000) -> None:
        """Press Enter while the vehicle sways."""
        self.sways(plate, load)
        self.clerk.sees_after(ENTER, f"{plate} {ARMED}", what=f"{plate} sways: Enter arms")

    def sways(self, plate: str, load: int = 7000) -> None:
        """Let a vehicle sway on the bridge, and type its plate."""
        self.bridge.put(0)
        self.bridge.converter.now, self.bridge.converter.sway = load, 100
        self.clerk.sees_after(ESCAPE + ESCAPE + plate, WAITS, what=f"{plate} sways on the bridge")

    def stands(self, load: int = 7000) -> None:
        self.bridge.converter.sway = 0
        self.bridge.put(load)


class Questions(InAHurry):
    """The page asks whether another plate is meant. It has weighed a fleet of running numbers: one vehicle has a ticket, one is on site, and one comes for the first time."""

    needs = (PROGRAM, "aiohttp", "prometheus_client", "chromium", "chromedriver")
    seconds = 100

    def setUp(self) -> None:
        super().setUp()
        self.bridge.weigh_next(4000, "past-1", "single", KNOWN, 1000)
        self.bridge.weigh_next(9170, "past-2", "first", ON_SITE)
        self.comes("the page has the list", lambda: ON_SITE in self.clerk.content("#site"))
        self.bridge.next_vehicle(4070)

    def is_asked(self) -> None:
        """Type a plate that is one letter off, so that the page asks."""
        self.clerk.sees_after(ESCAPE + NEW, f"{ON_SITE} is on site.")

    def test_each_plate_that_may_be_another(self) -> None:
        answers = [f"{ON_SITE} F1", "No, another vehicle F6"]
        on_site = f"{ON_SITE} is on site."
        for typed, words, what in (
            (NEW, f"{on_site} Is it this one?", "one letter off, and never weighed: it asks"),
            ("RA-KM-1263", on_site, "two letters that changed places, and never weighed: it asks"),
            ("1236", on_site, "a part of a plate: it asks"),
            ("RAKM1236", on_site, "equal without hyphens: it asks"),
        ):
            self.clerk.sees_after(ESCAPE + typed, words, what=what)
            what = f"{what}: each answer has its key on its button"
            self.same(what, answers, self.clerk.answers())
        what = "a known plate of running numbers"
        self.clerk.is_ready_for(KNOWN, f"{what}: it asks nothing")
        self.same(f"{what}: the page shows no answers", [], self.clerk.answers())
        self.clerk.is_ready_for(ON_SITE, "the plate on site itself: it asks nothing")

    def test_enter_answers_no_question(self) -> None:
        self.is_asked()
        self.nothing_comes_of_enter("a question", NEW)
        self.same("the focus stays at the plate", "plate", self.clerk.focus())
        self.clerk.tab_to(ON_SITE, 6)
        self.same("Tab goes to the first answer", f"{ON_SITE} F1", self.clerk.focus())
        self.nothing_comes_of("Enter ten times in a second on an answer", self.hammer, NEW)
        for key in (F7, F10):
            what = f"the key F{ord(key) - 0xE030} of another question"
            self.nothing_comes_of(what, lambda: self.clerk.keys(key), NEW)

        def after_a_blank() -> str:
            self.clerk.run("document.querySelector('#hint .answer')?.focus()")
            self.clerk.keys(SPACE)
            return self.clerk.plate()

        self.becomes("the space bar presses it", ON_SITE, after_a_blank)

    def test_deaf_after_an_answer(self) -> None:
        clerk = self.clerk

        def answer_and_hold() -> None:
            clerk.keys(F1)
            self.hold_enter()

        def take_from_the_list(act: Callable[[], None]) -> None:
            clerk.run("document.querySelector('#site button').focus()")
            act()

        answers: list[tuple[str, Callable[[], object], str]] = [
            (
                "its key takes the plate on site, and Enter at once",
                lambda: clerk.keys(F1 + ENTER),
                ON_SITE,
            ),
            (
                "Enter ten times in a second behind an answer",
                lambda: clerk.browser.hammer(F1 + TEN, 0.1),
                ON_SITE,
            ),
            ("Enter held for 1.3 s behind an answer", answer_and_hold, ON_SITE),
            (
                "the other key leaves the plate, and Enter at once",
                lambda: clerk.keys(F6 + ENTER),
                NEW,
            ),
        ]
        for what, act, plate in answers:
            self.is_asked()
            self.nothing_comes_of(what, act, plate)
            clerk.sees("Ready.", what=f"{what}: and then it is ready")
        self.same("to be weighed in", f"Weigh in · {NEW}", clerk.button())
        clerk.is_ready_for(ON_SITE)

        behind: list[tuple[str, Callable[[], object]]] = [
            ("closed search", lambda: clerk.keys(F4 + ESCAPE + ENTER)),
            (
                "plate that the list gave",
                lambda: take_from_the_list(lambda: clerk.keys(ENTER + ENTER)),
            ),
            (
                "plate that the list gave, ten times in a second",
                lambda: take_from_the_list(self.hammer),
            ),
        ]
        for what, act in behind:
            self.nothing_comes_of(f"Enter right behind a {what}", act, ON_SITE)
            clerk.sees("Ready.")

    def seen_at(self, selector: str) -> list[float]:
        """Scroll to a part of the page, and return its middle."""
        self.clerk.run(
            "document.querySelector(arguments[0]).scrollIntoView({ block: 'center' })", selector
        )
        middle: list[float] = self.clerk.browser.middle_of(selector)
        return middle

    def test_a_double_click(self) -> None:
        for width in (1280, 360):
            self.clerk.browser.look(width, 800)
            self.becomes(f"{width} px wide", width, lambda: self.clerk.run("return innerWidth"))
            time.sleep(0.3)
            for answer, plate in ((1, ON_SITE), (2, NEW)):
                self.is_asked()
                x, y = self.seen_at(f"#hint .answer:nth-of-type({answer})")
                self.nothing_comes_of(
                    f"{width} px: a double click on answer {answer}",
                    lambda: self.clerk.browser.click_at(x, y, count=2),
                    plate,
                )
                self.same(f"{width} px: and no dialog is open", 0, self.clerk.count("dialog[open]"))
            self.is_asked()
            x, y = self.seen_at("#go")

            def takes_and_weighs() -> None:
                self.clerk.run("document.querySelector('#hint .answer').click()")
                self.clerk.browser.click_at(x, y)

            what = f"{width} px: an answer, and the weigh button at once"
            self.nothing_comes_of(what, takes_and_weighs, ON_SITE)
            self.same(f"{width} px: and no dialog is open", 0, self.clerk.count("dialog[open]"))
        self.clerk.browser.look(1280, 800)
        self.clerk.sees("Ready.")

    def test_what_was_taken_is_weighed_once(self) -> None:
        self.note_entries()
        self.clerk.is_ready_for(NEW + F1)
        self.hold_enter()
        self.clerk.sees("Ticket 3")
        self.hammer()
        what = "then Enter weighs what was taken, once, held and hammered"
        self.same(what, [("second", ON_SITE)], self.added())


class Held(InAHurry):
    """Keys that are held, and buttons that are pressed twice, once a vehicle was weighed in."""

    needs = (PROGRAM, "aiohttp", "prometheus_client", "chromium", "chromedriver")
    seconds = 70

    def setUp(self) -> None:
        super().setUp()
        self.bridge.weigh_next(9170, "held-1", "first", "HELD-1")
        self.comes("the page has the list", lambda: "HELD-1" in self.clerk.content("#site"))

    def open_by_search(self, plate: str) -> None:
        """Open the text of the newest entry of a plate."""
        press = "document.querySelector('#searching[open] #hits button')?.click(); return document.querySelector('#entry[open] .danger') !== null"
        self.clerk.keys(F4 + plate)
        self.comes("the search finds it", lambda: plate in self.clerk.content("#hits"))
        self.comes("its slip is there", lambda: self.clerk.run(press))

    def test_what_is_held_acts_once(self) -> None:
        self.clerk.intercept(NOTED)
        self.clerk.browser.hold("F9", 1.3)
        self.same("F9 held for 1.3 s sets zero once", 1, self.clerk.run(ASKED, "/zero"))
        self.clerk.browser.hold("F8", 1.3)
        time.sleep(0.5)
        self.same("F8 held for 1.3 s prints once", 1, self.clerk.run(ASKED, "/papers/"))
        self.open_by_search("HELD-1")
        self.clerk.tab_to("Withdraw this weighing", 6)
        self.hold_enter()
        what = "Enter held on Withdraw asks once more, and withdraws nothing"
        self.same(what, "Press again: withdraw HELD-1", self.clerk.focus())
        self.clerk.keys(ESCAPE)
        self.open_by_search("HELD-1")
        x, y = self.clerk.browser.middle_of("#entry .danger")
        self.clerk.browser.click_at(x, y, count=2)
        what = "a double click on Withdraw asks once more"
        self.same(what, "Press again: withdraw HELD-1", self.clerk.text("#entry .danger"))
        self.clerk.keys(ESCAPE)
        self.same("nothing was withdrawn", False, ("void", "HELD-1") in self.bridge.weighings())
        self.clerk.keys(ESCAPE + "AB")
        what = "letters go into the plate once a text that the search found is closed"
        self.same(what, "AB", self.clerk.plate())
        self.clerk.intercept_nothing()

    def test_a_small_net(self) -> None:
        for load, net in ((9180, "20"), (9170, "0")):
            self.bridge.next_vehicle(load)
            self.clerk.sees_after(ESCAPE + "HELD-1", f"The net would be only {net} kg.")
            what = f"a net of {net} kg: its answer has a key of its own"
            self.same(what, ["It is the right one F7"], self.clerk.answers())
            self.nothing_comes_of_enter(f"a net of {net} kg", "HELD-1")
            what = f"a net of {net} kg: the keys of another question"
            self.nothing_comes_of(what, lambda: self.clerk.keys(F1 + F6 + F10), "HELD-1")
        self.note_entries()
        what = "a net of 0 kg: its key, and Enter at once"
        self.nothing_comes_of(what, lambda: self.clerk.keys(F7 + ENTER), "HELD-1")
        self.clerk.sees("Ready.", what="a net of 0 kg: its key answers")
        self.clerk.keys(ENTER)
        self.becomes("a net of 0 kg: and then Enter weighs", [("second", "HELD-1")], self.added)

    def test_withdraws_only_what_it_shows(self) -> None:
        self.bridge.weigh_next(9000, "old-1", "first", "WD-1")
        click = "[...document.querySelectorAll('#today button')].find(it => it.textContent.includes('WD-1'))?.click()"
        self.clerk.keys(ESCAPE)

        def offered() -> list[str]:
            self.clerk.run(click)
            return self.clerk.contents("#entry-tools .danger")

        self.comes("the dialog of a first weighing offers to withdraw it", offered)
        self.bridge.weigh_next(4000, "old-2", "second", "WD-1")
        self.bridge.weigh_next(9100, "old-3", "first", "WD-1")
        self.note_entries()

        def pressed() -> bool:
            self.clerk.run("document.querySelector('#entry-tools .danger').click()")
            time.sleep(0.8)
            return self.clerk.content("#entry-tools .danger").endswith("is not open any more")

        self.comes("once the plate was weighed out and in again, it refuses", pressed)
        pressed()
        self.same("and nothing is withdrawn", [], self.added())


class OffZero(InAHurry):
    """A bridge that is empty, but not at zero."""

    needs = (PROGRAM, "aiohttp", "prometheus_client", "chromium", "chromedriver")
    seconds = 100

    def test_off_zero(self) -> None:
        def put(load: int) -> None:
            self.bridge.converter.now = load

        put(80)
        what = "160 kg on the empty bridge"
        self.clerk.sees("The bridge is empty", 8, f"{what}: at first it is called empty")
        began = time.monotonic()
        asks = f"{what}: the sentence asks for zero"
        self.clerk.sees("The empty bridge shows 160 kg. Set zero.", 9, asks)
        what = f"{what}: after some five seconds"
        self.holds(what, 2 < time.monotonic() - began < 8, f"{time.monotonic() - began:.1f} s")
        self.same("and offers its key", "Set zero F9", self.clerk.text("#choices button"))
        self.clerk.sees_after(F9, "The bridge is empty", 8, "F9 sets it, and the bridge is empty")
        self.becomes("at zero", 0, self.clerk.kg)
        put(590)
        self.becomes("1,020 kg are no empty bridge", 1020, self.clerk.kg)
        self.clerk.sees("Type the plate.")
        self.clerk.keys(F9)
        self.becomes("zero is set", 0, self.clerk.kg)
        shows = "The empty bridge shows"
        put(510)
        what = "160 kg below zero: the sentence asks for zero"
        self.clerk.sees(f"{shows} -160 kg. Set zero.", 12, what)
        put(690)
        what = "200 kg, beyond 2 % of Max from the calibration's zero: it asks for zero"
        self.clerk.sees(f"{shows} 200 kg. Set zero.", 12, what)
        what = "and sends for the operator once the service refuses it"
        self.clerk.sees_after(F9, f"{shows} 200 kg. Call the operator.", 8, what)
        put(610)
        what = "less than was refused: it asks for zero again"
        self.clerk.sees(f"{shows} 40 kg. Set zero.", 12, what)
        put(0)
        self.comes("far below zero", lambda: "below zero" in self.clerk.words())
        time.sleep(1.5)
        self.clerk.keys(F9)
        self.becomes("at the calibration's zero", 0, self.clerk.kg, 8)

    def test_a_single_off_zero(self) -> None:
        self.bridge.keep_tare("SINGLE-1", 5000)
        self.bridge.put(0)
        self.bridge.put(40)
        self.bridge.put(9170)
        self.clerk.is_ready_for("SINGLE-1", "80 kg before the vehicle: a Single asks nothing")
        self.bridge.put(80)
        self.bridge.put(9170)
        self.clerk.keys(ESCAPE + "SINGLE-1")
        what = "160 kg before the vehicle: a Single asks first"
        self.clerk.sees("The bridge showed 160 kg before this vehicle.", what=what)
        what = "its answer has a key of its own"
        self.same(what, ["Weigh it all the same F10"], self.clerk.answers())
        self.nothing_comes_of_enter("a Single off zero", "SINGLE-1")
        what = "a Single off zero: the keys of other questions"
        self.nothing_comes_of(what, lambda: self.clerk.keys(F1 + F6 + F7), "SINGLE-1")
        what = "a First asks nothing: its second weighing shows the same"
        self.clerk.is_ready_for("FIRST-1", what)
        self.clerk.is_ready_for("SINGLE-1" + F10, "a Single off zero: its key answers")
        self.bridge.put(0)
        self.bridge.put(9170)
        self.clerk.is_ready_for("SINGLE-1", "a Single after zero: it asks nothing")
        self.bridge.put(80)
        self.bridge.put(9170)
        self.clerk.keys(ESCAPE + "SINGLE-1")
        what = "an answer is for one vehicle: the page asks again at the next one"
        self.clerk.sees("The bridge showed 160 kg before this vehicle.", what=what)
        self.bridge.restart_counter()
        what = "a counter that was started under a vehicle knows nothing of before"
        self.clerk.sees("It isn't known what the bridge showed before this vehicle.", what=what)
        self.note_entries()
        self.clerk.sees_after(F10, "Ready.")
        self.clerk.keys(ENTER)
        what = "a Single off zero: and then Enter weighs"
        self.becomes(what, [("single", "SINGLE-1")], self.added)


class EarlyEnter(InAHurry):
    """Enter while the load sways: it is weighed once it stands, and never after anything else happened."""

    needs = (PROGRAM, "aiohttp", "prometheus_client", "chromium", "chromedriver")
    seconds = 180

    def nothing_comes(self, what: str, plate: str) -> None:
        """Show that nothing is stored once the load stands."""
        self.note_entries()
        self.stands()
        time.sleep(2.5)
        left = (self.added(), self.clerk.kept(), self.clerk.plate())
        self.same(f"{what}: nothing is stored, and its plate stays", ([], None, plate), left)

    def test_weighed_once_it_stands(self) -> None:
        weighed = [("first", "SW-AA-11")]
        self.sways("SW-AA-11")
        words = "Or press Enter once the whole vehicle is on the bridge."
        self.same("it says so", words, self.clerk.more())
        self.hammer()
        self.clerk.sees(f"SW-AA-11 {ARMED}")
        what = "while it sways, Enter hammered stores nothing"
        self.same(what, ([], "SW-AA-11"), (self.added(), self.clerk.plate()))
        self.bridge.converter.sway = 0
        self.becomes("once it stands, it is weighed", weighed, self.added)
        self.hammer()
        self.same("and only once", weighed, self.added())

    def test_what_ends_it(self) -> None:
        clerk = self.clerk
        self.armed("KO-BB-22")
        clerk.sees_after(ESCAPE, WAITS, what="Esc ends it")
        self.nothing_comes("after Esc", "KO-BB-22")
        clerk.sees("Ready.")

        self.armed("HH-CC-33")
        clerk.keys("X")
        self.nothing_comes("after another letter", "HH-CC-33X")

        self.armed("MZ-DD-44")
        self.stands(0)
        clerk.sees(f"{GONE} MZ-DD-44 was removed")
        self.nothing_comes("the next vehicle after an emptied bridge", "")

        self.armed("TR-EE-55")
        clerk.keys(F4 + ESCAPE)
        clerk.sees("TR-EE-55 was not weighed.", what="a search ends it, and the page says so")
        self.nothing_comes("after a search", "TR-EE-55")

        self.armed("TR-EE-55")
        clerk.sees_after(F4 + ESCAPE, "TR-EE-55 was not weighed.")
        time.sleep(0.8)
        clerk.keys(ENTER)
        clerk.sees(f"TR-EE-55 {ARMED}", what="while the page says so, a new press counts")
        clerk.keys(ESCAPE)
        self.bridge.converter.sway = 0

        self.bridge.weigh_next(7000, "armed-1", "first", "SW-AA-11")
        self.armed("SW-AA-11", 7010)
        self.bridge.converter.sway = 0
        clerk.sees("The net would be only 20 kg.", what="a question ends it")
        self.nothing_comes("after a question", "SW-AA-11")

        self.armed("LB-FF-66")
        clerk.sees("LB-FF-66 was not weighed.", 25, "after 20 s it is over, and the page says so")
        self.nothing_comes("after 20 s", "LB-FF-66")

    def test_it_sways_before_the_press_arrives(self) -> None:
        """Let the load begin to sway between the press and its arrival at the office."""
        self.bridge.keep_tare("WO-SI-88", 5000)
        for plate, kind in (("WO-GG-88", "first"), ("WO-SI-88", "single")):
            self.bridge.next_vehicle(7000)
            self.note_entries()
            self.clerk.is_ready_for(ESCAPE + plate)
            self.clerk.run("window.weighed = []")
            self.clerk.intercept(LATE, 1500)
            self.clerk.keys(ENTER)
            self.bridge.converter.sway = 100
            what = f"an office that finds a {kind} moving: it is armed again"
            self.clerk.sees(f"{plate} {ARMED}", what=what)
            self.bridge.converter.sway = 0
            what = f"and a {kind} is weighed once it stands"
            self.becomes(what, [(kind, plate)], self.added)
            keys = self.clerk.run("return window.weighed")
            self.same("under a new key", (2, 2), (len(keys), len(set(keys))))

    def test_another_vehicle_sways_there(self) -> None:
        """Let another vehicle drive on before the press arrives. A page that doesn't say when it pressed asks the office."""
        for says_when, words in (
            (True, "Not sent: it came too late."),
            (False, "It is still moving."),
        ):
            self.bridge.next_vehicle(7000)
            self.note_entries()
            self.clerk.is_ready_for(ESCAPE + "FL-HH-99")
            self.clerk.run("window.weighed = []")
            self.clerk.intercept(LATE, 4000, says_when)
            self.clerk.keys(ENTER)
            self.bridge.put(0)
            self.bridge.converter.now, self.bridge.converter.sway = 8000, 100
            what = f"another vehicle sways there when the press comes: {words}"
            self.clerk.sees(words, what=what)
            self.stands(8000)
            time.sleep(2.5)
            what = "it isn't weighed by that press, and the plate isn't in the form"
            self.same(what, ([], ""), (self.added(), self.clerk.plate()))
            self.clerk.intercept_nothing()
            self.clerk.keys(ESCAPE + ESCAPE)


class NextVehicle(InAHurry):
    """One vehicle leaves, and another one comes, before the clerk looks."""

    needs = (PROGRAM, "aiohttp", "prometheus_client", "chromium", "chromedriver")
    seconds = 150

    def test_letters_before_the_answer(self) -> None:
        for own, typed, pause in (("OWN-AAAA", "HB-KW-77", 0.02), ("TAKEN-BB", "KI-XY-8899", 0.08)):
            self.bridge.next_vehicle(5000)
            self.note_entries()
            self.clerk.is_ready_for(own)
            self.clerk.browser.hammer(ENTER + typed, pause)
            what = f"a key each {pause} s before the answer: this vehicle is weighed"
            self.becomes(what, [("first", own)], self.added)
            time.sleep(0.5)
            what = f"a key each {pause} s before the answer: the next plate is whole"
            self.same(what, typed, self.clerk.plate())
        self.bridge.next_vehicle(6000)
        self.clerk.is_ready_for("HELD-1")
        self.note_entries()
        with held(self.bridge.service.process):
            self.clerk.keys(ENTER)
            self.clerk.keys("HB-KW-77")
            what = "while there is no answer, the next plate can be typed"
            self.same(what, "HB-KW-77", self.clerk.plate())
        what = "once the service continues, the held weighing is stored"
        self.becomes(what, [("first", "HELD-1")], self.added)
        time.sleep(0.5)
        self.same("and the next plate is still whole", "HB-KW-77", self.clerk.plate())

    def test_a_plate_leaves_with_its_load(self) -> None:
        self.bridge.next_vehicle(7000)
        self.clerk.is_ready_for("LEFT-1")
        self.bridge.put(0)
        what = "a load that wasn't weighed leaves: the page says so"
        self.clerk.sees(f"{GONE} LEFT-1 was removed", what=what)
        self.same("and its plate leaves the form", "", self.clerk.plate())
        self.bridge.put(7000)
        what = "the next vehicle after one that wasn't weighed: Enter hammered"
        self.nothing_comes_of(what, self.hammer, "")
        self.clerk.sees("Type the plate.", what="and it needs a plate of its own")
        self.clerk.is_ready_for("MOVED-1")
        self.bridge.put(0)
        self.clerk.sees(f"{GONE} MOVED-1 was removed")
        self.clerk.choose()
        what = "one press puts the plate back, for a vehicle that only moved"
        self.same(what, "MOVED-1", self.clerk.plate())
        time.sleep(1)
        self.same("it stays on the empty bridge", "MOVED-1", self.clerk.plate())
        self.bridge.put(7000)
        self.clerk.sees("Ready.", what="and is there for its load")

    def test_a_swap_that_the_page_did_not_see(self) -> None:
        """While the page has no weight, one vehicle may leave and another may come."""
        self.bridge.weigh_next(9170, "site-1", "first", "ON-SITE-1")
        self.bridge.next_vehicle(7000)
        self.clerk.is_ready_for("UNSEEN-1")
        self.clerk.run(
            "const it = document.getElementById('goods'); it.value = 'Gravel'; it.dispatchEvent(new Event('input'))"
        )
        with silent(self.bridge.converter):
            self.clerk.sees("The scale gives no weight.")
            time.sleep(9)
            self.bridge.converter.now = 8000
        self.clerk.sees(
            "The page had no weight for a while, so another vehicle may be there. UNSEEN-1 was removed",
            what="a vehicle that the page didn't see for a while takes its plate with it",
        )
        self.nothing_comes_of("the vehicle that is there then: Enter hammered", self.hammer, "")
        self.clerk.choose()
        what = "one press puts back what was typed, for the vehicle that is still there"
        self.same(what, ("UNSEEN-1", "Gravel"), (self.clerk.plate(), self.clerk.value("#goods")))
        self.clerk.sees("Ready.", what="and it is ready again")
        self.clerk.run("document.querySelector('#site button').click()")
        what = "another vehicle from the list has no goods of this one"
        self.same(what, "", self.clerk.value("#goods"))
        self.clerk.keys(ESCAPE)

    def test_a_window_that_another_vehicle_finds_open(self) -> None:
        """Open the window of the tare or of the goods for one vehicle, and type into it once another one is there."""
        for words, focus in (("Tare from papers", "tare-kg"), ("Goods, order, driver", "goods")):
            self.bridge.next_vehicle(7000)
            self.clerk.is_ready_for("WI-ND-1")
            self.clerk.press("#others button", words)
            self.becomes(f"{words}: the window is there", focus, self.clerk.focus)
            self.clerk.run(
                """window.seen = [];
                const words = document.getElementById('words');
                new MutationObserver(() => window.seen.push(words.textContent)).observe(words, { childList: true, characterData: true, subtree: true });"""
            )
            self.bridge.next_vehicle(8000)
            what = f"{words}: what is typed once another vehicle is there"
            self.nothing_comes_of(what, lambda: self.clerk.browser.hammer("3000" + TEN, 0.1), "")
            why = f"{GONE} WI-ND-1 was removed from the form."
            self.same("and it says why", True, why in self.clerk.run("return window.seen"))
            self.same("nothing of it stays for the next paper", "", self.clerk.value("#goods"))
            self.clerk.keys(ESCAPE)

    def test_a_request_whose_load_left(self) -> None:
        """Show that the page sends a request again until it has an answer, but never for another vehicle."""
        self.bridge.next_vehicle(7000)
        self.clerk.is_ready_for("GO-NE-1")
        self.clerk.intercept(CUT)
        self.note_entries()
        self.clerk.sees_after(ENTER, "No answer yet.")
        self.bridge.next_vehicle(8000)
        self.clerk.intercept_nothing()
        what = "a press without an answer isn't sent again once another vehicle is there"
        self.clerk.sees("No answer came to: First weighing, GO-NE-1", what=what)
        self.same("and nothing is stored", [], self.added())
        self.clerk.browser.click("#choices button:last-child")
        self.clerk.sees("It was not stored.")
        self.same("its plate isn't in the form for the other vehicle", "", self.clerk.plate())
        self.clerk.choose()
        self.same("one press puts it back", "GO-NE-1", self.clerk.plate())
        self.clerk.keys(ESCAPE)

    def test_a_colleague_weighs_it(self) -> None:
        self.bridge.next_vehicle(7000)
        self.clerk.is_ready_for("MINE-1")
        self.note_entries()
        self.clerk.intercept(LATE, 1500)
        self.clerk.keys(ENTER)
        what = "a colleague is faster than this press"
        self.same(what, 201, self.bridge.weigh("colleague-1", "first", "AA-BB-101")[0])
        number = self.bridge.entries()[-1][0]
        what = "a colleague's press was before this one: the page names what is weighed"
        self.clerk.sees(f"Already weighed: AA-BB-101, Slip {number}.", what=what)
        self.same("only the colleague's is stored", [("first", "AA-BB-101")], self.added())
        self.same("the clerk's plate is back", "MINE-1", self.clerk.plate())
        self.clerk.intercept_nothing()
        self.bridge.put(0)
        self.clerk.sees(f"{GONE} MINE-1 was removed", 8)
        self.same("and leaves with the load that the colleague weighed", "", self.clerk.plate())
        self.bridge.put(7000)
        self.bridge.weigh("colleague-2", "first", "AA-BB-102")
        self.clerk.sees("AA-BB-102 is weighed")
        self.clerk.keys(ESCAPE + "NEXT-1")
        self.bridge.put(0)
        time.sleep(1)
        what = "a plate that was typed while a weighed vehicle drives off stays"
        self.same(what, "NEXT-1", self.clerk.plate())
        self.bridge.put(8000)
        self.clerk.sees("Ready.", what="for the next vehicle")
        self.clerk.keys(ENTER)
        self.becomes("which is weighed under it", [("first", "NEXT-1")], lambda: self.added()[2:])
