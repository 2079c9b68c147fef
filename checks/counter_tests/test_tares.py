"""Kept tares at the page: it doubts a mistyped tare, asks about other hyphens, lists and deletes each tare, and shows each as the scale rounds it."""

import random
import time

from checks.lib.case import PROGRAM
from checks.lib.clerk import ENTER, ESCAPE, F1, F2, F3, F6, F7, F10, TEN
from checks.lib.counter_case import AtThePage

KEPT = "return [...document.querySelectorAll('#keeping[open] li')].map(it => [it.querySelector('b')?.textContent, it.querySelector('p')?.textContent, it.querySelector('button')?.textContent])"
ROUNDED = "const [kgs, interval, done] = arguments; import('/web/guide.js').then(it => done(kgs.map(kg => it.roundedTare(kg, interval))))"
DELETE = "document.querySelector('#kept button').click()"
# Presses the weigh button at the moment at which it changes.
FINGER = """const words = document.getElementById('go-words'), go = document.getElementById('go');
window.wasPressed = null;
new MutationObserver((_, it) => {
  if (!words.textContent.startsWith('Weigh with tare')) return;
  it.disconnect();
  window.wasPressed = !go.disabled;
  go.click();
}).observe(words, { childList: true, characterData: true, subtree: true });"""
NOT_DELETED = "async (target, how) => how.method === 'DELETE' ? new Response('', { status: 503 }) : realFetch(target, how)"


class Tares(AtThePage):
    """A clerk with tares that anna kept."""

    needs = (PROGRAM, "aiohttp", "prometheus_client", "chromium", "chromedriver")
    seconds = 90

    def hammered(self, what: str, keys: str, plate: str) -> None:
        """Show that nothing comes of keys that are hammered."""
        self.nothing_comes_of(what, lambda: self.clerk.browser.hammer(keys, 0.08), plate)

    def test_a_mistyped_tare(self) -> None:
        what = "1451 is kept in place of 14510"
        self.same(what, 200, self.bridge.keep_tare("TY-PO-1", 1451, "anna"))
        self.bridge.next_vehicle(9170)
        what = "a tare below a fifth is doubted"
        self.clerk.sees_after("TY-PO-1", "The tare is only 1,460 kg. Is it right?", what=what)
        self.same("with a key of its own", ["The tare is right F3"], self.clerk.answers())
        self.hammered("a doubted tare, and other keys", TEN + F1 + F2 + F6 + F7 + F10, "TY-PO-1")
        self.hammered("the answer, and Enter at once", F3 + ENTER, "TY-PO-1")
        self.clerk.sees("Ready.", what="the answer is taken")
        what = "the button has the rounded tare"
        self.same(what, "Weigh with tare 1,460 kg · TY-PO-1", self.clerk.button())
        self.same("and the net to come", "Net will be 16,880 kg", self.clerk.text("#go-more"))
        self.clerk.sees_after(ENTER, "net 16,880 kg", what="which is the net of the ticket")
        self.same("its preset tare too", "1460", self.bridge.entries()[-1][6])

    def test_an_unlike_tare(self) -> None:
        for key, kind, load in (("pair-1", "first", 9170), ("pair-2", "second", 7230)):
            self.same(f"a pair: {kind}", 201, self.bridge.weigh_next(load, key, kind, "UN-LI-2")[0])
        self.bridge.keep_tare("UN-LI-2", 10000, "anna")
        self.bridge.next_vehicle(9170)
        what = "a tare far from the last empty weight is doubted"
        self.clerk.sees_after(ESCAPE + "UN-LI-2", "The tare is 10,000 kg. Is it right?", what=what)
        self.holds("which the page shows", "14,460 kg" in self.clerk.more(), self.clerk.more())
        self.bridge.keep_tare("UN-LI-2", 14400, "anna")
        self.clerk.sees("Ready.", what="one that is near isn't")
        self.clerk.is_ready_for("AL-SO-3")
        self.clerk.press("#others button", "Tare from")
        self.becomes("the dialog is there", "tare-kg", self.clerk.focus)
        self.clerk.keys("3000" + ENTER)
        self.clerk.sees("The tare is only 3,000 kg.", what="a tare that was typed is doubted too")
        self.clerk.is_ready_for("UN-LI-2")
        self.clerk.press("#others button", "Tare from")
        what = "the dialog has the last empty weight"
        self.comes(what, lambda: "14,460 kg" in self.clerk.text("#tare-empty"))
        self.clerk.keys("9" + ENTER)
        self.clerk.sees("This isn't a valid tare.", what="a tare that rounds to nothing is refused")
        self.clerk.keys(ESCAPE)

    def test_other_hyphens(self) -> None:
        self.other_hyphens()
        self.a_key_answers_one_question()

    def other_hyphens(self) -> None:
        self.bridge.keep_tare("SUEW-AB-12E", 5000, "anna")
        self.bridge.next_vehicle(9170)
        self.clerk.keys(ESCAPE + "SUEWAB12E")
        what = "it asks about other hyphens"
        self.clerk.sees("SUEW-AB-12E has a kept tare of 5,000 kg. Is it this vehicle?", what=what)
        what = "both have a key"
        self.same(what, ["SUEW-AB-12E F2", "No, another vehicle F6"], self.clerk.answers())
        self.hammered("other hyphens, and Enter", TEN, "SUEWAB12E")
        self.hammered("the kept one, hammered", 5 * F2 + ENTER, "SUEW-AB-12E")
        self.clerk.sees("Ready.")
        what = "it is weighed with its tare"
        self.same(what, "Weigh with tare 5,000 kg · SUEW-AB-12E", self.clerk.button())
        self.clerk.sees_after(ESCAPE + "SUEWAB12E", "SUEW-AB-12E has a kept tare")
        self.hammered("another vehicle, hammered", 5 * F6 + ENTER, "SUEWAB12E")
        self.clerk.sees("Ready.")
        what = "it is weighed in under what was typed"
        self.same(what, "Weigh in · SUEWAB12E", self.clerk.button())
        self.clerk.keys(ESCAPE)

    def a_key_answers_one_question(self) -> None:
        self.bridge.weigh_next(9170, "key-1", "first", "SUE-WAB-12E")
        self.bridge.next_vehicle(8000)
        self.clerk.sees_after(ESCAPE + "SUEWAB12E", "SUE-WAB-12E is on site. Is it this one?")
        self.hammered("a key that two questions have, hammered", 8 * F6, "SUEWAB12E")
        self.clerk.sees("SUEW-AB-12E has a kept tare", what="it answers only the first question")
        time.sleep(1)
        self.clerk.sees_after(F6, "Ready.", what="and the next one once it is pressed again")
        self.clerk.keys(ESCAPE)

    def test_a_tare_kept_under_the_finger(self) -> None:
        """Keep a tare for the plate, as a colleague, at the moment at which the clerk presses."""
        self.bridge.next_vehicle(9170)
        self.clerk.is_ready_for("FI-NG-5")
        self.same("it is weighed in", "Weigh in · FI-NG-5", self.clerk.button())
        self.clerk.run(FINGER)
        before = self.bridge.entries()
        self.bridge.keep_tare("FI-NG-5", 5000, "anna")
        what = "the button changes"
        self.comes(what, lambda: self.clerk.run("return window.wasPressed") is not None)
        time.sleep(0.5)
        found = (self.clerk.run("return window.wasPressed"), self.bridge.entries()[len(before) :])
        what = "and a press that was meant for the other weighing does nothing"
        self.same(what, (False, []), found)
        self.clerk.sees("Ready.", what="it is ready once the clerk could see that")
        self.bridge.ask("DELETE", "/tares/FI-NG-5")
        self.clerk.keys(ESCAPE)

    def test_the_list(self) -> None:
        for plate, kg in (("SUEW-AB-12E", 5000), ("TY-PO-1", 1451), ("UN-LI-2", 14400)):
            self.bridge.keep_tare(plate, kg, "anna")
        self.bridge.weigh_next(9170, "list-1", "single", "TY-PO-1", 1451)
        self.clerk.browser.click("#tares")
        found = self.comes("the kept tares are listed", lambda: self.clerk.run(KEPT))
        rounded = ["SUEW-AB-12E · 5,000 kg", "TY-PO-1 · 1,460 kg", "UN-LI-2 · 14,400 kg"]
        self.same("by plate, as the scale rounds them", rounded, [it[0] for it in found])
        what = "with the clerk and the last day"
        self.holds(what, "by anna" in found[1][1] and "until" in found[1][1], found[1])
        what = "used, or not yet"
        self.same(what, [False, True, False], ["last used on" in it[1] for it in found])
        self.clerk.keys("po1")
        what = "a part of the plate finds it"
        self.becomes(what, ["TY-PO-1 · 1,460 kg"], lambda: [it[0] for it in self.clerk.run(KEPT)])
        self.clerk.browser.click("#kept button")
        what = "Delete asks once more"
        self.same(what, "Press again: delete the tare of TY-PO-1", self.clerk.text("#kept button"))
        self.clerk.keys(ESCAPE)
        time.sleep(0.8)
        self.clerk.browser.click("#tares")
        self.clerk.keys("po1")
        self.becomes("it is found again", 1, lambda: len(self.clerk.run(KEPT)))
        self.clerk.browser.click("#kept button")
        what = "a list that was closed asks once more again"
        self.same(what, "Press again: delete the tare of TY-PO-1", self.clerk.text("#kept button"))
        self.clerk.run(DELETE)
        time.sleep(0.3)
        self.same("a double click deletes nothing", 1, len(self.clerk.run(KEPT)))
        time.sleep(0.8)
        self.clerk.intercept(NOT_DELETED)
        self.clerk.run(DELETE)
        what = "if the tare can't be deleted, the list says so"
        self.comes(what, lambda: "The tare was not deleted." in self.clerk.text("#kept"))
        self.clerk.intercept_nothing()
        self.clerk.run(DELETE)
        time.sleep(0.8)
        self.clerk.run(DELETE)
        what = "a second press deletes it"
        self.becomes(what, "No tare is kept.", lambda: self.clerk.text("#kept"))
        self.clerk.keys(ESCAPE)
        self.bridge.next_vehicle(9170)
        self.clerk.is_ready_for("TY-PO-1")
        self.same("and it is weighed in again", "Weigh in · TY-PO-1", self.clerk.button())
        self.clerk.keys(ESCAPE)

    def test_as_the_scale_rounds(self) -> None:
        chance = random.Random(1)
        kgs = [*range(5, 36), 49, 50, 51, 999, 1451, 59989]
        kgs += [chance.randrange(1000, 59000) for _ in range(20)]
        shown = self.clerk.run_later(ROUNDED, kgs, 20)
        replies = [self.bridge.replies("till", f"TA {kg} kg", "TAC")[0] or "" for kg in kgs]
        taken = [int(it.split()[2]) if it.startswith("TA A") else 0 for it in replies]
        self.same("the page rounds each tare as the scale does", taken, shown)
