"""The clerk's page in a real browser: a day's work by keyboard only, and what is cut or killed within a press."""

import glob
import os
import subprocess
import time

from checks.lib.case import PROGRAM
from checks.lib.clerk import ENTER, ESCAPE, F1, F4, F8, F9, SPACE, TAB, at_of
from checks.lib.counter import NO_TARE, held
from checks.lib.counter_case import AtThePage

NOT_KEPT = "async (target, how) => target.includes('/tares/') ? new Response('{}', { status: 503 }) : realFetch(target, how)"
NO_SEARCH = "async (target, how) => { if (target.includes('/search')) throw new TypeError('cut'); return realFetch(target, how); }"
CUT = "async (target, how) => { if (target.endsWith('/weighings')) throw new TypeError('cut'); return realFetch(target, how); }"
# Each request goes wrong as the next step of a plan says.
PLANNED = """async (target, how, plan) => {
  if (!/[/](weighings|voids)$/.test(target)) return realFetch(target, how);
  window.sent.push(how.body.get('key'));
  const step = plan.shift();
  if (step === 'cut') { await realFetch(target, how); throw new TypeError('cut'); }
  if (step === 'lost') throw new TypeError('lost');
  if (step === 'page') return new Response('<html>', { status: 502 });
  if (step === 'store') return new Response('refused 15 store\\n', { status: 503 });
  if (step === 'not_sent') return new Response('counter busy\\n', { status: 503, headers: { 'X-Counter': 'not_sent' } });
  return realFetch(target, how);
}"""
PLANS = (["cut"], ["lost", "lost"], ["page"], ["store"], ["lost", "not_sent"], ["cut", "not_sent"])
OLD_REQUEST = "localStorage.setItem('weighbridge.request', JSON.stringify({ target: '/weighings', form: { key: 'page-old', kind: 'first', plate: 'OLD-1' }, made: Date.now() - 60000 }))"


class Page(AtThePage):
    """A clerk at the page, and what goes wrong."""

    needs = (PROGRAM, "aiohttp", "prometheus_client", "chromium", "chromedriver")
    seconds = 200

    def tab_to_the_tare(self) -> None:
        self.clerk.tab_to("Tare from papers", 7)
        self.clerk.keys(ENTER)

    def test_a_day_by_keyboard(self) -> None:
        self.a_pair()
        self.a_tare()
        self.a_tare_that_is_not_kept()
        self.search_and_withdraw()

    def a_pair(self) -> None:
        bridge, clerk = self.bridge, self.clerk
        self.same("the page has the bar about zero", True, "zero" in clerk.alarms())
        clerk.sees_after(F9, "Zero is set.")
        self.becomes("and the bar is gone", "", clerk.alarms)
        bridge.put(9170)
        self.becomes("the weight is shown", 18340, clerk.kg)
        clerk.sees("Type the plate.")
        clerk.keys("hb kw_77")
        self.same("small letters and blanks become those of a plate", "HB-KW-77", clerk.plate())
        clerk.sees("Ready.")
        clerk.sees_after(ENTER, "Slip 1: 18,340 kg")
        what = "the plate is free, and has the focus"
        self.same(what, ("", "plate"), (clerk.plate(), clerk.focus()))
        clerk.keys(F8 + F8)
        key = bridge.entries()[0][1]
        text = bridge.weigh(key, "first", "HB-KW-77", port=bridge.office)[1]
        self.becomes("it prints twice", 2, lambda: len(clerk.papers()))
        what = "on paper stands the text letter for letter, once as the original and then as a copy"
        self.same(what, [["", text], ["COPY", text]], clerk.papers())
        what = "then it says to let it drive off"
        self.comes(what, lambda: "Slip 1" in clerk.words() or "drive off" in clerk.words())
        bridge.next_vehicle(4070)
        clerk.sees("Type the plate.")
        clerk.sees_after("HBKW87", "HB-KW-77 is on site. Is it this one?")
        clerk.keys(ENTER + ENTER)
        found = (clerk.focus(), clerk.plate(), len(bridge.entries()))
        self.same("Enter does nothing, and weighs nothing in", ("plate", "HBKW87", 1), found)
        clerk.keys(F1)
        self.same("its key takes the one on site", "HB-KW-77", clerk.plate())
        clerk.sees("Ready.")
        self.same("the net to come", "Net will be 10,200 kg", clerk.text("#go-more"))
        clerk.sees_after(ENTER, "Ticket 2: net 10,200 kg")
        counts = (clerk.text("#site-count"), clerk.text("#today-count"))
        self.same("the lists have it", ("", "2"), counts)
        bridge.put(0)
        clerk.sees("The bridge is empty", what="and then: the bridge is empty")

    def a_tare(self) -> None:
        bridge, clerk = self.bridge, self.clerk
        bridge.put(9170)
        clerk.is_ready_for("OL-T-1")
        clerk.keys(TAB)
        self.tab_to_the_tare()
        self.same("the dialog asks for the tare", "tare-kg", clerk.focus())
        clerk.sees_after("5000" + TAB + SPACE + ENTER, "Ready.")
        self.becomes("the focus returns", "plate", clerk.focus)
        wanted = "Weigh with tare 5,000 kg · OL-T-1"
        self.same("the button says so", wanted, clerk.button())
        clerk.sees_after(ENTER, "Ticket 3: net 13,340 kg")
        self.same("no tare is left", NO_TARE, bridge.tare())
        bridge.next_vehicle(9170)
        clerk.keys("OL-T-1")
        self.becomes("it was kept, and is used the next time", wanted, clerk.button)
        clerk.keys(ESCAPE)
        self.same("Escape clears the plate", "", clerk.plate())
        bridge.terminal_says("till", "TA 3000 kg")
        clerk.sees("A tare of 3,000 kg is set.")
        shown = (clerk.text("#kind"), clerk.kg(), clerk.text("#parts"))
        net = ("NET", 15340, "Tare 3,000 kg, gross 18,340 kg")
        self.same("NET is next to the weight", net, shown)
        clerk.tab_to("Clear the tare", 24)
        clerk.sees_after(ENTER, "Type the plate.", what="the tare is cleared by a key")
        self.becomes("and the focus returns", "plate", clerk.focus)

    def a_tare_that_is_not_kept(self) -> None:
        clerk = self.clerk
        self.bridge.next_vehicle(9170)
        clerk.is_ready_for("LOST-T")
        clerk.intercept(NOT_KEPT)
        clerk.keys(TAB)
        self.tab_to_the_tare()
        clerk.keys("5000" + TAB + SPACE + ENTER)
        clerk.sees("The tare is not kept.", what="a ticked tare that the counter refused is named")
        clerk.sees("Ready.", what="and it is used once")
        self.same("by the button", "Weigh with tare 5,000 kg · LOST-T", clerk.button())
        clerk.intercept_nothing()
        clerk.keys(ESCAPE)

    def search_and_withdraw(self) -> None:
        clerk = self.clerk
        self.bridge.next_vehicle(9170)
        clerk.weigh("WRONG-1", "Slip 4")
        clerk.keys(F4 + "wrong")
        self.comes("the search finds it", lambda: "WRONG-1" in clerk.content("#hits"))
        clerk.keys(TAB + ENTER)
        self.comes("its slip is there", lambda: "FIRST NO 4" in clerk.content("#entry-text"))
        clerk.tab_to("Withdraw this weighing", 6)
        clerk.keys(ENTER)
        self.same("it asks once more", "Press again: withdraw WRONG-1", clerk.focus())
        time.sleep(0.8)
        clerk.sees_after(ENTER, "Withdrawn: WRONG-1, slip 4")
        self.becomes("the focus returns", "plate", clerk.focus)
        clerk.keys(F4 + ESCAPE)
        self.same("and from a dialog that is closed", "plate", clerk.focus())
        clerk.intercept(NO_SEARCH)
        clerk.keys(F4 + "wrong")
        what = "a search without an answer says so"
        self.comes(what, lambda: "The search got no answer." in clerk.content("#hits"))
        clerk.intercept_nothing()
        clerk.keys(ESCAPE + F4)
        self.comes("opened again, it searches again", lambda: "WRONG-1" in clerk.content("#hits"))
        clerk.keys(ESCAPE)

    def test_which_program_weighs(self) -> None:
        """Show that the serial opens what an inspector asks for: program, kit, sources, setup, and the newest entry with its digest."""
        self.bridge.next_vehicle(9170)
        self.clerk.weigh("NEW-1", "Slip 1")
        newest = self.bridge.entries()[-1]

        def facts() -> str:
            return str(self.clerk.run("return document.getElementById('facts').innerText"))

        self.clerk.browser.click("#serial")
        self.comes("the version is there", lambda: "weighbridge " in facts())
        words = [self.bridge.program, "--version"]
        said = subprocess.run(words, capture_output=True, text=True).stdout.splitlines()
        left = [line for line in said if line not in facts().splitlines()]
        self.same("all three lines of it", (3, []), (len(said), left))
        setup = f"--terminal 127.0.0.1:{self.bridge.terminal}"
        found = (setup in facts(), newest[0] in facts().splitlines(), newest[10] in facts())
        self.same("the setup, and the newest entry with its digest", (True, True, True), found)
        self.clerk.keys(ESCAPE)
        self.becomes("and the focus returns", "plate", self.clerk.focus)

    def test_another_language(self) -> None:
        """Show that the page offers each language that has a file, and that the clerk's choice stays."""
        names = "return [...document.getElementById('language').options].map(it => it.text)"
        what = "the languages are offered by their names"
        self.same(what, ["Deutsch", "English", "Español", "Français"], self.clerk.run(names))
        self.clerk.speak("fr")
        self.clerk.sees("Le pont est vide.")
        self.clerk.browser.go(self.clerk.at)
        self.clerk.sees("Le pont est vide.", what="and it stays over a load")
        self.clerk.load()
        self.clerk.sees("The bridge is empty.")

    def test_refusals(self) -> None:
        bridge, clerk = self.bridge, self.clerk
        bridge.next_vehicle(9170)
        clerk.is_ready_for("REF-1")
        bridge.weigh("ref-past", "first", "REF-1", port=bridge.office)
        clerk.sees_after(ENTER, "The bridge was not empty since the last weighing.")
        words = "Nothing was stored. (refused 11 not_cleared)"
        self.same("the office's name is below", words, clerk.more())
        self.same("and the request is over", None, clerk.kept())
        clerk.keys(ESCAPE)
        bridge.put(0)
        what = "what didn't pass is on the page's list"
        self.comes(what, lambda: "REF-1" in clerk.content("#site"))

    def test_no_request_twice(self) -> None:
        """Show that the page sends a request again under its key, whatever is cut between the press and the answer, and that it is stored once."""
        bridge, clerk = self.bridge, self.clerk
        for letter, plan in zip("ABCDEF", PLANS):
            bridge.next_vehicle(9170)
            self.note_entries()
            clerk.run("window.sent = []")
            clerk.intercept(PLANNED, plan)
            clerk.is_ready_for("CUT-" + letter * 4, f"ready, and then {plan}")
            clerk.keys(ENTER)
            clerk.sees("No answer yet.", 4, f"{plan}: the clerk sees that no answer came")
            clerk.sees("Slip", 12, f"{plan}: and then the slip")
            sent = clerk.run("return window.sent")
            what = f"{plan}: sent as often as was cut and once more, under one key, stored once"
            self.same(what, (len(plan) + 1, 1, 1), (len(sent), len(set(sent)), len(self.added())))
        bridge.next_vehicle(9170)
        clerk.run("window.sent = []")
        clerk.intercept(PLANNED, ["not_sent"])
        clerk.is_ready_for("BUSY-1")
        what = "what was never sent, and nothing before it, ends the request"
        clerk.sees_after(ENTER, "Not sent: another weighing is under way.", what=what)
        self.same("and it isn't kept", None, clerk.kept())

    def test_kept_over_a_load(self) -> None:
        bridge, clerk = self.bridge, self.clerk
        bridge.next_vehicle(9170)
        clerk.is_ready_for("KEPT-1")
        clerk.intercept(CUT)
        clerk.sees_after(ENTER, "No answer yet.")
        clerk.load()
        clerk.sees("Slip", what="a page that is loaded again sends what it kept")
        self.same("and it is stored once", [("first", "KEPT-1")], self.added())
        bridge.next_vehicle(9170)
        clerk.run(OLD_REQUEST)
        clerk.load()
        what = "one of long ago isn't sent automatically"
        clerk.sees("No answer came to: First weighing, OLD-1", what=what)
        self.same("nothing was stored of it", False, bridge.has_key("page-old"))
        clerk.browser.click("#choices button:last-child")
        clerk.sees("It was not stored.", what="looked up, it wasn't stored")
        self.same("and nothing is kept", None, clerk.kept())
        clerk.run("Storage.prototype.setItem = () => { throw new Error('none'); }")
        bridge.next_vehicle(9170)
        clerk.is_ready_for("NONE-1")
        clerk.sees_after(ENTER, "This browser keeps nothing, so nothing was sent.")
        self.same("nothing was sent", False, ("first", "NONE-1") in self.added())

    def test_killed_within_a_press(self) -> None:
        bridge, clerk = self.bridge, self.clerk
        for what in ("counter", "service", "hold"):
            bridge.next_vehicle(9170)
            plate = f"{what.upper()}-1"
            clerk.is_ready_for(plate)
            clerk.keys(ENTER)
            if what == "counter":
                bridge.kill_counter()
                time.sleep(1)
                bridge.start_counter()
            elif what == "service":
                bridge.kill_service()
                time.sleep(1)
                bridge.start_service()
            else:
                with held(bridge.service.process):
                    time.sleep(2.5)
            self.becomes(f"{what}: the press comes to its end", None, clerk.kept, 40)
            stored = self.added().count(("first", plate))
            said = clerk.words()
            is_so = (stored == 1) == ("Slip" in said) or "drive" in said
            read = f"{what}: what the clerk read is what is stored"
            self.holds(read, is_so, f"{stored} stored, {said}")
            clerk.keys(ESCAPE)
            if what == "service":
                back = "service: the bar about zero is back"
                self.comes(back, lambda: "Its zero may be lost" in clerk.alarms())
                bridge.put(0)
                clerk.keys(F9)
                self.becomes("service: and gone once zero is set", "", clerk.alarms)

    def test_bars_of_the_files_and_the_journal(self) -> None:
        """Show two bars of the page.

        One says on each page, until a clerk closes it, that another journal is in use. The other says that the counter can't write its files.
        """
        bridge, clerk = self.bridge, self.clerk
        other = self.new_clerk(at_of(bridge.http))
        bridge.put(9170)
        status = bridge.weigh("bars-1", "first", "OLD-1")[0]
        self.same("a vehicle is weighed in", 201, status)
        bridge.put(0)
        self.becomes("it is on site", "1", lambda: clerk.text("#site-count"))
        bridge.kill_service()
        for it in glob.glob(f"{bridge.folder}/journal.db*"):
            os.unlink(it)
        bridge.start_service()
        bridge.wait_until_up()
        words = "The journal has no entry; it ended at number 1."
        what = "after a new file a bar says so on each page"
        self.comes(what, lambda: words in clerk.alarms() and words in other.alarms(), 30)
        found = ("call the operator" in clerk.alarms(), clerk.text("#site-count"))
        self.same("with what to do, and no vehicle on site", (True, ""), found)
        clerk.press("#alarms button", "I have read this")
        what = "a press closes it on each page"
        self.comes(what, lambda: words not in clerk.alarms() + other.alarms())
        os.rename(f"{bridge.folder}/state", f"{bridge.folder}/away")
        bridge.ask("POST", "/zero")
        words = "The counter can't write its files."
        what = "a bar says that the counter can't write its files"
        self.comes(what, lambda: words in clerk.alarms())
        os.rename(f"{bridge.folder}/away", f"{bridge.folder}/state")
        self.comes("until it can", lambda: words not in clerk.alarms())
