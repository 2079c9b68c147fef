"""The rows of the page's lists: each has a menu, keeps its buttons while others come, and costs little with 300 vehicles on site."""

import time

from checks.lib.case import PROGRAM
from checks.lib.clerk import ESCAPE, TAB
from checks.lib.counter_case import AtThePage

DOWN, RIGHT, LEFT, END = "\ue015", "\ue014", "\ue012", "\ue010"
ON_SITE = 300
MOST_MILLISECONDS = 10  # of the page's thread for an entry
FOCUS = "const it = document.activeElement; return [it.closest('ul')?.id, it.closest('li')?.querySelector('.plate').textContent, it.className]"
DIALOG = "return document.querySelector('#entry[open]') && [...document.querySelectorAll('#entry h2, #entry #entry-sub, #entry button')].map(it => it.textContent)"
# Gives the page a list of vehicles on site, and then 21 entries. Returns for how long an entry holds up the page's thread, in milliseconds: the
# shortest, because other work on the machine only adds to it.
ENTRY = "{ number: 90000 + at, kind: 'first', plate: `COST-${at}`, at: new Date().toISOString(), gross: 18340, tare: null, net: null, first: null, given: {}, once: false }"
SITE = "Array.from({ length: count }, (_, at) => entry(count - at))"
LISTS = (
    f"const entry = at => ({ENTRY});"
    f"feed.hear('lists', {{ on_site: {SITE}, today: known.today, weighed_near: [] }});"
)
ENTRIES = """
  for (let at = 1; at <= 21; at++) {
    const text = JSON.stringify({ entry: entry(count + at), on_site: [entry(count + at), ...known.onSite], weighed_near: known.weighedNear });
    await new Promise(requestAnimationFrame);
    const from = performance.now();
    feed.hear('entry', JSON.parse(text));
    document.getElementById('site').getBoundingClientRect();
    took.push(performance.now() - from);
  }
"""
COST = (
    "const [count, done] = arguments, took = [];"
    f"import('/web/known.js').then(async ({{ feed, known }}) => {{ {LISTS} {ENTRIES}"
    " done(Math.min(...took)); });"
)


FILL = (
    "const [count, done] = arguments;"
    f"import('/web/known.js').then(({{ feed, known }}) => {{ {LISTS} done(); }});"
)


class Rows(AtThePage):
    """A clerk who uses the rows, by mouse and keyboard."""

    needs = (PROGRAM, "aiohttp", "prometheus_client", "chromium", "chromedriver")
    seconds = 70

    def test_a_menu_withdraws(self) -> None:
        self.bridge.next_vehicle(9170)
        self.clerk.weigh("AA-WR-1", "Slip 1")
        self.becomes("it is on site", 1, lambda: self.clerk.count("#site .menu"))
        self.clerk.run("document.querySelector('#site .menu').click()")
        what = "the menu of a row on site opens its text"
        found = self.comes(what, lambda: self.clerk.run(DIALOG))
        self.same("with its title", "Slip 1 · AA-WR-1", found[0])
        buttons = ["Print again", "Goods, order, driver…", "Withdraw this weighing", "Close"]
        self.same("print, goods, withdraw and close", buttons, found[2:])
        self.clerk.run("document.querySelector('#entry .danger').click()")
        time.sleep(0.8)
        self.clerk.run("document.querySelector('#entry .danger').click()")
        what = "the page names the First that is withdrawn"
        self.clerk.sees("Withdrawn: AA-WR-1, slip 1", what=what)
        self.same("and the slip that says so", "Slip 2 says so.", self.clerk.more()[:15])
        self.clerk.load()
        what = "the vehicle on the bridge isn't called weighed"
        self.clerk.sees("AA-WR-1, Slip 1, is withdrawn.", what=what)
        self.clerk.sees_after("BB-RI-2", "AA-WR-1, Slip 1, is withdrawn.")
        self.same("nobody is on site", "", self.clerk.text("#site-count"))
        what = "the withdrawal's row names the First"
        self.comes(what, lambda: "Withdrawal 2 · of slip 1" in self.clerk.text("#today"))
        self.clerk.keys(ESCAPE)
        for at, says in ((1, "withdrawn by slip 2"), (0, "of slip 1")):
            self.clerk.run(f"document.querySelectorAll('#today .menu')[{at}].click()")
            what = "the menu of a row of today opens its text"
            found = self.comes(what, lambda: self.clerk.run(DIALOG))
            self.holds(f"which says {says}", says in found[1], found[1])
            self.holds("and offers no withdrawal", "Withdraw this weighing" not in found, found)
            self.clerk.keys(ESCAPE)
            self.becomes("it is closed", None, lambda: self.clerk.run(DIALOG))

    def test_keys_presses_and_the_day(self) -> None:
        self.arrow_keys()
        self.a_press_that_lasts()
        self.a_ticket_of_each_way()
        self.the_day()
        self.letters_after_a_reprint()

    def arrow_keys(self) -> None:
        for at, plate in enumerate(("AR-ON-11", "BR-TW-22", "CR-TH-33")):
            self.bridge.weigh_next(9000 + at, f"arrow-{at}", "first", plate)
        self.becomes("three are on site", "3", lambda: self.clerk.text("#site-count"))
        self.clerk.run("document.querySelector('#tares').focus()")
        self.clerk.keys(TAB)
        what = "Tab goes to the first row on site"
        self.same(what, ["site", "CR-TH-33", "main"], self.clerk.run(FOCUS))
        for key, name, wanted in (
            (DOWN, "down", ["site", "BR-TW-22", "main"]),
            (RIGHT, "right", ["site", "BR-TW-22", "menu"]),
            (DOWN, "down in the menus", ["site", "AR-ON-11", "menu"]),
            (DOWN, "down at the last row", ["site", "AR-ON-11", "menu"]),
            (LEFT, "left", ["site", "AR-ON-11", "main"]),
            (END, "End", ["site", "AR-ON-11", "main"]),
        ):
            self.clerk.keys(key)
            self.same(f"the arrow keys: {name}", wanted, self.clerk.run(FOCUS))
        self.bridge.weigh_next(9500, "arrow-4", "first", "DR-FO-44")
        self.becomes("a fourth comes", "4", lambda: self.clerk.text("#site-count"))
        self.same("and the focus stays", ["site", "AR-ON-11", "main"], self.clerk.run(FOCUS))
        self.clerk.keys(TAB)
        self.same("Tab leaves the list", "print-today", self.clerk.focus())
        self.clerk.keys(ESCAPE)

    def a_press_that_lasts(self) -> None:
        """Begin a press on a row, let another entry come, and end the press there."""
        self.clerk.run("document.querySelector('#site').scrollTop = 0")
        at = self.clerk.browser.middle_of("#site li:nth-child(2) .main")
        plate = self.clerk.content("#site li:nth-child(2) .plate")
        self.clerk.run("window.pressed = document.querySelectorAll('#site .main')[1]")
        self.clerk.browser.mouse("mousePressed", *at)
        self.bridge.weigh_next(9600, "press-1", "second", "AR-ON-11")
        what = "an entry comes while the button is down"
        self.becomes(what, "3", lambda: self.clerk.text("#site-count"))
        row = "return [window.pressed.isConnected, window.pressed.querySelector('.plate').textContent]"
        self.same("the row is the same part of the page", [True, plate], self.clerk.run(row))
        place = "const it = window.pressed.getBoundingClientRect(); return [it.x + 20, it.y + 10]"
        self.clerk.browser.mouse("mouseReleased", *self.clerk.run(place))
        self.becomes("and the press acts", plate, self.clerk.plate)
        self.clerk.keys(ESCAPE)

    def a_ticket_of_each_way(self) -> None:
        for kind, plate, load, tare in (
            ("second", "BR-TW-22", 4000, None),
            ("single", "TA-RE-55", 9170, 5000),
        ):
            status = self.bridge.weigh_next(load, f"way-{kind}", kind, plate, tare)[0]
            self.same(f"a {kind} of {plate}", 201, status)

    def the_day(self) -> None:
        """Compare the page's sums with those of the journal, and the list on paper and as CSV."""
        rows = [it for it in self.bridge.entries() if it[2] != "void"]
        nets = {"in": 0, "out": 0}
        open_first = {}
        for it in rows:
            gross = int(it[5])
            if it[2] == "first":
                open_first[it[3]] = gross
            elif it[2] == "second":
                change = gross - open_first.pop(it[3])
                nets["in" if change < 0 else "out"] += abs(change)
        wanted = (
            f"3 tickets · in {nets['in']:,} kg · out {nets['out']:,} kg · with a tare 13,340 kg"
        )
        what = "in, out and what was weighed with a tare are summed apart"
        self.becomes(what, wanted, lambda: self.clerk.text("#today-sum"))
        status, table, fields = self.bridge.ask("GET", "/today.csv")
        what, numbers = "the day as CSV", [it[0] for it in self.bridge.entries()]
        self.same(what, (200, True), (status, fields["content-type"].startswith("text/csv")))
        of_table = [it.split(",")[0] for it in table.split("\r\n")[1:-1]]
        self.same("has all of its entries", numbers, of_table)
        self.clerk.browser.click("#print-today")
        self.comes("the list prints", lambda: len(self.clerk.papers()) > 0)
        lines = self.clerk.run(
            "return [...document.querySelectorAll('#paper tbody tr')].map(it => [...it.children].map(cell => cell.textContent))"
        )
        self.same("with a line for each entry", numbers, [it[0] for it in lines])
        self.same("its way too", {"in", "out", ""}, {it[7] for it in lines})
        what = "and says what it is"
        self.holds(what, "The slips and tickets count." in self.clerk.content("#paper"))

    def letters_after_a_reprint(self) -> None:
        """Print again by the mouse, from a row and by the button. The letters that follow are the next plate."""
        for what in ("from a row", "by the button"):
            self.clerk.keys(ESCAPE)
            before = len(self.clerk.papers())
            if what == "from a row":
                self.clerk.browser.click("#today .menu")
                self.comes("the dialog is there", lambda: self.clerk.run(DIALOG))
                self.clerk.press("#entry-tools button", "Print again")
            else:
                self.clerk.run("document.getElementById('last').click()")
            self.comes(f"a reprint {what}", lambda: len(self.clerk.papers()) > before)
            self.clerk.keys("HB-KW-77")
            next_plate = f"after a reprint {what} letters are the next plate"
            self.same(next_plate, "HB-KW-77", self.clerk.plate())
        self.clerk.keys(ESCAPE)


class ManyOnSite(AtThePage):
    """The cost of many vehicles on site for the page. It measures time, so nothing else runs then."""

    needs = (PROGRAM, "aiohttp", "prometheus_client", "chromium", "chromedriver")
    alone = True
    seconds = 30

    def drawn(self) -> int:
        """Return how many rows of vehicles on site are drawn."""
        return self.clerk.count("#site .main")

    def test_what_an_entry_costs(self) -> None:
        clerk = self.clerk
        took = clerk.run_later(COST, ON_SITE)
        print(f"an entry costs the page's thread {took:.1f} ms", flush=True)
        what = f"with {ON_SITE} on site an entry costs the page's thread less than {MOST_MILLISECONDS} ms"
        self.holds(what, took < MOST_MILLISECONDS, f"{took:.1f} ms")
        self.same("200 rows are drawn at first", 200, self.drawn())
        words = f"{ON_SITE + 21 - 200} more: scroll down"
        said = clerk.text("#site li:last-child")
        self.same("and the list says how many more there are", words, said)
        clerk.run("const it = document.getElementById('site'); it.scrollTop = it.scrollHeight")
        self.becomes("all are drawn once one scrolls", ON_SITE + 21, self.drawn)
        clerk.load()
        self.bridge.put(0)
        clerk.sees("The bridge is empty")
        where = f" with {ON_SITE} on site"
        self.press_to_ticket(5, 300, lambda: clerk.run_later(FILL, ON_SITE), where)
