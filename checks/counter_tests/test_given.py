"""Goods, order and driver: the ticket has what the clerk gave at the first weighing, the search finds it, and it can change until it is printed."""

import json

from checks.lib.case import PROGRAM
from checks.lib.clerk import ENTER, ESCAPE, F4
from checks.lib.counter_case import AtThePage

ROW = "return [...document.querySelectorAll(`${arguments[0]} .more`)].map(it => it.textContent.split(' · ').slice(2).join(' · '))"
CHANGING = "return [...document.querySelectorAll('#changing[open] input')].map(it => it.value)"
IS_OPEN = "return document.getElementById(arguments[0]).open"
REMOVE_GOODS = "const it = document.getElementById('goods'); it.value = ''; it.dispatchEvent(new Event('input', { bubbles: true }))"
ON_PAPER = "On the printout: Kies 0/32"


class Given(AtThePage):
    """Lines that the clerk or a till gives for the printout."""

    needs = (PROGRAM, "aiohttp", "prometheus_client", "chromium", "chromedriver")
    seconds = 60

    def rows(self, where: str) -> list[str]:
        """Return what was given of each row of a list."""
        found: list[str] = self.clerk.run(ROW, where)
        return found

    def done(self) -> None:
        """Press Done in the window of the free lines."""
        self.clerk.keys(ENTER)
        self.becomes("the window closes", False, lambda: self.clerk.run(IS_OPEN, "giving"))

    def paper_of(self, number: int) -> list[tuple[str, str]]:
        """Return name and value of each free line on an entry's paper in the browser. That prints its original."""
        blocks = self.bridge.json("POST", f"/papers/{number}/browser")["blocks"]
        at = [it["is"] for it in blocks].index("legal")
        return [
            (it["name"], it["value"])
            for it in blocks[:at]
            if it["is"] == "pair" and it["name"] in ("Goods", "Order", "Driver")
        ]

    def weigh(self, words: str) -> None:
        self.clerk.sees("Ready.")
        self.clerk.sees_after(ENTER, words)

    def test_from_the_first_weighing_until_it_is_printed(self) -> None:
        self.from_the_first_to_the_second()
        self.as_last_time()
        self.until_it_is_printed()

    def from_the_first_to_the_second(self) -> None:
        bridge, clerk = self.bridge, self.clerk
        bridge.next_vehicle(9170)
        clerk.is_ready_for("GI-VE-1")
        clerk.press("#others button", "Goods, order, driver")
        self.becomes("the dialog is there", "goods", clerk.focus)
        clerk.keys("Kies 0/32")
        self.done()
        self.comes("the form shows what was given", lambda: ON_PAPER in clerk.others())
        self.weigh("Slip 1")
        self.becomes("so does the row of the vehicle", ["Kies 0/32"], lambda: self.rows("#site"))
        bridge.restart_counter()
        self.becomes("even after a new start", ["Kies 0/32"], lambda: self.rows("#site"))
        bridge.next_vehicle(4000)
        clerk.is_ready_for("GI-VE-1")
        self.comes("at the second weighing the form shows it", lambda: ON_PAPER in clerk.others())
        clerk.sees_after(ENTER, "Ticket 2")
        self.same("and the ticket's paper has it", [("Goods", "Kies 0/32")], self.paper_of(2))

    def as_last_time(self) -> None:
        clerk = self.clerk
        self.bridge.next_vehicle(9170)
        clerk.is_ready_for("GI-VE-1")
        what = "the last goods of a plate are offered"
        self.comes(what, lambda: "As last time: Kies 0/32" in clerk.others())
        self.same("and not taken", "Goods, order, driver…", clerk.others()[-1])
        clerk.press("#others button", "As last time")
        self.same("one press takes them", ON_PAPER, clerk.others()[-1])
        clerk.sees_after(ENTER, "Slip 3")
        self.becomes("they are with the weighing", ["Kies 0/32"], lambda: self.rows("#site"))

    def until_it_is_printed(self) -> None:
        clerk = self.clerk
        clerk.keys(F4 + "kies")
        self.becomes("the search finds goods", 3, lambda: len(self.rows("#hits")))
        clerk.keys(ESCAPE)
        clerk.run("document.querySelector('#site .menu').click()")
        self.becomes("a row's menu has them", True, lambda: clerk.run(IS_OPEN, "entry"))
        clerk.press("#entry-tools button", "Goods, order, driver")
        self.same("as they are", ["Kies 0/32", "", ""], clerk.run(CHANGING))
        clerk.run("document.querySelectorAll('#changing input')[1].value = '4711'")
        clerk.press("#changing button", "Save")
        clerk.sees("Saved for the printout.")
        what = "a line is added on each page"
        self.becomes(what, ["Kies 0/32, 4711"], lambda: self.rows("#site"))
        status, text, _ = self.bridge.ask("PUT", "/entries/2/given", body='{"goods": "Erde"}')
        what = "a printed ticket's lines are refused"
        self.same(what, (409, {"why": "printed"}), (status, json.loads(text)))
        self.same("and stay", [("Goods", "Kies 0/32")], self.paper_of(2))
        what = "without an entry there is nothing to change"
        self.same(what, 404, self.bridge.ask("PUT", "/entries/99/given", body="{}")[0])

    def test_one_that_is_removed(self) -> None:
        bridge, clerk = self.bridge, self.clerk
        bridge.next_vehicle(9170)
        form = {"key": "till-1", "kind": "first", "plate": "TI-LL-3"}
        given = {"goods": "Sand", "driver": "Ada"}
        status = bridge.ask("POST", "/weighings", form | given)[0]
        self.same("a till gives goods and a driver", 201, status)
        bridge.next_vehicle(4000)
        clerk.is_ready_for("TI-LL-3")
        clerk.press("#others button", "On the printout: Sand, Ada")
        self.becomes("the dialog has both", "goods", clerk.focus)
        self.same("as they were given", "Sand", clerk.value("#goods"))
        clerk.run(REMOVE_GOODS)
        self.done()
        what = "a line that the clerk removes is gone"
        self.comes(what, lambda: "On the printout: Ada" in clerk.others())
        self.weigh("Ticket 2")
        self.same("from the ticket too", [("Driver", "Ada")], self.paper_of(2))
