"""A vehicle that is weighed once: its slip says so, it isn't on site, and the counter withdraws it when its plate comes again, or on another day."""

import datetime
import json
import time
from pathlib import Path

from checks.lib.case import PROGRAM
from checks.lib.clerk import ENTER
from checks.lib.counter_case import AtThePage

TODAY = "return [...document.querySelectorAll('#today .more')].map(it => it.textContent.split(' · ')[1])"


class Once(AtThePage):
    """A counter that offers it."""

    needs = (PROGRAM, "aiohttp", "prometheus_client", "chromium", "chromedriver")
    settings = "once = true\n"
    seconds = 40

    def weigh_once(self, plate: str) -> None:
        """Weigh the vehicle on the bridge by the button for vehicles that are weighed once."""
        self.clerk.is_ready_for(plate)
        self.clerk.press("#others button", "Weigh once")
        self.same("the button says what it does", f"Weigh once · {plate}", self.clerk.button())
        self.clerk.sees("Ready.")
        self.clerk.sees_after(ENTER, "Slip")
        said = f"{plate} is weighed once, and may drive off."
        self.same("and so does the answer", said, self.clerk.more())

    def today(self) -> object:
        """Return what each row of today's list says that it is."""
        return self.clerk.run(TODAY)

    def test_one_that_comes_again(self) -> None:
        bridge, clerk = self.bridge, self.clerk
        bridge.next_vehicle(9170)
        self.weigh_once("ON-CE-1")
        self.same("it isn't on site", "", clerk.text("#site-count"))
        self.becomes("today's list says what it is", ["weighed once 1"], self.today)
        blocks = bridge.json("POST", "/papers/1/browser")["blocks"]
        at = [it["is"] for it in blocks].index("legal")
        words = "Weighed once. No second weighing follows."
        times = sum(it.get("text") == words for it in blocks[:at])
        is_legal = "once" in blocks[at]["text"].lower()
        self.same("its slip says so outside of the legal text", (1, False), (times, is_legal))
        self.same("nothing stands on site for it", [], clerk.contents("#site .plate"))
        bridge.next_vehicle(9000)
        clerk.is_ready_for("ON-CE-1")
        self.same("when it comes again, it is weighed in", "Weigh in · ON-CE-1", clerk.button())
        clerk.sees_after(ENTER, "Slip 3")
        entries = [(kind, "ON-CE-1") for kind in ("first", "void", "first")]
        self.same("and the first visit is withdrawn before", entries, bridge.weighings())
        self.holds("by a key of its own", bridge.entries()[1][1].startswith("once-"))
        rows = ["First weighing 3", "closed, because it was weighed once 2", "weighed once 1"]
        self.becomes("the list says that too", rows, self.today)
        self.same("nothing is struck out but the withdrawal", 1, clerk.count("#today li.void"))

    def test_one_of_another_day(self) -> None:
        bridge = self.bridge
        bridge.next_vehicle(8000)
        self.weigh_once("ZW-EI-7")
        bridge.put(0)
        bridge.kill_counter()
        path = Path(bridge.folder, "state/once.json")
        notes = json.loads(path.read_text(encoding="utf-8"))
        self.same("it is noted on the disk", ["ZW-EI-7"], [it["plate"] for it in notes.values()])
        for it in notes.values():
            it["day"] = str(datetime.date.fromisoformat(it["day"]) - datetime.timedelta(1))
        path.write_text(json.dumps(notes), encoding="utf-8")
        bridge.start_counter()
        withdrawn = [("first", "ZW-EI-7"), ("void", "ZW-EI-7")]
        what = "after midnight the counter withdraws it, even after a new start"
        self.becomes(what, withdrawn, bridge.weighings, 40)
        time.sleep(6)
        self.same("and only once", withdrawn, bridge.weighings())


class NotOffered(AtThePage):
    """A counter whose setup doesn't have it."""

    needs = (PROGRAM, "aiohttp", "prometheus_client", "chromium", "chromedriver")

    def test_only_if_it_is_set_up(self) -> None:
        self.bridge.next_vehicle(9170)
        self.clerk.is_ready_for("ON-CE-3")
        what = "without the setup the page doesn't offer it"
        self.holds(what, "Weigh once" not in self.clerk.others())
        form = {"key": "once-1", "kind": "first", "plate": "ON-CE-3", "once": "1"}
        told = self.bridge.ask("POST", "/weighings", form)[:2]
        self.same("and the counter refuses it", (422, "counter bad_once\n"), told)
