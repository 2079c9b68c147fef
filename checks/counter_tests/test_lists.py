"""Lists, texts again, keys, who may ask, kept tares, and a journal that becomes full."""

import datetime
import os
import subprocess
import time
import zoneinfo
from typing import Any

from checks.lib.case import PROGRAM
from checks.lib.counter import Meanwhile
from checks.lib.counter_case import AtTheCounter, CounterCheck
from checks.lib.journal import change

from checks import TOP


class Lists(AtTheCounter):
    """Requests that pass through the counter, and its lists."""

    needs = (PROGRAM, "aiohttp", "prometheus_client")
    pace = 20
    seconds = 60

    def hits(self, plate: str) -> list[Any]:
        """Return the entries of a plate that the search finds."""
        hits = self.bridge.json("GET", f"/search?q={plate}")["hits"]
        return [it for it in hits if it["plate"] == plate]

    def test_one_text(self) -> None:
        """Show that a 201 passes byte for byte, and that one key has one entry over all resendings."""
        bridge = self.bridge
        bridge.next_vehicle(9170)
        form = ("text-1", "first", "HERE")
        status, text = bridge.weigh(*form)
        self.same("a First passes", 201, status)
        what = "sent again it is the office's text, byte for byte"
        self.same(what, (201, text), bridge.weigh(*form, port=bridge.office))
        self.same("and once more through the counter", (201, text), bridge.weigh(*form))
        self.same("and it is stored once", ["text-1"], [it[1] for it in bridge.entries()])
        body = "kind=first&more=%41+b&plate=%48ERE&key=text-1"
        found = bridge.ask("POST", "/weighings", body=body)[:2]
        self.same("a form passes as it was written", (201, text), found)

        def passes(what: str, method: str, target: str, form: Any = None) -> None:
            of_office = bridge.ask(method, target, form, bridge.office)[:2]
            self.same(f"{what} passes", of_office, bridge.ask(method, target, form)[:2])

        for target, fields in (
            ("/weighings", {"key": "x", "kind": "fourth", "plate": "A"}),
            ("/weighings", {"key": "x", "kind": "first", "plate": "a b"}),
            ("/voids", {"key": "x", "plate": "NONE"}),
        ):
            passes(f"a refusal of {fields}", "POST", target, fields)
        tickets = ["/tickets/1", "/tickets/x", "/tickets/4294967296", "/tickets/%C3%A9"]
        for target in ["/indication", *tickets]:
            passes(target, "GET", target)
        row = bridge.entries()[0]
        alike = ["text-2", "text", "TEXT-1", *(row[it] for it in (0, 2, 3, 5, 7, 8, 9))]
        alike += [row[10][:32], "0" * 32, "key"]
        keys = {it: bridge.json("GET", f"/keys/{it}")["found"] for it in ("text-1", *alike)}
        what = "a key is found of an entry that has it, and by no other text of the export"
        self.same(what, {"text-1": True} | dict.fromkeys(alike, False), keys)

    def test_clients_through_it(self) -> None:
        """clients/weigh.py and weigh.sh weigh through the counter as at the office."""
        bridge = self.bridge
        for name, plate in (("weigh.py", "PY-1"), ("weigh.sh", "SH-1")):
            bridge.next_vehicle(9170)
            it = subprocess.run(
                [TOP / "clients" / name, "first", plate, f"client-{plate}"],
                env={**os.environ, "WEIGHBRIDGE": f"http://127.0.0.1:{bridge.http}"},
                capture_output=True,
                text=True,
                timeout=60,
            )
            text = bridge.weigh(f"client-{plate}", "first", plate, port=bridge.office)[1]
            self.same(f"{name} through the counter", (0, text), (it.returncode, it.stdout))

    def test_what_did_not_pass(self) -> None:
        """Show that the counter misses and finds an entry that another client made at the office itself, and makes its slip again."""
        bridge = self.bridge
        slip = bridge.weigh_next(9170, "past-1", "first", "PAST", port=bridge.office)[1]
        text = bridge.weigh_next(9170, "past-2", "first", "NEXT")[1]
        self.same("an entry between is missed", False, bridge.state()["lists_whole"])
        bridge.put(0)
        what = "once the bridge was empty for some seconds it is on the lists"
        found = self.comes(what, lambda: self.hits("PAST"))
        number = found[0]["number"]
        what = "its slip again is made of the export, letter for letter"
        self.same(what, {"text": slip, "from": "export"}, bridge.json("GET", f"/entries/{number}"))
        passed = {"text": text, "from": "passed"}
        after = bridge.json("GET", f"/entries/{number + 1}")
        self.same("that of the next is the one that passed", passed, after)
        ticket = bridge.weigh_next(4070, "past-3", "second", "PAST", port=bridge.office)[1]
        self.same("its Second, made at the office, isn't known yet", 1, len(self.hits("PAST")))
        bridge.next_vehicle(4070)
        what = "weighed out again it is refused by the office"
        self.same(what, (409, "refused 13 no_open\n"), bridge.weigh("past-4", "second", "PAST"))
        bridge.put(0)
        self.becomes("and the lists are read again", 2, lambda: len(self.hits("PAST")))
        newest = self.hits("PAST")[0]
        again = bridge.json("GET", f"/entries/{newest['number']}")
        self.same("a ticket again is the office's", {"text": ticket, "from": "office"}, again)
        self.same("its net", 10200, newest["net"])
        status = bridge.ask("GET", "/entries/4000000000")[0]
        self.same("there is none of a number that nobody has", 404, status)

    def test_a_changed_row(self) -> None:
        """Show that the counter gives no slip of a row that another hand changed."""
        bridge = self.bridge
        bridge.weigh_next(9170, "change-1", "first", "CHANGED")
        bridge.put(0)
        bridge.kill_counter()
        bridge.kill_service()
        heavier = "UPDATE journal SET gross_kg = gross_kg + 20 WHERE plate = 'CHANGED'"
        change(f"{bridge.folder}/journal.db", heavier)
        bridge.start_service()
        bridge.start_counter()
        found = self.comes("the lists are there after a start", lambda: self.hits("CHANGED"))
        told = bridge.ask("GET", f"/entries/{found[0]['number']}")[:2]
        self.same("a changed row gives no slip", (409, '{"why": "refused 17 damaged"}'), told)

    def test_who_may_ask(self) -> None:
        bridge = self.bridge
        rows: list[tuple[dict[str, Any], int]] = [
            ({}, 200),
            ({"Sec_Fetch_Site": "same-origin"}, 200),
            ({"Sec_Fetch_Site": "cross-site"}, 403),
            ({"Sec_Fetch_Site": "same-site"}, 403),
            ({"Origin": "https://elsewhere.example"}, 403),
            ({"Origin": f"http://127.0.0.1:{bridge.http}"}, 200),
            ({"Host": "elsewhere.example"}, 421),
            ({"Host": f"localhost:{bridge.http}"}, 200),
            ({"Host": ""}, 421),
        ]
        for fields, status in rows:
            self.same(f"asked with {fields}", status, bridge.ask("GET", "/time", **fields)[0])
        weighing = bridge.ask("POST", "/weighings", {"key": "x"}, Sec_Fetch_Site="cross-site")
        self.same("a weighing from elsewhere", 403, weighing[0])
        wrong = [bridge.ask("GET", "/none"), bridge.ask("GET", "/zero")]
        wrong.append(bridge.ask("POST", "/weighings", body="x" * 3000))
        what = "what is no route, a wrong method, too long a body"
        self.same(what, [404, 405, 413], [it[0] for it in wrong])
        above = ("/web/../openapi.json", "/web/lang/../../openapi.json")
        found = [bridge.ask("GET", it)[0] for it in above]
        self.same("no file of the folder above", [404, 404], found)
        policy = bridge.ask("GET", "/")[2]["content-security-policy"]
        is_so = "default-src 'none'" in policy and "unsafe" not in policy and "http" not in policy
        what = "the page's content policy allows nothing from elsewhere and nothing within the page"
        self.holds(what, is_so, policy)

    def kept(self) -> Any:
        """Return the tares that a new page gets."""
        return self.bridge.event("tares")

    def test_kept_tares(self) -> None:
        bridge = self.bridge
        answer = bridge.ask("PUT", "/tares/AB-12", body='{"kg": 5000}', X_Remote_User="anna")
        self.same("a tare is kept", (200, "{}"), answer[:2])
        for target, body in (
            ("/tares/ab", '{"kg": 5000}'),
            ("/tares/AB-12", '{"kg": 0}'),
            ("/tares/AB-12", '{"kg": 9}'),
            ("/tares/AB-12", '{"kg": "5"}'),
            ("/tares/AB-12", "5"),
            ("/tares/AB-12", ""),
        ):
            status = bridge.ask("PUT", target, body=body)[0]
            self.same(f"what is none is refused: {target} {body}", 422, status)
        bridge.restart_counter()
        shown = {"kg": 5000, "by": "anna", "is_over": False, "used": None, "empty": None}
        found = self.kept()["AB-12"]
        what = "it is there after a start, with the clerk who kept it"
        self.same(what, shown, {name: found[name] for name in shown})
        status = bridge.weigh_next(9170, "tare-used", "single", "AB-12", 5000)[0]
        self.same("it is weighed with", 201, status)
        today = datetime.datetime.now(zoneinfo.ZoneInfo("Europe/Berlin")).date().isoformat()
        self.becomes("it has the day of its last use", today, lambda: self.kept()["AB-12"]["used"])
        bridge.weigh_next(9170, "tare-first", "first", "AB-12")
        bridge.next_vehicle(2520)
        told = Meanwhile(bridge.events, 3.0)
        time.sleep(0.5)
        bridge.weigh("tare-second", "second", "AB-12")
        tares = [it for name, it in told.get() if name == "tare"]
        what = "a pair changes its last empty weight, and the pages get only this tare"
        self.same(what, [("AB-12", 5040)], [(it["plate"], it["tare"]["empty"]) for it in tares])
        for plate, empty in (("AB-12", 5040), ("NEW-1", None)):
            about: Any = {"plate": plate, "empty": empty, "given": {}}
            what = f"whoever asks for the plate gets it too: {plate}"
            self.same(what, about, bridge.json("GET", f"/plates/{plate}"))
        bridge.restart_counter()
        found = self.kept()["AB-12"]
        what = "the day is there after a start too, and the weight"
        self.same(what, (today, 5040), (found["used"], found["empty"]))
        dropped = bridge.ask("DELETE", "/tares/AB-12")[:2]
        self.same("and gone once it is dropped", (200, "{}"), dropped)
        self.same("for each page", {}, self.kept())


class FullJournal(CounterCheck):
    """The counter says how long the journal has room, and when no vehicle can be weighed in."""

    needs = (PROGRAM, "aiohttp", "prometheus_client")
    seconds = 30

    def test_room(self) -> None:
        bridge = self.new_bridge(20, capacity=8).start_counter()

        def room() -> Any:
            return bridge.state()["room"]

        empty = {"places": 8, "days": None, "is_low": False, "is_full": False}
        self.becomes("an empty journal has all its places", empty, room)
        faults = {"room", "full"} & {*bridge.health()["faults"]}
        self.same("and no fault of it", set(), faults)
        for number in range(3):
            status = bridge.weigh_next(9170, f"room-{number}", "first", f"IN-{number}")[0]
            self.same("a First is stored", 201, status)
        low = {"places": 2, "days": 0, "is_low": True, "is_full": False}
        self.becomes("three vehicles on site take six places", low, room)
        health = bridge.health()
        found = ("room" in health["faults"], "full" in health["faults"], health["can_weigh"])
        what = "the room is a fault, but a vehicle can still be weighed in"
        self.same(what, (True, False, True), found)
        bridge.weigh_next(9170, "room-3", "first", "IN-3")
        full = {"places": 0, "days": 0, "is_low": True, "is_full": True}
        self.becomes("the fourth takes the last ones", full, room)
        health = bridge.health()
        what = "a full journal can't weigh"
        self.same(what, (True, False), ("full" in health["faults"], health["can_weigh"]))
        bridge.next_vehicle(9170)
        what = "as the office says"
        self.same(what, (409, "refused 14 journal_full\n"), bridge.weigh("room-4", "first", "IN-4"))
        for name in ("journal_free_places", "journal_room_days"):
            self.same(f"{name} is 0", 0, bridge.metric(name))
        status = bridge.weigh("room-5", "second", "IN-0")[0]
        self.same("one that is weighed out is stored", 201, status)
        self.becomes("weighing out takes no more", 0, lambda: room()["places"])
