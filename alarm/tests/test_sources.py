"""Shows which faults each source has, even if it is damaged or hostile."""

import ast
import json
import os
import re
import unittest
from datetime import datetime, timedelta, timezone
from typing import Any

from tests.played import BEGIN, ROOMY, TOP, AlarmCase, copied_at
from weighbridge_alarm.asking import Answer
from weighbridge_alarm.catalogue import CATALOGUE, words_of
from weighbridge_alarm.copies import faults_of_night
from weighbridge_alarm.faults import Fault, fault, plain
from weighbridge_alarm.health import OF_COUNTER, faults_of_health, faults_of_office
from weighbridge_alarm.looking import look
from weighbridge_alarm.machine import (
    Space,
    failed_units,
    faults_of_certificate,
    faults_of_clock,
    faults_of_disk,
    faults_of_units,
    is_read_only,
)
from weighbridge_alarm.state import State

OWN = {
    "weighing",
    "counter",
    "store",
    "unit",
    "night_check",
    "night_step",
    "copy_old",
    "disk_low",
    "disk_read_only",
    "disk_unseen",
    "clock",
    "certificate",
    "receiver",
    "alarm",
}


def names(found: list[Fault]) -> list[str]:
    return [it.key for it in found]


def health(faults: Any, **more: Any) -> list[str]:
    body = {"can_weigh": True, "faults": faults, **more}
    return names(faults_of_health(Answer(200, json.dumps(body).encode())))


class CatalogueTest(unittest.TestCase):
    def test_it_has_the_names_of_the_counter(self) -> None:
        path = os.path.join(TOP, "counter", "weighbridge_counter", "health.py")
        with open(path, encoding="utf-8") as file:
            tree = ast.parse(file.read())
        [found] = [
            it.value
            for it in ast.walk(tree)
            if isinstance(it, ast.Assign)
            and isinstance(it.targets[0], ast.Name)
            and it.targets[0].id == "found"
        ]
        assert isinstance(found, ast.Dict)
        theirs = {it.value for it in found.keys if isinstance(it, ast.Constant)}
        self.assertEqual(theirs, {*CATALOGUE} - OWN)
        [stops] = [
            it.value
            for it in ast.walk(tree)
            if isinstance(it, ast.Assign)
            and isinstance(it.targets[0], ast.Name)
            and it.targets[0].id == "STOPS_WEIGHING"
        ]
        self.assertEqual(OF_COUNTER, theirs - {"terminal", "weight", "office"})
        self.assertEqual(ast.literal_eval(stops), {it for it in theirs if words_of(str(it)).stops})

    def test_its_pages_are_there(self) -> None:
        for name, it in CATALOGUE.items():
            page, _, anchor = it.page.partition("#")
            with open(os.path.join(TOP, "docs", page), encoding="utf-8") as file:
                heads = re.findall(r"^#+ (.*)$", file.read(), re.MULTILINE)
            anchors = {re.sub(r"[^\w -]", "", one.lower()).replace(" ", "-") for one in heads}
            self.assertIn(anchor, anchors, name)

    def test_its_words_fit_an_sms(self) -> None:
        for name, it in CATALOGUE.items():
            self.assertLessEqual(len(it.short) + len(it.act), 90, name)
            self.assertTrue((it.short + it.act + it.what + it.todo).isascii(), name)
            self.assertTrue(it.what.endswith(".") and it.todo.endswith("."), name)

    def test_what_covers_another_is_a_name(self) -> None:
        for it in CATALOGUE.values():
            self.assertTrue({*it.covers} <= {*CATALOGUE})


class HealthTest(unittest.TestCase):
    def test_the_names_of_the_counter(self) -> None:
        self.assertEqual(health([]), [])
        self.assertEqual(health(["zero", "papers"]), ["zero", "papers"])
        self.assertEqual(health(["weight"], can_weigh=False), ["weight"])
        self.assertEqual(health(["office"], can_weigh=False, state={"office": "store"}), ["store"])
        self.assertEqual(
            health(["office"], can_weigh=False, state={"office": "no_answer"}), ["office"]
        )

    def test_a_bridge_that_cannot_weigh_for_an_unknown_reason(self) -> None:
        self.assertEqual(health([], can_weigh=False), ["weighing"])
        self.assertEqual(health(["dust"], can_weigh=False), ["dust dust", "weighing"])
        self.assertEqual(health(["zero"], can_weigh="yes"), ["zero", "weighing"])

    def test_a_name_that_is_not_in_the_catalogue(self) -> None:
        self.assertEqual(health(["zero", "dust", "dust"]), ["zero", "dust dust"])

    def test_what_is_no_health(self) -> None:
        bodies: list[bytes] = [b"", b"{", b"[]", b'{"faults": 1}', b"\xff", b"[" * 100_000, b"null"]
        for body in bodies:
            self.assertEqual(names(faults_of_health(Answer(200, body))), ["counter"], body[:9])
        good = b'{"faults": [], "can_weigh": true}'
        for status in (204, 301, 400, 421, 502):
            self.assertEqual(names(faults_of_health(Answer(status, good))), ["counter"])
        self.assertEqual(names(faults_of_health(Answer(200, good, is_whole=False))), ["counter"])

    def test_hostile_names_and_details(self) -> None:
        found = health([1, None, {"a": 1}, "x" * 9999, "a\r\nBcc: b@c", *map(str, range(99))])
        self.assertTrue(all(len(it) < 260 and it.isprintable() for it in found))
        self.assertLessEqual(len(found), 40)
        self.assertEqual(health(["files"], files={"/a\n": "x" * 10**5}), ["files"])
        self.assertEqual(health(["terminal"], state=[1]), ["terminal"])
        self.assertEqual(health(["office"], state="store"), ["office"])

    def test_a_text_is_one_line(self) -> None:
        self.assertEqual(plain("a\r\n\x1b[31mb\u2028c\u202e d", 99), "a [31mb c d")
        self.assertEqual(plain("x" * 10**7, 10), "xxxxxxxx..")


class OfficeTest(unittest.TestCase):
    def test_its_answers(self) -> None:
        stable = b"STABLE G          0 kg N          0 kg\n"
        for first, second, wanted in (
            (Answer(200, stable), Answer(404, b""), []),
            (Answer(200, stable), Answer(200, b""), []),
            (Answer(200, b"NO LOAD\n"), Answer(200, b""), ["weight"]),
            (Answer(200, b"OVERLOAD\n"), Answer(200, b""), []),
            (Answer(200, stable), Answer(503, b""), ["store"]),
            (Answer(503, b""), Answer(200, b""), ["store"]),
            (Answer(404, b""), Answer(404, b""), ["terminal"]),
        ):
            self.assertEqual(names(faults_of_office(first, second)), wanted)


class NightTest(unittest.TestCase):
    def of(self, night: Any, age: float = 0.0) -> list[str]:
        text = night if isinstance(night, str) or night is None else json.dumps(night)
        return names(faults_of_night(text, BEGIN, BEGIN - timedelta(days=age)))

    def test_a_night_that_went_well(self) -> None:
        self.assertEqual(self.of(copied_at(BEGIN - timedelta(hours=47)), 99), [])
        self.assertEqual(self.of(copied_at(BEGIN - timedelta(hours=49)), 99), ["copy_old"])

    def test_no_night_at_all(self) -> None:
        self.assertEqual(self.of(None, 1.9), [])
        self.assertEqual(self.of(None, 2.1), ["copy_old"])

    def test_a_copy_of_the_future_is_none(self) -> None:
        self.assertEqual(self.of(copied_at(BEGIN + timedelta(days=900)), 3), ["copy_old"])

    def test_a_fresh_copy_but_no_night_since(self) -> None:
        night = json.loads(copied_at(BEGIN - timedelta(hours=5)))
        night["ended"] = "2026-11-20T02:00:00Z"
        self.assertEqual(self.of(night, 99), ["copy_old"])

    def test_failing_steps(self) -> None:
        night = json.loads(copied_at(BEGIN))
        night["failing"] = {"check": "x", "verify": "x", "store disk X": "x", "purge": "x"}
        night["steps"] = [{"step": "store disk X", "state": "failed", "words": "plug in\nthe disk"}]
        found = faults_of_night(json.dumps(night), BEGIN, BEGIN)
        self.assertEqual(
            names(found),
            [
                "night_check check",
                "night_step purge",
                "night_step store disk X",
                "night_check verify",
            ],
        )
        self.assertEqual(found[2].detail, "plug in the disk")

    def test_a_damaged_or_foreign_file(self) -> None:
        texts: list[Any] = ["", "{", "[]", "[" * 100_000, "null", '{"failing": 3, "steps": 4}']
        texts += [{"places": {"a": 1, "b": {"newest_sound": "x"}}, "steps": [1, {"step": []}]}]
        texts += [{"places": {"b": {"newest_sound": "9999-99-99T999999Z_sound_1_1"}}, "ended": 5}]
        for it in texts:
            self.assertEqual(self.of(it, 3), ["copy_old"], it[:20] if isinstance(it, str) else it)
        many = {"failing": {f"s{it}": "x" for it in range(9999)}}
        self.assertLess(len(self.of(many)), 30)


class MachineTest(unittest.TestCase):
    def test_units(self) -> None:
        shown = "Id=weighbridge.service\nActiveState=failed\n\nId=weighbridge-night.service\nActiveState=failed\n\nId=x.service\nActiveState=failed\n\nrubbish"
        self.assertEqual(failed_units(shown), ["weighbridge", "weighbridge-night"])
        self.assertEqual(
            names(faults_of_units(shown, [])), ["unit weighbridge", "unit weighbridge-night"]
        )
        self.assertEqual(names(faults_of_units(shown, [fault("night_step")])), ["unit weighbridge"])
        self.assertEqual(failed_units(""), [])

    def test_disks(self) -> None:
        def of(space: Space | str) -> list[str]:
            return names(faults_of_disk("/d", space, 10**9))

        self.assertEqual(of(ROOMY), [])
        self.assertEqual(of(Space(10**9 - 1, 10**6, 10**7, False)), ["disk_low /d"])
        self.assertEqual(of(Space(10**10, 10, 10**7, False)), ["disk_low /d"])
        self.assertEqual(of(Space(10**10, 0, 0, False)), [])  # btrfs counts no files
        self.assertEqual(of(Space(10**10, 10**6, 10**7, True)), ["disk_read_only /d"])
        self.assertEqual(of("No such file"), ["disk_unseen /d"])

    def test_mounts(self) -> None:
        line = "36 35 8:1 / /var ro,noatime shared:1 - ext4 /dev/sda1 {},errors=remount-ro\n"
        self.assertFalse(is_read_only(line.format("rw"), "8:1"))
        self.assertTrue(is_read_only(line.format("ro"), "8:1"))
        self.assertFalse(is_read_only(line.format("ro"), "8:2"))

    def test_the_clock(self) -> None:
        old = BEGIN - timedelta(days=1)
        self.assertEqual(names(faults_of_clock(BEGIN, old, True)), [])
        self.assertEqual(names(faults_of_clock(BEGIN, old, None)), [])
        self.assertEqual(names(faults_of_clock(BEGIN, old, False)), ["clock"])
        self.assertEqual(names(faults_of_clock(old, BEGIN, True)), ["clock"])

    def test_certificates(self) -> None:
        def of(end: datetime | str) -> list[Fault]:
            return faults_of_certificate("a:443", end, BEGIN)

        self.assertEqual(of(BEGIN + timedelta(days=22)), [])
        self.assertIn("ends on 20 December", of(BEGIN + timedelta(days=20))[0].detail)
        self.assertIn("ended on", of(BEGIN - timedelta(days=1))[0].detail)
        self.assertEqual(names(of("no such host")), ["certificate a:443"])


class LookTest(AlarmCase):
    def found(self) -> list[str]:
        state = State(BEGIN - timedelta(days=9))
        return names(look(self.setup, self.world, state, self.world.tick()).faults)

    def test_without_an_answer_of_the_counter_the_office_is_asked(self) -> None:
        self.world.faults = None
        self.assertEqual(self.found(), ["counter"])
        self.world.indication = b"NO LOAD\n"
        self.assertEqual(self.found(), ["counter", "weight"])
        self.world.indication = None
        self.assertEqual(self.found(), ["counter", "terminal"])

    def test_without_a_counter(self) -> None:
        self.more = {"counter": ""}
        self.world.faults = None
        self.assertEqual(self.found(), [])
        self.world.ticket_status = 503
        self.assertEqual(self.found(), ["store"])

    def test_what_the_setup_does_not_want(self) -> None:
        self.world.is_copied, self.world.is_set = False, False
        self.assertEqual(self.found(), ["copy_old", "clock"])
        self.more = {"night": False, "network_time": False}
        self.assertEqual(self.found(), [])

    def test_a_source_that_fails_stops_no_other(self) -> None:
        def fails() -> str:
            raise RuntimeError("odd")

        self.world.faults, self.world.failed = ["zero"], ["weighbridge"]
        setattr(self.world, "units", fails)
        self.world.spaces = {"/var/lib/weighbridge": "gone"}
        self.assertEqual(self.found(), ["zero", "alarm units", "disk_unseen /var/lib/weighbridge"])

    def test_what_cannot_be_asked_is_not_over(self) -> None:
        self.world.faults = ["papers", "dust", "weight"]
        self.world.failed = ["weighbridge-night"]
        self.look(5)
        self.forget()
        self.world.faults = None
        setattr(self.world, "units", lambda: "")
        self.look(60)
        self.assertEqual(
            [it for it in self.events() if not it.endswith("lasts")],
            ["counter began", "weight ended"],
        )
        self.forget()
        self.world.faults = []
        self.look(5)
        ended = [it for it in self.events() if it.endswith("ended")]
        self.assertEqual(sorted(ended), ["counter ended", "dust ended", "papers ended"])

    def test_the_service_keeps_its_name_without_the_counter(self) -> None:
        self.world.faults, self.world.indication = ["terminal", "weight", "office"], None
        self.look(5)
        self.world.faults = None
        self.look(5)
        self.assertEqual(self.events().count("terminal began"), 1)
        self.assertNotIn("terminal ended", self.events())

    def test_a_night_that_runs_hides_no_copies(self) -> None:
        self.look(1)
        self.later(10 * 86400)
        self.world.is_copied = False
        began = f"{self.world.now:%Y-%m-%dT%H:%M:%SZ}"
        self.world.last = json.dumps({"began": began, "ended": None, "places": {}, "failing": {}})
        self.look(60)
        self.assertEqual(self.events(), [])
        self.look(8 * 60)
        self.assertEqual(self.events(), ["copy_old began"])

    def test_a_file_of_the_night_that_is_gone_ends_nothing(self) -> None:
        night = json.loads(copied_at(BEGIN))
        night["failing"] = {"check": "x"}
        self.world.is_copied, self.world.last = False, json.dumps(night)
        self.look(5)
        self.world.last = None
        self.look(30)
        self.assertEqual(self.events(), ["night_check began"])

    def test_certificates_of_the_setup(self) -> None:
        self.more = {"certificates": ("/c.pem",)}
        self.world.ends = {"/c.pem": datetime(2026, 12, 1, tzinfo=timezone.utc)}
        self.assertEqual(self.found(), ["certificate /c.pem"])


if __name__ == "__main__":
    unittest.main()
