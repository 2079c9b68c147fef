"""The demo: its pace, its bridge and its day, on a played clock; the counter's setting, and what papers say of a demo."""

import contextlib
import io
import random
import re
import socket
import tempfile
import unittest
import zoneinfo
from collections.abc import AsyncIterator, Callable
from pathlib import Path
from types import SimpleNamespace
from typing import Any

from aiohttp import web
from aiohttp.test_utils import make_mocked_request
from weighbridge_counter.__main__ import main as counter_main
from weighbridge_counter.answers import as_text
from weighbridge_counter.routes import Routes
from weighbridge_counter.setup import Setup, read_setup, warning_of
from weighbridge_demo.bridge import (
    CALM,
    DRIVES_OFF,
    DRIVES_ON,
    EMPTY,
    LEFT_OUT,
    MISTYPED,
    QUICK,
    STANDS,
    SWAYS,
    UNWEIGHED,
    WEIGHED,
    Bridge,
    Stay,
    Times,
)
from weighbridge_demo.cell import EMPTY as EMPTY_COUNTS
from weighbridge_demo.cell import COUNTS_PER_KG, INTERVAL, MAX, NOISE, counts_of, lines_of_point
from weighbridge_demo.day import FIRST, SECOND, SINGLE, Visit, some_visit, visits_of_the_day
from weighbridge_demo.demo import PORT_IS_TAKEN
from weighbridge_demo.hearing import events_of
from weighbridge_demo.pace import MOST_LATE, PERIOD, Pace
from weighbridge_demo.player import Player
from weighbridge_paper.escpos import Roll
from weighbridge_paper.forms import FORMS
from weighbridge_paper.layout import Block, Legal, Line, Mark, Paper, Template, blocks_of
from weighbridge_paper.page import page_of
from weighbridge_paper.pdf import marks_of
from weighbridge_paper.reader import SetupFault
from weighbridge_paper.text import Text, read_text
from weighbridge_paper.words import LANGUAGES

from .papers import Sample


def free() -> int:
    """Return a port on which nobody listens now."""
    with socket.create_server(("127.0.0.1", 0)) as it:
        return int(it.getsockname()[1])


WEB = Path(__file__).resolve().parent.parent / "web"
COUNTS_PER_TENTH = COUNTS_PER_KG * INTERVAL / 10


class PaceOfLines(unittest.TestCase):
    def test_a_late_line_delays_no_later_one(self) -> None:
        """Wake up late by another time for each line. After a minute ten lines a second were sent all the same."""
        choose, now, sent = random.Random(1), 0, 0
        pace = Pace(0)
        while now < 600 * PERIOD:
            sent += len(pace.due(now))
            now += round(pace.wait(now) * 1e9) + choose.randrange(PERIOD // 2)
        sent += len(pace.due(now))
        self.assertEqual((now // PERIOD + 1, 0), (sent, pace.dropped))

    def test_lines_are_due_at_multiples_of_the_period(self) -> None:
        pace = Pace(5)
        self.assertEqual(range(0, 1), pace.due(5))
        self.assertEqual(range(1, 1), pace.due(5 + PERIOD - 1))
        self.assertEqual(range(1, 2), pace.due(5 + PERIOD))
        self.assertEqual(range(2, 5), pace.due(5 + 4 * PERIOD + 1))
        self.assertEqual(5 + 5 * PERIOD, pace.at(5))
        self.assertAlmostEqual((PERIOD - 1) / 1e9, pace.wait(5 + 4 * PERIOD + 1))

    def test_late_lines_are_sent_at_once_but_only_those_of_a_second(self) -> None:
        pace = Pace(0)
        pace.due(0)
        self.assertEqual(range(1, 1 + MOST_LATE), pace.due(MOST_LATE * PERIOD))
        self.assertEqual(0, pace.dropped)
        self.assertEqual(range(91, 101), pace.due(100 * PERIOD))
        self.assertEqual(80, pace.dropped)
        self.assertEqual(0, pace.wait(200 * PERIOD))


def moments(begin: float, end: float, every: float = 0.1) -> list[float]:
    return [begin + every * it for it in range(round((end - begin) / every))]


def there(bridge: Bridge) -> Stay:
    """Return the vehicle that is on the bridge."""
    assert bridge.stay is not None
    return bridge.stay


def standing(bridge: Bridge, at: float) -> float:
    """Return the first tenth of a second at which the vehicle stands."""
    while bridge.phase(at)[0] != STANDS:
        at += 0.1
        bridge.step(at)
    return at


def entry(plate: str, number: int = 1, kind: str = "first") -> dict[str, Any]:
    return {"plate": plate, "number": number, "kind": kind}


def a_bridge(times: Times = CALM, seed: int = 7) -> Bridge:
    return Bridge(visits_of_the_day(), random.Random(seed), times)


class LoadOfTheBridge(unittest.TestCase):
    def test_a_vehicle_that_stands_has_the_same_load_at_each_moment(self) -> None:
        for times in (CALM, QUICK):
            bridge = a_bridge(times)
            self.assertTrue(bridge.drive_on(0))
            at = standing(bridge, 0)
            kg = there(bridge).visit.kg
            self.assertEqual({kg}, {bridge.load(it) for it in moments(at, at + 60)})

    def test_its_counts_stay_within_a_quarter_of_a_tenth_of_e(self) -> None:
        for visit in visits_of_the_day():
            counts = {counts_of(visit.kg, number) for number in range(100)}
            tenths = {(it - EMPTY_COUNTS) / COUNTS_PER_TENTH for it in counts}
            self.assertLess(max(abs(it - visit.kg * 10 / INTERVAL) for it in tenths), 0.25)
            self.assertEqual(1, len({round(it) for it in tenths}))

    def test_the_load_is_a_function_of_the_moment(self) -> None:
        bridge = a_bridge()
        bridge.drive_on(0)
        at = moments(0, 10, 0.01)
        once = [bridge.load(it) for it in at]
        self.assertEqual(once[::-1], [bridge.load(it) for it in at[::-1]])

    def test_it_drives_on_sways_and_stands_without_a_jump(self) -> None:
        bridge = a_bridge()
        bridge.drive_on(0)
        kg = there(bridge).visit.kg
        loads = [bridge.load(it) for it in moments(0, 8, 0.001)]
        self.assertLess(max(abs(b - a) for a, b in zip(loads, loads[1:])), kg / 1000)
        self.assertGreater(max(loads), kg * 1.005)
        self.assertEqual(
            [DRIVES_ON, SWAYS, STANDS],
            list(dict.fromkeys(bridge.phase(it)[0] for it in moments(0, 8))),
        )

    def test_before_a_push_the_load_is_the_old_one(self) -> None:
        """Ask for the load of a late line: it is that of the moment at which the line was due."""
        bridge = a_bridge()
        bridge.push(10, 20_000)
        self.assertEqual(0, bridge.load(9.5))
        self.assertEqual(20_000, bridge.load(11))

    def test_it_drives_off_from_the_load_that_it_had(self) -> None:
        bridge = a_bridge()
        bridge.drive_on(0)
        before = bridge.load(1.5)
        self.assertTrue(bridge.drive_off(1.5))
        self.assertFalse(bridge.drive_off(1.6))
        self.assertEqual(before, bridge.load(1.5))
        self.assertEqual(DRIVES_OFF, bridge.phase(1.6)[0])
        bridge.step(1.5 + CALM.off)
        self.assertEqual((EMPTY, 0), (bridge.phase(5)[0], bridge.load(5)))
        self.assertIsNone(bridge.stay)

    def test_a_second_press_brings_no_second_lorry(self) -> None:
        bridge = a_bridge()
        self.assertTrue(bridge.drive_on(0))
        plate = there(bridge).visit.plate
        self.assertFalse(bridge.drive_on(0.2))
        self.assertFalse(bridge.drive_on(20))
        self.assertEqual(plate, there(bridge).visit.plate)

    def test_nothing_drives_off_an_empty_bridge(self) -> None:
        self.assertFalse(a_bridge().drive_off(5))

    def test_a_load_by_hand_is_of_whole_intervals_and_at_most_max(self) -> None:
        bridge = a_bridge()
        bridge.push(0, 12_345)
        self.assertEqual(12_340, bridge.load(5))
        bridge.push(5, 10 * MAX)
        self.assertEqual(MAX, bridge.load(10))
        bridge.push(10, 0)
        bridge.step(20)
        self.assertEqual((EMPTY, 0), (bridge.phase(20)[0], bridge.load(20)))

    def test_a_push_at_a_vehicle_changes_its_load_and_keeps_it(self) -> None:
        bridge = a_bridge()
        bridge.drive_on(0)
        plate = there(bridge).visit.plate
        bridge.push(20, 30_000)
        bridge.step(30)
        self.assertEqual((plate, 30_000), (there(bridge).visit.plate, bridge.load(30)))


class TheDay(unittest.TestCase):
    def test_it_has_some_twenty_vehicles_with_plates_that_the_office_takes(self) -> None:
        visits = visits_of_the_day()
        plates = {it.plate for it in visits}
        self.assertEqual(20, len(plates))
        self.assertTrue(all(re.fullmatch("[A-Z0-9-]{1,12}", it) for it in plates))
        self.assertEqual(sorted(it.at for it in visits), [it.at for it in visits])
        for plate in plates:
            kinds = [it.kind for it in visits if it.plate == plate]
            self.assertIn(kinds, ([FIRST, SECOND], [SINGLE]))
        for it in visits:
            self.assertEqual((0, True), (it.kg % INTERVAL, 400 <= it.kg <= MAX))
            self.assertTrue(it.tare is None or it.tare < it.kg - 400)

    def test_a_plate_comes_that_is_like_one_on_site(self) -> None:
        """Walk through the day until RA-KM-1268 comes. RA-KM-1286 is then on site."""
        on_site: set[str] = set()
        for it in visits_of_the_day():
            if it.plate == "RA-KM-1268":
                break
            on_site ^= {it.plate}
        self.assertIn("RA-KM-1286", on_site)

    def played(
        self,
        bridge: Bridge,
        plate_of: Callable[[Visit], str] = lambda visit: visit.plate,
        skip: Callable[[int], bool] = lambda number: False,
    ) -> list[float]:
        """Play the day with a clerk who weighs each vehicle two seconds after it stands. Return the loads at those moments."""
        on_site: dict[str, int] = {}
        loads: list[float] = []
        at, since = 0.0, None
        bridge.play(at)
        while bridge.is_playing or bridge.stay is not None:
            at += 0.1
            self.assertLess(at, 3600)
            bridge.step(at)
            stay, is_standing = bridge.stay, bridge.phase(at)[0] == STANDS
            if stay is None or not is_standing:
                since = None
                continue
            since = at if since is None else since
            if at < since + 2 or stay.weighed is not None:
                continue
            if stay.number is not None and skip(stay.number):
                bridge.drive_off(at)
                continue
            plate = plate_of(stay.visit)
            on_site.pop(plate) if plate in on_site else on_site.update({plate: stay.visit.kg})
            if stay.visit.kind == SINGLE:
                on_site.pop(plate)
            loads.append(bridge.load(at))
            bridge.told_on_site(on_site)
            bridge.weighed(at, entry(plate, len(loads), stay.visit.kind))
        return loads

    def test_each_vehicle_waits_until_it_is_weighed_and_then_drives_off(self) -> None:
        for times in (CALM, QUICK):
            bridge = a_bridge(times)
            loads = self.played(bridge)
            self.assertEqual([it.kg for it in visits_of_the_day()], loads)
            self.assertEqual({WEIGHED}, set(bridge.marks))

    def test_without_a_clerk_the_first_one_waits(self) -> None:
        bridge = a_bridge()
        bridge.play(0)
        for it in moments(0, 1000):
            bridge.step(it)
        self.assertEqual((0, STANDS), (there(bridge).number, bridge.phase(1000)[0]))

    def test_one_that_was_not_weighed_in_does_not_come_to_be_weighed_out(self) -> None:
        bridge = a_bridge()
        self.played(bridge, skip=lambda number: number == 0)
        plate = bridge.visits[0].plate
        marks = [mark for it, mark in zip(bridge.visits, bridge.marks) if it.plate == plate]
        self.assertEqual([UNWEIGHED, LEFT_OUT], marks)
        self.assertEqual({UNWEIGHED: 1, LEFT_OUT: 1}, counted(bridge.marks, UNWEIGHED, LEFT_OUT))

    def test_another_plate_is_told(self) -> None:
        bridge = a_bridge()
        wrong = {bridge.visits[0].plate: "RA-KM-1263"}
        self.played(bridge, plate_of=lambda visit: wrong.get(visit.plate, visit.plate))
        marks = [it for it, visit in zip(bridge.marks, bridge.visits) if visit.plate in wrong]
        self.assertEqual([MISTYPED, LEFT_OUT], marks)

    def test_what_is_on_site_from_the_day_before_is_not_weighed_in_again(self) -> None:
        bridge = a_bridge(QUICK)
        bridge.told_on_site({bridge.visits[0].plate: 18_340})
        bridge.play(0)
        for it in moments(0, 10):
            bridge.step(it)
        self.assertEqual((LEFT_OUT, 1), (bridge.marks[0], there(bridge).number))

    def test_it_can_be_stopped_by_hand_and_continued(self) -> None:
        bridge = a_bridge(QUICK)
        bridge.play(0)
        at = standing(bridge, 0)
        bridge.weighed(at, entry(there(bridge).visit.plate))
        bridge.push(at, 30_000)
        self.assertFalse(bridge.is_playing)
        for it in moments(at, at + 60):
            bridge.step(it)
        self.assertEqual((EMPTY, 1), (bridge.phase(at + 60)[0], bridge.next))
        self.assertTrue(bridge.drive_on(at + 60))
        at = standing(bridge, at + 60)
        bridge.play(at)
        for it in moments(at, at + 10):
            bridge.step(it)
        self.assertEqual(1, there(bridge).number)

    def test_it_can_be_played_again(self) -> None:
        bridge = a_bridge(QUICK)
        self.played(bridge)
        self.assertTrue(bridge.shown(1e6)["is_over"])
        self.assertEqual([it.kg for it in visits_of_the_day()], self.played_from(bridge, 1e6))

    def played_from(self, bridge: Bridge, at: float) -> list[float]:
        loads: list[float] = []
        on_site: dict[str, int] = {}
        bridge.play(at)
        while bridge.is_playing or bridge.stay is not None:
            at += 0.1
            bridge.step(at)
            if bridge.stay and bridge.phase(at)[0] == STANDS and bridge.stay.weighed is None:
                visit = there(bridge).visit
                if visit.kind != SINGLE:
                    on_site.pop(visit.plate, None) or on_site.update({visit.plate: visit.kg})
                loads.append(bridge.load(at))
                bridge.told_on_site(on_site)
                bridge.weighed(at, entry(visit.plate))
        return loads

    def test_a_weighing_of_before_is_not_of_the_next_vehicle(self) -> None:
        bridge = a_bridge(QUICK)
        bridge.weighed(0, entry("AB-12"))
        bridge.play(0)
        at = standing(bridge, 0)
        bridge.drive_off(at)
        bridge.weighed(at + 0.1, entry(there(bridge).visit.plate))
        bridge.step(at + 5)
        self.assertEqual(UNWEIGHED, bridge.marks[0])

    def test_a_lorry_by_chance_is_new_or_comes_from_the_site(self) -> None:
        choose, on_site = random.Random(3), {"AB-12": 30_000, "CD-34": 9_000}
        seen = [some_visit(choose, on_site) for _ in range(300)]
        self.assertEqual({FIRST, SECOND}, {it.kind for it in seen})
        for it in seen:
            self.assertEqual(it.kind == SECOND, it.plate in on_site)
            self.assertTrue(re.fullmatch("[A-Z0-9-]{1,12}", it.plate), it.plate)
            self.assertEqual(0, it.kg % INTERVAL)
            if it.kind == SECOND:
                self.assertGreaterEqual(abs(on_site[it.plate] - it.kg), 400)


def counted(marks: list[str], *names: str) -> dict[str, int]:
    return {name: marks.count(name) for name in names}


class ThePlayer(unittest.TestCase):
    def test_each_line_has_the_load_of_the_moment_at_which_it_was_due(self) -> None:
        now = [0]
        bridge = a_bridge()
        player = Player(bridge, Pace(0), lambda: now[0])
        bridge.push(0.45, 20_000)
        now[0] = 9 * PERIOD
        found = [int(it) for it in player.lines()]
        wanted = [counts_of(bridge.load(it / 10), it) for it in range(10)]
        self.assertEqual(wanted, found)
        self.assertLess(abs(found[4] - EMPTY_COUNTS), 3)
        self.assertEqual({"lines": 10, "dropped": 0}, player.counted())

    def test_a_stop_of_a_minute_gives_the_lines_of_one_second(self) -> None:
        now = [0]
        player = Player(a_bridge(), Pace(0), lambda: now[0])
        player.lines()
        now[0] = 600 * PERIOD
        self.assertEqual(10, len(player.lines()))
        self.assertEqual({"lines": 11, "dropped": 590}, player.counted())

    def test_the_mean_of_the_lines_of_a_point_is_exact(self) -> None:
        self.assertEqual(0, sum(NOISE))
        lines = [int(it) for it in lines_of_point(30_000).split()]
        self.assertEqual(EMPTY_COUNTS + 30_000 * COUNTS_PER_KG, sum(lines) / len(lines))


class WhatTheCounterTells(unittest.IsolatedAsyncioTestCase):
    async def test_events_are_read_line_by_line(self) -> None:
        async def lines() -> AsyncIterator[bytes]:
            for it in (b"retry: 500\n", b"\n", b"event: entry\n", b'data: {"a": 1}\n', b"\n"):
                yield it

        self.assertEqual([("entry", {"a": 1})], [it async for it in events_of(lines())])


class APortThatIsTaken(unittest.TestCase):
    def test_the_counter_says_so_in_the_words_that_a_demo_knows(self) -> None:
        with tempfile.TemporaryDirectory() as folder, socket.create_server(
            ("127.0.0.1", 0)
        ) as taken:
            port, setup = taken.getsockname()[1], Path(folder) / "counter.toml"
            for lines in (
                f'listen = "127.0.0.1:{port}"\n',
                f'listen = "127.0.0.1:{free()}"\n[[port]]\nname = "till"\nlisten = "127.0.0.1:{port}"\n',
            ):
                setup.write_text(f'state = "{folder}/state"\n{lines}')
                said = io.StringIO()
                with contextlib.redirect_stderr(said):
                    self.assertEqual(1, counter_main([str(setup)]))
                self.assertIn(f"127.0.0.1:{port} can't be used: {PORT_IS_TAKEN}", said.getvalue())


class TheSetting(unittest.TestCase):
    def setup_of(self, *lines: str) -> tuple[Setup, str | None]:
        with tempfile.TemporaryDirectory() as folder:
            path = Path(folder) / "counter.toml"
            path.write_text("\n".join([f'state = "{folder}/state"', *lines]))
            setup = read_setup(path, WEB)
            return setup, warning_of(setup, path)

    def refused(self, *lines: str) -> str:
        with self.assertRaises(SetupFault) as fault:
            self.setup_of(*lines)
        return str(fault.exception)

    def test_a_demo_needs_the_serial_of_a_demo(self) -> None:
        setup, warning = self.setup_of("demo = true", 'serial = "DEMO"')
        self.assertEqual((True, None), (setup.is_demo, warning))
        for lines in (("demo = true",), ("demo = true", 'serial = "WB01"')):
            self.assertIn('write serial = "DEMO"', self.refused(*lines))

    def test_the_serial_of_a_demo_without_one_is_warned_of(self) -> None:
        setup, warning = self.setup_of('serial = "DEMO"')
        self.assertFalse(setup.is_demo)
        self.assertIn("demo = true", warning or "")

    def test_a_true_bridge_has_neither(self) -> None:
        for lines in ((), ('serial = "WB01"',), ("demo = false",)):
            setup, warning = self.setup_of(*lines)
            self.assertEqual((False, None), (setup.is_demo, warning))

    def test_a_serial_and_an_address_have_their_form(self) -> None:
        self.assertIn("--serial", self.refused('serial = "demo"'))
        self.assertIn("--serial", self.refused("serial = 1"))
        demo = ("demo = true", 'serial = "DEMO"')
        self.assertIn("demo_page", self.refused(*demo, 'demo_page = "https://elsewhere.example/"'))
        self.assertIn("demo_page", self.refused('demo_page = "http://127.0.0.1:8091/"'))
        setup, _ = self.setup_of(*demo, 'demo_page = "http://127.0.0.1:8091/"')
        self.assertEqual("http://127.0.0.1:8091/", setup.demo_page)


class TheLinkToTheClerksPage(unittest.IsolatedAsyncioTestCase):
    async def status(
        self, is_demo: bool, path: str = "/", method: str = "GET", **fields: str
    ) -> int:
        setup = SimpleNamespace(listen=("127.0.0.1", 1), hosts=(), is_demo=is_demo)
        counter: Any = SimpleNamespace(setup=setup, terminal=None)
        routes = Routes(counter, Path("."))
        headers = {"Host": "127.0.0.1:8090", **{it.replace("_", "-"): fields[it] for it in fields}}

        async def handler(request: web.Request) -> web.StreamResponse:
            return as_text(b"", 200)

        request = make_mocked_request(method, path, headers=headers)
        return (await routes.guarded(request, handler)).status

    async def test_only_a_demo_lets_another_port_of_the_machine_link_to_it(self) -> None:
        link = {"Sec_Fetch_Site": "same-site", "Sec_Fetch_Mode": "navigate"}
        self.assertEqual(200, await self.status(True, **link))
        self.assertEqual(403, await self.status(False, **link))
        self.assertEqual(403, await self.status(True, "/papers", **link))
        self.assertEqual(403, await self.status(True, "/", "POST", **link))
        self.assertEqual(403, await self.status(True, **{**link, "Sec_Fetch_Site": "cross-site"}))
        self.assertEqual(403, await self.status(True, **{**link, "Sec_Fetch_Mode": "cors"}))


class PapersOfADemo(unittest.TestCase):
    def blocks(
        self, serial: str, language: str, is_original: bool = True
    ) -> tuple[Text, list[Block]]:
        text = read_text(Sample("second", serial=serial).text)
        template = Template(("Harbour",), ("Thank you",), language, zoneinfo.ZoneInfo("UTC"))
        return text, blocks_of(Paper(text, (), is_original), template)

    def test_a_heading_says_demo_in_each_language_outside_of_the_legal_text(self) -> None:
        sentences = set()
        for language in LANGUAGES:
            text, blocks = self.blocks("DEMO", language)
            self.assertEqual([Mark("DEMO")] * 2, [blocks[0], blocks[-1]])
            heading = blocks[1]
            assert isinstance(heading, Line)
            sentences.add(heading.text)
            self.assertEqual([text.letters], [it.letters for it in blocks if isinstance(it, Legal)])
        self.assertEqual(len(LANGUAGES), len(sentences))

    def test_a_further_print_has_both_marks_on_each_sheet(self) -> None:
        _, blocks = self.blocks("DEMO", "de", False)
        self.assertEqual(["DEMO", "DUPLIKAT · DUPLICATE"], marks_of(blocks))

    def test_another_serial_has_no_such_heading(self) -> None:
        for is_original in (True, False):
            _, blocks = self.blocks("WB01", "en", is_original)
            self.assertFalse([it for it in blocks if isinstance(it, Mark) and it.text == "DEMO"])
        self.assertNotIn("DEMO", str(page_of(blocks)))

    def test_the_heading_is_on_rolls_and_in_the_browser(self) -> None:
        for columns in (48, 32):
            _, blocks = self.blocks("DEMO", "fr")
            made = Roll(columns, (("cp858", 19),), True).bytes_of(blocks)
            self.assertEqual(4, made.count(b"DEMO"))  # at both ends, and twice as the legal serial
        self.assertEqual("mark", page_of(blocks)[0]["is"])
        self.assertIn("a4", FORMS)


if __name__ == "__main__":
    unittest.main()
