"""Vehicles that are weighed once: the First is noted before it goes out, and withdrawn once, when the plate comes again or on another day."""

import contextlib
import datetime
import io
import json
import tempfile
import unittest
import urllib.parse
import zoneinfo
from collections import Counter
from pathlib import Path
from unittest import mock

from weighbridge_counter.acts import Acts
from weighbridge_counter.books import Books
from weighbridge_counter.files import Files, NoFile, found_in
from weighbridge_counter.lists import Lists
from weighbridge_counter.office import Answer, NoAnswer
from weighbridge_counter.once import FILE, LATEST, Note, Once, is_own_void, void_key
from weighbridge_counter.terminal import Terminal

from .papers import ZEROS, entry
from .played import PlayedTerminal, at_once
from .test_lists import export

UTC = zoneinfo.ZoneInfo("UTC")
FIRST = {"key": "page-1", "kind": "first", "plate": "AB-12", "once": "1"}


class Office:
    """Stores what it gets, as the office does. `fails` says how it fails: `cut` loses the request, `lost` loses its answer."""

    def __init__(self) -> None:
        self.rows: list[str] = []
        self.texts: dict[str, str] = {}
        self.open: dict[str, int] = {}
        self.fails: list[str | None] = []
        self.asked: list[tuple[str, dict[str, str]]] = []

    async def ask(
        self, method: str, target: str, body: bytes | None = None, within: float = 15.0
    ) -> Answer:
        form = dict(urllib.parse.parse_qsl((body or b"").decode()))
        self.asked.append((target, form))
        fails = self.fails.pop(0) if self.fails else None
        if fails == "cut":
            raise NoAnswer("cut")
        status, text = self.judge(target, form)
        if fails == "lost":
            raise NoAnswer("lost")
        return Answer(status, "text/plain", text.encode())

    def judge(self, target: str, form: dict[str, str]) -> tuple[int, str]:
        key, plate, kind = form["key"], form["plate"], form.get("kind", "void")
        if key in self.texts:
            return 201, self.texts[key]
        if kind == "first" and plate in self.open:
            return 409, "refused 12 already_open\n"
        if kind == "void" and plate not in self.open:
            return 409, "refused 13 no_open\n"
        number, gross = len(self.rows) + 1, 18340 if kind == "first" else None
        before = self.rows[-1].split(",")[10] if self.rows else ZEROS
        moment, at = 1741593600 + number, f"2025-03-10 08:00:{number:02}"
        digest, block = entry(
            number, kind, plate, moment, at, gross, None, 20, 60000, "WB01", before, key
        )
        values = (number, key, kind, plate, at, gross or "", "", 20, 60000, "WB01", digest, before)
        self.rows.append(",".join(map(str, values)))
        self.open.pop(plate, None)
        if kind == "first":
            self.open[plate] = number
        self.texts[key] = f"WEIGHING SLIP {number}\nPLATE {plate}\n{block}"
        return 201, self.texts[key]

    def kinds(self) -> list[str]:
        return [it.split(",")[2] for it in self.rows]


class AtTheCounter(unittest.IsolatedAsyncioTestCase):
    def setUp(self) -> None:
        folder = tempfile.TemporaryDirectory()
        self.addCleanup(folder.cleanup)
        self.told: list[list[int]] = []  # the vehicles on site at each entry
        self.folder, self.office, self.day, self.at = (
            Path(folder.name),
            Office(),
            datetime.date(2025, 3, 10),
            1000.0,
        )

    def start(self) -> None:
        """Start a counter over what the disk and the office have."""
        played = PlayedTerminal()
        terminal = Terminal(("127.0.0.1", 1), 20, played.clock)
        terminal.fanout = played.fanout
        self.files = Files(self.folder, at_once)
        self.once = Once(self.files, lambda: self.day, lambda: self.at)
        self.acts = Acts(terminal, self.office, self.files, 20, Counter(), self.once)
        self.books = Books(self.office, UTC, Counter())
        self.books.once = self.books.lists.once = self.once.keys
        self.books.on_entry = lambda entry: self.told.append(
            [it["number"] for it in self.books.lists.on_site()]
        )
        self.acts.on_text.append(self.books.passed)
        self.acts.step_of = lambda key: self.once.step(key, self.books.lists, self.books.is_certain)

    def read_anew(self) -> None:
        """Let the counter have an export of now."""
        lists = Lists.of_export(UTC, export(*self.office.rows))
        self.books._take_export(lists, None, self.books.lists.known(0), self.books.places, self.at)

    async def weigh(self, **form: str) -> tuple[int, str]:
        told = await self.acts.carry_out("/weighings", urllib.parse.urlencode(form).encode())
        await self.files.bring()
        return told.status, told.body.decode()

    def noted(self) -> list[str]:
        return sorted(it["plate"] for it in (found_in(self.folder / FILE) or {}).values())

    async def test_it_is_weighed_and_withdrawn_when_the_plate_comes_again(self) -> None:
        self.start()
        self.read_anew()
        self.assertEqual(201, (await self.weigh(**FIRST))[0])
        self.assertEqual(["AB-12"], self.noted())
        self.assertEqual(([], [[]]), (self.books.lists.on_site(), self.told))
        self.assertTrue(self.books.lists.shown(1)["once"])
        self.assertEqual(201, (await self.weigh(key="till-1", kind="first", plate="AB-12"))[0])
        self.assertEqual(["first", "void", "first"], self.office.kinds())
        self.assertEqual([], self.noted())
        self.assertEqual([3], [it["number"] for it in self.books.lists.on_site()])
        self.assertEqual(
            [True, True, False], [self.books.lists.shown(it)["once"] for it in (1, 2, 3)]
        )
        self.assertNotIn("once", self.office.asked[0][1], "the office doesn't get it")

    async def test_it_is_withdrawn_on_another_day_also_by_a_new_start(self) -> None:
        self.start()
        await self.weigh(**FIRST)
        self.start()
        self.assertEqual([], self.once.due(), "on its own day")
        self.day += datetime.timedelta(1)
        self.assertEqual(["page-1"], self.once.due())
        await self.acts.withdraw(self.once.due())
        self.assertEqual(["first"], self.office.kinds(), "before the counter knows the journal")
        self.read_anew()
        for _ in range(2):
            await self.acts.withdraw(self.once.due())
        self.assertEqual(["first", "void"], self.office.kinds())
        self.assertEqual(([], {}), (self.once.due(), self.once.notes))

    async def test_each_answer_may_be_lost(self) -> None:
        for lost in ("cut", "lost"):
            self.setUp()
            self.start()
            self.office.fails = [lost]
            self.assertEqual(502, (await self.weigh(**FIRST))[0])
            self.assertEqual(["AB-12"], self.noted(), "it may be stored")
            self.day += datetime.timedelta(1)
            await self.acts.withdraw(self.once.due())
            self.assertEqual(["AB-12"], self.noted(), "the counter doesn't know yet")
            self.read_anew()
            self.office.fails = [lost]
            await self.acts.withdraw(self.once.due())
            self.at += LATEST + 1
            self.read_anew()
            await self.acts.withdraw(self.once.due())
            self.assertEqual({"cut": [], "lost": ["first", "void"]}[lost], self.office.kinds())
            self.assertEqual({}, self.once.notes, lost)

    async def test_a_press_that_is_repeated_is_stored_and_noted_once(self) -> None:
        self.start()
        self.read_anew()
        self.office.fails = ["lost"]
        await self.weigh(**FIRST)
        self.assertEqual(201, (await self.weigh(**FIRST))[0])
        self.assertEqual((["first"], 1), (self.office.kinds(), len(self.once.notes)))

    async def test_what_is_refused_is_not_noted(self) -> None:
        self.start()
        self.read_anew()
        await self.weigh(key="till-1", kind="first", plate="AB-12")
        self.assertEqual((409, "refused 12 already_open\n"), await self.weigh(**FIRST))
        self.assertEqual({}, self.once.notes)
        self.assertEqual(["first"], self.office.kinds(), "another one's First is never withdrawn")

    async def test_another_first_of_the_plate_is_never_withdrawn(self) -> None:
        self.start()
        self.read_anew()
        await self.weigh(**FIRST)
        for target, form in (
            ("/voids", {"key": "clerk-1", "plate": "AB-12"}),
            ("/weighings", {"key": "clerk-2", "kind": "first", "plate": "AB-12"}),
        ):
            await self.office.ask("POST", target, urllib.parse.urlencode(form).encode())
        self.day += datetime.timedelta(1)
        self.at += 1
        self.read_anew()
        await self.acts.withdraw(self.once.due())
        self.assertEqual(["first", "void", "first"], self.office.kinds())
        self.assertEqual({}, self.once.notes)

    async def test_another_journal_s_weighing_is_never_withdrawn(self) -> None:
        self.start()
        self.read_anew()
        await self.weigh(**FIRST)
        self.office = Office()
        form = {"key": "other-1", "kind": "first", "plate": "AB-12"}
        await self.office.ask("POST", "/weighings", urllib.parse.urlencode(form).encode())
        self.start()
        self.day += datetime.timedelta(1)
        self.at += 1
        self.read_anew()
        await self.acts.withdraw(self.once.due())
        self.assertEqual(["first"], self.office.kinds(), "of the same number and plate")
        self.assertEqual({}, self.once.notes)

    async def test_without_a_note_on_the_disk_nothing_is_sent(self) -> None:
        self.start()

        async def write(name: str, what: object, within: float) -> None:
            raise NoFile("full")

        with mock.patch.object(self.files, "write", write):
            self.assertEqual((503, "counter no_file\n"), await self.weigh(**FIRST))
        self.assertEqual([], self.office.asked)

    async def test_only_a_first_without_a_tare_can_be_weighed_once(self) -> None:
        self.start()
        for wrong in (
            {"kind": "second"},
            {"kind": "single", "tare": "5000"},
            {"tare": "5000"},
            {"once": "yes"},
            {"once": ""},
            {"key": ""},
        ):
            self.assertEqual((422, "counter bad_once\n"), await self.weigh(**{**FIRST, **wrong}))
        self.acts.once = None
        self.assertEqual((422, "counter bad_once\n"), await self.weigh(**FIRST))
        self.assertEqual([], self.office.asked)


class TheNotes(unittest.TestCase):
    def test_a_void_has_a_key_of_the_office_s_form(self) -> None:
        for key in ("page-1", "x" * 32):
            self.assertRegex(void_key(key), r"\A[A-Za-z0-9-]{32}\Z")
            self.assertTrue(is_own_void(void_key(key)))
        self.assertNotEqual(void_key("a"), void_key("b"))
        self.assertFalse(is_own_void("page-once-1"))

    def test_rows_that_say_nothing_are_left_out_and_told(self) -> None:
        good = Note("AB-12", datetime.date(2025, 3, 10), 1, "d").noted()
        bad: tuple[object, ...] = (
            None,
            [],
            {},
            {**good, "day": "x"},
            {**good, "number": None},
            {**good, "plate": 7},
        )
        with tempfile.TemporaryDirectory() as folder:
            rows: dict[str, object] = {
                "good": good,
                **{f"bad-{at}": it for at, it in enumerate(bad)},
            }
            (Path(folder) / FILE).write_text(json.dumps(rows))
            with contextlib.redirect_stderr(io.StringIO()) as said:
                once = Once(Files(Path(folder), at_once), datetime.date.today, lambda: 0.0)
        self.assertEqual(["good"], list(once.notes))
        self.assertIn("6 of its rows can't be read", said.getvalue())


if __name__ == "__main__":
    unittest.main()
