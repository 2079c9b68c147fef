"""The local day: which entries are of it, what they sum to, and their table."""

import asyncio
import csv
import datetime
import io
import re
import tempfile
import unittest
import zoneinfo
from pathlib import Path
from typing import Any
from unittest import mock

from weighbridge_counter.counter import Counter
from weighbridge_counter.lists import Lists
from weighbridge_counter.pages import Page
from weighbridge_counter.setup import Setup
from weighbridge_counter.tares import Kept
from weighbridge_counter.today import MOST_LISTED, day_of, midnight, table_of, whole_day_of
from weighbridge_counter.values import Value

from .test_lists import BERLIN, export, row

NOON = datetime.datetime(2025, 3, 10, 12, tzinfo=BERLIN)
DAY = (
    row(1, "first", "OLD", 9000, at="2025-03-09 22:00:00"),
    row(2, "first", "IN-1", 30000),
    row(3, "first", "OUT-1", 10000),
    row(4, "second", "IN-1", 12000),
    row(5, "second", "OUT-1", 38000),
    row(6, "single", "ONCE", 20000, 8000),
    row(7, "first", "GONE", 7000),
    row(8, "void", "GONE", ""),
    row(9, "first", "SAME", 5000),
    row(10, "second", "SAME", 5000),
    row(11, "second", "OLD", 20000),
)


class ALocalDay(unittest.TestCase):
    def setUp(self) -> None:
        self.lists = Lists.of_export(BERLIN, export(*DAY))

    def test_sums_are_of_all_entries_with_in_and_out_apart(self) -> None:
        found = day_of(self.lists, NOON)
        self.assertEqual(list(range(11, 1, -1)), [it["number"] for it in found["today"]])
        self.assertEqual(
            {
                "entries": 10,
                "tickets": 5,
                "net_in": 18000,
                "net_out": 28000 + 11000,
                "net_with_tare": 12000,
            },
            found["sums"],
        )

    def test_more_entries_than_are_listed_are_summed_all_the_same(self) -> None:
        count = 2 * MOST_LISTED
        rows = [row(it, "single", f"P{it}", 20000, 8000) for it in range(1, count + 1)]
        found = day_of(Lists.of_export(BERLIN, export(*rows)), NOON)
        self.assertEqual(
            (MOST_LISTED, count, count, 12000 * count),
            (
                len(found["today"]),
                found["sums"]["entries"],
                found["sums"]["tickets"],
                found["sums"]["net_with_tare"],
            ),
        )
        self.assertEqual(count, found["today"][0]["number"])

    def test_an_entry_of_a_text_counts_too(self) -> None:
        self.lists.entries[12] = self.lists.entries[6].__class__(
            12, "single", "LATE", NOON.astimezone(datetime.timezone.utc), 20000, 8000
        )
        self.assertEqual(24000, day_of(self.lists, NOON)["sums"]["net_with_tare"])

    def test_an_old_entry_that_comes_late_hides_nothing(self) -> None:
        self.lists.entries[1] = self.lists.entries.pop(1)
        self.assertEqual(10, day_of(self.lists, NOON)["sums"]["entries"])

    def test_a_first_is_named_only_by_lists_that_lack_nothing(self) -> None:
        self.assertEqual(7, self.lists.first_of(8))
        for lack in ("is_whole", "is_of_export"):
            setattr(self.lists, lack, False)
            self.assertIsNone(self.lists.first_of(8))
            setattr(self.lists, lack, True)

    def test_a_day_begins_at_local_midnight_also_where_the_clock_is_put(self) -> None:
        for zone, day, begin, hours in (
            ("Europe/Berlin", (2025, 3, 30), "2025-03-29T23:00", 23),
            ("Europe/Berlin", (2025, 10, 26), "2025-10-25T22:00", 25),
            ("America/New_York", (2025, 3, 10), "2025-03-10T04:00", 24),
            ("Asia/Kolkata", (2025, 3, 10), "2025-03-09T18:30", 24),
        ):
            there, it = zoneinfo.ZoneInfo(zone), datetime.date(*day)
            first, last = midnight(it, there), midnight(it + datetime.timedelta(1), there)
            self.assertEqual(f"{begin}:00+00:00", first.isoformat(), zone)
            self.assertEqual(datetime.timedelta(hours=hours), last - first, zone)

    def test_midnight_belongs_to_the_new_day(self) -> None:
        lists = Lists.of_export(
            BERLIN,
            export(
                row(1, "first", "A", 1000, at="2025-03-09 22:59:59"),
                row(2, "first", "B", 1000, at="2025-03-09 23:00:00"),
                row(3, "first", "C", 1000, at="2025-03-10 22:59:59"),
                row(4, "first", "D", 1000, at="2025-03-10 23:00:00"),
            ),
        )
        for day, wanted in ((9, "A"), (10, "CB"), (11, "D"), (12, "")):
            now = datetime.datetime(2025, 3, day, 12, tzinfo=BERLIN)
            self.assertEqual(wanted, "".join(it["plate"] for it in day_of(lists, now)["today"]))

    def test_the_table_has_all_of_the_day_the_oldest_first(self) -> None:
        rows = list(csv.DictReader(io.StringIO(table_of(self.lists, NOON))))
        self.assertEqual([str(it) for it in range(2, 12)], [it["number"] for it in rows])
        self.assertEqual(
            {
                "number": "4",
                "kind": "second",
                "plate": "IN-1",
                "first": "2",
                "at": "2025-03-10T10:00:00+01:00",
                "gross_in_kg": "12000",
                "tare_in_kg": "",
                "net_in_kg": "18000",
                "direction": "in",
            },
            rows[2],
        )
        self.assertEqual(
            ("8000", "12000", ""),
            tuple(rows[4][it] for it in ("tare_in_kg", "net_in_kg", "direction")),
        )
        self.assertEqual(("7", ""), (rows[6]["first"], rows[6]["gross_in_kg"]))

    def test_the_whole_day_is_the_table_for_a_page(self) -> None:
        found = whole_day_of(self.lists, NOON)
        self.assertEqual(("2025-03-10", 10), (found["day"], found["sums"]["entries"]))
        self.assertEqual(
            ["", "", "in", "out", "", "", "", "", "", "out"],
            [it["direction"] for it in found["entries"]],
        )


class BeforeAWeight(unittest.IsolatedAsyncioTestCase):
    async def test_a_page_knows_whose_a_tare_is_and_what_stood_there_before_it_has_the_weight(
        self,
    ) -> None:
        folder = tempfile.TemporaryDirectory()
        self.addCleanup(folder.cleanup)
        counter: Any = Counter(Setup(Path(folder.name), zone=BERLIN))
        fanout = counter.terminal.fanout
        told: list[tuple[Any, ...]] = []
        counter.pages.tell = lambda name, what: told.append((name, what["tare"], what["off_zero"]))
        counter.pages.tell_weight = lambda what: told.append(("weight", what["tare"]))
        at = 1000.0

        def comes(kg: int, tare: int, seconds: float = 1.0) -> list[tuple[Any, ...]]:
            nonlocal at
            at += seconds
            told.clear()
            value = Value("S", kg - tare, at)
            fanout.link, fanout.value, fanout.tare = "up", value, tare
            counter._take_value(value)
            return [it[:2] for it in told]

        self.assertEqual([("state", 0), ("weight", 0)], comes(0, 0))
        self.assertEqual([("weight", 0)], comes(0, 0))
        self.assertEqual([("state", 5000), ("weight", 5000)], comes(0, 5000), "a tare is set")
        self.assertEqual([("state", 0), ("weight", 0)], comes(0, 0), "and cleared")
        self.assertEqual([("state", 0), ("weight", 0)], comes(9000, 0), "a vehicle came")
        self.assertEqual(0, counter.told_state["off_zero"]["before"])


class Midnight(unittest.IsolatedAsyncioTestCase):
    async def test_lists_that_are_read_again_bring_the_last_empty_weights(self) -> None:
        folder = tempfile.TemporaryDirectory()
        self.addCleanup(folder.cleanup)
        counter, page = Counter(Setup(Path(folder.name), zone=BERLIN)), Page([], lambda: None)
        counter.tares.kept = {"IN-1": Kept(14000, NOON.date(), "")}
        counter.pages.add(page)
        counter.books.lists = Lists.of_export(BERLIN, export(*DAY))
        counter.books.on_lists()
        told = b"".join(page.frames).decode()
        self.assertIn("event: tares", told)
        self.assertIn('"empty":12000', told)

    async def test_an_open_page_begins_the_new_day_once(self) -> None:
        folder = tempfile.TemporaryDirectory()
        self.addCleanup(folder.cleanup)
        counter, now = Counter(Setup(Path(folder.name), zone=BERLIN)), [NOON]
        page, counter.day = Page([], lambda: None), NOON.date()
        counter.pages.add(page)

        def told() -> list[str]:
            return re.findall(r"event: (lists|tares)", b"".join(page.frames).decode())

        with (
            mock.patch.object(counter, "now", lambda: now[0]),
            mock.patch("weighbridge_counter.counter.STATE_EVERY", 0.001),
        ):
            regularly = asyncio.ensure_future(counter._tell_regularly())
            now[0] = NOON.replace(hour=23, minute=59, second=59)
            await asyncio.sleep(0.05)
            self.assertEqual([], told())
            now[0] += datetime.timedelta(seconds=1)
            await asyncio.sleep(0.05)
            self.assertEqual(["lists", "tares"], told())
        regularly.cancel()
