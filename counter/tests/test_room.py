"""How long the journal has room."""

import datetime
import unittest
import zoneinfo

from weighbridge_counter.lists import Lists
from weighbridge_counter.room import Room, capacity_of, room_of

from .test_lists import export, row

TODAY = datetime.date(2026, 3, 10)


def days_ago(*counts: int) -> dict[datetime.date, int]:
    """Return the entries of today, of yesterday and so on."""
    return {TODAY - datetime.timedelta(days=ago): count for ago, count in enumerate(counts)}


class CapacityTest(unittest.TestCase):
    def test_the_words_of_the_service_say_it(self) -> None:
        self.assertEqual(capacity_of(("weighbridge", "serve", "--capacity", "1000")), 1000)
        self.assertEqual(capacity_of(("weighbridge", "serve", "--capacity=14500", "--max")), 14500)

    def test_otherwise_it_is_unknown(self) -> None:
        for words in (
            (),
            ("serve",),
            ("serve", "--capacity"),
            ("serve", "--capacity="),
            ("serve", "--capacity", "many"),
            ("serve", "--capacity", "-1"),
            ("serve", "--capacity", "1", "--capacity", "2"),
            ("serve", "--capacity-of", "5"),
        ):
            with self.subTest(words):
                self.assertIsNone(capacity_of(words))


class RoomTest(unittest.TestCase):
    def test_it_lasts_by_the_rate_of_two_weeks(self) -> None:
        two_weeks = days_ago(*[10] * 14)
        self.assertEqual(room_of(1000, 900, 10, two_weeks, TODAY), Room(90, 9))
        older = two_weeks | {TODAY - datetime.timedelta(days=14): 5000}
        self.assertEqual(
            room_of(1000, 900, 10, older, TODAY), Room(90, 9), "what is older counts nothing"
        )

    def test_days_without_entries_count(self) -> None:
        self.assertEqual(room_of(200, 60, 0, days_ago(*[0] * 13, 14), TODAY), Room(140, 140))

    def test_a_young_journal_is_measured_by_its_own_days(self) -> None:
        self.assertEqual(room_of(1000, 40, 0, days_ago(20, 20), TODAY), Room(960, 48))
        self.assertEqual(room_of(1000, 40, 0, days_ago(40), TODAY), Room(960, 24))

    def test_without_entries_nothing_says_how_long_it_lasts(self) -> None:
        self.assertEqual(room_of(1000, 0, 0, {}, TODAY), Room(1000, None))
        quiet = {TODAY - datetime.timedelta(days=40): 100}
        self.assertEqual(room_of(1000, 100, 0, quiet, TODAY), Room(900, None))
        ahead = {TODAY + datetime.timedelta(days=1): 100}
        self.assertEqual(room_of(1000, 100, 0, ahead, TODAY), Room(900, None))

    def test_it_is_low_below_fourteen_days(self) -> None:
        self.assertEqual([Room(140, 14).is_low, Room(139, 13).is_low], [False, True])
        self.assertEqual([Room(3, None).is_low, Room(2, 99).is_low], [False, False])

    def test_it_is_full_once_no_vehicle_can_be_weighed_in(self) -> None:
        self.assertEqual([Room(n, 99).is_full for n in (0, 1, 2)], [True, True, False])
        self.assertEqual([Room(1, None).is_low, Room(1, None).is_full], [True, True])
        self.assertEqual(room_of(10, 8, 5, days_ago(13), TODAY).places, 0, "never below none")


class PerDayTest(unittest.TestCase):
    def test_lists_count_the_entries_of_each_day(self) -> None:
        lists = Lists.of_export(
            zoneinfo.ZoneInfo("Europe/Berlin"),
            export(
                row(1, "first", "A", 9000, at="2026-03-09 23:59:59"),
                row(2, "second", "A", 4000, at="2026-03-10 00:00:00"),
                row(3, "void", "B", "", at="2026-03-10 23:00:00"),
            ),
        )
        self.assertEqual(lists.per_day, {TODAY - datetime.timedelta(days=1): 1, TODAY: 2})


if __name__ == "__main__":
    unittest.main()
