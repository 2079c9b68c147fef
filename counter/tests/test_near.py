"""Plates near one on site that were weighed before."""

import itertools
import time
import unittest
from unittest import mock

from weighbridge_counter import near
from weighbridge_counter.near import Near, is_near, neighbours


class Letters(unittest.TestCase):
    def test_one_letter_more_less_or_other_or_two_that_changed_places(self) -> None:
        rows = [
            ("RAKM1236", "RAKM1237", True),
            ("RAKM1236", "RAKM1263", True),
            ("RAKM1236", "RAKM123", True),
            ("RAKM1236", "RAKM12366", True),
            ("RAKM1236", "RAKM1236", False),
            ("RAKM1236", "RAKM1247", False),
            ("RAKM1236", "RAKM6231", False),
            ("RAKM1236", "AKM123", False),
            ("RAKM1236", "1236", False),
            ("A", "B", True),
            ("", "A", True),
            ("", "", False),
        ]
        for one, other, wanted in rows:
            self.assertEqual(
                (wanted, wanted), (is_near(one, other), is_near(other, one)), (one, other)
            )

    def test_both_functions_agree_on_each_text_of_three_letters(self) -> None:
        with mock.patch.object(near, "LETTERS", "AB1"):
            texts = [
                "".join(it) for length in range(5) for it in itertools.product("AB1", repeat=length)
            ]
            for text in texts:
                self.assertEqual(
                    {it for it in texts if is_near(it, text)},
                    {it for it in neighbours(text) if len(it) < 5},
                    text,
                )


class WeighedBefore(unittest.TestCase):
    def near(self, *entries: tuple[str, str]) -> Near:
        made = Near()
        for kind, plate in entries:
            made.takes(kind, plate)
        return made

    def test_a_ticket_makes_a_plate_known_and_hyphens_do_not_count(self) -> None:
        made = self.near(
            ("single", "RA-KM-1237"),
            ("first", "RA-KM-1238"),
            ("second", "RA-KM-1238"),
            ("first", "RAKM-1236"),
        )
        self.assertEqual(["RAKM1237", "RAKM1238"], made.shown())

    def test_a_first_without_a_ticket_or_withdrawn_does_not(self) -> None:
        self.assertEqual(
            [],
            self.near(
                ("first", "RA-KM-1237"), ("void", "RA-KM-1237"), ("first", "RA-KM-1236")
            ).shown(),
        )
        self.assertEqual([], self.near(("first", "RA-KM-1237"), ("first", "RA-KM-1236")).shown())

    def test_only_near_ones_are_shown_and_none_without_a_vehicle_on_site(self) -> None:
        made = self.near(
            ("single", "RA-KM-1237"), ("single", "RA-KM-9999"), ("first", "RA-KM-1236")
        )
        self.assertEqual(["RAKM1237"], made.shown())
        made.takes("second", "RA-KM-1236")
        self.assertEqual([], made.shown())

    def test_one_that_is_weighed_meanwhile_is_shown_from_then_on(self) -> None:
        made = self.near(("first", "RA-KM-1236"))
        self.assertEqual([], made.shown())
        made.takes("single", "RA-KM-1237")
        made.takes("single", "RA-KM-9999")
        self.assertEqual(["RAKM1237"], made.shown())

    def test_it_is_bounded_and_the_newest_come_first(self) -> None:
        made = self.near(
            *(("single", f"A-{it}") for it in range(1000, 4000)),
            *(("first", f"B-{it}") for it in range(1000, 1100)),
            ("first", "A-2000"),
        )
        with mock.patch.multiple(near, MOST_TOLD=10, MOST_ON_SITE=2):
            told = made.shown()
        self.assertEqual((10, True), (len(told), all(is_near(it, "A2000") for it in told)))

    def test_a_fleet_of_running_numbers_takes_below_20_ms_for_each_entry(self) -> None:
        entries = [("single", f"RA-KM-{it}") for it in range(1000, 9999)] + [
            ("first", f"RA-KM-{it}") for it in range(1200, 1300)
        ]
        made = self.near(*entries)
        made.shown()
        began = time.process_time()
        for it in range(100):
            made.takes("single", f"RA-KX-{it}")
            made.shown()
        self.assertLess((time.process_time() - began) / 100, 0.02)


if __name__ == "__main__":
    unittest.main()
