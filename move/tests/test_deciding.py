"""Shows over every small case that a number is never given twice, by a statement of the rule that shares nothing with the program."""

import itertools
import unittest
from datetime import timedelta

from tests.played import NIGHT, NOW
from weighbridge_move.copied import Copied
from weighbridge_move.deciding import BEGIN, CONTINUE, Asked, Seen, faults_of, next_serial
from weighbridge_move.editing import Plate
from weighbridge_move.entries import Entry, Journal
from weighbridge_move.finding import Found, contradicting
from weighbridge_night.keep import DOUBTFUL, SOUND, Copy

PLATE = Plate("WB01", 20, 60_000)


def entry(number: int, serial: str = "WB01") -> Entry:
    return Entry(number, "first", "A", NIGHT, "20", 20, 60_000, serial)


def seen_of(newest: int, greatest: int, other: Copy | None = None) -> Seen:
    """Return what is found of a copy with this newest entry, whose witness names the greatest number, and of another copy."""
    journal = Journal(1, entry(newest), [], {"WB01"}) if newest else Journal()
    copied = Copied("/copy", entries=journal.count, journal=journal, greatest=greatest)
    copied.is_whole = True
    own = Copy(NIGHT, SOUND, newest, 1)
    found = Found("/", [own] if other is None else [own, other], own)
    seen = Seen(NOW, True, own, copied, plate=PLATE)
    seen.contradicting = contradicting(found, greatest)
    return seen


class ContinueTest(unittest.TestCase):
    def test_every_small_case(self) -> None:
        allowed = 0
        for newest, more, last, statement in itertools.product(
            range(4), range(3), [None, *range(6)], [False, True]
        ):
            greatest = newest + more
            for shift, number in itertools.product([None, -1, 1], range(6)):
                other = None
                if shift is not None:
                    verdict = [DOUBTFUL, SOUND][last == 1]
                    other = Copy(NIGHT + timedelta(hours=shift), verdict, number, 1)
                asked = Asked(CONTINUE, "/", last, statement)
                faults = faults_of(asked, seen_of(newest, greatest, other), False)
                # the next number is above all that anybody knows, and nobody doubts that
                next_number = greatest + 1
                is_safe = statement and last is not None and last < next_number
                if other is not None:
                    is_safe &= number < next_number
                    # a later copy that doesn't show its number may have any
                    is_safe &= not (shift == 1 and number == 0)
                if not faults:
                    allowed += 1
                    self.assertTrue(is_safe, (newest, greatest, last, statement, other))
                    # the operator knows the copy's own number, so it isn't a number of another bridge
                    self.assertEqual(last, greatest)
        self.assertGreater(allowed, 100)

    def test_the_right_case_is_allowed(self) -> None:
        for newest, more in itertools.product(range(4), range(3)):
            asked = Asked(CONTINUE, "/", newest + more, True)
            self.assertEqual(faults_of(asked, seen_of(newest, newest + more), False), [])


class BeginTest(unittest.TestCase):
    def test_every_serial_that_is_known(self) -> None:
        seen = seen_of(3, 3)
        seen.copied.journal.serials = {"WB01", "OLD1"}
        seen.used = {"NORTH", "wb05"}
        for serial in ("WB01", "OLD1", "NORTH", "WB05", "DEMO"):
            faults = faults_of(Asked(BEGIN, "/", 3, serial=serial), seen, False)
            self.assertEqual(len(faults), 1, serial)
            self.assertIn("it was used before", faults[0])
        self.assertEqual(faults_of(Asked(BEGIN, "/", 3, serial="WB02"), seen, False), [])

    def test_the_serial_that_is_offered_is_free(self) -> None:
        seen = seen_of(3, 3)
        for _ in range(25):
            serial = next_serial(seen)
            self.assertEqual(faults_of(Asked(BEGIN, "/", 3, serial=serial), seen, False), [])
            seen.used.add(serial.lower())
        self.assertEqual(next_serial(seen), "")
        long = seen_of(3, 3)
        long.plate = Plate("W" * 16, 20, 60_000)
        self.assertEqual(next_serial(long), "W" * 15 + "B")


if __name__ == "__main__":
    unittest.main()
