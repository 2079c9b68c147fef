"""Shows which copies stay, over years of nights."""

import random
import time
import unittest
from datetime import datetime, timedelta, timezone

from tests import played  # noqa: F401  finds the package
from weighbridge_night.keep import Copy, copies_of, copy_of, newest_sound, ranks, surplus

BEGIN = datetime(2026, 1, 1, 2, 30, tzinfo=timezone.utc)
MUCH = 10**15


def copy(days: float, verdict: str = "sound", size: int = 10) -> Copy:
    return Copy(BEGIN + timedelta(days=days), verdict, 5, size)


class NamesTest(unittest.TestCase):
    def test_a_name_has_all_that_the_rule_asks(self) -> None:
        it = copy_of("2026-11-30T020314Z_sound_124_10485760")
        assert it is not None
        self.assertEqual((it.verdict, it.newest, it.size), ("sound", 124, 10485760))
        self.assertEqual(it.name, "2026-11-30T020314Z_sound_124_10485760")

    def test_other_names_are_nobodys(self) -> None:
        others = [
            "",
            "2026-11-30",
            "notes.txt",
            ".new-2026-11-30T020314Z_sound_124_10",
            "2026-13-30T020314Z_sound_124_10",
            "2026-11-30T020314Z_sound_0124_10",
            "2026-11-30T020314Z_good_124_10",
            "2026-11-30T020314Z_sound_124_10.tar",
        ]
        self.assertEqual(copies_of(others), [])


class RuleTest(unittest.TestCase):
    def test_seven_days_five_weeks_twelve_months_ten_years(self) -> None:
        nights = [copy(it) for it in range(4020)]  # until 2037-01-02
        found = ranks(nights)
        self.assertEqual(len([it for it in found if it.moment >= nights[-7].moment]), 7)
        years = sorted({it.moment.year for it in found if found[it] == 4})
        self.assertEqual(years, list(range(2028, 2038)))
        self.assertTrue(
            all(
                (it.moment.month, it.moment.day) == (12, 31)
                for it in found
                if found[it] == 4 and it.moment.year < 2037
            )
        )
        months = {(it.moment.year, it.moment.month) for it in found}
        self.assertTrue({(2036, it) for it in range(2, 13)} <= months)
        weeks = {it.moment.isocalendar()[:2] for it in found}
        for back in range(5):
            self.assertIn((nights[-1].moment - timedelta(weeks=back)).isocalendar()[:2], weeks)
        self.assertLessEqual(len(found), 34)

    def test_eleven_years_of_nights_keep_what_one_look_would(self) -> None:
        """Removing each night leaves what removing once at the end would leave, whatever nights were missed."""
        for seed in range(4):
            chance = random.Random(seed)
            missed = [0, 0.1, 0.5, 0.97][seed]
            nights = [
                copy(it + chance.random() / 3, chance.choices(["sound", "doubtful"], [9, 1])[0])
                for it in range(4020)
                if chance.random() >= missed
            ]
            kept: list[Copy] = []
            for it in nights:
                kept.append(it)
                newest = newest_sound(kept)
                gone = {*surplus(kept, MUCH)}
                self.assertNotIn(newest, gone)
                kept = [one for one in kept if one not in gone]
                self.assertLessEqual(len(kept), 34 + 7)
            at_once = {*nights} - {*surplus(nights, MUCH)}
            self.assertEqual({*kept}, at_once, seed)

    def test_what_stays_stays(self) -> None:
        for seed in range(30):
            chance = random.Random(seed)
            some = [copy(chance.uniform(0, 4000), size=chance.randint(1, 99)) for _ in range(200)]
            kept = sorted({*some} - {*surplus(some, MUCH)})
            self.assertEqual(surplus(kept, MUCH), [])
            most = chance.randint(1, 3000)
            few = sorted({*some} - {*surplus(some, most)})
            self.assertEqual(surplus(few, most), [])
            self.assertIn(newest_sound(some), few)
            self.assertTrue(sum(it.size for it in few) <= most or few == [newest_sound(some)])

    def test_the_oldest_of_the_finest_tier_goes_first(self) -> None:
        nights = [copy(it) for it in range(800)]
        kept = sorted(ranks(nights), key=lambda it: it.moment)
        rank = ranks(nights)
        gone = [it for it in surplus(nights, 10 * (len(kept) - 4)) if it in rank]
        self.assertEqual(gone, sorted(gone, key=lambda it: (rank[it], it.moment)))
        self.assertEqual([rank[it] for it in gone], sorted(rank[it] for it in kept)[:4])
        self.assertNotIn(kept[-1], gone)

    def test_the_newest_sound_copy_stays_even_if_it_is_too_large(self) -> None:
        sound, doubtful = copy(1, size=500), copy(2, "doubtful", size=500)
        self.assertEqual(surplus([copy(0), sound, doubtful], 100), [copy(0), doubtful][::-1])

    def test_doubtful_copies_push_no_sound_one_out(self) -> None:
        sound = [copy(it) for it in range(7)]
        doubtful = [copy(it, "doubtful") for it in range(7, 60)]
        gone = surplus([*sound, *doubtful], MUCH)
        self.assertEqual(gone, doubtful[:-7])

    def test_a_clock_that_jumps_makes_nothing_too_old(self) -> None:
        sound = [copy(it) for it in range(7)]
        ahead = copy(365 * 70)
        self.assertEqual(surplus([*sound, ahead], MUCH), sound[:1])

    def test_two_copies_of_a_day_leave_the_newer(self) -> None:
        morning, evening = copy(0), copy(0.5)
        self.assertEqual(surplus([morning, evening], MUCH), [morning])

    def test_ten_years_of_copies_take_linear_time(self) -> None:
        def took(count: int) -> float:
            nights = [copy(it / 10) for it in range(count)]
            begun = time.process_time()
            surplus(nights, MUCH)
            return time.process_time() - begun

        few = min(took(4_000) for _ in range(3))
        self.assertLess(took(40_000), 25 * few + 0.2)


if __name__ == "__main__":
    unittest.main()
