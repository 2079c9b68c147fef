"""Shows when the alarm reports a fault: once at the start, daily while it lasts, once at the end, whatever the clock does."""

import unittest
from datetime import datetime, time, timedelta, timezone

from tests.played import AlarmCase, receiver
from weighbridge_alarm.due import Times, is_quiet
from weighbridge_alarm.faults import fault
from weighbridge_alarm.state import State
from weighbridge_alarm.watch import Tick, watch


class BeginTest(AlarmCase):
    def test_nothing_is_wrong(self) -> None:
        self.assertTrue(self.look(2000))
        self.assertEqual(self.taken(), [])

    def test_a_restart_that_heals_in_a_minute_is_never_told(self) -> None:
        self.look(3)
        self.world.faults = ["terminal", "weight", "office"]
        self.look(3)
        self.world.faults = []
        self.look(10)
        self.assertEqual(self.taken(), [])

    def test_once_at_the_start_and_once_at_the_end(self) -> None:
        self.world.faults = ["zero"]
        self.look(3)
        self.assertEqual(self.taken(), [])
        self.look(1)
        self.assertEqual(self.events(), ["zero began"])
        self.look(60)
        self.assertEqual(len(self.taken()), 1)
        self.world.faults = []
        self.look(3)
        self.assertEqual(len(self.taken()), 1)
        self.look(100)
        self.assertEqual(self.events(), ["zero began", "zero ended"])
        self.assertIn("Over: Zero isn't set", self.taken()[1].subject)

    def test_a_short_absence_is_no_end(self) -> None:
        self.world.faults = ["zero"]
        self.look(4)
        for _ in range(30):
            self.world.faults = []
            self.look(2)
            self.world.faults = ["zero"]
            self.look(1)
        self.assertEqual(self.events(), ["zero began"])

    def test_absences_are_not_added_up(self) -> None:
        self.world.faults = ["zero"]
        self.look(4)
        for _ in range(5):
            self.world.faults = []
            self.look(3)
            self.world.faults = ["zero"]
            self.look(2)
        self.assertEqual(self.events(), ["zero began"])

    def test_sightings_are_not_added_up(self) -> None:
        for _ in range(20):
            self.world.faults = ["zero"]
            self.look(2)
            self.world.faults = []
            self.look(1)
        self.assertEqual(self.taken(), [])

    def test_two_looks_with_a_long_gap_are_no_proof(self) -> None:
        self.world.faults = ["zero"]
        self.look(1)
        self.later(3600)
        self.look(1)
        self.assertEqual(self.taken(), [])
        self.look(1)
        self.assertEqual(self.events(), ["zero began"])

    def test_one_message_has_all_that_began_and_ended(self) -> None:
        self.world.faults = ["zero"]
        self.look(4)
        self.world.faults = ["papers", "lists"]
        self.look(4)
        self.assertEqual(len(self.taken()), 2)
        self.assertEqual(
            sorted(self.events()), ["lists began", "papers began", "zero began", "zero ended"]
        )

    def test_the_details_are_the_newest(self) -> None:
        self.world.faults, self.world.more = ["terminal"], {"state": {"link": "down"}}
        self.look(2)
        self.world.more = {"state": {"link": "waits"}}
        self.look(3)
        self.assertIn("another program holds the terminal", self.taken()[0].mail)


class DailyTest(AlarmCase):
    def test_daily_at_the_hour_while_it_lasts(self) -> None:
        self.world.faults = ["zero"]  # 10:00 in Berlin
        self.look(4)
        self.forget()
        for day in (1, 2, 3):
            self.look(1440)
            self.assertEqual(self.events(), ["zero lasts"] * day)
        sent = {it.hook["at"][11:16] for it in self.taken()}
        self.assertEqual(sent, {"06:00"})  # 7:00 in Berlin
        self.assertIn("Still wrong: Zero isn't set", self.taken()[0].subject)

    def test_what_was_told_shortly_before_the_hour_waits_a_day(self) -> None:
        self.later(20 * 3600 + 1800)  # 6:30
        self.world.faults = ["zero"]
        self.look(6 * 60)
        self.assertEqual(self.events(), ["zero began"])
        self.look(1440)
        self.assertEqual(self.events(), ["zero began", "zero lasts"])

    def test_a_message_for_another_fault_has_all_that_lasts(self) -> None:
        self.world.faults = ["zero"]
        self.look(4)
        self.world.faults = ["zero", "papers"]
        self.look(4)
        self.assertEqual(sorted(self.events()[1:]), ["papers began", "zero lasts"])


class ClockTest(AlarmCase):
    def begin(self) -> None:
        self.look(3)
        self.world.faults = ["zero"]
        self.look(4)
        self.assertEqual(self.events(), ["zero began"])
        self.forget()

    def test_a_clock_that_goes_back_a_month_silences_nothing(self) -> None:
        self.begin()
        self.world.now -= timedelta(days=30)
        self.look(3 * 1440)
        self.assertEqual(self.events().count("zero lasts"), 3)

    def test_a_clock_that_was_ahead_is_not_remembered(self) -> None:
        self.begin()
        self.world.now += timedelta(days=30_000)
        self.look(10)
        self.forget()
        self.world.now -= timedelta(days=30_000)
        self.look(2 * 1440)
        self.assertEqual(self.events().count("zero lasts"), 2)
        since = self.state().known["zero"].since
        self.assertLess(
            abs(since - datetime(2026, 11, 30, 9, 3, tzinfo=timezone.utc)), timedelta(minutes=2)
        )

    def test_a_jump_neither_begins_nor_ends_a_fault(self) -> None:
        self.world.faults = ["zero"]
        self.look(1)
        self.world.now += timedelta(days=30)
        self.look(1)
        self.assertEqual(self.taken(), [])
        self.look(2)
        self.world.faults = []
        self.look(1)
        self.world.now += timedelta(days=30)
        self.look(1)
        self.assertEqual([it for it in self.events() if it.startswith("zero")], ["zero began"])

    def test_a_start_with_a_dead_battery(self) -> None:
        self.begin()
        right = self.world.now
        self.world.now, self.world.boot = datetime(1970, 1, 1, tzinfo=timezone.utc), "second"
        self.world.uptime = 20.0
        self.look(5)
        self.world.now = right + timedelta(minutes=10)
        self.forget()
        self.look(2 * 1440)
        daily = [it for it in self.taken() if it.subject.startswith("WB01: Still wrong")]
        self.assertEqual(len(daily), 2)
        age = self.world.now - self.state().known["zero"].since
        self.assertLess(abs(age - timedelta(days=2)), timedelta(hours=1))

    def test_a_start_with_a_clock_far_ahead(self) -> None:
        self.begin()
        right = self.world.now
        self.world.now, self.world.boot = datetime(2099, 1, 1, tzinfo=timezone.utc), "second"
        self.look(5)
        self.world.now = right + timedelta(minutes=10)
        self.look(5)
        since = self.state().known["zero"].since
        self.assertLess(right - since, timedelta(days=32))

    def test_moments_after_now_are_brought_back(self) -> None:
        now = datetime(2026, 11, 30, tzinfo=timezone.utc)
        state = State(now + timedelta(days=9))
        watch(state, [fault("zero")], Tick(now, 1.0, "x"), 0.0, ["owner"])
        state.receivers["owner"].told["zero"] = now + timedelta(days=9)
        watch(state, [fault("zero")], Tick(now, 2.0, "x"), 0.0, ["owner"])
        self.assertEqual((state.first, state.receivers["owner"].told["zero"]), (now, now))


class BoundTest(AlarmCase):
    def flap(self, hours: int) -> None:
        for _ in range(hours * 6):
            self.world.faults = ["zero"]
            self.look(5)
            self.world.faults = []
            self.look(5)

    def test_a_flapping_fault_sends_so_many_a_day(self) -> None:
        self.flap(24)
        self.assertEqual(len(self.taken()), 20)
        self.assertIn("This is the last message for a day", self.taken()[-1].mail)
        self.assertTrue(all("last message for" not in it.mail for it in self.taken()[:-1]))
        self.flap(24)
        self.assertEqual(len(self.taken()), 40)

    def test_after_the_silence_all_is_told(self) -> None:
        self.flap(6)
        self.world.faults = ["papers"]
        self.look(60)
        self.assertNotIn("papers began", self.events())
        self.look(24 * 60)
        self.assertIn("papers began", self.events())

    def test_a_flapping_printer_hides_no_service_that_is_down(self) -> None:
        self.flap(6)
        self.assertEqual(len(self.taken()), 20)
        self.world.faults = ["weight"]
        self.look(5)
        self.assertIn("weight began", self.events())
        for _ in range(60):
            self.world.faults = []
            self.look(5)
            self.world.faults = ["weight"]
            self.look(5)
        self.assertEqual(len(self.taken()), 40)
        self.assertIn("This is the last message for a day", self.taken()[-1].mail)

    def test_quiet_hours(self) -> None:
        self.receivers = [
            receiver(times=Times(time(7), 20, (time(21), time(7)))),
            receiver("other"),
        ]
        self.later(12 * 3600)  # 22:00
        self.world.faults = ["zero"]
        self.look(10)
        self.world.faults = ["papers"]
        self.look(10)
        self.assertEqual(self.events(), [])
        self.assertEqual(len(self.taken("other")), 2)
        self.look(10 * 60)
        # the message has what came and went in the night
        self.assertEqual(sorted(self.events()), ["papers began", "zero ended"])
        self.assertEqual(self.taken()[0].hook["at"][11:16], "06:00")

    def test_hours_of_silence(self) -> None:
        for quiet, silent, loud in (
            ((time(21), time(7)), (21, 23, 0, 6), (7, 12, 20)),
            ((time(1), time(5)), (1, 4), (0, 5, 23)),
        ):
            for it in range(24):
                at = datetime(2026, 1, 1, it)
                if it in silent + loud:
                    self.assertEqual(is_quiet(at, quiet), it in silent, (quiet, it))
        self.assertFalse(is_quiet(datetime(2026, 1, 1), None))


if __name__ == "__main__":
    unittest.main()
