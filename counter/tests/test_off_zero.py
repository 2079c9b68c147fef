"""An empty bridge that is off zero, and what it showed before the vehicle came. The test plays the clock."""

import tempfile
import unittest
from collections.abc import Callable
from pathlib import Path
from typing import Any

from weighbridge_counter.counter import Counter
from weighbridge_counter.off_zero import ANOTHER_MAY_COME, OffZero
from weighbridge_counter.pages import Page
from weighbridge_counter.setup import Setup
from weighbridge_counter.values import Value


class Played(unittest.TestCase):
    def setUp(self) -> None:
        self.at, self.bridge = 1000.0, OffZero(20)

    def shows(self, kg: int | None, seconds: float = 1.0, state: str = "S") -> dict[str, Any]:
        """Send ten readings a second for `seconds`, and nothing else. Return what the page shows."""
        for _ in range(round(seconds * 10)):
            self.at += 0.1
            self.bridge.saw(self.at, state, kg)
        return self.bridge.shown()


class TheEmptyBridge(Played):
    def test_after_five_seconds_off_zero_it_must_be_set_to_zero(self) -> None:
        self.assertIsNone(self.shows(160, 5.0)["kg"])
        self.assertEqual(160, self.shows(160, 0.2)["kg"])

    def test_one_interval_is_enough_also_below_zero(self) -> None:
        for kg in (20, -20, -380, 380):
            self.setUp()
            self.assertEqual(kg, self.shows(kg, 5.2)["kg"], kg)

    def test_zero_and_a_load_are_nothing_to_set(self) -> None:
        for kg in (0, 400, 9000):
            self.setUp()
            self.assertIsNone(self.shows(kg, 20)["kg"], kg)

    def test_it_follows_the_weight_and_goes_at_zero(self) -> None:
        self.shows(160, 6)
        self.assertEqual(180, self.shows(180, 0.1)["kg"])
        self.assertEqual(180, self.shows(60, 0.5, "D")["kg"], "while it moves it stays")
        self.assertIsNone(self.shows(0, 0.1)["kg"])
        self.assertIsNone(self.shows(160, 4.9)["kg"], "and begins anew")

    def test_five_seconds_are_stable_seconds_without_a_gap(self) -> None:
        for kg, state in ((160, "D"), (None, "I"), (0, "S"), (9000, "D"), (None, "-"), (None, "+")):
            self.setUp()
            self.shows(160, 3)
            self.shows(kg, 0.1, state)
            self.assertIsNone(self.shows(160, 3)["kg"], (kg, state))
        self.setUp()
        self.shows(160, 3)
        self.at += ANOTHER_MAY_COME + 1
        self.assertIsNone(self.shows(160, 3)["kg"], "nothing is known of a gap")

    def test_a_vehicle_that_drives_on_ends_it(self) -> None:
        self.shows(160, 6)
        self.assertIsNone(self.shows(9000, 0.1, "D")["kg"])


class WhatTheServiceRefuses(Played):
    def test_refused_zero_sends_for_the_operator_until_less_is_shown(self) -> None:
        self.shows(160, 6)
        self.bridge.answered("Z +")
        self.assertEqual(
            (160, True), (self.bridge.shown()["kg"], self.bridge.shown()["is_refused"])
        )
        self.assertTrue(self.shows(180)["is_refused"], "more is refused too")
        self.assertFalse(self.shows(100)["is_refused"], "less may not be")

    def test_refused_below_zero(self) -> None:
        self.shows(-160, 6)
        self.bridge.answered("Z -")
        self.assertTrue(self.shows(-180)["is_refused"])
        self.assertFalse(self.shows(-100)["is_refused"])
        self.assertFalse(self.shows(160)["is_refused"])

    def test_zero_that_was_set_and_a_start_end_it(self) -> None:
        either: tuple[Callable[[], None], ...] = (
            lambda: self.bridge.answered("Z A"),
            lambda: self.bridge.forget(),
        )
        for ends in either:
            self.setUp()
            self.shows(160, 6)
            self.bridge.answered("Z +")
            ends()
            self.assertEqual(
                (None, False), (self.bridge.shown()["kg"], self.bridge.shown()["is_refused"])
            )
            self.assertFalse(self.shows(160, 6)["is_refused"])

    def test_refused_under_a_vehicle_says_nothing_of_the_empty_bridge(self) -> None:
        self.shows(9000)
        self.bridge.answered("Z +")
        self.assertEqual(
            (160, False), (self.shows(160, 6)["kg"], self.bridge.shown()["is_refused"])
        )

    def test_a_bridge_that_moved_is_not_refused(self) -> None:
        self.shows(160, 6)
        self.bridge.answered("Z I")
        self.assertFalse(self.bridge.shown()["is_refused"])

    def test_an_answer_before_any_weight_is_no_fault(self) -> None:
        for reply in ("Z +", "Z -", "Z A", "Z I"):
            self.bridge.answered(reply)
        self.assertFalse(self.shows(20, 6)["is_refused"])


class BeforeTheVehicle(Played):
    def drives_on(self, kg: int = 9000) -> dict[str, Any]:
        self.shows(kg // 2, 0.5, "D")
        return self.shows(kg)

    def test_what_the_bridge_showed_is_kept_while_the_vehicle_is_on(self) -> None:
        self.shows(160)
        self.assertEqual(
            (160, True), (self.drives_on()["before"], self.shows(9000, 60)["is_doubtful"])
        )

    def test_five_intervals_are_doubtful_on_either_side_and_four_are_not(self) -> None:
        for kg, is_doubtful in ((100, True), (-100, True), (80, False), (-80, False), (0, False)):
            self.setUp()
            self.shows(kg)
            found = self.drives_on()
            self.assertEqual((kg, is_doubtful), (found["before"], found["is_doubtful"]))

    def test_a_weight_that_moves_is_none_before_the_vehicle(self) -> None:
        self.shows(0)
        self.shows(240, 2, "D")
        self.assertEqual(
            (0, False), (self.drives_on()["before"], self.bridge.shown()["is_doubtful"])
        )

    def test_an_empty_bridge_is_before_no_vehicle(self) -> None:
        self.assertEqual(
            (None, False), (self.shows(160)["before"], self.bridge.shown()["is_doubtful"])
        )
        self.drives_on()
        self.assertEqual(
            (None, False), (self.shows(0)["before"], self.bridge.shown()["is_doubtful"])
        )

    def test_far_below_zero_counts_with_twenty_intervals(self) -> None:
        self.shows(None, 1, "-")
        self.assertEqual(
            (-400, True), (self.drives_on()["before"], self.bridge.shown()["is_doubtful"])
        )

    def test_what_was_before_this_program_or_a_gap_is_not_known(self) -> None:
        self.assertEqual(
            (None, True), (self.drives_on()["before"], self.bridge.shown()["is_doubtful"])
        )
        self.setUp()
        self.shows(0)
        self.at += ANOTHER_MAY_COME + 1
        self.assertEqual(
            (None, True), (self.drives_on()["before"], self.bridge.shown()["is_doubtful"])
        )

    def test_a_short_gap_lets_no_other_vehicle_come(self) -> None:
        self.shows(0)
        self.drives_on()
        self.at += ANOTHER_MAY_COME - 1
        self.assertFalse(self.shows(9000)["is_doubtful"])

    def test_a_tare_that_is_not_known_for_a_moment_changes_nothing(self) -> None:
        self.shows(160)
        self.drives_on()
        self.assertTrue(self.shows(None, 3)["is_doubtful"])

    def test_too_heavy_is_a_vehicle_too(self) -> None:
        self.shows(160)
        self.assertEqual(
            (160, True), (self.shows(None, 1, "+")["before"], self.bridge.shown()["is_doubtful"])
        )

    def test_a_start_of_the_service_forgets_it(self) -> None:
        self.shows(0)
        self.bridge.forget()
        self.assertTrue(self.drives_on()["is_doubtful"])
        self.shows(0)
        self.assertFalse(self.drives_on()["is_doubtful"])


class AtTheCounter(unittest.TestCase):
    """The counter informs its pages before it sends the weight, and after a zero of any client."""

    def setUp(self) -> None:
        folder = tempfile.TemporaryDirectory()
        self.addCleanup(folder.cleanup)
        self.counter, self.page, self.at = (
            Counter(Setup(Path(folder.name), interval=10)),
            Page([], lambda: None),
            1000.0,
        )
        self.counter.pages.open.add(self.page)
        self.counter.terminal.fanout.link, self.counter.terminal.fanout.tare = "up", 0

    def shows(self, kg: int, seconds: float = 1.0) -> dict[str, Any]:
        fanout = self.counter.terminal.fanout
        for _ in range(round(seconds * 10)):
            self.at += 0.1
            fanout.value = Value("S", kg, self.at)
            self.counter._take_value(fanout.value)
        shown: dict[str, Any] = self.counter.state()["off_zero"]
        return shown

    def test_e_is_that_of_the_setup(self) -> None:
        self.assertEqual(10, self.shows(10, 6)["kg"])
        self.assertEqual(
            (190, True),
            (
                self.shows(190) and self.shows(200)["before"],
                self.counter.state()["off_zero"]["is_doubtful"],
            ),
        )

    def test_no_page_has_a_vehicle_s_weight_before_what_the_bridge_showed(self) -> None:
        self.shows(160)
        self.page.frames.clear()
        self.shows(9000, 0.1)
        told = b"".join(self.page.frames) + self.page.weight
        self.assertTrue(
            0 <= told.index(b'"before":160,"is_doubtful":true') < told.index(b'"net":9000')
        )

    def test_what_the_page_got_once_is_not_sent_again(self) -> None:
        self.shows(160, 10)
        self.page.frames.clear()
        self.shows(160, 10)
        self.assertEqual([], list(self.page.frames))

    def test_a_zero_that_is_refused_counts_whoever_asked_for_it(self) -> None:
        self.shows(160, 6)
        self.counter.terminal.fanout._learn("Z +")
        self.assertEqual(
            (True, False),
            (self.counter.state()["off_zero"]["is_refused"], self.counter.zero.is_set),
        )
        self.counter.terminal.fanout._learn("Z A")
        self.assertEqual(
            (None, True), (self.counter.state()["off_zero"]["kg"], self.counter.zero.is_set)
        )


if __name__ == "__main__":
    unittest.main()
