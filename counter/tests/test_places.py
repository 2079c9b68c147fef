"""Tests which client gives way to a newcomer, when a client's time is over, and which lines the log has of clients."""

import random
import unittest

from weighbridge_counter.places import (
    ANSWERED_WITHIN,
    HEAD_WITHIN,
    MOST,
    MOST_LINES,
    MOST_REFUSED,
    SILENT_FOR,
    TAKEN_WITHIN,
    TAKES_SLOWLY,
    TOLD_AGAIN_AFTER,
    Client,
    Doing,
    Lines,
    Places,
)


class WhoGivesWay(unittest.TestCase):
    def setUp(self) -> None:
        self.places, self.now = Places(4, 2), 0.0

    def comes(self, address: str, doing: Doing = Doing.NOTHING) -> tuple[Client, Client | None]:
        """Return the newcomer, which does `doing` from then on, and the client that gave way to it."""
        self.now += 1
        newcomer = Client(address, self.now)
        gives_way = self.places.take(newcomer)
        newcomer.does(doing, self.now)
        return newcomer, gives_way

    def test_nobody_gives_way_while_there_is_a_place(self) -> None:
        for it in range(4):
            newcomer, gives_way = self.comes("A")
            self.assertEqual((None, False), (gives_way, newcomer.is_refused), it)
        self.assertEqual(4, self.places.count())

    def test_who_has_waited_longest_without_a_whole_request_gives_way(self) -> None:
        first, _ = self.comes("A", Doing.SENDING)
        second, _ = self.comes("A", Doing.SENDING_BODY)
        third, _ = self.comes("A")
        self.comes("A", Doing.ASKING)
        first.does(Doing.NOTHING, 50.0)  # its wait starts again
        for wanted in (second, third, first):
            newcomer, gives_way = self.comes("A", Doing.ASKING)
            self.assertIs(wanted, gives_way)
            self.assertFalse(newcomer.is_refused)
        self.assertEqual(4, self.places.count())

    def test_a_request_that_is_worked_on_never_gives_way(self) -> None:
        for _ in range(4):
            self.comes("A", Doing.ASKING)
        for address in ("A", "B"):
            newcomer, gives_way = self.comes(address)
            self.assertEqual((None, True), (gives_way, newcomer.is_refused))

    def test_an_address_with_many_makes_room_and_one_with_few_keeps_its_own(self) -> None:
        clerk, _ = self.comes("B")
        many = [self.comes("A")[0] for _ in range(3)]
        self.assertIs(many[0], self.comes("A")[1])
        self.assertIs(many[1], self.comes("C")[1])
        self.assertIn(clerk, self.places.clients)
        self.assertIs(many[2], self.comes("D")[1])

    def test_an_address_takes_no_place_from_one_that_has_fewer(self) -> None:
        self.comes("B")
        for _ in range(3):
            self.comes("A", Doing.ASKING)
        newcomer, gives_way = self.comes("A")
        self.assertEqual((None, True), (gives_way, newcomer.is_refused))

    def test_event_streams_of_one_address_keep_no_other_out(self) -> None:
        streams = [self.comes("A", Doing.LISTENING)[0] for _ in range(4)]
        self.assertIs(streams[3], self.comes("B", Doing.LISTENING)[1], "the newest")
        self.assertIs(streams[2], self.comes("C", Doing.LISTENING)[1])
        self.assertIs(streams[1], self.comes("D", Doing.ASKING)[1])
        self.assertTrue(self.comes("A", Doing.LISTENING)[0].is_refused)

    def test_slow_readers_of_one_address_keep_no_other_out(self) -> None:
        slow = [self.comes("A", Doing.TAKING)[0] for _ in range(4)]
        self.assertIs(slow[0], self.comes("B", Doing.LISTENING)[1], "the slowest, before a stream")
        self.assertTrue(self.comes("A")[0].is_refused)
        self.now += 10
        self.assertIs(slow[1], self.comes("C", Doing.ASKING)[1])

    def test_a_reader_has_two_seconds_before_it_gives_way(self) -> None:
        for _ in range(4):
            self.comes("A", Doing.ASKING)
        for it in self.places.clients:
            it.does(Doing.TAKING, self.now)
        self.now += TAKES_SLOWLY - 1
        self.assertTrue(self.comes("B")[0].is_refused)
        self.assertIsNotNone(self.comes("B")[1])

    def test_those_without_a_place_are_bounded_too(self) -> None:
        for _ in range(4):
            self.comes("A", Doing.ASKING)
        for _ in range(2):
            newcomer, gives_way = self.comes("A")
            self.assertEqual((None, True), (gives_way, newcomer.is_refused))
        newcomer, gives_way = self.comes("B")
        self.assertIs(newcomer, gives_way)
        self.assertNotIn(newcomer, self.places.clients)
        self.assertEqual((4, 6), (self.places.count(), len(self.places.clients)))

    def test_a_place_that_is_left_is_free(self) -> None:
        left, _ = self.comes("A", Doing.ASKING)
        for _ in range(3):
            self.comes("A", Doing.ASKING)
        self.places.leave(left)
        self.places.leave(left)
        newcomer, gives_way = self.comes("A", Doing.ASKING)
        self.assertEqual((None, False), (gives_way, newcomer.is_refused))
        self.assertTrue(self.comes("A")[0].is_refused)

    def test_random_clients_stay_within_the_bounds_and_each_address_gets_its_share(self) -> None:
        chance = random.Random(7)
        for _ in range(300):
            self.setUp()
            for _ in range(60):
                address = chance.choice("AAAAAAB")
                before = {it for it in self.places.clients if not it.is_refused}
                newcomer, gives_way = self.comes(address, chance.choice(list(Doing)))
                self.assertLessEqual(self.places.count(), 4)
                self.assertLessEqual(len(self.places.clients), 6)
                if gives_way is not None and gives_way is not newcomer:
                    held = sum(it.address == gives_way.address for it in before)
                    own = sum(it.address == address for it in before)
                    self.assertGreaterEqual(held, own)
                    self.assertIsNot(gives_way.doing, Doing.ASKING)
                if chance.random() < 0.3 and self.places.clients:
                    self.places.leave(chance.choice(list(self.places.clients)))

    def test_the_bounds_leave_descriptors_for_everything_else(self) -> None:
        # the unit has 1,024, less those of the terminal, the office, ten ports and displays with five clients each, files and the program's own
        self.assertLess(MOST + MOST_REFUSED, 1024 - 10 * 6 - 64)


class WhoseTimeIsOver(unittest.TestCase):
    def test_each_has_its_time_and_an_event_stream_has_no_end(self) -> None:
        places = Places()
        for doing, within in (
            (Doing.NOTHING, SILENT_FOR),
            (Doing.SENDING, HEAD_WITHIN),
            (Doing.SENDING_BODY, 5.0),
            (Doing.TAKING, TAKEN_WITHIN),
            (Doing.ASKING, None),
            (Doing.LISTENING, None),
        ):
            client = Client("A", 0.0)
            places.take(client)
            client.does(doing, 10.0)
            start = 0.0 if doing is Doing.NOTHING else 10.0
            self.assertEqual([], places.overdue(start + (within or 1e6)), doing)
            found = places.overdue(start + within + 0.1) if within else []
            self.assertEqual([client] if within else [], [it for it, _ in found], doing)
            places.leave(client)

    def test_who_goes_on_with_the_same_wins_no_time(self) -> None:
        client = Client("A", 0.0)
        for it in range(6):
            client.does(Doing.SENDING, float(it))
        self.assertIsNone(client.overdue(HEAD_WITHIN))
        self.assertIn("no whole head within 5 seconds", client.overdue(HEAD_WITHIN + 0.1) or "")

    def test_who_ended_its_half_is_waited_for_five_seconds(self) -> None:
        client = Client("A", 0.0)
        client.does(Doing.ASKING, 1.0)
        client.ended = 2.0
        self.assertIsNone(client.overdue(2.0 + ANSWERED_WITHIN))
        self.assertIn("ended its half", client.overdue(2.1 + ANSWERED_WITHIN) or "")

    def test_one_that_is_refused_waits_only_for_its_head(self) -> None:
        client = Client("A", 0.0, is_refused=True)
        self.assertIsNone(client.overdue(HEAD_WITHIN))
        self.assertIn(
            "it sent no request within 5 seconds", client.overdue(HEAD_WITHIN + 0.1) or ""
        )


class LinesOfClients(unittest.TestCase):
    def test_a_line_that_repeats_is_told_once_and_then_counted(self) -> None:
        lines = Lines()
        self.assertEqual(["A: x"], lines.put("A", "x", 0.0))
        for it in range(20000):
            self.assertEqual([], lines.put("A", "x", it / 1000))
        self.assertEqual(["B: x"], lines.put("B", "x", 30.0))
        self.assertEqual([], lines.end(TOLD_AGAIN_AFTER))
        self.assertEqual(["A: x: 20000 more in 60 seconds"], lines.end(TOLD_AGAIN_AFTER + 0.1))
        self.assertEqual([], lines.end(TOLD_AGAIN_AFTER + 0.2))
        self.assertEqual(["A: x"], lines.put("A", "x", TOLD_AGAIN_AFTER + 0.3))

    def test_a_line_after_the_minute_tells_what_repeated_before(self) -> None:
        lines = Lines()
        for it in (0.0, 1.0, 2.0):
            lines.put("A", "x", it)
        self.assertEqual(
            ["A: x: 2 more in 60 seconds", "A: y"], lines.put("A", "y", TOLD_AGAIN_AFTER + 1)
        )

    def test_different_lines_are_bounded_too(self) -> None:
        lines, told = Lines(), list[str]()
        for it in range(1000):
            told += lines.put(f"10.0.0.{it}", f"cause {it}", 1.0)
        self.assertEqual(MOST_LINES + 1, len(told))
        self.assertEqual("other addresses: other causes", told[-1])
        self.assertEqual(
            [f"other addresses: other causes: {999 - MOST_LINES} more in 60 seconds"],
            lines.end(TOLD_AGAIN_AFTER + 1.1),
        )


if __name__ == "__main__":
    unittest.main()
