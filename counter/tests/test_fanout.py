"""The fan-out's rules, over a terminal and a clock that are played: nothing here waits for real time."""

import random
import unittest
from functools import partial

from weighbridge_counter.fanout import PATIENCE, REPEAT_AFTER, REPLY_WITHIN
from weighbridge_counter.values import reply_of, value_of

from .played import Asker, PlayedTerminal

REPLIES = {
    "TA": r"TA A +\d+ kg",
    "TAC": "TAC A",
    "TA 4000 kg": r"TA A +4000 kg",
    "TA 6000 kg": r"TA A +6000 kg",
    "I4": 'I4 A "WB01"',
    "Z": "Z [AI]",
    "T": r"T (?:S +\d+ kg|I)",
    "XX": "ES",
}


def up(period: float = 0.1, **how: bool) -> PlayedTerminal:
    played = PlayedTerminal(period, **how)
    reconnect(played)
    return played


def reconnect(played: PlayedTerminal) -> None:
    """Begin a new connection of which everything is known."""
    played.connect()
    played.reading(3)
    played.fanout.settle()


class Values(unittest.TestCase):
    def test_a_value_is_written_as_it_was_read(self) -> None:
        for line in (
            "S S      18340 kg",
            "S D        -20 kg",
            "S I",
            "S +",
            "S -",
            "S S 12345678901 kg",
        ):
            self.assertEqual(line, reply_of(value_of(line, 1.0)))

    def test_no_reply_is_taken_for_a_value(self) -> None:
        for line in (
            "TA A      18340 kg",
            "T S      18340 kg",
            "Z A",
            "Z +",
            "T -",
            "ES",
            'I4 A "S S"',
            "S S 18340 t",
            "S S",
            "",
            "S S      18340 kg ",
        ):
            self.assertIsNone(value_of(line, 1.0))


class Sending(unittest.TestCase):
    def test_a_new_connection_asks_for_values_alone(self) -> None:
        played = PlayedTerminal()
        played.connect()
        self.assertEqual(["SIR"], played.sent)
        asker = Asker(played.fanout, "TAC")
        played.pass_time(0.3)
        self.assertEqual(["SIR"], played.sent)
        played.reading(3)
        self.assertEqual(["SIR"], played.sent)
        played.fanout.settle()
        played.reading(1)
        self.assertEqual("answered", asker.outcome)

    def test_a_command_that_waited_over_a_standstill_never_goes_out(self) -> None:
        played = PlayedTerminal()
        played.connect()
        asker = Asker(played.fanout, "Z")
        played.clock.now += 60  # without a tick, because the program stood still
        played.fanout.received(played.value())
        played.fanout.settle()
        self.assertEqual(["SIR"], played.sent)
        played.pass_time(0.1)
        self.assertEqual("not_sent", asker.outcome)

    def test_who_settles_a_new_connection_asks_before_the_others(self) -> None:
        played = PlayedTerminal()
        played.connect()
        till = Asker(played.fanout, "TA 5000 kg", patience=0.5)
        looks: list[bool] = []
        said: list[str] = []
        played.fanout.take_turn(looks.append, 5.0, first=True, may_settle=True)
        played.reading(8)
        self.assertEqual((["SIR"], "not_sent", [True]), (played.sent, till.outcome, looks))
        assert played.fanout.holder is not None
        played.fanout.ask(played.fanout.holder, "TA", lambda outcome, lines: said.extend(lines))
        played.reading(2)
        self.assertEqual(["TA A          0 kg"], said)

    def test_a_command_goes_out_right_behind_a_value_alone(self) -> None:
        played = up()
        played.pass_time(0.3)
        asker = Asker(played.fanout, "TAC")
        self.assertNotIn("TAC", played.sent)
        played.serve()
        self.assertIn("TAC", played.sent)
        played.reading()
        self.assertEqual(("answered", ("TAC A",)), (asker.outcome, asker.lines))

    def test_what_can_not_go_out_in_time_is_never_sent(self) -> None:
        played = up()
        played.pass_time(0.3)
        asker = Asker(played.fanout, "TA 5000 kg")
        played.pass_time(PATIENCE + 0.1)
        self.assertEqual("not_sent", asker.outcome)
        played.reading(5)
        self.assertEqual(0, played.tare)
        self.assertNotIn("TA 5000 kg", played.sent)

    def test_one_that_waits_behind_others_is_dropped_in_time(self) -> None:
        played = up()
        turn = played.fanout.take_turn(lambda is_granted: None)
        asker = Asker(played.fanout, "TA 5000 kg")
        played.reading(11)
        self.assertEqual("not_sent", asker.outcome)
        played.fanout.give_back(turn)
        played.reading(3)
        self.assertNotIn("TA 5000 kg", played.sent)

    def test_one_turn_after_the_other(self) -> None:
        played = up()
        order: list[str] = []
        askers = [Asker(played.fanout, line) for line in ("TA 100 kg", "TA", "TAC", "TA")]
        for it in askers:
            it.then = partial(lambda asker: order.append(asker.lines[0].split()[0]), it)
        played.reading(9)
        self.assertEqual(["TA", "TA", "TAC", "TA"], order)
        self.assertEqual(["answered"] * 4, [it.outcome for it in askers])
        self.assertEqual("TA A        100 kg", askers[1].lines[0])

    def test_it_says_something_before_a_minute_is_over(self) -> None:
        played = up()
        played.reading(int(3 * REPEAT_AFTER / played.period))
        self.assertGreaterEqual(played.sent.count("SIR"), 3)
        self.assertEqual(0, played.resets)


class CallingBack(unittest.TestCase):
    """The service stands still while a command lies before it."""

    def held(self, line: str, seconds: float, **how: bool) -> tuple[PlayedTerminal, str]:
        played = up(**how)
        played.serve()
        asker = Asker(played.fanout, line)
        self.assertIn(line, played.sent)
        played.pass_time(seconds)
        outcome = asker.outcome
        played.serve()
        return played, outcome

    def test_nothing_acts_after_its_sender_was_refused(self) -> None:
        for line in ("TA 5000 kg", "TAC", "Z", "T"):
            for seconds in (1.1, 1.6, 3.5):
                played, outcome = self.held(line, seconds)
                self.assertEqual(
                    ("unanswered", [], 1), (outcome, played.done, played.resets), (line, seconds)
                )

    def test_a_copy_without_the_reset_fails(self) -> None:
        played, outcome = self.held("TA 5000 kg", 1.6, is_reset=False)
        self.assertEqual(("unanswered", ["TA 5000 kg"]), (outcome, played.done))

    def test_what_is_answered_in_time_is_not_called_back(self) -> None:
        played, outcome = self.held("TA 5000 kg", REPLY_WITHIN - 0.1)
        self.assertEqual((["TA 5000 kg"], 0), (played.done, played.resets))

    def test_a_silent_converter_is_waited_for(self) -> None:
        played = up()
        played.state = "I"
        for _ in range(3):
            played.pass_time(1.0)
            played.serve()
        asker = Asker(played.fanout, "TAC")
        played.pass_time(1.0)
        played.serve()
        self.assertEqual(("answered", 0), (asker.outcome, played.resets))

    def test_the_tare_before_is_remembered(self) -> None:
        played = up()
        Asker(played.fanout, "TA")
        played.reading(2)
        asker = Asker(played.fanout, "TA 5000 kg")
        played.pass_time(1.2)
        self.assertEqual(
            ("unanswered", 0, None),
            (asker.outcome, played.fanout.doubtful_tare, played.fanout.tare),
        )

    def test_it_is_remembered_too_where_the_connection_was_cut(self) -> None:
        for cut in ("ended", "reset"):
            played = up()
            Asker(played.fanout, "TA")
            played.reading(2)
            Asker(played.fanout, "TA 5000 kg")
            getattr(played.fanout, cut)()
            self.assertEqual((0, None), (played.fanout.doubtful_tare, played.fanout.tare), cut)

    def test_who_leaves_his_turn_leaves_no_reply_to_the_next(self) -> None:
        played = up()
        asker = Asker(played.fanout, "TA 5000 kg")
        assert asker.turn is not None
        played.fanout.give_back(asker.turn)
        self.assertEqual(1, played.resets)
        self.assertEqual("down", played.fanout.link)

    def test_a_reply_that_nobody_asked_for_ends_the_connection(self) -> None:
        played = up()
        played.fanout.received("TAC A")
        self.assertEqual(1, played.resets)

    def test_a_cut_connection_tells_who_waits(self) -> None:
        played = up()
        asker = Asker(played.fanout, "TAC")
        played.fanout.ended()
        self.assertEqual(("unanswered", "down"), (asker.outcome, played.fanout.link))


class Waiting(unittest.TestCase):
    def test_a_zero_waits_until_it_stands_still(self) -> None:
        played = up()
        played.state = "D"
        asker = Asker(played.fanout, "Z")
        played.reading(15)
        self.assertEqual(((), 0), (asker.lines, played.resets))
        played.state = "S"
        played.reading(1)
        self.assertEqual(("answered", ("Z A",)), (asker.outcome, asker.lines))

    def test_a_line_behind_it_ends_its_waiting_after_some_readings(self) -> None:
        played = up()
        played.state = "D"
        asker = Asker(played.fanout, "T")
        played.reading(1)
        assert asker.question is not None
        played.fanout.hurry(asker.question)
        following = Asker(played.fanout, "I4")
        played.reading(6)
        self.assertEqual(("T I",), asker.lines)
        self.assertEqual(('I4 A "WB01"',), following.lines)
        self.assertEqual((0, 0), (played.fanout.swallow, played.resets))

    def test_one_that_is_hurried_before_it_is_sent_is_sent(self) -> None:
        played = up()
        played.pass_time(0.3)
        asker = Asker(played.fanout, "Z")
        assert asker.question is not None
        played.fanout.hurry(asker.question)
        played.serve()
        played.reading(1)
        self.assertEqual(("Z A",), asker.lines)

    def test_a_swallowed_reply_that_does_not_come_ends_the_connection(self) -> None:
        played = up()
        played.state = "D"
        asker = Asker(played.fanout, "Z")
        played.reading(1)
        assert asker.question is not None
        played.fanout.hurry(asker.question)
        played.reading(2)
        self.assertEqual((1, ["I4"]), (played.fanout.swallow, played.lines))
        played.fanout.received("Z I")
        played.lines.clear()
        played.pass_time(2.0)
        self.assertEqual(("answered", 1), (asker.outcome, played.resets))


class ManyAtOnce(unittest.TestCase):
    def test_each_reply_goes_to_its_question(self) -> None:
        rng = random.Random(7)
        for period in (0.1, 0.02, 0.5):
            played, asked = up(period), []
            for _ in range(1500):
                for _ in range(rng.randrange(3)):
                    asked.append(Asker(played.fanout, rng.choice(list(REPLIES))))
                if rng.random() < 0.3 and asked[-1:] and asked[-1].question is not None:
                    played.fanout.hurry(asked[-1].question)
                played.state = rng.choice("SSSDI")
                if rng.random() < 0.02:
                    played.pass_time(rng.uniform(0.5, 3.0))
                played.reading()
                if played.fanout.link == "down":
                    played.fanout.ended()
                    reconnect(played)
            played.pass_time(5.0)
            answered = [it for it in asked if it.outcome == "answered"]
            self.assertGreater(len(answered), 100)
            for it in answered:
                self.assertRegex(it.lines[0], f"^{REPLIES[it.line]}$")
            self.assertTrue(
                all(it.outcome in ("answered", "not_sent", "unanswered") for it in asked)
            )

    def test_no_tare_is_ever_seen_whose_sender_was_refused(self) -> None:
        """Show that no preset acts late. Each is another one, so that its number shows which one acted."""
        rng = random.Random(11)
        played, presets, seen = up(), {}, set()
        for at in range(4000):
            kg = 10 + at
            presets[kg] = Asker(played.fanout, f"TA {kg} kg")
            if rng.random() < 0.05:
                played.pass_time(rng.uniform(0.3, 2.5))
            refused = {
                it for it, asker in presets.items() if asker.outcome in ("not_sent", "unanswered")
            }
            before = played.tare
            played.reading()
            if played.tare != before:
                self.assertNotIn(played.tare, refused)
                seen.add(played.tare)
            if played.fanout.link == "down":
                played.fanout.ended()
                reconnect(played)
            self.assertEqual([], [kg for kg in refused if kg in seen])
        self.assertGreater(len(seen), 500)


if __name__ == "__main__":
    unittest.main()
