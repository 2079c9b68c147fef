"""Tests of the Python module. `python3 -m unittest` in this folder, with WEIGHBRIDGE_TERMINAL_LIBRARY if the library is elsewhere."""

import copy
import ctypes
import dataclasses
import doctest
import pickle
import unittest
from collections.abc import Callable
from typing import Any

import weighbridge_terminal
from weighbridge_terminal import Indication, Setup, SetupError, State, Terminal


def steady(terminal: Terminal, tenths: int, readings: int = 4) -> list[str]:
    return [terminal.reading(tenths) for _ in range(readings)][-1]


class Weighing(unittest.TestCase):
    def test_weighs_a_vehicle(self) -> None:
        terminal = Terminal()
        self.assertEqual(terminal.indication(), Indication(State.NO_LOAD, None, None))
        steady(terminal, 1)
        self.assertEqual(terminal.send("Z\r\n"), ["Z A"])
        self.assertEqual(terminal.send("SI\r\n"), ["S S          0 kg"])
        self.assertEqual(terminal.reading(2500), [])
        self.assertEqual(terminal.indication(), Indication(State.MOVING, 5000, 5000))
        self.assertEqual(terminal.send("S\r\n"), [])
        self.assertEqual(
            [terminal.reading(9170) for _ in range(4)], [[], [], [], ["S S      18340 kg"]]
        )
        self.assertEqual(
            terminal.send("TA 5000 kg\r\nSI\r\n"), ["TA A       5000 kg", "S S      13340 kg"]
        )
        self.assertEqual(terminal.indication(), Indication(State.STABLE, 18340, 13340))
        self.assertTrue(terminal.indication().is_stable)

    def test_tells_that_there_is_no_weight(self) -> None:
        terminal = Terminal()
        self.assertEqual(terminal.lost(), [])
        self.assertEqual(terminal.indication().state, "NO LOAD")
        terminal.reading(30100)
        self.assertEqual(terminal.indication(), Indication(State.OVERLOAD, None, None))
        terminal.reading(-300)
        self.assertEqual(terminal.indication(), Indication(State.UNDERLOAD, None, None))
        self.assertEqual(terminal.send("SI\n"), ["S -"])

    def test_takes_a_load_out_of_range_as_lost(self) -> None:
        terminal = Terminal()
        for tenths in (2_000_001, -2_000_001, 2**63 - 1, -(2**63), 2**80, -(2**80), None):
            terminal.reading(0)
            terminal.reading(tenths)
            self.assertEqual(terminal.indication().state, "NO LOAD")


class Lines(unittest.TestCase):
    def test_takes_a_line_in_any_pieces(self) -> None:
        whole, pieces = Terminal(), Terminal()
        text = b"I0\r\nTA 5000 kg\r\nSI\r\nxyz\n\nI4\r\n"
        wanted = whole.send(text)
        self.assertEqual(len(wanted), 15)
        self.assertEqual([reply for byte in text for reply in pieces.send(bytes([byte]))], wanted)

    def test_tells_each_command(self) -> None:
        self.assertEqual(
            Terminal().send("I0\r\n"),
            [
                'I0 B 0 "@"',
                'I0 B 0 "I0"',
                'I0 B 0 "I4"',
                'I0 B 0 "S"',
                'I0 B 0 "SI"',
                'I0 B 0 "SIR"',
                'I0 B 0 "Z"',
                'I0 B 1 "T"',
                'I0 B 1 "TA"',
                'I0 A 1 "TAC"',
            ],
        )

    def test_repeats_the_value(self) -> None:
        terminal = Terminal()
        self.assertEqual(terminal.send("SIR\r\n"), [])
        steady(terminal, 9170)
        self.assertEqual(terminal.reading(9170), ["S S      18340 kg"])
        self.assertEqual(terminal.send("SI\r\n"), ["S S      18340 kg"])
        self.assertEqual(terminal.reading(9170), [])

    def test_drops_the_line_and_what_waits_at_a_hang_up(self) -> None:
        terminal = Terminal()
        terminal.reading(100)
        self.assertEqual(terminal.send("S\r\nSI"), [])
        terminal.hang_up()
        self.assertEqual(steady(terminal, 100, 9), [])
        self.assertEqual(terminal.send("\r\n"), ["ES"])

    def test_takes_nothing(self) -> None:
        terminal = Terminal()
        self.assertEqual(terminal.send("I4\r\n"), ['I4 A "WB01"'])
        self.assertEqual(terminal.send(""), [])


class Setups(unittest.TestCase):
    def test_names_the_first_part_outside_its_limits(self) -> None:
        rows = [
            ("interval_kg", 3),
            ("max_kg", 60001),
            ("window", 3),
            ("window", 65),
            ("band", 3),
            ("pace", 51),
            ("wait", 0),
            ("wait", 601),
            ("serial", ""),
            ("serial", "wb01"),
            ("serial", "A" * 17),
            ("serial", "A" * 30),
            ("serial", "WB\0"),
            ("serial", "Ä"),
            ("max_kg", -1),
            ("max_kg", 2**32 + 60000),
        ]
        for name, value in rows:
            parts: dict[str, Any] = {name: value}
            with self.assertRaises(SetupError) as caught:
                Terminal(**parts)
            self.assertEqual(caught.exception.part.name, name)
        with self.assertRaises(SetupError) as caught:
            Terminal(serial="", pace=1)
        self.assertEqual(caught.exception.part.name, "pace")

    def test_takes_the_limits_themselves(self) -> None:
        within: tuple[dict[str, Any], ...] = (
            {"window": 4},
            {"window": 64},
            {"band": 1},
            {"pace": 2},
            {"pace": 50},
            {"wait": 1},
            {"wait": 600},
            {"serial": "A"},
            {"serial": "A1B2C3D4E5F6G7H8"},
            {"interval_kg": 50, "max_kg": 500000},
            {"interval_kg": 1, "max_kg": 500},
        )
        for parts in within:
            self.assertEqual(Terminal(**parts).setup, Setup(**parts))
        self.assertEqual(
            Terminal(Setup(serial="A1B2C3D4E5F6G7H8")).send("I4\n"), ['I4 A "A1B2C3D4E5F6G7H8"']
        )

    def test_refuses_a_setup_as_soon_as_it_is_made(self) -> None:
        rows: tuple[tuple[dict[str, Any], str], ...] = (
            ({"max_kg": 60001}, "max_kg"),
            ({"serial": "wb01"}, "serial"),
            ({"interval_kg": -1}, "interval_kg"),
            ({"pace": 1, "serial": ""}, "pace"),
        )
        for parts, name in rows:
            with self.assertRaises(SetupError) as caught:
                Setup(**parts)
            self.assertEqual(caught.exception.part.name, name)
        with self.assertRaises(SetupError):
            dataclasses.replace(Setup(), window=65)
        self.assertEqual(dataclasses.replace(Setup(), window=64).window, 64)

    def test_takes_either_a_setup_or_parts(self) -> None:
        with self.assertRaises(TypeError):
            Terminal(Setup(), window=5)
        unknown: dict[str, Any] = {"retention": 90}
        with self.assertRaises(TypeError):
            Terminal(**unknown)

    def test_refuses_values_of_other_types(self) -> None:
        rows: list[dict[str, Any]] = [
            {"interval_kg": "20"},
            {"max_kg": 60000.0},
            {"window": b"4"},
            {"serial": 7},
            {"serial": b"WB01"},
            {"setup": {"window": 4}},
        ]
        for parts in rows:
            with self.assertRaises(TypeError, msg=parts):
                Terminal(**parts)
        readings: tuple[Any, ...] = ("9170", 9170.0, [9170])
        for wrong in readings:
            with self.assertRaises(TypeError, msg=wrong):
                Terminal().reading(wrong)
        lines: tuple[Any, ...] = (5, None, ["SI\r\n"])
        for wrong in lines:
            with self.assertRaises(TypeError, msg=wrong):
                Terminal().send(wrong)
        self.assertTrue(issubclass(SetupError, ValueError))


class Objects(unittest.TestCase):
    def test_terminals_are_apart(self) -> None:
        one, other = Terminal(), Terminal(window=64)
        steady(one, 9170)
        self.assertEqual(one.send("SI\n"), ["S S      18340 kg"])
        self.assertEqual(other.send("SI\n"), ["S I"])

    def test_is_not_copied_or_stored(self) -> None:
        attempts: tuple[Callable[[Terminal], object], ...] = (
            copy.copy,
            copy.deepcopy,
            pickle.dumps,
        )
        for attempt in attempts:
            with self.assertRaises(TypeError):
                attempt(Terminal())

    def test_shows_its_setup_and_its_indication(self) -> None:
        terminal = Terminal(interval_kg=10, max_kg=40000, serial="A1")
        self.assertEqual(repr(terminal), "<Terminal A1, e 10 kg, Max 40000 kg: NO LOAD>")
        terminal.reading(500)
        self.assertEqual(
            repr(terminal),
            "<Terminal A1, e 10 kg, Max 40000 kg: MOVING, gross 500 kg, net 500 kg>",
        )
        self.assertEqual(terminal.send("SI\n"), ["S D        500 kg"])

    def test_tells_its_version(self) -> None:
        self.assertEqual(weighbridge_terminal.VERSION, weighbridge_terminal.__version__)
        self.assertRegex(weighbridge_terminal.__version__, r"^\d+\.\d+\.\d+$")

    def test_tells_states_as_an_enum_and_as_texts(self) -> None:
        terminal = Terminal()
        self.assertIs(terminal.indication().state, State.NO_LOAD)
        steady(terminal, 9170)
        self.assertIs(terminal.indication().state, State.STABLE)
        self.assertEqual(
            [str(it) for it in State], ["NO LOAD", "OVERLOAD", "UNDERLOAD", "MOVING", "STABLE"]
        )
        self.assertEqual(f"{State.NO_LOAD}", "NO LOAD")

    def test_keeps_the_lock_of_the_interpreter(self) -> None:
        self.assertIsInstance(weighbridge_terminal._library, ctypes.PyDLL)


def load_tests(
    loader: unittest.TestLoader, tests: unittest.TestSuite, pattern: str | None
) -> unittest.TestSuite:
    tests.addTests(doctest.DocTestSuite(weighbridge_terminal))
    return tests


if __name__ == "__main__":
    unittest.main()
