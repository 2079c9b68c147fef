"""A port's client over a terminal that is played: replies, what may only read, slow readers, and lines that are too old."""

import asyncio
import unittest
from typing import Any
from unittest import mock

from weighbridge_counter import ports
from weighbridge_counter.ports import CARRIED_OUT_WITHIN, Client, open_port
from weighbridge_counter.setup import Port
from weighbridge_counter.terminal import Terminal

from .played import PlayedTerminal


class Transport:
    """Where a client's replies go. `waiting` is what the system hasn't taken yet."""

    def __init__(self) -> None:
        self.waiting, self.is_aborted = 0, False

    def get_write_buffer_size(self) -> int:
        return self.waiting

    def abort(self) -> None:
        self.is_aborted = True


class Writer:
    def __init__(self) -> None:
        self.transport, self.written, self.is_closed, self.takes = (
            Transport(),
            b"",
            False,
            asyncio.Event(),
        )
        self.takes.set()

    def write(self, data: bytes) -> None:
        self.written += data

    def is_closing(self) -> bool:
        return self.is_closed

    def close(self) -> None:
        self.is_closed = True

    async def drain(self) -> None:
        await self.takes.wait()

    async def wait_closed(self) -> None:
        await self.takes.wait()


class Ports(unittest.IsolatedAsyncioTestCase):
    def begin(self, may_change: bool = True, is_lenient: bool = False) -> None:
        self.played = PlayedTerminal()
        self.terminal = Terminal(("127.0.0.1", 1), 20, self.played.clock)
        self.terminal.fanout = self.played.fanout
        self.played.fanout.on_value = self.terminal._hand_on
        self.played.connect()
        self.played.reading(3)
        self.played.fanout.settle()
        self.reader = asyncio.StreamReader()
        self.writer: Any = Writer()
        self.task = asyncio.ensure_future(
            Client(self.terminal, self.reader, self.writer, may_change, is_lenient).run(
                asyncio.Lock()
            )
        )
        self.addCleanup(self.task.cancel)

    async def readings(self, count: int = 1) -> None:
        for _ in range(count):
            await self.spin()
            self.played.reading()
            self.terminal.alive_at = self.played.clock.now
        await self.spin()

    async def spin(self) -> None:
        for _ in range(8):
            await asyncio.sleep(0)

    async def asked(self, *lines: str, readings: int = 8) -> list[str]:
        """The lines that are answered to these, all sent at once."""
        self.terminal.alive_at = self.played.clock.now
        self.writer.written = b""
        self.reader.feed_data("".join(f"{it}\r\n" for it in lines).encode())
        await self.readings(readings)
        return self.writer.written.decode().split("\r\n")[:-1]

    async def test_each_line_is_answered_as_at_the_terminal(self) -> None:
        self.begin()
        value = "S S      18340 kg"
        self.assertEqual([value], await self.asked("SI"))
        self.assertEqual([value], await self.asked("S"))
        self.assertEqual(
            ["TA A       5000 kg", "S S      13340 kg", "TAC A"],
            await self.asked("TA 5000 kg", "SI", "TAC"),
        )
        self.assertEqual(['I4 A "WB01"'], await self.asked("@"))
        self.assertEqual(["ES", "ES", "ES"], await self.asked("si", "", f"TA {'0' * 34}5 kg"))

    async def test_lines_that_come_together_are_answered_by_one_value(self) -> None:
        self.begin()
        self.assertEqual(["S S      18340 kg"] * 30, await self.asked(*["SI"] * 30, readings=1))

    async def test_one_that_comes_later_gets_a_later_value(self) -> None:
        self.begin()
        await self.asked("SI")
        self.played.kg = 8140
        self.assertEqual(["S S       8140 kg"], await self.asked("SI"))

    async def test_a_lenient_port_takes_other_lines_and_gives_the_terminals_replies(self) -> None:
        self.begin(is_lenient=True)
        self.assertEqual(
            ["TA A       5000 kg", "S S      13340 kg", "TAC A"],
            await self.asked("TA 5000 kg", "SI", "TA 0 kg"),
        )
        self.assertEqual(["TA 5000 kg", "TAC"], self.played.done)
        self.reader.feed_data(b"SI\rI4\r")
        await self.readings(3)
        self.assertTrue(self.writer.written.endswith(b'kg\r\nI4 A "WB01"\r\n'))

    async def test_an_empty_line_ends_a_waiting_command_of_a_lenient_port(self) -> None:
        self.begin(is_lenient=True)
        self.played.state = "D"
        self.writer.written = b""
        self.reader.feed_data(b"S\r")
        await self.readings(4)
        self.assertEqual(b"", self.writer.written)
        self.reader.feed_data(b"\r")
        await self.readings(8)
        self.assertEqual(b"S I\r\nES\r\n", self.writer.written)

    async def test_an_exact_port_takes_no_other_lines(self) -> None:
        self.begin()
        await self.asked("TA 0 kg")
        self.assertEqual(["TA 0 kg"], self.played.done)
        self.writer.written = b""
        self.reader.feed_data(b"SI\rI4\r")
        await self.readings(3)
        self.assertEqual(b"", self.writer.written)

    async def test_a_port_takes_the_lines_that_its_setup_says(self) -> None:
        self.begin()
        for is_lenient, wanted in ((False, b"ES\r\n"), (True, b"S S      18340 kg\r\n")):
            address = ("127.0.0.1", 0)
            server = await open_port(self.terminal, Port("till", address, True, is_lenient))
            reader, writer = await asyncio.open_connection(*server.sockets[0].getsockname())
            writer.write(b"SI\rx\r\n")
            first = asyncio.ensure_future(reader.readline())
            for _ in range(500):
                await self.readings()
                await asyncio.wait([first], timeout=0.01)
                if first.done():
                    break
            with self.subTest(is_lenient=is_lenient):
                self.assertEqual(wanted, await asyncio.wait_for(first, 1))
            writer.close()
            await writer.wait_closed()
            server.close()

    async def test_what_may_only_read_changes_nothing(self) -> None:
        self.begin(may_change=False)
        self.played.tare = 3000
        self.assertEqual(["ES"] * 5, await self.asked("Z", "T", "TA", "TA 5000 kg", "TAC"))
        self.assertEqual(['I4 A "WB01"', "S S      15340 kg"], await self.asked("@", "SI"))
        self.assertEqual([], self.played.done)

    async def test_a_display_gets_each_value_and_a_slow_one_no_old_one(self) -> None:
        self.begin()
        await self.asked("SIR")
        self.writer.written = b""
        await self.readings(10)
        self.assertEqual(b"S S      18340 kg\r\n" * 10, self.writer.written)
        self.writer.written, self.writer.transport.waiting = b"", 19
        await self.readings(10)
        self.assertEqual(b"", self.writer.written)
        self.played.kg, self.writer.transport.waiting = 8140, 0
        await self.readings(1)
        self.assertEqual(b"S S       8140 kg\r\n", self.writer.written)

    async def test_who_reads_nothing_is_hung_up(self) -> None:
        self.begin()
        await self.asked("SIR")
        self.writer.transport.waiting = 19
        await self.readings(60)
        self.assertTrue(self.writer.transport.is_aborted)

    async def test_who_takes_no_answers_gets_no_more_and_is_hung_up(self) -> None:
        self.begin(may_change=False)
        self.writer.takes.clear()
        self.writer.transport.waiting = 4
        with mock.patch.object(ports, "READS_NOTHING", 0.05):
            self.assertEqual(["ES"], await self.asked(*["X"] * 50))
            self.assertFalse(self.writer.transport.is_aborted)
            await asyncio.sleep(0.2)
        self.assertTrue(self.writer.transport.is_aborted)

    async def test_a_line_that_is_too_old_is_never_carried_out(self) -> None:
        self.begin()
        turn = self.played.fanout.take_turn(lambda is_granted: None)
        self.assertEqual(["TA I"], await self.asked("TA 5000 kg", readings=12))
        self.played.state = "D"
        self.reader.feed_data(b"S\r\nTA 6000 kg\r\n")
        self.played.fanout.give_back(turn)
        await self.spin()
        self.played.clock.now += CARRIED_OUT_WITHIN + 0.1
        await self.readings(30)
        self.assertEqual((True, []), (self.writer.is_closed, self.played.done))

    async def test_what_came_while_the_counter_stood_still_is_never_carried_out(self) -> None:
        self.begin()
        self.played.clock.now += 5
        self.reader.feed_data(b"TA 5000 kg\r\n")
        await self.spin()
        await self.readings(3)
        self.assertEqual((True, []), (self.writer.is_closed, self.played.done))

    async def test_what_came_before_the_end_is_answered(self) -> None:
        self.begin()
        self.reader.feed_data(b"TA 3000 kg\r\nTAC\r\nTA 1")
        self.reader.feed_eof()
        await self.readings(8)
        self.assertEqual(
            (b"TA A       3000 kg\r\nTAC A\r\n", True), (self.writer.written, self.writer.is_closed)
        )


if __name__ == "__main__":
    unittest.main()
