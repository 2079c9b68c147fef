"""A driver's display: each form, byte for byte, what comes of a weight that is old, and clients and lines that take nothing."""

import asyncio
import contextlib
import io
import os
import pty
import tempfile
import unittest
from pathlib import Path
from types import SimpleNamespace
from typing import Any
from unittest import mock

from weighbridge_counter import boards
from weighbridge_counter.boards import Line, Listener, Sender
from weighbridge_counter.scoreboard import FORMS, NOTHING, Shown, shown_of
from weighbridge_counter.setup import Board, read_setup
from weighbridge_counter.values import Value
from weighbridge_paper.reader import SetupFault

WEB = Path(__file__).resolve().parent.parent / "web"
# A weight, and the lines of toledo, sma and condec for it.
ROWS = [
    (
        Shown("S", 18340, 0, 20),
        b"\x0220  18340     0\r",
        b"\n 1G       18340kg \r",
        b"\x02   18340KG \r\n",
    ),
    (
        Shown("D", 18340, 0, 10),
        b"\x02*8  18340     0\r",
        b"\n 1GM      18340kg \r",
        b"\x02   18340KGM\r\n",
    ),
    (
        Shown("S", 0, 0, 50),
        b"\x02:0      0     0\r",
        b"\nZ1G           0kg \r",
        b"\x02       0KG \r\n",
    ),
    (
        Shown("S", -20, 9000, 1),
        b"\x02*3     20  9000\r",
        b"\n 1N         -20kg \r",
        b"\x02-     20KN \r\n",
    ),
    (
        Shown("+", None, 0, 5),
        b"\x02:4      0     0\r",
        b"\nO1G  ----------kg \r",
        b"\x02       0KGO\r\n",
    ),
    (
        Shown("-", None, 0, 2),
        b"\x0226      0     0\r",
        b"\nU1G  ----------kg \r",
        b"\x02-      0KGO\r\n",
    ),
    (NOTHING, b"", b"\nE1G  ----------kg \r", b"\x02       0KGI\r\n"),
]


class TheForms(unittest.TestCase):
    def test_each_byte(self) -> None:
        for shown, *frames in ROWS:
            found = [FORMS[it](shown) for it in ("toledo", "sma", "condec")]
            self.assertEqual(frames, found, shown)

    def test_the_check_character_makes_the_sum_zero(self) -> None:
        for shown, toledo, *_ in ROWS:
            frame = FORMS["toledo_with_sum"](shown)
            self.assertEqual(toledo, frame[:17])
            self.assertEqual(0, sum(frame) % 128)

    def test_the_greatest_weight_has_its_place(self) -> None:
        for form, length in (("toledo", 17), ("sma", 20), ("condec", 14)):
            for kg, tare in ((500000, 0), (-499980, 499980)):
                self.assertEqual(length, len(FORMS[form](Shown("S", kg, tare, 20))), form)

    def test_without_a_value_or_a_known_tare_there_is_no_weight(self) -> None:
        value = Value("S", 9000, 1.0)
        self.assertEqual(Shown("S", 9000, 0, 20), shown_of(value, 0, 20))
        self.assertEqual(NOTHING, shown_of(None, 0, 20))
        self.assertEqual(NOTHING, shown_of(value, None, 20))


def terminal(value: Value | None, is_fresh: bool = True, is_in_doubt: bool = False) -> Any:
    fanout = SimpleNamespace(value=value, tare=0, is_fresh=lambda within: is_fresh)
    return SimpleNamespace(fanout=fanout, is_in_doubt=lambda: is_in_doubt, clock=lambda: 0.0)


def board(device: str | None = None, form: str = "condec") -> Board:
    return Board("yard", form, None if device else ("127.0.0.1", 0), device, 9600)


class TheSender(unittest.IsolatedAsyncioTestCase):
    def sent(self, value: Value | None, form: str = "condec", **more: Any) -> list[bytes]:
        frames: list[bytes] = []
        way = SimpleNamespace(send=lambda frame, at: frames.append(frame))
        Sender(terminal(value, **more), board(form=form), 20, way).turn()
        return frames

    async def test_no_weight_that_is_old_is_sent(self) -> None:
        value = Value("S", 9000, 0.0)
        self.assertEqual([b"\x02    9000KG \r\n"], self.sent(value))
        old: tuple[dict[str, Any], ...] = ({"is_fresh": False}, {"is_in_doubt": True})
        for more in old:
            self.assertEqual([b"\x02       0KGI\r\n"], self.sent(value, **more))
            self.assertEqual([], self.sent(value, form="toledo", **more))

    async def test_each_client_gets_it_and_one_too_many_none(self) -> None:
        listener = Listener()
        server = await asyncio.start_server(listener.serve, "127.0.0.1", 0)
        address = server.sockets[0].getsockname()
        clients = [await asyncio.open_connection(*address) for _ in range(boards.MOST_CLIENTS)]
        await asyncio.sleep(0.05)
        reader, writer = await asyncio.open_connection(*address)
        self.assertEqual(b"", await asyncio.wait_for(reader.read(), 1))
        listener.send(b"frame", 0.0)
        for reader, writer in clients:
            writer.write(b"what a scoreboard says")
            self.assertEqual(b"frame", await asyncio.wait_for(reader.readexactly(5), 1))
        for _, writer in clients[1:]:
            writer.close()
        await asyncio.sleep(0.05)
        self.assertEqual(1, len(listener.clients))
        server.close()
        clients[0][1].close()

    async def test_a_client_that_takes_nothing_is_hung_up_and_holds_up_nobody(self) -> None:
        listener = Listener()
        server = await asyncio.start_server(listener.serve, "127.0.0.1", 0)
        reader, writer = await asyncio.open_connection(*server.sockets[0].getsockname(), limit=1)
        await asyncio.sleep(0.05)
        with mock.patch.object(boards, "READS_NOTHING", 0.2):
            until = asyncio.get_running_loop().time() + 5
            while listener.clients and asyncio.get_running_loop().time() < until:
                listener.send(b"x" * 100_000, 0.0)
                await asyncio.sleep(0.01)
        self.assertEqual({}, listener.clients)
        server.close()
        writer.close()


class TheLine(unittest.TestCase):
    def test_a_serial_line_gets_each_frame_and_never_waits(self) -> None:
        ours, theirs = pty.openpty()
        self.addCleanup(os.close, ours)
        line = Line(board(os.ttyname(theirs)))
        line.send(b"\x02    9000KG \r\n", 0.0)
        self.assertEqual(b"\x02    9000KG \r\n", os.read(ours, 100))
        for _ in range(2000):
            line.send(b"x" * 100, 0.0)  # nobody reads
        os.close(line.port)
        os.close(theirs)

    def test_a_line_that_is_not_there_is_told_once_and_opened_again(self) -> None:
        with tempfile.TemporaryDirectory() as folder:
            path = f"{folder}/line"
            line = Line(board(path))
            with contextlib.redirect_stderr(io.StringIO()) as said:
                for at in (0.0, 0.5, 1.0, 2.1):
                    line.send(b"x", at)
            self.assertEqual(1, said.getvalue().count("\n"))
            self.assertIn("scoreboard yard: ", said.getvalue())
            ours, theirs = pty.openpty()
            os.symlink(os.ttyname(theirs), path)
            with contextlib.redirect_stderr(io.StringIO()) as said:
                line.send(b"x", 2.2)
                self.assertEqual(-1, line.port, "not within a second")
                line.send(b"frame", 4.0)
            self.assertEqual(b"frame", os.read(ours, 100))
            self.assertEqual("counter: scoreboard yard: it is served again\n", said.getvalue())
            for it in (line.port, ours, theirs):
                os.close(it)


class TheSetup(unittest.TestCase):
    def read(self, *tables: str) -> tuple[Board, ...]:
        with tempfile.TemporaryDirectory() as folder:
            path = Path(folder) / "counter.toml"
            path.write_text(
                f'state = "{folder}"\n' + "".join(f"[[scoreboard]]\n{it}\n" for it in tables)
            )
            return read_setup(path, WEB).boards

    def test_a_board_by_tcp_and_one_by_a_line(self) -> None:
        self.assertEqual(
            (
                Board("yard", "sma", ("127.0.0.1", 885), None, 0),
                Board("ramp", "toledo", None, "/dev/ttyUSB0", 9600),
                Board("gate", "condec", None, "/dev/serial/by-id/x-1", 1200),
            ),
            self.read(
                'name = "yard"\nform = "sma"\nlisten = "127.0.0.1:885"',
                'name = "ramp"\nform = "toledo"\ndevice = "/dev/ttyUSB0"',
                'name = "gate"\nform = "condec"\ndevice = "/dev/serial/by-id/x-1"\nbaud = 1200',
            ),
        )

    def test_each_mistake_is_named(self) -> None:
        good = 'name = "yard"\nform = "sma"\nlisten = "127.0.0.1:885"'
        for tables, told in (
            (('form = "sma"\nlisten = "127.0.0.1:885"',), "scoreboard 1: name: it is missing"),
            ((good.replace("sma", "SMA"),), 'scoreboard 1: form: write "condec" or "sma"'),
            ((good.replace("127.0.0.1", "0.0.0.0"),), "scoreboard 1: listen: write an address"),
            ((good.replace("885", "8090"),), "scoreboard 1: listen: it is the address of listen"),
            ((good, good.replace("yard", "ramp")), "scoreboard 2: listen: it is the address of"),
            ((good, good.replace("885", "886")), "scoreboard 2: name: there is a scoreboard yard"),
            ((good + '\ndevice = "/dev/ttyS0"',), "scoreboard 1: listen: there is no such key"),
            ((good + "\nbaud = 9600",), "scoreboard 1: baud: there is no such key"),
            (('name = "a"\nform = "sma"\ndevice = "ttyS0"',), "scoreboard 1: device: write the"),
            (
                ('name = "a"\nform = "sma"\ndevice = "/dev/ttyS0"\nbaud = 9601',),
                "scoreboard 1: baud: write 1200, 2400",
            ),
            (
                tuple(f'name = "{it}"\nform = "sma"\ndevice = "/dev/ttyS0"' for it in "ab"),
                "scoreboard 2: device: another scoreboard has this line",
            ),
        ):
            with self.assertRaises(SetupFault) as fault:
                self.read(*tables)
            self.assertIn(told, str(fault.exception))
            self.assertEqual(1, len(fault.exception.mistakes), tables)


if __name__ == "__main__":
    unittest.main()
