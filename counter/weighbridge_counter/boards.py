"""Sends to scoreboards, over TCP or a serial line, ten times a second. A scoreboard never holds up the counter, and gets no weight that is old."""

import asyncio
import contextlib
import os
import socket
from typing import Protocol

from .files import tell
from .scoreboard import FORMS, shown_of
from .setup import Board
from .terminal import Terminal

EVERY = 0.1  # seconds
OLDEST = 1.0  # seconds: an older weight isn't sent
MOST_CLIENTS = 4
READS_NOTHING = 5.0  # seconds without a byte taken, after which a client is disconnected
SMALL_BUFFER = 4096  # bytes in the system on the way to a client: what waits there grows old
OPEN_AGAIN_AFTER = 1.0  # seconds


class Way(Protocol):
    def send(self, frame: bytes, at: float) -> None:
        """Send a frame at a moment of the counter's clock, or drop it if the one before still waits."""


class Listener:
    """Scoreboards that connect to an address."""

    def __init__(self) -> None:
        self.clients: dict[asyncio.StreamWriter, float] = {}  # and when each took its last frame

    async def serve(self, reader: asyncio.StreamReader, writer: asyncio.StreamWriter) -> None:
        if len(self.clients) >= MOST_CLIENTS:
            writer.close()
            return
        stream = writer.get_extra_info("socket")
        stream.setsockopt(socket.SOL_SOCKET, socket.SO_SNDBUF, SMALL_BUFFER)
        stream.setsockopt(socket.IPPROTO_TCP, socket.TCP_NODELAY, 1)
        self.clients[writer] = asyncio.get_running_loop().time()
        try:
            while await reader.read(1024):  # what a scoreboard says isn't read
                pass
        except OSError:
            pass
        finally:
            del self.clients[writer]
            writer.close()

    def send(self, frame: bytes, at: float) -> None:
        now = asyncio.get_running_loop().time()
        for writer, took in list(self.clients.items()):
            if writer.transport.get_write_buffer_size() == 0:
                writer.write(frame)
                self.clients[writer] = now
            elif now - took > READS_NOTHING:
                writer.transport.abort()


class Line:
    """A serial line. A line that can't be opened or written is opened again each second; the log has one line of that."""

    def __init__(self, board: Board) -> None:
        self.board, self.port, self.again_at, self.fault = board, -1, 0.0, ""

    def send(self, frame: bytes, at: float) -> None:
        try:
            if self.port < 0:
                if at < self.again_at:
                    return
                self.port = opened(self.board)
            with contextlib.suppress(BlockingIOError):
                os.write(self.port, frame)
        except OSError as fault:
            self._fails(str(fault), at)
            return
        if self.fault:
            self.fault = ""
            tell(f"scoreboard {self.board.name}: it is served again")

    def _fails(self, why: str, at: float) -> None:
        if self.port >= 0:
            os.close(self.port)
        self.port, self.again_at = -1, at + OPEN_AGAIN_AFTER
        if not self.fault:
            tell(f"scoreboard {self.board.name}: {why}; look at the line and at who may use it")
        self.fault = why


def opened(board: Board) -> int:
    """Return a descriptor of the board's serial line, which never waits. Raises OSError."""
    import serial  # python3-serial, which only a serial line needs

    assert board.device is not None
    with contextlib.closing(
        serial.Serial(board.device, board.baud, timeout=0, write_timeout=0)
    ) as line:
        port = os.dup(line.fileno())
    os.set_blocking(port, False)
    return port


class Sender:
    """Sends what is indicated to one scoreboard."""

    def __init__(self, terminal: Terminal, board: Board, interval: int, way: Way) -> None:
        self.terminal, self.form, self.interval, self.way = (
            terminal,
            FORMS[board.form],
            interval,
            way,
        )

    def turn(self) -> None:
        fanout = self.terminal.fanout
        is_known = fanout.is_fresh(OLDEST) and not self.terminal.is_in_doubt()
        value = fanout.value if is_known else None
        if frame := self.form(shown_of(value, fanout.tare, self.interval)):
            self.way.send(frame, self.terminal.clock())

    async def run(self) -> None:
        while True:
            self.turn()
            await asyncio.sleep(EVERY)


async def open_board(terminal: Terminal, board: Board, interval: int) -> Sender:
    """Raises OSError if the address of the board can't be used."""
    if board.listen is None:
        return Sender(terminal, board, interval, Line(board))
    listener = Listener()
    await asyncio.start_server(listener.serve, *board.listen, limit=4096)
    return Sender(terminal, board, interval, listener)
