"""The fan-out over a real socket: connects, hands lines on, and lets coroutines ask."""

import asyncio
import socket
import struct
import time
from collections.abc import AsyncIterator, Callable
from contextlib import asynccontextmanager

from .fanout import PATIENCE, Fanout, Outcome, Question, Turn
from .values import Value

TICK = 0.05  # seconds
STOOD_STILL = 0.7  # seconds of sleep, after which this process can't say how old a line is
DOUBTED = 0.3  # seconds after that in which what is found may be as old
RETRY_AFTER = 0.2  # seconds
WITHOUT_VALUE = 2.2  # seconds to wait for a value
# SO_LINGER: every end of the connection is a reset, even a kill.
RESET_AT_THE_END = struct.pack("ii", 1, 0)
Listener = Callable[[Value], None]


class NotSent(Exception):
    """The command was never sent."""


class Unanswered(Exception):
    """The command was sent, and called back since no reply came."""


class Wish:
    """A command that a client sent. It can say that it waits no longer."""

    def __init__(self) -> None:
        self.is_hurried = False
        self.say: Callable[[], None] = lambda: None

    def hurry(self) -> None:
        self.is_hurried = True
        self.say()


class Connection(asyncio.Protocol):
    def __init__(self, terminal: "Terminal") -> None:
        self.terminal, self.rest = terminal, b""
        self.transport: asyncio.Transport | None = None
        self.ended: asyncio.Future[None] = asyncio.get_running_loop().create_future()

    def connection_made(self, transport: asyncio.BaseTransport) -> None:
        assert isinstance(transport, asyncio.Transport)
        self.transport = transport
        stream = transport.get_extra_info("socket")
        stream.setsockopt(socket.SOL_SOCKET, socket.SO_LINGER, RESET_AT_THE_END)
        stream.setsockopt(socket.IPPROTO_TCP, socket.TCP_NODELAY, 1)

    def data_received(self, data: bytes) -> None:
        *lines, self.rest = (self.rest + data).split(b"\n")
        self.terminal.take([it.rstrip(b"\r").decode("latin-1") for it in lines])

    def connection_lost(self, fault: Exception | None) -> None:
        if not self.ended.done():
            self.ended.set_result(None)

    # ---- as the fan-out's wire

    def send(self, line: str) -> None:
        if self.transport is not None:
            self.transport.write(line.encode() + b"\r\n")

    def reset(self) -> None:
        if self.transport is not None:
            self.transport.abort()


class Unconnected:
    def send(self, line: str) -> None:
        raise AssertionError("nothing is sent without a connection")

    def reset(self) -> None:
        pass


class Terminal:
    def __init__(
        self,
        address: tuple[str, int],
        wait_readings: int,
        clock: Callable[[], float] = time.monotonic,
    ) -> None:
        self.address, self.clock = address, clock
        self.fanout = Fanout(Unconnected(), clock, wait_readings)
        self.fanout.on_value = self._hand_on
        self.fanout.on_first_value = lambda: self.on_up()
        self.on_up: Callable[[], None] = lambda: None
        self.on_change: Callable[[], None] = lambda: None
        self.listeners: set[Listener] = set()
        self.serial: str | None = None
        self.was_refused = False  # whether nobody listened since the last look
        self.is_refused = False  # nobody listened at the last try
        self.alive_at = clock()
        self.doubted_until = 0.0

    # ---- the connection

    async def run(self) -> None:
        ticks = asyncio.ensure_future(self._tick())
        try:
            while True:
                await self._stay_connected()
                await asyncio.sleep(RETRY_AFTER)
        finally:
            ticks.cancel()

    async def _stay_connected(self) -> None:
        loop = asyncio.get_running_loop()
        try:
            _, connection = await loop.create_connection(lambda: Connection(self), *self.address)
        except OSError:
            self.was_refused = self.is_refused = True
            self.on_change()
            return
        self.is_refused = False
        self.fanout.wire = connection
        self.fanout.connected()
        self.on_change()
        try:
            await connection.ended
        finally:
            connection.reset()
            self.fanout.wire = Unconnected()
            self.fanout.ended()
            self.on_change()

    async def _tick(self) -> None:
        while True:
            now = self.clock()
            if now - self.alive_at > STOOD_STILL:
                self.doubted_until = now + DOUBTED
            self.alive_at = now
            self.fanout.tick()
            await asyncio.sleep(TICK)

    def is_in_doubt(self) -> bool:
        """Return whether this process stood still just now, so that what it finds may be old."""
        now = self.clock()
        return now < self.doubted_until or now - self.alive_at > STOOD_STILL

    def take(self, lines: list[str]) -> None:
        """Process lines that came. If this process stood still meanwhile, replies among them count and values don't, and the connection begins again."""
        stood_still = self.is_in_doubt()
        for line in lines:
            if not (stood_still and line.startswith("S ")):
                self.fanout.received(line)
        if stood_still:
            self.fanout.counts["stood_still"] += 1
            self.fanout.reset()

    # ---- values

    def _hand_on(self, value: Value) -> None:
        for listener in list(self.listeners):
            listener(value)

    async def next_value(self, within: float = WITHOUT_VALUE) -> Value | None:
        """The next value; None if none comes."""
        if self.fanout.link == "down":
            return None
        found: asyncio.Future[Value] = asyncio.get_running_loop().create_future()

        def listener(value: Value) -> None:
            if not found.done():
                found.set_result(value)

        self.listeners.add(listener)
        try:
            return await asyncio.wait_for(found, within)
        except asyncio.TimeoutError:
            return None
        finally:
            self.listeners.discard(listener)

    # ---- commands

    @asynccontextmanager
    async def turn(
        self, patience: float = PATIENCE, first: bool = False, may_settle: bool = False
    ) -> AsyncIterator[Turn]:
        """The terminal for an act of one command or more. Raises NotSent if others keep it for too long."""
        granted: asyncio.Future[bool] = asyncio.get_running_loop().create_future()

        def grant(is_granted: bool) -> None:
            if not granted.done():
                granted.set_result(is_granted)

        turn = self.fanout.take_turn(grant, patience, first, may_settle)
        try:
            if not await granted:
                raise NotSent("others wait before it")
            yield turn
        finally:
            self.fanout.give_back(turn)

    async def ask(
        self, turn: Turn, line: str, patience: float = PATIENCE, wish: Wish | None = None
    ) -> tuple[str, ...]:
        """The lines of the reply. Raises NotSent or Unanswered."""
        answered: asyncio.Future[
            tuple[Outcome, tuple[str, ...]]
        ] = asyncio.get_running_loop().create_future()

        def done(outcome: Outcome, lines: tuple[str, ...]) -> None:
            if not answered.done():
                answered.set_result((outcome, lines))

        question: Question = self.fanout.ask(turn, line, done, patience)
        if wish is not None:
            wish.say = lambda: self.fanout.hurry(question)
            if wish.is_hurried:
                wish.say()
        outcome, lines = await answered
        if outcome is Outcome.NOT_SENT:
            raise NotSent("no values come")
        if outcome is Outcome.UNANSWERED:
            raise Unanswered(line)
        return lines

    async def command(
        self, line: str, patience: float = PATIENCE, wish: Wish | None = None
    ) -> tuple[str, ...]:
        until = self.clock() + patience
        async with self.turn(patience) as turn:
            return await self.ask(turn, line, until - self.clock(), wish)
