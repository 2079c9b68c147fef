"""Ports for tills and displays: on each, one client at a time talks to a terminal that answers as the service's own does.

`SI`, `S`, `SIR` and `@` are answered from the values that come anyway. Other commands are passed on. A client that reads slowly gets new values, never
old ones. On a port that may only read, what would change the scale is answered `ES`. A lenient port takes lines that the terminal wouldn't.
"""

import asyncio
import socket

from .lines import LenientLines, Lines
from .setup import Port
from .terminal import NotSent, Terminal, Unanswered, Wish
from .values import Value, reply_of

MOST_LINES = 64  # that wait for their answer
MOST_WAITING = 4  # clients of a port, as at the terminal
CARRIED_OUT_WITHIN = 2.0  # seconds: an older line is never carried out; its client's connection is closed, as at the terminal
ENDED_AFTER = 0.3  # seconds that a waiting `S` has once a line or the end came behind it, or three readings if that is more
READS_NOTHING = 5.0  # seconds without reading, after which a client is disconnected
SMALL_BUFFER = 4096  # bytes in the system on the way to a client: what waits there grows old
CHANGES = ("Z", "T", "TA", "TAC")


class Client:
    def __init__(
        self,
        terminal: Terminal,
        reader: asyncio.StreamReader,
        writer: asyncio.StreamWriter,
        may_change: bool,
        is_lenient: bool = False,
    ) -> None:
        self.terminal, self.reader, self.writer, self.may_change = (
            terminal,
            reader,
            writer,
            may_change,
        )
        self.cutter: Lines = LenientLines() if is_lenient else Lines()
        self.lines: asyncio.Queue[tuple[str, float] | None] = asyncio.Queue(MOST_LINES)
        self.wish: Wish | None = None
        self.seen: Value | None = None
        self.repeats = self.is_at_end = False
        self.stuck_since: float | None = None

    async def run(self, free: asyncio.Lock) -> None:
        """Answers once the port is free. It reads from the beginning, so that each line's age is known."""
        reading = asyncio.ensure_future(self._read())
        try:
            async with free:
                await self._answer_all()
        except (OSError, asyncio.TimeoutError):
            pass
        finally:
            self._repeat(False)
            reading.cancel()
            await self._close()

    async def _close(self) -> None:
        """Drop what a client doesn't read, and end its connection."""
        self.writer.close()
        try:
            await asyncio.wait_for(self.writer.wait_closed(), READS_NOTHING)
        except (OSError, asyncio.TimeoutError):
            self.writer.transport.abort()

    async def _answer_all(self) -> None:
        while (found := await self.lines.get()) is not None:
            line, came = found
            if self.terminal.clock() - came > CARRIED_OUT_WITHIN:
                return
            await self._answer(line, came)
            if self.writer.transport.get_write_buffer_size():
                await asyncio.wait_for(self.writer.drain(), READS_NOTHING)

    # ---- lines

    async def _read(self) -> None:
        """Split what comes into lines. As at the terminal, lines before the end are still carried out and answered, and a command that waits then ends."""
        try:
            while (chunk := await self.reader.read(1024)) and not self.terminal.is_in_doubt():
                for line in self.cutter.cut(chunk):
                    self._hurry()
                    await self.lines.put((line, self.terminal.clock()))
        except OSError:
            pass
        self.is_at_end = True
        self._hurry()
        await self.lines.put(None)

    def _hurry(self) -> None:
        if self.wish is not None:
            self.wish.hurry()

    def _new_wish(self) -> Wish:
        self.wish = Wish()
        if self.is_at_end or not self.lines.empty():
            self.wish.hurry()
        return self.wish

    def _say(self, *lines: str) -> None:
        if not self.writer.is_closing():
            self.writer.write("".join(f"{it}\r\n" for it in lines).encode())

    # ---- answers

    async def _answer(self, line: str, came: float) -> None:
        if line in ("S", "SI", "@"):
            self._repeat(False)
        if line == "SI":
            self._say(reply_of(await self._next_value(came)))
        elif line == "S":
            self._say(reply_of(await self._stable()))
        elif line == "SIR":
            self._repeat(True)
        elif line in ("I0", "I4"):
            await self._hand_on(line)
        elif line == "@":
            await self._reset_terminal()
        elif self.may_change and (line in CHANGES or line.startswith("TA ")):
            await self._hand_on(line)
        else:
            self._say("ES")

    async def _next_value(self, came: float) -> Value | None:
        """The value after a line came: lines that came together are answered by one, as at the terminal."""
        if self.seen is None or self.seen.at < came:
            self.seen = await self.terminal.next_value()
        return self.seen

    async def _stable(self) -> Value | None:
        """The first value that is stable or out of range, of as many as the terminal waits for; fewer once another line came."""
        wish, left = self._new_wish(), self.terminal.fanout.wait_readings + 1
        until: float | None = None
        try:
            while left > 0 and (until is None or self.terminal.clock() < until):
                value = await self.terminal.next_value()
                if value is None or value.state in "S+-":
                    return value
                left -= 1
                if wish.is_hurried and until is None:
                    until = self.terminal.clock() + max(
                        ENDED_AFTER, 3 * self.terminal.fanout.period
                    )
            return None
        finally:
            self.wish = None

    async def _hand_on(self, line: str) -> None:
        self._say(*await self._replies(line))

    async def _replies(self, line: str) -> tuple[str, ...]:
        try:
            return await self.terminal.command(line, wish=self._new_wish())
        except (NotSent, Unanswered):
            word = line.split(" ")[0]
            return (f"{word} I" if word in CHANGES else "ES",)
        finally:
            self.wish = None
            self.terminal.on_change()

    async def _reset_terminal(self) -> None:
        """`@` clears the tare and says the serial."""
        if self.may_change and self.terminal.fanout.tare != 0:
            await self._replies("TAC")
        await self._hand_on("I4")

    # ---- repetition

    def _repeat(self, is_on: bool) -> None:
        if is_on and not self.repeats:
            self.terminal.listeners.add(self._pass_value)
        elif not is_on:
            self.terminal.listeners.discard(self._pass_value)
        self.repeats = is_on

    def _pass_value(self, value: Value) -> None:
        """Send each value, except to a client whose last one still waits here."""
        if self.writer.transport.get_write_buffer_size() == 0:
            self.stuck_since = None
            self._say(reply_of(value))
        elif self.stuck_since is None:
            self.stuck_since = value.at
        elif value.at - self.stuck_since > READS_NOTHING:
            self.writer.transport.abort()


async def open_port(terminal: Terminal, port: Port) -> asyncio.Server:
    """Listens for clients of a port. One is served at a time; some wait."""
    free = asyncio.Lock()
    clients: set[Client] = set()

    async def serve(reader: asyncio.StreamReader, writer: asyncio.StreamWriter) -> None:
        if len(clients) > MOST_WAITING:
            writer.close()
            return
        stream = writer.get_extra_info("socket")
        stream.setsockopt(socket.SOL_SOCKET, socket.SO_SNDBUF, SMALL_BUFFER)
        stream.setsockopt(socket.IPPROTO_TCP, socket.TCP_NODELAY, 1)
        client = Client(terminal, reader, writer, port.may_change, port.is_lenient)
        clients.add(client)
        try:
            await client.run(free)
        finally:
            clients.discard(client)

    return await asyncio.start_server(serve, *port.listen, limit=4096)
