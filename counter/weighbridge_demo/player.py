"""Plays the reader of the load cell: lines of counts for `weighbridge-converter run`, ten a second by absolute deadlines."""

import asyncio
import contextlib
from collections.abc import Callable

from .bridge import Bridge
from .cell import counts_of
from .pace import Pace

MOST_UNWRITTEN = 0  # bytes that may wait in this program for the converter


class Player:
    def __init__(self, bridge: Bridge, pace: Pace, clock: Callable[[], int]) -> None:
        """`clock` gives nanoseconds, and so does `pace`; the bridge's moments are seconds of the same clock."""
        self.bridge, self.pace, self.clock = bridge, pace, clock

    def seconds(self) -> float:
        return self.clock() / 1e9

    def lines(self) -> list[str]:
        """Return the lines that are due now. Each has the load of the moment at which it was due."""
        made = []
        for number in self.pace.due(self.clock()):
            at = self.pace.at(number) / 1e9
            self.bridge.step(at)
            made.append(f"{counts_of(self.bridge.load(at), number)}\n")
        return made

    async def play(self, into: asyncio.StreamWriter) -> None:
        """Write lines for ever. If the converter takes none, they are dropped, because they would be old."""
        while True:
            made = "".join(self.lines())
            if into.transport.get_write_buffer_size() <= MOST_UNWRITTEN:
                with contextlib.suppress(
                    ConnectionError
                ):  # the converter has ended, and its part reports that
                    into.write(made.encode())
            await asyncio.sleep(self.pace.wait(self.clock()))

    def counted(self) -> dict[str, int]:
        return {"lines": self.pace.number - self.pace.dropped, "dropped": self.pace.dropped}
