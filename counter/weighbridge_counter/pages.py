"""The event streams of the pages. A page gets every event, except that of weights it gets only the newest, so that a slow page gets no old one.

The bytes that wait are bounded, for each page and for all together. The counter cuts a page beyond a bound, and the page begins again.
"""

import asyncio
import json
from collections import deque
from collections.abc import Callable
from typing import Any

MOST_BYTES = 4_000_000  # that wait for one page, besides what it began with
MOST_BYTES_OF_ALL = 32_000_000
FASTEST = 0.04  # seconds at least between two weights that differ
SLOWEST = 0.3  # seconds after which an equal weight is sent again


def frame_of(name: str, what: Any) -> bytes:
    return f"event: {name}\ndata: {json.dumps(what, separators=(',', ':'))}\n\n".encode()


class Page:
    """The events that wait for a page. `bytes` also counts what was taken last, because that is on its way until the page asks for more."""

    def __init__(self, beginning: list[bytes], abort: Callable[[], None]) -> None:
        self.abort = abort  # cut the page's connection, and let go of what is on its way
        self.frames = deque(beginning)
        self.bytes = sum(map(len, beginning))
        self.most = MOST_BYTES + self.bytes
        self.weight = b""
        self.is_over = False
        self.has_some = asyncio.Event()
        self.has_some.set()

    def put(self, frame: bytes) -> None:
        if self.is_over:
            return
        self.frames.append(frame)
        self.bytes += len(frame)
        if self.bytes > self.most:
            self.close()
        self.has_some.set()

    def put_weight(self, frame: bytes) -> None:
        self.weight = frame
        self.has_some.set()

    def close(self) -> None:
        """Let go of all that waits. The page gets nothing more, and begins again."""
        self.is_over = True
        self.frames.clear()
        self.bytes, self.weight = 0, b""
        self.abort()
        self.has_some.set()

    async def take(self) -> bytes:
        """Return all that waits, once something does, or nothing if the page is over."""
        if not self.is_over:
            await self.has_some.wait()
        self.has_some.clear()
        if self.is_over:
            return b""
        taken = b"".join(self.frames) + self.weight
        self.frames.clear()
        self.bytes, self.weight = len(taken), b""
        return taken


class Pages:
    def __init__(self) -> None:
        self.open: set[Page] = set()

    def tell(self, name: str, what: Any) -> None:
        self._bound()  # before the event, which each page is about to take
        frame = frame_of(name, what)
        for page in self.open:
            page.put(frame)

    def tell_weight(self, what: Any) -> None:
        frame = frame_of("weight", what)
        for page in self.open:
            page.put_weight(frame)

    def add(self, page: Page) -> None:
        self.open.add(page)
        self._bound()

    def remove(self, page: Page) -> None:
        self.open.discard(page)

    def _bound(self) -> None:
        """Close the pages for which most waits, until all together are within their bound."""
        while sum(it.bytes for it in self.open) > MOST_BYTES_OF_ALL:
            max(self.open, key=lambda it: it.bytes).close()
