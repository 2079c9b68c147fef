"""Hears from the counter what was weighed, so that a vehicle of the day drives off then."""

import asyncio
import json
from collections.abc import AsyncIterable, AsyncIterator, Callable
from typing import Any

import aiohttp

AGAIN_AFTER = 0.5  # seconds
LONGEST_LINE = 1 << 22  # bytes; the lists of a long day are one line
Hear = Callable[[str, Any], None]


async def hear(address: str, told: Hear) -> None:
    """Call `told` with the name and the content of each event of the counter, for ever. A cut connection is made again."""
    no_limit = aiohttp.ClientTimeout(total=None)
    async with aiohttp.ClientSession(read_bufsize=LONGEST_LINE, timeout=no_limit) as session:
        while True:
            try:
                async with session.get(f"{address}events") as answer:
                    async for name, what in events_of(answer.content):
                        told(name, what)
            except (aiohttp.ClientError, ConnectionError, ValueError):
                pass
            await asyncio.sleep(AGAIN_AFTER)


async def events_of(lines: AsyncIterable[bytes]) -> AsyncIterator[tuple[str, Any]]:
    """Yield the name and the content of each server-sent event."""
    name = ""
    async for line in lines:
        field, _, value = line.decode().rstrip("\r\n").partition(": ")
        if field == "event":
            name = value
        elif field == "data":
            yield name, json.loads(value)
