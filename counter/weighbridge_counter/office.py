"""Questions to the office, by aiohttp's client: each goes out once, on a connection of its own, and is answered whole or not at all."""

import asyncio
import re
import socket
from dataclasses import dataclass
from typing import Any, Protocol

import aiohttp
import yarl
from aiohttp.http_exceptions import HttpProcessingError

WITHIN = 15.0  # seconds; the office carries nothing out that is older than five
LARGEST_HEAD = 8192  # bytes
PLAIN = re.compile("/[!-~]*")  # a target
LENGTH = re.compile("[0-9]{1,10}")
# The office gets the bytes that a client of it sent, and no field of this program's own except Host.
NOT_ADDED = ("Accept", "Accept-Encoding", "Content-Type", "User-Agent")


class NoAnswer(Exception):
    """No whole answer came, so what became of the request isn't known."""


@dataclass(frozen=True)
class Answer:
    status: int
    kind: str
    body: bytes

    @property
    def text(self) -> str:
        return self.body.decode("utf-8", "replace")


class OneConnection(aiohttp.TCPConnector):
    """Opens one connection, for one request, because a later version of aiohttp would send a GET again on a second one."""

    def __init__(self) -> None:
        super().__init__(force_close=True, use_dns_cache=False, family=socket.AF_INET)
        self.is_used = False

    async def connect(self, *given: Any, **more: Any) -> Any:
        if self.is_used:
            raise aiohttp.ClientConnectionError("the request was sent once")
        self.is_used = True
        return await super().connect(*given, **more)


class Answers(Protocol):
    """An office, or one that a test plays. It answers requests."""

    async def ask(
        self, method: str, target: str, body: bytes | None = None, within: float = WITHIN
    ) -> Answer:
        ...


class Office:
    def __init__(self, address: tuple[str, int]) -> None:
        self.address = address

    async def ask(
        self, method: str, target: str, body: bytes | None = None, within: float = WITHIN
    ) -> Answer:
        """Send a request once, and return its answer. Raises NoAnswer. The request may have come to the office even then."""
        try:
            return await asyncio.wait_for(self._exchange(method, target, body), within)
        except (
            aiohttp.ClientError,
            HttpProcessingError,
            OSError,  # a time-out too
            EOFError,
            ValueError,
            AssertionError,  # by which aiohttp says that a new connection was reset
        ) as fault:
            raise NoAnswer(type(fault).__name__) from None

    async def _exchange(self, method: str, target: str, body: bytes | None) -> Answer:
        if not PLAIN.fullmatch(target):
            raise ValueError(target)  # an end of a line in it would begin a request of its own
        host, port = self.address
        url = yarl.URL.build(scheme="http", host=host, port=port, path=target, encoded=True)
        if url.raw_path_qs != target:
            raise ValueError(target)  # another target would go out
        session = aiohttp.ClientSession(
            connector=OneConnection(),
            cookie_jar=aiohttp.DummyCookieJar(),
            skip_auto_headers=NOT_ADDED,
            auto_decompress=False,
            trust_env=False,
            timeout=aiohttp.ClientTimeout(total=None),
        )
        async with session, session.request(
            method, url, data=body, allow_redirects=False
        ) as response:
            length = length_of(response)
            return Answer(
                response.status,
                response.headers.getone("Content-Type"),
                await response.content.readexactly(length),
            )


def length_of(response: aiohttp.ClientResponse) -> int:
    """Return the length of an answer's body. Raises ValueError unless it is an answer as the office's, whose fields say its length and kind."""
    fields = response.headers
    lengths: list[str] = fields.getall("Content-Length", [])
    head = sum(len(name) + len(value) + 4 for name, value in response.raw_headers)
    if (
        response.status < 200
        or head > LARGEST_HEAD
        or len(lengths) != 1
        or not LENGTH.fullmatch(lengths[0])
        or "Transfer-Encoding" in fields
        or "Content-Type" not in fields
    ):
        raise ValueError(f"no answer of the office: {response.status}")
    return int(lengths[0])
