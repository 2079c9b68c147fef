"""The connections of pages, tills and monitors.

A client's mistake is one line of the log, however often it repeats, and a mistake of the counter keeps its traceback. `places` says who gives way and
whose time is over.
"""

import asyncio
import collections
import errno
import functools
import socket
from collections.abc import Awaitable, Callable
from typing import Any

from aiohttp import web
from aiohttp.http_exceptions import HttpProcessingError

from .answers import refused
from .files import tell
from .places import Client, Doing, Lines, Places
from .refusals import Refusal

WAITING = 512  # connections that the system accepts before the counter does
ACCEPTED_AT_ONCE = 32  # more would take all descriptors, until those that have no place are closed
LONGEST_CAUSE = 160  # characters
LOOK_EVERY = 0.5  # seconds
EVENTS = "/events"
TCP_CLOSE = 7  # the state in Linux of a connection that its client reset
NO_DESCRIPTOR = (errno.EMFILE, errno.ENFILE, errno.ENOBUFS, errno.ENOMEM)
Handler = Callable[[web.Request], Awaitable[web.StreamResponse]]


class NotTaken(ConnectionResetError):
    """Raised if a client's connection ended before its request was taken, which isn't carried out then."""


class Connections:
    """All connections of a listener. It cuts those whose time is over."""

    def __init__(self, counts: "collections.Counter[str]") -> None:
        self.places, self.lines, self.counts = Places(), Lines(), counts
        self.of: dict[Client, Connection] = {}
        self.loop = asyncio.get_running_loop()
        self.looking: asyncio.Task[None] | None = None

    def enter(self, connection: "Connection") -> None:
        """Give a connection its place, for which another may have to give way."""
        client = connection.client
        self.of[client] = connection
        gives_way = self.places.take(client)
        if client.is_refused:
            self.counts["clients_refused"] += 1
        if gives_way is client:
            self.cut(client, "there are too many connections")
        elif gives_way is not None:
            self.cut(gives_way, "another client needs its place")

    def leave(self, connection: "Connection") -> None:
        self.places.leave(connection.client)
        self.of.pop(connection.client, None)

    def cut(self, client: Client, why: str) -> None:
        self.counts["clients_cut"] += 1
        self.places.leave(client)
        self.of.pop(client).wire.abort()
        self.tell(client.address, f"its connection is cut, because {why}")

    def tell(self, address: str, what: str) -> None:
        for line in self.lines.put(address, what, self.loop.time()):
            tell(line)

    def look(self) -> None:
        """Cut the connections whose time is over."""
        now = self.loop.time()
        for it in self.of.values():
            it.look(now)
        for client, why in self.places.overdue(now):
            self.cut(client, why)
        for line in self.lines.end(now):
            tell(line)

    async def look_while(self, server: asyncio.Server) -> None:
        while server.is_serving():
            await asyncio.sleep(LOOK_EVERY)
            try:
                self.look()
            except Exception as fault:  # such as a log that takes no line
                what = {"message": "the look at connections failed", "exception": fault}
                self.loop.call_exception_handler(what)

    def on_fault(self, loop: asyncio.AbstractEventLoop, context: dict[str, Any]) -> None:
        """Log once, and not at each try, that the system gives no more descriptors."""
        fault = context.get("exception")
        if isinstance(fault, OSError) and fault.errno in NO_DESCRIPTOR and "socket" in context:
            self.tell("this machine", f"accepts no connection: {fault.strerror}")
        else:
            loop.default_exception_handler(context)


class Connection(web.RequestHandler):
    """A client's connection, by aiohttp, which would log a traceback for each malformed request."""

    wire: asyncio.Transport  # aiohttp lets go of its own before it is closed

    def __init__(self, manager: web.Server, connections: Connections, **options: Any) -> None:
        super().__init__(manager, loop=connections.loop, **options)
        self.connections, self.now = connections, connections.loop.time
        self.client = Client("an unknown address", self.now())
        self.is_answered = False

    def connection_made(self, transport: asyncio.BaseTransport) -> None:
        assert isinstance(transport, asyncio.Transport)
        self.wire = transport
        address = transport.get_extra_info("peername")
        if isinstance(address, tuple):
            self.client.address = address[0]
        super().connection_made(transport)
        self.connections.enter(self)

    def connection_lost(self, fault: BaseException | None) -> None:
        self.connections.leave(self)
        super().connection_lost(fault)

    def data_received(self, data: bytes) -> None:
        self.look(self.now())
        if self.client.doing is Doing.NOTHING:
            self.client.does(Doing.SENDING, self.now())
        try:
            super().data_received(data)
        except ValueError as fault:  # a target that is no address
            self.log_client(fault)
            self.force_close()

    def eof_received(self) -> bool:  # type: ignore[override]  # aiohttp's returns None
        """Return True if the client ended only its half, and gets the response to what it sent before. An event stream ends."""
        super().eof_received()
        if self.client.doing in (Doing.NOTHING, Doing.SENDING_BODY, Doing.LISTENING):
            return False
        self.client.ended = self.now()
        self.close()  # after the response, or at once if no request came
        return True

    async def attended(self, request: web.Request, handler: Handler) -> web.StreamResponse:
        """Have a request handled whose head came, and note what its client does. Raises NotTaken."""
        self.is_answered = False
        if self.wire.is_closing() or self.is_reset():
            self.force_close()
            raise NotTaken("its connection ended before it was taken")
        self.client.does(Doing.SENDING_BODY, self.now())
        request.content.on_eof(self.has_body)
        if self.client.is_refused:
            return too_many(request)
        if self.client.ended is not None and self.client.doing is Doing.SENDING_BODY:
            self.force_close()
            raise NotTaken("it ended before the body was whole")
        if request.path == EVENTS:
            self.client.does(Doing.LISTENING, self.now())
        try:
            return await handler(request)
        finally:
            self.client.does(Doing.TAKING, self.now())

    def has_body(self) -> None:
        if self.client.doing is Doing.SENDING_BODY:
            self.client.does(Doing.ASKING, self.now())
        elif self.client.doing is Doing.SENDING:  # the rest of a body that nobody waited for
            self.client.does(Doing.NOTHING, self.now())

    def log_access(self, *args: Any, **more: Any) -> None:
        """aiohttp calls this once it has written a response."""
        self.is_answered = True
        self.look(self.now())

    def look(self, now: float) -> None:
        """Note if the client has taken all of its response."""
        if self.is_answered and not self.wire.get_write_buffer_size():
            self.is_answered = False
            self.client.does(Doing.NOTHING, now)

    def is_reset(self) -> bool:
        """Return True if the client reset the connection, even if asyncio hasn't read that yet."""
        stream = self.wire.get_extra_info("socket")
        try:
            return bool(stream.getsockopt(socket.IPPROTO_TCP, socket.TCP_INFO, 1)[0] == TCP_CLOSE)
        except OSError:  # it is closed here too
            return True

    def log_exception(self, *args: Any, **more: Any) -> None:
        fault = more.get("exc_info")
        if isinstance(fault, (HttpProcessingError, web.RequestPayloadError)):
            self.log_client(fault)
        elif isinstance(fault, (ConnectionError, AssertionError)) and self.is_gone():
            self.log_client(fault)
        else:
            super().log_exception(*args, **more)

    def log_client(self, fault: Exception) -> None:
        self.connections.tell(self.client.address, f"sent no whole request: {cause_of(fault)}")

    def is_gone(self) -> bool:
        return self.transport is None or self.transport.is_closing()


@web.middleware
async def attend(request: web.Request, handler: Handler) -> web.StreamResponse:
    assert isinstance(request.protocol, Connection)
    return await request.protocol.attended(request, handler)


def too_many(request: web.Request) -> web.Response:
    """Return the response to a client for whose connection there is no place."""
    refusal, fields = Refusal("too_many"), {"X-Counter": "not_sent"}
    response = refused(request, 503, refusal, b"counter too_many\n", **fields)
    response.force_close()
    return response


def cause_of(fault: Exception) -> str:
    """Return what a fault says, in a bounded line without control characters."""
    what = getattr(fault, "message", "") or str(fault)
    return f"{type(fault).__name__}: {ascii(what)[1:-1]}"[:LONGEST_CAUSE]


async def listen(
    application: web.Application, address: tuple[str, int], connections: Connections
) -> asyncio.Server:
    """Serve the application at an address. Raises OSError if the address can't be used."""
    application.middlewares.insert(0, attend)
    runner = web.AppRunner(application)
    await runner.setup()
    assert runner.server is not None
    connection = functools.partial(Connection, runner.server, connections, access_log=None)
    listener = socket.create_server(address, family=socket.AF_INET)
    server = await connections.loop.create_server(
        connection, sock=listener, backlog=ACCEPTED_AT_ONCE
    )
    listener.listen(WAITING)
    connections.loop.set_exception_handler(connections.on_fault)
    connections.looking = connections.loop.create_task(connections.look_while(server))
    return server
