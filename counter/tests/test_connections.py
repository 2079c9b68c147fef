"""Clients that send no request, or half of one: each is one line of the log, and a mistake of the counter keeps its traceback."""

import asyncio
import collections
import contextlib
import io
import json
import os
import socket
import struct
import tempfile
import time
import unittest
from collections.abc import Sequence
from pathlib import Path
from typing import Any
from unittest import mock

import aiohttp
from aiohttp import web
from weighbridge_counter import connections, places
from weighbridge_counter.connections import LONGEST_CAUSE, Connections, cause_of, listen
from weighbridge_counter.counter import Counter
from weighbridge_counter.places import Lines, Places
from weighbridge_counter.routes import Routes
from weighbridge_counter.setup import Setup

FOLDER = Path(__file__).resolve().parent.parent
HOST = b"Host: 127.0.0.1\r\n"
POST = b"POST /weighings HTTP/1.1\r\n" + HOST
CHUNKED = POST + b"Transfer-Encoding: chunked\r\n\r\n"
UPGRADE = b"Upgrade: websocket\r\nConnection: Upgrade\r\nSec-WebSocket-Key: x\r\nSec-WebSocket-Version: 13\r\n\r\n"
ESCAPES = b"\x1b[2J\x07\x9b"
# The pieces that a client sends, and the cause that the log names.
NO_REQUESTS = {
    "garbage": ((b"\x16\x03\x01\x02garbage" + ESCAPES + b"\r\n\r\n",), "Invalid method"),
    "a line": ((b"GARBAGE\r\n\r\n",), "Invalid method"),
    "a field without a colon": ((b"GET / HTTP/1.1\r\nHost 127\r\n\r\n",), "Invalid header token"),
    "control characters in a field's name": (
        (b"GET / HTTP/1.1\r\n" + HOST + ESCAPES + b": 1\r\n\r\n",),
        "Invalid header token",
    ),
    "a field too long": (
        (b"GET / HTTP/1.1\r\n" + HOST + b"X: " + b"\x9b" * 20000 + b"\r\n\r\n",),
        "Got more than 8190 bytes",
    ),
    "a target too long": ((b"GET /" + b"x" * 20000 + b" HTTP/1.1\r\n\r\n",), "Got more than 8190"),
    "a target that is no address": ((b"GET http://[::1 HTTP/1.1\r\n\r\n",), "Invalid IPv6 URL"),
    "another protocol": ((b"PRI * HTTP/2.0\r\n\r\nSM\r\n\r\n",), "BadHttpMessage"),
    "two lengths": (
        (POST + b"Content-Length: 1\r\nContent-Length: 2\r\n\r\nab",),
        "Content-Length",
    ),
    "a bad chunk": ((CHUNKED + b"zz\r\nabc\r\n",), "Invalid character in chunk size"),
    "a body that is no gzip": (
        (POST + b"Content-Encoding: gzip\r\nContent-Length: 5\r\n\r\nabcde",),
        "Can not decode content-encoding",
    ),
    "a client of WebSocket": (
        (b"GET / HTTP/1.1\r\n" + HOST + UPGRADE, b"\x81\x85\x00\x1b\n"),
        "Invalid method",
    ),
}
CUT_REQUESTS = {
    "a body": (POST + b"Content-Length: 100\r\n\r\nkey=",),
    "a paper's body": (POST.replace(b"weighings", b"papers/1") + b"Content-Length: 9\r\n\r\nx",),
    "a tare's body": (
        POST.replace(b"POST /weighings", b"PUT /tares/A") + b"Content-Length: 9\r\n\r\n{",
    ),
    "a chunk": (CHUNKED + b"5\r\nab",),
    "a later bad chunk": (CHUNKED, b"zz\r\nabc\r\n"),
}
SILENT = {
    "nothing": (b"",),
    "half a header": (b"GET / HTTP/1.1\r\nHost: 127.0",),
    "an event stream": (b"GET /events HTTP/1.1\r\n" + HOST + b"\r\n", b"\x00garbage\r\n\r\n"),
    "an event stream by WebSocket": (b"GET /events HTTP/1.1\r\n" + HOST + UPGRADE, b"\x81\x85"),
}


class Served(unittest.IsolatedAsyncioTestCase):
    async def serve(self, application: web.Application) -> None:
        # a busy machine's slow turns are no lines of the counter
        asyncio.get_running_loop().slow_callback_duration = 60
        self.connections = Connections(collections.Counter())
        server = await listen(application, ("127.0.0.1", 0), self.connections)
        self.addAsyncCleanup(server.wait_closed)
        self.addCleanup(server.close)
        self.port = server.sockets[0].getsockname()[1]


class Clients(Served):
    async def serve_counter(self) -> None:
        folder = tempfile.TemporaryDirectory()
        self.addCleanup(folder.cleanup)
        counter: Any = Counter(Setup(state=Path(folder.name)), lambda address: None)
        self.addCleanup(counter.printing.notes.shutdown)
        counter.terminal.is_in_doubt = lambda: False
        await self.serve(Routes(counter, FOLDER).application())
        self.pages = counter.pages

    async def log_of(self, pieces: Sequence[bytes], ends: str = "closes") -> tuple[str, bytes]:
        """Return the log's lines and the client's answer after a client sent the pieces and ended."""
        self.connections.lines = Lines()
        with contextlib.redirect_stderr(io.StringIO()) as said:
            reader, writer = await asyncio.open_connection("127.0.0.1", self.port)
            for piece in pieces:
                writer.write(piece)
                await asyncio.sleep(0.02)
            answer = b""
            if ends == "waits":
                with contextlib.suppress(asyncio.TimeoutError, OSError):
                    answer = await asyncio.wait_for(reader.read(200), 0.3)
            if ends == "resets":
                linger = struct.pack("ii", 1, 0)
                sock = writer.get_extra_info("socket")
                sock.setsockopt(socket.SOL_SOCKET, socket.SO_LINGER, linger)
                writer.transport.abort()
            writer.close()
            for _ in range(5):
                await asyncio.sleep(0.01)
        return said.getvalue(), answer

    def is_one_line(self, said: str, cause: str, what: str) -> None:
        self.assertEqual(1, said.count("\n"), f"{what}: {said}")
        line = said.removesuffix("\n")
        self.assertTrue(line.isprintable() and line.isascii(), f"{what}: {said!r}")
        self.assertTrue(line.startswith("counter: 127.0.0.1: sent no whole request: "), said)
        self.assertIn(cause, line, what)
        self.assertLess(len(line), 80 + LONGEST_CAUSE, what)

    async def test_what_is_no_request_is_one_line_with_its_cause_and_its_sender(self) -> None:
        await self.serve_counter()
        for what, (pieces, cause) in NO_REQUESTS.items():
            for ends in ("closes", "resets", "waits"):
                said, answer = await self.log_of(pieces, ends)
                self.is_one_line(said, cause, f"{what}, {ends}")
                if ends == "waits" and "address" not in what and "WebSocket" not in what:
                    self.assertRegex(answer, rb"^HTTP/1\.[01] 400 ", what)

    async def test_a_connection_that_is_cut_in_a_body_is_one_line(self) -> None:
        await self.serve_counter()
        for what, pieces in CUT_REQUESTS.items():
            for ends in ("closes", "resets"):
                said, _ = await self.log_of(pieces, ends)
                self.is_one_line(said, "ConnectionResetError", f"{what}, {ends}")

    async def test_what_ends_before_it_is_a_request_or_after_its_answer_is_no_line(self) -> None:
        await self.serve_counter()
        for what, pieces in SILENT.items():
            for ends in ("closes", "resets", "waits"):
                self.assertEqual("", (await self.log_of(pieces, ends))[0], f"{what}, {ends}")
        for _ in range(100):
            if not self.pages.open:
                break
            self.pages.tell("alive", 0)
            await asyncio.sleep(0.01)
        self.assertEqual(set(), self.pages.open)

    async def test_a_line_that_repeats_is_told_once(self) -> None:
        await self.serve_counter()
        said: list[str] = []
        with mock.patch.object(connections, "tell", said.append):
            for _ in range(20):
                reader, writer = await asyncio.open_connection("127.0.0.1", self.port)
                writer.write(b"GARBAGE\r\n\r\n")
                await asyncio.wait_for(reader.read(), 5)
                writer.close()
        self.assertEqual(1, len(said), said)

    async def test_a_mistake_of_the_counter_keeps_its_traceback(self) -> None:
        faults = [KeyError("x"), OSError(5, "y"), ConnectionResetError("of another connection")]

        async def breaks(request: web.Request) -> web.StreamResponse:
            raise faults[0]

        application = web.Application()
        application.router.add_get("/", breaks)
        await self.serve(application)
        while faults:
            said, answer = await self.log_of((b"GET / HTTP/1.1\r\n" + HOST + b"\r\n",), "waits")
            self.assertIn("Traceback", said)
            self.assertIn("in breaks", said)
            self.assertIn(type(faults.pop(0)).__name__, said)
            self.assertRegex(answer, rb"^HTTP/1\.1 500 ")

    async def test_no_descriptor_is_one_line(self) -> None:
        await self.serve_counter()
        loop = asyncio.get_running_loop()
        said: list[str] = []
        context = {"message": "x", "exception": OSError(24, "Too many open files"), "socket": None}
        with mock.patch.object(connections, "tell", said.append):
            for _ in range(1000):
                loop.call_exception_handler(dict(context))
        self.assertEqual(["this machine: accepts no connection: Too many open files"], said)
        with mock.patch.object(loop, "default_exception_handler") as default:
            others: tuple[dict[str, Any], ...] = (
                {"exception": KeyError()},
                {"exception": OSError(5, "x")},
                {},
            )
            for other in others:
                loop.call_exception_handler({"message": "y", **other})
        self.assertEqual(3, default.call_count)

    def test_a_cause_is_bounded_and_printable(self) -> None:
        for fault in (ValueError("\x1b[2J\n" * 1000), ValueError("ä\u2028" * 1000), ValueError()):
            cause = cause_of(fault)
            self.assertLessEqual(len(cause), LONGEST_CAUSE)
            self.assertTrue(cause.isprintable() and cause.isascii())


REQUEST = POST + b"Content-Length: 5\r\n\r\nkey=A"
SHORT = {doing: (0.2, why) for doing, (_, why) in places.WITHIN.items()}


async def answer_at_once(request: web.Request) -> web.StreamResponse:
    return web.Response(text="zero\n")


class Files(Served):
    async def test_a_file_comes_whole_and_not_again(self) -> None:
        folder = tempfile.TemporaryDirectory()
        self.addCleanup(folder.cleanup)
        counter = Counter(Setup(state=Path(folder.name)), lambda address: None)
        self.addCleanup(counter.printing.notes.shutdown)
        await self.serve(Routes(counter, FOLDER).application())
        for path, kind in (
            ("/", "text/html"),
            ("/web/style.css", "text/css"),
            ("/web/page.js", "text/javascript"),
            ("/openapi.json", "application/json"),
        ):
            async with aiohttp.ClientSession() as session:
                url = f"http://127.0.0.1:{self.port}{path}"
                fields: dict[str, str] = {}
                for status in (200, 304):
                    async with session.get(url, headers=fields) as answer:
                        body = await answer.read()
                        self.assertEqual(status, answer.status, path)
                        self.assertEqual("no-cache", answer.headers["Cache-Control"])
                        self.assertEqual(status == 200, body != b"", path)
                        if status == 200:
                            self.assertIn(answer.content_type.split("/")[1][-4:], kind)
                        fields = {"If-None-Match": answer.headers["ETag"]}
                async with session.get(url, headers={"If-None-Match": '"x"'}) as answer:
                    self.assertEqual((200, body or None), (answer.status, body or None))


class Slow(Served):
    """Clients that are slow, silent, too many, or gone. Their times are short here."""

    def setUp(self) -> None:
        shorter: tuple[Any, ...] = (
            mock.patch.dict(places.WITHIN, SHORT),
            mock.patch.object(places, "ANSWERED_WITHIN", 0.3),
            mock.patch.object(connections, "LOOK_EVERY", 0.02),
            mock.patch.object(connections, "tell", self.tell),
        )
        for it in shorter:
            it.start()
            self.addCleanup(it.stop)
        self.said: list[str] = []
        self.taken: list[str] = []
        self.may_go = asyncio.Event()

    def tell(self, line: str) -> None:
        self.said.append(line)

    async def serve_weighings(self, most: int = 400, most_refused: int = 64) -> None:
        async def weigh(request: web.Request) -> web.StreamResponse:
            self.taken.append((await request.read()).decode())
            await self.may_go.wait()
            return web.Response(text="stored\n")

        async def stream(request: web.Request) -> web.StreamResponse:
            response = web.StreamResponse()
            await response.prepare(request)
            await asyncio.sleep(60)
            return response

        async def much(request: web.Request) -> web.StreamResponse:
            return web.Response(body=b"x" * 30_000_000)

        async def little(request: web.Request) -> web.StreamResponse:
            return web.Response(body=b"x" * 60_000)

        application = web.Application()
        application.add_routes(
            [
                web.post("/weighings", weigh),
                web.get("/weighings", weigh),
                web.post("/zero", answer_at_once),
                web.get("/events", stream),
                web.get("/much", much),
                web.get("/little", little),
            ]
        )
        await self.serve(application)
        self.connections.places = Places(most, most_refused)

    async def client(
        self, sent: bytes, **more: Any
    ) -> tuple[asyncio.StreamReader, asyncio.StreamWriter]:
        reader, writer = await asyncio.open_connection("127.0.0.1", self.port, **more)
        self.addCleanup(writer.close)
        writer.write(sent)
        await asyncio.sleep(0.02)
        return reader, writer

    async def end_of(self, reader: asyncio.StreamReader) -> bytes:
        """Return what came until the connection ended."""
        try:
            return await asyncio.wait_for(reader.read(), 3)
        except ConnectionError:
            return b""

    async def all_are_gone(self) -> None:
        for _ in range(100):
            if not self.connections.of and not self.connections.places.clients:
                return
            await asyncio.sleep(0.02)
        self.fail(f"{len(self.connections.of)} connections are left")

    async def test_a_slow_client_is_cut_and_the_line_says_why(self) -> None:
        await self.serve_weighings()
        for sent, why in (
            (b"", "it sent no request"),
            (b"GET /weighings HTTP/1.1\r\nHost:", "it sent no whole head"),
            (POST + b"Content-Length: 50\r\n\r\nkey=", "it sent no whole body"),
        ):
            self.said.clear()
            reader, writer = await self.client(sent)
            for _ in range(10):  # a byte now and then wins no time
                await asyncio.sleep(0.03)
                if sent and not writer.is_closing():
                    writer.write(b"x")
            self.assertEqual(b"", await self.end_of(reader))
            self.assertIn(why, self.said[0])
        self.assertEqual(3, self.connections.counts["clients_cut"])
        await self.all_are_gone()
        self.assertEqual([], self.taken)

    async def test_one_that_takes_no_response_is_cut(self) -> None:
        await self.serve_weighings()
        # the server waits while it writes much; a little is written at once, and then waits itself
        for path in (b"/much", b"/little"):
            self.said.clear()
            self.connections.lines = Lines()
            client = socket.socket()
            self.addCleanup(client.close)
            client.setsockopt(socket.SOL_SOCKET, socket.SO_RCVBUF, 1)
            client.connect(("127.0.0.1", self.port))
            await asyncio.sleep(0.02)
            (connection,) = self.connections.of.values()
            served = connection.wire.get_extra_info("socket")
            served.setsockopt(socket.SOL_SOCKET, socket.SO_SNDBUF, 1)
            client.sendall(b"GET " + path + b" HTTP/1.1\r\n" + HOST + b"\r\n")
            await self.all_are_gone()
            self.assertIn("it didn't take its whole response", self.said[0], path)
            self.assertEqual(0, connection.wire.get_write_buffer_size(), "what waits is let go")

    async def test_a_request_that_is_worked_on_has_its_time(self) -> None:
        await self.serve_weighings()
        reader, writer = await self.client(REQUEST)
        await asyncio.sleep(0.5)
        self.may_go.set()
        self.assertTrue((await reader.read(200)).endswith(b"stored\n"))
        self.assertEqual(["key=A"], self.taken)
        self.assertEqual([], self.said)
        writer.close()
        await self.all_are_gone()

    async def test_a_connection_may_ask_again_and_then_be_silent_for_its_time(self) -> None:
        await self.serve_weighings()
        self.may_go.set()
        reader, writer = await self.client(REQUEST)
        for _ in range(4):
            self.assertTrue((await reader.read(200)).endswith(b"stored\n"))
            await asyncio.sleep(0.12)
            writer.write(REQUEST)
        self.assertTrue((await reader.read(200)).endswith(b"stored\n"))
        self.assertEqual(b"", await self.end_of(reader))
        self.assertEqual(5, len(self.taken))

    async def test_a_client_that_ended_its_half_gets_its_response(self) -> None:
        await self.serve_weighings()
        for is_late in (False, True):
            self.may_go.clear()
            reader, writer = await self.client(b"")
            writer.write(REQUEST)
            if is_late:
                await asyncio.sleep(0.02)
            writer.write_eof()
            await asyncio.sleep(0.1)
            self.may_go.set()
            self.assertTrue((await self.end_of(reader)).endswith(b"stored\n"), is_late)
        self.assertEqual((["key=A"] * 2, []), (self.taken, self.said))

    async def test_a_client_that_ended_its_half_is_not_waited_for_without_end(self) -> None:
        await self.serve_weighings()
        reader, writer = await self.client(REQUEST)
        writer.write_eof()
        self.assertEqual(b"", await self.end_of(reader))
        self.assertIn("it ended its half", self.said[0])

    async def test_half_a_request_before_the_end_of_a_half_is_none(self) -> None:
        await self.serve_weighings()
        self.may_go.set()
        for cut in (1, 10, len(POST) - 1, len(REQUEST) - 6, len(REQUEST) - 1):
            reader, writer = await self.client(b"")
            writer.write(REQUEST[:cut])
            writer.write_eof()
            self.assertEqual(b"", await self.end_of(reader), cut)
        self.assertEqual([], self.taken)
        self.assertEqual([], [it for it in self.said if "is cut" in it], "no wait")

    async def test_a_request_whose_client_reset_the_connection_is_not_taken(self) -> None:
        await self.serve_weighings()
        self.may_go.set()
        client = socket.create_connection(("127.0.0.1", self.port))
        client.setsockopt(socket.SOL_SOCKET, socket.SO_LINGER, struct.pack("ii", 1, 0))
        client.send(REQUEST)
        client.close()  # the counter finds both in one turn, because it hasn't had its turn yet
        await asyncio.sleep(0.1)
        self.assertEqual([], self.taken)
        self.assertIn("its connection ended before it was taken", self.said[0])

    async def test_a_reset_is_seen_before_asyncio_reads_it(self) -> None:
        await self.serve_weighings()
        for linger, is_reset in ((0, False), (1, True)):
            client = socket.create_connection(("127.0.0.1", self.port))
            await asyncio.sleep(0.02)
            (connection,) = self.connections.of.values()
            self.assertFalse(connection.is_reset())
            client.setsockopt(socket.SOL_SOCKET, socket.SO_LINGER, struct.pack("ii", linger, 0))
            client.close()
            time.sleep(0.02)  # no turn of the loop
            self.assertEqual(is_reset, connection.is_reset())
            await self.all_are_gone()

    async def test_a_request_whose_client_was_cut_before_is_not_taken(self) -> None:
        await self.serve_weighings()
        self.may_go.set()
        reader, _ = await self.client(b"")
        (connection,) = self.connections.of.values()
        connection.data_received(REQUEST)
        self.connections.cut(connection.client, "another client needs its place")
        self.assertEqual(b"", await self.end_of(reader))
        await asyncio.sleep(0.05)
        self.assertEqual([], self.taken)

    async def test_a_body_that_comes_after_its_response_is_no_new_request(self) -> None:
        await self.serve_weighings()
        reader, writer = await self.client(REQUEST.replace(b"weighings", b"zero")[:-5])
        self.assertIn(b" 200 ", await reader.read(200))
        writer.write(b"key=A")
        for _ in range(3):
            # the time of a head begins with its first piece, and not with the late body
            for piece in (b"POST /zero HTTP/1.1\r\n", HOST + b"\r\n"):
                await asyncio.sleep(0.12)
                writer.write(piece)
            self.assertIn(b" 200 ", await reader.read(200))
        self.assertEqual([], self.said)

    async def test_a_look_that_fails_is_not_the_last(self) -> None:
        await self.serve_weighings()
        faults: list[dict[str, Any]] = []
        loop = asyncio.get_running_loop()
        with mock.patch.object(loop, "call_exception_handler", faults.append), mock.patch.object(
            self.connections, "look", side_effect=OSError(28, "No space left on device")
        ):
            await asyncio.sleep(0.1)
        self.assertTrue(faults)
        reader, _ = await self.client(b"GET")
        self.assertEqual(b"", await self.end_of(reader))

    async def test_a_flood_of_connections_takes_few_descriptors_at_once(self) -> None:
        await self.serve_weighings(20, 4)
        clients = [socket.socket() for _ in range(300)]
        for it in clients:
            self.addCleanup(it.close)
            it.setblocking(False)
            it.connect_ex(("127.0.0.1", self.port))
        most = 0
        for _ in range(40):
            await asyncio.sleep(0)
            most = max(most, len(os.listdir("/proc/self/fd")) - len(clients))
        await asyncio.sleep(0.1)
        self.assertLess(most, 24 + 4 * connections.ACCEPTED_AT_ONCE + 40)

    async def test_one_too_many_gets_a_503_and_another_address_a_place(self) -> None:
        await self.serve_weighings(4, 2)
        readers = [await self.client(REQUEST) for _ in range(4)]
        for other in ("127.0.0.1", "127.0.0.2"):
            reader, _ = await self.client(REQUEST, local_addr=(other, 0))
            answer = await self.end_of(reader)
            self.assertTrue(answer.startswith(b"HTTP/1.1 503 "), answer)
            self.assertIn(b"\r\nRetry-After: 1\r\n", answer)
            self.assertIn(b"\r\nX-Counter: not_sent\r\n", answer)
            self.assertTrue(answer.endswith(b"\r\n\r\ncounter too_many\n"))
        reader, _ = await self.client(
            REQUEST.replace(b"\r\n\r\n", b"\r\nAccept: application/json\r\n\r\n", 1),
            local_addr=("127.0.0.1", 0),
        )
        shown = json.loads((await self.end_of(reader)).partition(b"\r\n\r\n")[2])
        self.assertEqual(("too_many", "later"), (shown["name"], shown["retry"]))
        self.assertEqual((4, 3), (len(self.taken), self.connections.counts["clients_refused"]))
        self.may_go.set()
        for reader, _ in readers:
            self.assertTrue((await reader.read(200)).endswith(b"stored\n"))

    async def test_streams_of_one_address_keep_no_other_out(self) -> None:
        await self.serve_weighings(6, 2)
        events = b"GET /events HTTP/1.1\r\n" + HOST + b"\r\n"
        for _ in range(6):
            await self.client(events, local_addr=("127.0.0.2", 0))
        self.may_go.set()
        reader, _ = await self.client(REQUEST)
        self.assertTrue((await reader.read(200)).endswith(b"stored\n"))
        self.assertIn("another client needs its place", self.said[0])
        refused, _ = await self.client(events, local_addr=("127.0.0.2", 0))
        self.assertEqual(6, self.connections.places.count())

    async def test_a_flood_of_half_heads_takes_no_place_from_a_request(self) -> None:
        await self.serve_weighings(20, 4)
        self.may_go.set()
        flood = [
            await asyncio.open_connection("127.0.0.1", self.port, local_addr=("127.0.0.2", 0))
            for _ in range(100)
        ]
        for _, writer in flood:
            self.addCleanup(writer.close)
            writer.write(b"POST /weigh")
        for _ in range(5):
            reader, _ = await self.client(REQUEST)
            self.assertTrue((await reader.read(200)).endswith(b"stored\n"))
        self.assertLessEqual(len(self.connections.of), 24)
        self.assertLessEqual(len(self.said), 3, self.said)


if __name__ == "__main__":
    unittest.main()
