"""Requests to the office: the bytes that go out, each once, and the answers that count as whole."""

import asyncio
import contextlib
import os
import socket
import struct
import time
import unittest
from unittest import mock

import aiohttp
from weighbridge_counter.office import LARGEST_HEAD, NoAnswer, Office, OneConnection

HEAD = b"HTTP/1.1 201 Created\r\nDate: x\r\nContent-Type: text/plain; charset=utf-8\r\n"
WHOLE = HEAD + b"Content-Length: 4\r\nConnection: close\r\n\r\nbody"
KEPT = WHOLE.replace(b"Connection: close\r\n", b"")
RESET, STAYS = b"reset", b"stays"  # what the played office does in place of more bytes
ASKED = (("GET", "/tickets/1", None), ("POST", "/weighings", b"key=K1&kind=first&plate=%41"))


def with_length(length: bytes, body: bytes = b"body") -> bytes:
    return HEAD + b"Content-Length: " + length + b"\r\n\r\n" + body


NO_ANSWERS = {
    "an end before the head": (b"",),
    "an end in the status": (WHOLE[:9],),
    "an end after the status": (WHOLE[:22],),
    "an end in a field": (WHOLE[:40],),
    "an end before the empty line": (WHOLE[:-6],),
    "an end before the body": (WHOLE[:-4],),
    "an end in the body": (WHOLE[:-1],),
    "an end in a body that is kept open": (KEPT[:-1],),
    "a reset before the head": (RESET,),
    "a reset in the head": (WHOLE[:40], RESET),
    "a reset in the body": (WHOLE[:-2], RESET),
    "silence": (STAYS,),
    "silence in the head": (WHOLE[:40], STAYS),
    "silence in the body": (WHOLE[:-1], STAYS),
    "garbage": (b"garbage\r\n\r\n",),
    "garbage without an end": (b"\x00\x01\x02" * 50, STAYS),
    "a status that is no number": (WHOLE.replace(b"201", b"abc"),),
    "no length": (HEAD + b"\r\nbody",),
    "a length that is no number": (with_length(b"x"),),
    "a length below zero": (with_length(b"-4"),),
    "a length with a sign": (with_length(b"+4"),),
    "a length of other digits": (with_length("٤".encode()),),
    "two lengths": (with_length(b"4\r\nContent-Length: 4"),),
    "two lengths that differ": (with_length(b"3\r\nContent-Length: 4"),),
    "a list of lengths": (with_length(b"4, 4"),),
    "a length that no body has": (with_length(b"9" * 20),),
    "a length above the body's": (with_length(b"5"),),
    "chunks": (HEAD + b"Transfer-Encoding: chunked\r\n\r\n4\r\nbody\r\n0\r\n\r\n",),
    "chunks and a length": (
        with_length(b"4\r\nTransfer-Encoding: chunked", b"4\r\nbody\r\n0\r\n\r\n"),
    ),
    "no kind": (WHOLE.replace(b"Content-Type", b"Content-Kind"),),
    "an interim answer": (b"HTTP/1.1 100 Continue\r\n\r\n",),
    "an interim answer with a body": (WHOLE.replace(b"201 Created", b"100 Continue"),),
    "another protocol": (WHOLE.replace(b"201 Created", b"101 Switching\r\nUpgrade: x"),),
    "a head too large": (WHOLE.replace(b"Date: x", b"X: " + b"x" * LARGEST_HEAD),),
    "a head too large of small fields": (
        WHOLE.replace(b"Date: x", b"\r\n".join([b"X: " + b"x" * 1000] * 9)),
    ),
    "a head without an end": (HEAD + b"X: " + b"x" * 100000, STAYS),
}
ANSWERS = {
    "as the office writes it": (WHOLE,),
    "byte for byte": tuple(WHOLE[at : at + 1] for at in range(len(WHOLE))),
    "a connection that stays open": (KEPT, STAYS),
    "more than its length": (WHOLE + b"more",),
    "more than its length, later": (KEPT, b"more"),
    "two answers": (WHOLE + WHOLE.replace(b"body", b"bady"),),
    "a cookie": (WHOLE.replace(b"Date: x", b"Set-Cookie: a=b"),),
    "a body that says it is compressed": (WHOLE.replace(b"Date: x", b"Content-Encoding: gzip"),),
    "a head as large as may be": (WHOLE.replace(b"Date: x", b"X: " + b"x" * 8000),),
}


class PlayedOffice:
    """Takes one request after another, keeps its bytes, and answers each with its pieces."""

    async def start(self) -> "PlayedOffice":
        self.came: list[bytes] = []
        self.connections = 0
        self.pieces: tuple[bytes, ...] = (WHOLE,)
        self.listener = await asyncio.start_server(self.answer, "127.0.0.1", 0)
        self.port = self.listener.sockets[0].getsockname()[1]
        return self

    async def answer(self, reader: asyncio.StreamReader, writer: asyncio.StreamWriter) -> None:
        self.connections += 1
        with contextlib.suppress(OSError, EOFError):
            request = await reader.readuntil(b"\r\n\r\n")
            length = request.partition(b"Content-Length: ")[2].partition(b"\r\n")[0]
            self.came.append(request + await reader.readexactly(int(length or 0)))
            for piece in self.pieces:
                if piece == STAYS:
                    await reader.read()  # until the counter ends the connection
                elif piece == RESET:
                    linger = struct.pack("ii", 1, 0)
                    sock = writer.get_extra_info("socket")
                    sock.setsockopt(socket.SOL_SOCKET, socket.SO_LINGER, linger)
                    writer.transport.abort()
                    return
                else:
                    writer.write(piece)
                    await asyncio.sleep(0.02 if len(self.pieces) < 9 else 0)
        writer.close()


class AtTheOffice(unittest.IsolatedAsyncioTestCase):
    async def asyncSetUp(self) -> None:
        # a busy machine's slow turns are no warnings of the client
        asyncio.get_running_loop().slow_callback_duration = 60
        self.played = await PlayedOffice().start()
        self.addCleanup(self.played.listener.close)
        self.office = Office(("127.0.0.1", self.played.port))
        self.addAsyncCleanup(asyncio.sleep, 0.05)  # in which the played office closes what is open

    def request(self, line: bytes, length: bytes = b"") -> bytes:
        return b"%s HTTP/1.1\r\nHost: 127.0.0.1:%d\r\n%s\r\n" % (line, self.played.port, length)

    async def test_the_bytes_that_go_out_have_nothing_more_than_they_need(self) -> None:
        await self.office.ask("GET", "/journal.csv")
        for body in (b"key=K1&kind=first&plate=AB%2D12", b"", b"\xff\x00\r\n\r\n", b"x" * 2048):
            await self.office.ask("POST", "/weighings", body)
            self.assertEqual(
                self.request(b"POST /weighings", b"Content-Length: %d\r\n" % len(body)) + body,
                self.played.came[-1],
            )
        self.assertEqual(self.request(b"GET /journal.csv"), self.played.came[0])

    async def test_a_target_goes_out_unchanged_or_not_at_all(self) -> None:
        for target in (
            "/",
            "/tickets/1",
            "/tickets/1%20HTTP%2F1.1%0D%0A",
            "/a/../b/./c",
            "//other.example/x",
            "/%7E%41%zz",
            "/x?a=%20&b=+",
            "/a+b;c=d,e'(f)*!~@:$[]|^`{}\"<>\\",
        ):
            await self.office.ask("GET", target)
            self.assertEqual(self.request(b"GET " + target.encode()), self.played.came.pop())
        for target in (
            "",
            "x",
            "@other.example/",
            "/ x",
            "/x\r\nX: y",
            "/\x7f",
            "/é",
            "*",
            "http://a/",
        ):
            with self.assertRaises(NoAnswer, msg=target):
                await self.office.ask("GET", target)
        self.assertEqual([], self.played.came)

    async def test_a_whole_answer_is_taken_byte_for_byte(self) -> None:
        for what, self.played.pieces in ANSWERS.items():
            for method, target, body in ASKED:
                answer = await self.office.ask(method, target, body, within=10.0)
                self.assertEqual(
                    (201, "text/plain; charset=utf-8", b"body"),
                    (answer.status, answer.kind, answer.body),
                    what,
                )
        for body in (b"", b"\xff\xfe\x00\r\n\r\n", b"x" * 3_000_000):
            self.played.pieces = (with_length(b"%d" % len(body), body),)
            self.assertEqual(body, (await self.office.ask("GET", "/journal.csv")).body)

    async def test_anything_else_is_no_answer_and_is_asked_once(self) -> None:
        with self.assertNoLogs(level="WARNING"):
            for what, self.played.pieces in NO_ANSWERS.items():
                for method, target, body in ASKED:
                    self.played.came.clear()
                    self.played.connections = 0
                    within = 0.4 if STAYS in self.played.pieces else 10.0
                    with self.assertRaises(NoAnswer, msg=f"{what}, {method}"):
                        await self.office.ask(method, target, body, within=within)
                    await asyncio.sleep(0.01)
                    self.assertEqual((1, 1), (len(self.played.came), self.played.connections), what)

    async def test_an_interim_answer_before_the_whole_one_is_skipped(self) -> None:
        self.played.pieces = (b"HTTP/1.1 103 Early Hints\r\nX: y\r\n\r\n", WHOLE)
        self.assertEqual(b"body", (await self.office.ask("POST", "/weighings", b"")).body)

    async def test_silence_ends_in_time(self) -> None:
        self.played.pieces, began = (STAYS,), time.monotonic()
        with self.assertRaises(NoAnswer):
            await self.office.ask("GET", "/indication", within=0.3)
        self.assertLess(time.monotonic() - began, 1.8)

    async def test_a_redirect_is_an_answer_and_is_not_followed(self) -> None:
        other = await PlayedOffice().start()
        self.addCleanup(other.listener.close)
        for status in (b"301", b"302", b"303", b"307", b"308"):
            place = b"Location: http://127.0.0.1:%d/weighings" % other.port
            self.played.pieces = (WHOLE.replace(b"201", status).replace(b"Date: x", place),)
            for method, target, body in ASKED:
                answer = await self.office.ask(method, target, body)
                self.assertEqual((int(status), b"body"), (answer.status, answer.body))
        self.assertEqual((10, 0), (len(self.played.came), other.connections))

    async def test_a_proxy_of_the_environment_gets_nothing(self) -> None:
        other = await PlayedOffice().start()
        self.addCleanup(other.listener.close)
        proxy = f"http://127.0.0.1:{other.port}"
        names = ("http_proxy", "HTTP_PROXY", "all_proxy", "ALL_PROXY", "https_proxy")
        with mock.patch.dict(os.environ, dict.fromkeys(names, proxy)):
            os.environ.pop("no_proxy", None)
            for method, target, body in ASKED:
                await self.office.ask(method, target, body)
        self.assertEqual((2, 0), (len(self.played.came), other.connections))

    async def test_each_request_has_a_connection_of_its_own(self) -> None:
        self.played.pieces = (KEPT, STAYS)
        for _ in range(3):
            await self.office.ask("GET", "/indication")
        self.assertEqual(3, self.played.connections)
        await asyncio.gather(*(self.office.ask("GET", "/indication") for _ in range(40)))
        self.assertEqual(43, self.played.connections)

    async def test_a_request_is_never_sent_again(self) -> None:
        async with aiohttp.ClientSession(connector=OneConnection()) as session:
            url = f"http://127.0.0.1:{self.played.port}/"
            async with session.get(url):
                pass
            with self.assertRaises(aiohttp.ClientConnectionError):
                await session.get(url)
        self.assertEqual(1, self.played.connections)

    async def test_an_office_that_is_not_there_gives_no_answer(self) -> None:
        self.played.listener.close()
        await self.played.listener.wait_closed()
        for method, target, body in ASKED:
            with self.assertRaises(NoAnswer):
                await self.office.ask(method, target, body)
        self.assertEqual(0, self.played.connections)

    async def test_each_fault_of_a_connection_is_no_answer(self) -> None:
        for fault in (
            AssertionError(),
            OSError(5, "x"),
            aiohttp.ClientConnectionError(),
            aiohttp.ServerTimeoutError(),
            aiohttp.http_exceptions.BadHttpMessage("x"),
            asyncio.IncompleteReadError(b"", 1),
            ValueError(),
        ):
            with mock.patch.object(OneConnection, "connect", side_effect=fault):
                with self.assertRaises(NoAnswer):
                    await self.office.ask("POST", "/weighings", b"")
        self.assertEqual(0, self.played.connections)

    async def test_a_connection_that_is_reset_at_once_gives_no_answer(self) -> None:
        async def reset(reader: asyncio.StreamReader, writer: asyncio.StreamWriter) -> None:
            linger = struct.pack("ii", 1, 0)
            writer.get_extra_info("socket").setsockopt(socket.SOL_SOCKET, socket.SO_LINGER, linger)
            writer.transport.abort()

        listener = await asyncio.start_server(reset, "127.0.0.1", 0)
        self.addCleanup(listener.close)
        office = Office(listener.sockets[0].getsockname())
        with self.assertNoLogs(level="WARNING"):
            for _ in range(50):
                for method, target, body in ASKED:
                    with self.assertRaises(NoAnswer):
                        await office.ask(method, target, body)


if __name__ == "__main__":
    unittest.main()
