"""The requests that the counter passes to the office: one for each of its own, with the same target, and few at a time."""

import asyncio
import contextlib
import io
import json
import math
import time
import unittest
import zoneinfo
from collections import Counter
from pathlib import Path
from types import SimpleNamespace
from typing import Any
from unittest import mock

from aiohttp import web
from aiohttp.test_utils import make_mocked_request
from weighbridge_counter.books import REST, Books
from weighbridge_counter.office import Answer, NoAnswer, Office
from weighbridge_counter.routes import MOST_ASKING, Routes

from .test_lists import DIGEST, ROW, export


def routes_over(office: object) -> Any:
    setup = SimpleNamespace(listen=("127.0.0.1", 1), hosts=())
    counter: Any = SimpleNamespace(office=office, setup=setup)
    return Routes(counter, Path("."))


class SlowOffice:
    """Takes a twentieth of a second for each answer, and counts how many it makes at once."""

    def __init__(self) -> None:
        self.now = self.most = self.all = 0

    async def ask(
        self, method: str, target: str, body: bytes | None = None, within: float = 15.0
    ) -> Answer:
        self.all, self.now = self.all + 1, self.now + 1
        self.most = max(self.most, self.now)
        await asyncio.sleep(0.05)
        self.now -= 1
        return Answer(200, "text/plain", f"{self.all}".encode())


class ManyAskers(unittest.IsolatedAsyncioTestCase):
    async def test_few_have_a_place_at_the_office_at_once(self) -> None:
        office = SlowOffice()
        routes = routes_over(office)
        await asyncio.gather(
            *(routes.hand_on(make_mocked_request("GET", "/indication")) for _ in range(40))
        )
        self.assertEqual((40, MOST_ASKING), (office.all, office.most))

    async def test_many_searches_hold_up_no_value(self) -> None:
        done: list[str] = []

        def search(words: str) -> tuple[list[object], int]:
            done.append(words)
            return [], 0

        lists = SimpleNamespace(search=search)
        routes = routes_over(SlowOffice())
        routes.counter.books = SimpleNamespace(lists=lists, is_whole=lambda: True)
        searches = asyncio.gather(
            *(routes.search(make_mocked_request("GET", f"/search?q={it}")) for it in range(60))
        )
        most = before = 0
        while not searches.done():
            await asyncio.sleep(0)
            most, before = max(most, len(done) - before), len(done)
        self.assertEqual((60, 1), (len(done), most), "between two looks at what came")

    async def test_one_export_is_for_all_who_wait_and_none_comes_upon_the_other(self) -> None:
        office = SlowOffice()
        books, began = Books(office, zoneinfo.ZoneInfo("UTC"), Counter()), time.monotonic()
        first = [asyncio.ensure_future(books.export_of_now()) for _ in range(20)]
        await asyncio.sleep(0.02)
        later = [asyncio.ensure_future(books.export_of_now()) for _ in range(20)]
        self.assertEqual([b"1"] * 20 + [b"2"] * 20, [(await it)[0].body for it in first + later])
        self.assertEqual((2, 1), (office.all, office.most))
        self.assertGreater(time.monotonic() - began, (1 + REST + 1) * 0.05)

    async def test_lists_that_are_always_to_be_read_anew_leave_the_office_time(self) -> None:
        office = SlowOffice()
        books = Books(office, zoneinfo.ZoneInfo("UTC"), Counter())
        books.is_empty = lambda: True
        with mock.patch.multiple(
            "weighbridge_counter.books",
            LOOK_EVERY=0.001,
            EMPTY_FOR=0.0,
            NOT_SOONER_THAN=0.0,
            PROBE_EVERY=math.inf,
        ):
            with self.assertRaises(asyncio.TimeoutError):
                await asyncio.wait_for(books.run(), 0.6)
        self.assertIn(office.all, (2, 3))


class AKey(unittest.IsolatedAsyncioTestCase):
    under_way: set[asyncio.Task[None]] = set()

    async def asked(self, key: str, *answers: Any) -> tuple[int, Any]:
        async def ask(
            method: str, target: str, body: bytes | None = None, within: float = 15.0
        ) -> Answer:
            if (answer := answers[0]) is None:
                raise NoAnswer("cut")
            return Answer(answer[0], "text/csv", answer[1].encode())

        routes = routes_over(SimpleNamespace(ask=ask))
        routes.counter.books = Books(routes.counter.office, zoneinfo.ZoneInfo("UTC"), Counter())
        routes.counter.acts = SimpleNamespace(tasks=self.under_way)
        answer = await routes.key(
            make_mocked_request("GET", f"/keys/{key}", match_info={"key": key})
        )
        return answer.status, json.loads(answer.text)

    async def test_the_column_of_keys_is_asked_and_nothing_else(self) -> None:
        rows = export(ROW)
        self.assertEqual((200, {"found": True}), await self.asked("K1", (200, rows)))
        for key in ("20", "WB01", "first", "AB-12", "1", "k1", "K", "60000", DIGEST[:32]):
            self.assertEqual((200, {"found": False}), await self.asked(key, (200, rows)), key)

    async def test_if_it_is_not_known_the_answer_says_so(self) -> None:
        self.assertEqual((502, {"found": None}), await self.asked("K1", None))
        self.assertEqual((503, {"found": None}), await self.asked("K1", (503, "store 2 disk\n")))
        for text in ("", "number,key\n1,K1\n", export(ROW)[:-40]):
            self.assertEqual((502, {"found": None}), await self.asked("K1", (200, text)), text)

    async def test_a_request_on_its_way_comes_to_its_end_before(self) -> None:
        rows: list[int | str] = [200, export()]

        async def store() -> None:
            await asyncio.sleep(0.05)
            rows[1] = export(ROW)

        self.under_way = {asyncio.ensure_future(store())}
        self.assertEqual((200, {"found": True}), await self.asked("K1", rows))

    async def test_if_it_does_not_come_to_its_end_the_answer_says_that_it_is_not_known(
        self,
    ) -> None:
        self.under_way = {asyncio.ensure_future(asyncio.sleep(60))}
        with mock.patch("weighbridge_counter.routes.UNDER_WAY_FOR", 0.05):
            self.assertEqual((503, {"found": None}), await self.asked("K1", (200, export())))
        for it in self.under_way:
            it.cancel()


class AtTheOffice(unittest.IsolatedAsyncioTestCase):
    async def asyncSetUp(self) -> None:
        self.came: list[bytes] = []

        async def answer(reader: asyncio.StreamReader, writer: asyncio.StreamWriter) -> None:
            self.came.append(await reader.read(1000))
            writer.write(
                b"HTTP/1.1 404 X\r\nContent-Type: text/plain\r\nContent-Length: 2\r\n\r\nno"
            )
            writer.close()

        listener = await asyncio.start_server(answer, "127.0.0.1", 0)
        self.addCleanup(listener.close)
        self.office = Office(listener.sockets[0].getsockname())

    async def test_an_end_of_a_line_in_a_target_begins_no_request(self) -> None:
        for target in (
            "/tickets/1 HTTP/1.1\r\n\r\nPOST /purge",
            "/tickets/1\n",
            "/tickets/ 1",
            "/tickets/é",
        ):
            with self.assertRaises(NoAnswer):
                await self.office.ask("GET", target)
        self.assertEqual([], self.came)

    async def test_what_a_request_breaks_is_one_line_without_control_characters(self) -> None:
        async def breaks(request: web.Request) -> web.StreamResponse:
            raise ValueError("\x1b[2J\n" * 1000)

        routes = routes_over(self.office)
        routes.counter.terminal = SimpleNamespace(is_in_doubt=lambda: False)
        with contextlib.redirect_stderr(io.StringIO()) as said:
            answer = await routes.guarded(
                make_mocked_request("GET", "/x%1b", headers={"Host": "127.0.0.1"}), breaks
            )
        self.assertEqual(
            (500, 1, False), (answer.status, said.getvalue().count("\n"), "\x1b" in said.getvalue())
        )
        self.assertLess(len(said.getvalue()), 400)

    async def test_a_request_of_before_a_standstill_changes_nothing(self) -> None:
        handled = []

        async def handle(request: web.Request) -> web.StreamResponse:
            handled.append(request.method)
            return web.Response()

        routes = routes_over(self.office)
        for is_in_doubt, method, status in (
            (True, "POST", 503),
            (True, "DELETE", 503),
            (True, "GET", 200),
            (False, "POST", 200),
        ):
            routes.counter.terminal = SimpleNamespace(is_in_doubt=lambda it=is_in_doubt: it)
            request = make_mocked_request(method, "/weighings", headers={"Host": "127.0.0.1"})
            answer = await routes.guarded(request, handle)
            self.assertEqual(status, answer.status, (is_in_doubt, method))
        self.assertEqual(["GET", "POST"], handled)

    async def test_a_tare_nested_too_deep_is_none(self) -> None:
        request = make_mocked_request("PUT", "/tares/AB-1", match_info={"plate": "AB-1"})
        request._read_bytes = b"[" * 2000
        self.assertEqual(422, (await routes_over(self.office).keep_tare(request)).status)

    async def test_a_target_goes_on_as_it_was_written(self) -> None:
        routes = routes_over(self.office)
        target = "/tickets/1%20HTTP%2F1.1%0D%0A%0D%0APOST%20%2Fpurge"
        self.assertEqual(404, (await routes.hand_on(make_mocked_request("GET", target))).status)
        host = "%s:%d" % self.office.address
        self.assertEqual([f"GET {target} HTTP/1.1\r\nHost: {host}\r\n\r\n".encode()], self.came)


class ProbeTest(unittest.IsolatedAsyncioTestCase):
    """A ticket that another client stored at the office, after a First that the lists lack too, asks for an export."""

    async def test_asks_for_numbers_after_the_newest_in_turn(self) -> None:
        asked: list[str] = []

        class PlayedOffice:
            async def ask(
                self, method: str, target: str, body: bytes | None = None, within: float = 15.0
            ) -> Answer:
                asked.append(target)
                return Answer(200 if target == "/tickets/2" else 404, "text/plain", b"")

        books = Books(PlayedOffice(), zoneinfo.ZoneInfo("UTC"), Counter())
        books.wants_export = False
        await books.probe()
        self.assertEqual((asked, books.wants_export), (["/tickets/1"], False))
        await books.probe()
        self.assertEqual((asked[1:], books.wants_export), (["/tickets/2"], True))
        for _ in range(3):
            await books.probe()
        self.assertEqual(asked[2:], ["/tickets/3", "/tickets/4", "/tickets/1"])


if __name__ == "__main__":
    unittest.main()
