"""The events that wait for the pages: each in order, of weights only the newest, and within bounds for each page and for all."""

import asyncio
import unittest
from collections.abc import Sequence

from weighbridge_counter.pages import MOST_BYTES, MOST_BYTES_OF_ALL, Page, Pages, frame_of

MEGABYTE = b"x" * 1_000_000


class WhatWaits(unittest.IsolatedAsyncioTestCase):
    def setUp(self) -> None:
        self.pages = Pages()
        self.cut: list[object] = []

    def page(self, name: object = "page", beginning: Sequence[bytes] = ()) -> Page:
        page = Page([*beginning], lambda: self.cut.append(name))
        self.pages.add(page)
        return page

    async def taken(self, page: Page) -> bytes:
        return await asyncio.wait_for(page.take(), 1)

    async def test_events_come_in_order_and_of_weights_the_newest(self) -> None:
        page = self.page(beginning=[b"a", b"b"])
        self.assertEqual(b"ab", await self.taken(page))
        self.pages.tell_weight(1)
        self.pages.tell("state", 1)
        self.pages.tell_weight(2)
        self.pages.tell("state", 2)
        wanted = [("state", 1), ("state", 2), ("weight", 2)]
        self.assertEqual(b"".join(frame_of(*it) for it in wanted), await self.taken(page))
        with self.assertRaises(asyncio.TimeoutError):
            await asyncio.wait_for(page.take(), 0.01)

    async def test_a_page_for_which_too_much_waits_is_cut_and_gets_nothing_more(self) -> None:
        page, other = self.page("slow"), self.page("other")
        for _ in range(MOST_BYTES // len(MEGABYTE)):
            page.put(MEGABYTE)
        self.assertEqual([], self.cut)
        page.put(b"x")
        self.assertEqual((["slow"], 0, True), (self.cut, page.bytes, page.is_over))
        self.assertEqual(b"", await self.taken(page))
        self.pages.tell("state", 1)
        self.assertEqual(b"", await self.taken(page))
        self.assertEqual(frame_of("state", 1), await self.taken(other))

    async def test_what_was_taken_counts_until_more_is_taken(self) -> None:
        page = self.page()
        for _ in range(3):
            page.put(MEGABYTE)
        self.assertEqual(3_000_000, len(await self.taken(page)))
        self.assertEqual(3_000_000, page.bytes)
        page.put(MEGABYTE)
        self.assertEqual([], self.cut)
        page.put(b"x")
        self.assertEqual(["page"], self.cut)
        page = self.page()
        page.put(MEGABYTE)
        await self.taken(page)
        page.put(b"x")
        await self.taken(page)
        self.assertEqual(1, page.bytes)

    async def test_a_long_beginning_may_wait_besides(self) -> None:
        page = self.page(beginning=[MEGABYTE] * 5)
        self.assertEqual([], self.cut)
        for _ in range(4):
            page.put(MEGABYTE)
        self.assertEqual([], self.cut)
        page.put(b"x")
        self.assertEqual(["page"], self.cut)

    async def test_all_together_are_bounded_and_the_fullest_is_cut_first(self) -> None:
        pages = [self.page(at) for at in range(20)]
        pages[7].put(b"x" * 500_000)
        for _ in range(2):
            self.pages.tell("lists", "x" * 1_000_000)
        self.assertEqual([], self.cut, "an event is counted once the pages could take it")
        self.pages.tell("alive", 1)
        self.assertLessEqual(sum(it.bytes for it in pages), MOST_BYTES_OF_ALL + 20 * 40)
        self.assertEqual(7, self.cut[0])
        self.assertLess(len(self.cut), 6)
        self.assertEqual(len(set(self.cut)), len(self.cut))

    async def test_a_page_that_begins_counts_too(self) -> None:
        for at in range(32):
            self.page(at, [MEGABYTE])
        self.assertEqual([], self.cut)
        self.page("newest", [MEGABYTE, b"x"])
        self.assertEqual(["newest"], self.cut)

    async def test_a_page_that_left_no_longer_counts(self) -> None:
        for at in range(40):
            self.pages.remove(self.page(at, [MEGABYTE]))
        self.assertEqual([], self.cut)
