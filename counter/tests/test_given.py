"""Goods, order and driver: a Second gets what its First has, a change replaces or removes a line, and the search finds it."""

import json
import unittest
import zoneinfo
from dataclasses import replace
from pathlib import Path
from types import SimpleNamespace
from typing import Any
from unittest import mock

from aiohttp.test_utils import make_mocked_request
from weighbridge_counter.given import Given, changed
from weighbridge_counter.lists import Lists
from weighbridge_counter.routes import Routes
from weighbridge_paper.printers import Printer
from weighbridge_paper.printing import unprintable
from weighbridge_paper.text import read_text

from .papers import USUAL, Sample
from .test_counter_papers import TEMPLATE, first_of
from .test_lists import ROW, export

UTC = zoneinfo.ZoneInfo("UTC")


class TheLines(unittest.TestCase):
    def test_a_field_replaces_a_line_and_an_empty_one_removes_it(self) -> None:
        before = {"goods": "Kies", "driver": "Ada"}
        rows: tuple[tuple[dict[str, str], dict[str, str]], ...] = (
            ({}, before),
            ({"plate": "AB-12", "key": "K"}, before),
            ({"goods": "Sand"}, {"goods": "Sand", "driver": "Ada"}),
            ({"goods": "", "order": "7"}, {"order": "7", "driver": "Ada"}),
            ({"goods": " \x07 ", "driver": ""}, {}),
        )
        for fields, after in rows:
            self.assertEqual(after, changed(before, fields), fields)
        self.assertEqual({"goods": "Kies", "driver": "Ada"}, before)

    def test_a_second_weighing_has_what_its_first_has(self) -> None:
        given, pair = Given(), Sample("second", number=8)
        first, second = read_text(first_of(pair)), read_text(pair.text)
        self.assertEqual({"goods": "Kies"}, given.take(first, {"goods": "Kies"}))
        self.assertEqual({"goods": "Kies"}, given.take(second, {}))
        self.assertEqual({"goods": "Sand"}, given.take(second, {"goods": "Sand"}))
        self.assertEqual({"goods": "Sand"}, given.take(second, {}), "the same answer again")
        self.assertEqual({"goods": "Kies"}, given.of(first.own.digest))
        other = read_text(Sample("second", number=8, first=18360).text)
        self.assertEqual({}, given.take(other, {}), "another First of the same number")
        self.assertEqual({}, given.take(read_text(USUAL["void"].text), {"goods": "Kies"}))

    def test_a_single_has_only_its_own(self) -> None:
        given, single = Given(), read_text(USUAL["single"].text)
        self.assertEqual({"order": "7"}, given.take(single, {"order": "7"}))
        self.assertEqual({}, given.take(single, {"order": ""}))
        self.assertEqual({}, given.by_digest)


class InTheLists(unittest.TestCase):
    def setUp(self) -> None:
        self.given = Given()
        self.lists = Lists.of_export(UTC, export(ROW), self.given)
        self.digest = self.lists.digest_of(1) or ""

    def found(self, words: str) -> list[int]:
        return [it["number"] for it in self.lists.search(words)[0]]

    def test_the_search_finds_them(self) -> None:
        self.given.keep(1, self.digest, {"goods": "Kies 0/32", "driver": "Zoë Groß"})
        for words in ("kies", "0/32", "KIES 0", " zoë", "GROSS"):
            self.assertEqual(([1], 1), (self.found(words), self.lists.search(words)[1]), words)
        self.assertEqual([], self.found("sand"))
        self.assertEqual([], self.found(" "))

    def test_what_is_of_another_journal_is_not_found_or_shown(self) -> None:
        self.given.keep(1, "f" * 64, {"goods": "Kies"})
        self.assertEqual([], self.found("kies"))
        self.assertEqual({}, self.lists.shown(1)["given"])

    def test_they_are_shown_with_the_entry_and_the_newest_with_the_plate(self) -> None:
        plate = self.lists.entries[1].plate
        self.assertEqual({}, self.lists.last_given(plate))
        self.given.keep(1, self.digest, {"goods": "Kies"})
        self.assertEqual({"goods": "Kies"}, self.lists.shown(1)["given"])
        self.assertEqual({"goods": "Kies"}, self.lists.last_given(plate))
        self.assertEqual({}, self.lists.last_given("XX-99"))


class TheLetters(unittest.TestCase):
    def test_letters_that_a_printer_can_not_print_are_named(self) -> None:
        roll = Printer(
            "yard", "tcp", "127.0.0.1", "9100", "escpos80", TEMPLATE, 48, (("cp858", 19),), True
        )
        sheet = replace(roll, name="office", form="a5")
        for text, on_roll, on_sheet in (
            ("Kies 0/32, 5 €?", "", ""),
            ("Łódź “Süd”", "", ""),
            ("漢字 漢", "漢字", "漢字"),
            ("Жито", "Жито", ""),
        ):
            self.assertEqual(on_roll, unprintable(text, (roll,)), text)
            self.assertEqual(on_sheet, unprintable(text, (sheet,)), text)
            self.assertEqual(on_roll, unprintable(text, (sheet, roll)), text)
            self.assertEqual("", unprintable(text, ()), "a browser prints")


class TheRoute(unittest.IsolatedAsyncioTestCase):
    async def asked(
        self,
        body: bytes,
        kind: str = "single",
        lines: dict[str, str] | None = None,
        letters: str = "",
    ) -> tuple[int, Any, Any]:
        text = USUAL[kind].text
        lists = SimpleNamespace(
            texts={2: SimpleNamespace(letters=text)}, entries={2: SimpleNamespace(kind=kind)}
        )
        counter: Any = SimpleNamespace(
            setup=SimpleNamespace(listen=("127.0.0.1", 1), hosts=()),
            books=SimpleNamespace(lists=lists),
            give=mock.AsyncMock(return_value=lines),
            printing=SimpleNamespace(unprintable=lambda fields: letters),
        )
        request = make_mocked_request("PUT", "/entries/2/given", match_info={"number": "2"})
        request._read_bytes = body
        answer: Any = await Routes(counter, Path(".")).give(request)
        return answer.status, json.loads(answer.text), counter.give.mock_calls

    async def test_lines_are_changed(self) -> None:
        status, said, calls = await self.asked(
            b'{"goods": "Kies", "order": ""}', lines={"goods": "Kies"}
        )
        self.assertEqual((200, {"given": {"goods": "Kies"}}), (status, said))
        self.assertEqual(
            [mock.call(2, USUAL["single"].text, {"goods": "Kies", "order": ""})], calls
        )

    async def test_a_printed_original_and_a_void_are_not_changed(self) -> None:
        self.assertEqual((409, {"why": "printed"}), (await self.asked(b"{}"))[:2])
        status, said, calls = await self.asked(b"{}", "void", {})
        self.assertEqual((409, {"why": "void"}, []), (status, said, calls))

    async def test_letters_that_can_not_be_printed_are_refused(self) -> None:
        status, said, calls = await self.asked(b'{"goods": "x"}', lines={}, letters="x")
        self.assertEqual((422, {"why": "unprintable", "letters": "x"}, []), (status, said, calls))

    async def test_what_is_no_line_is_refused(self) -> None:
        for body in (b"", b"[]", b'"goods"', b'{"goods": 7}', b'{"plate": "AB-12"}', b"[" * 2000):
            status, _, calls = await self.asked(body, lines={})
            self.assertEqual((422, []), (status, calls), body)


if __name__ == "__main__":
    unittest.main()
