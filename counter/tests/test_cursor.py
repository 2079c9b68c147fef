"""Programs that fetch what is new: nothing is skipped or given twice, whatever the counter and the journal go through."""

import json
import random
import unittest
from collections.abc import Mapping
from types import SimpleNamespace
from typing import Any

from aiohttp.test_utils import make_mocked_request
from multidict import MultiDict
from weighbridge_counter.books import Books
from weighbridge_counter.cursor import (
    MOST,
    Asked,
    BadField,
    asked_of,
    entries_after,
    tickets_after,
)
from weighbridge_counter.fetching import Fetching
from weighbridge_counter.lists import MOST_TEXTS, Lists
from weighbridge_counter.refusals import Refusal
from weighbridge_paper.export import row_of
from weighbridge_paper.text import digest_of

from .test_journal import BERLIN, ZEROS, PlayedJournal, WithBooks
from .test_lists import export, slip

SEEDS = range(24)


def sealed(rows: list[str]) -> list[str]:
    """Return rows with the digests that their fields give."""
    previous, made = ZEROS, []
    for text in rows:
        fields = [*text.split(","), ZEROS, previous]
        row = row_of(fields, "")
        fields[10] = previous = digest_of(row.weighing(), row.plate, row.key, row.previous)
        made.append(",".join(fields))
    return made


def line(number: int, kind: str, plate: str, gross: str, preset: str = "") -> str:
    return f"{number},K{number},{kind},{plate},2025-03-10 09:00:00,{gross},{preset},20,60000,WB01"


ROWS = sealed(
    [
        line(1, "first", "AB-12", "18340"),
        line(2, "first", "CD-34", "8140"),
        line(3, "second", "AB-12", "8140"),
        line(4, "single", "EF-56", "18340", "5000"),
        line(5, "second", "CD-34", "18340"),
        line(6, "first", "GH-78", "9000"),
        line(7, "void", "GH-78", ""),
    ]
)


def lists_of(*rows: str) -> Lists:
    return Lists.of_export(BERLIN, export(*rows))


def numbers(answer: Mapping[str, Any], name: str = "entries") -> list[int]:
    return [it["number"] for it in answer[name]]


class TheEntries(unittest.TestCase):
    def asked(self, lists: Lists, after: int, limit: int = 100) -> dict[str, Any]:
        return entries_after(lists, Asked(after, limit, None))

    def test_each_after_a_number(self) -> None:
        lists = lists_of(*ROWS)
        for after in range(9):
            answer = self.asked(lists, after)
            self.assertEqual(list(range(after + 1, 8)), numbers(answer))
            self.assertEqual(
                (1, max(after, 7), False, None),
                tuple(answer[it] for it in ("first", "next", "more", "missing")),
            )

    def test_as_many_as_are_asked_for(self) -> None:
        lists = lists_of(*ROWS)
        self.assertEqual([3, 4], numbers(self.asked(lists, 2, 2)))
        self.assertEqual((4, True), tuple(self.asked(lists, 2, 2)[it] for it in ("next", "more")))
        self.assertEqual((7, False), tuple(self.asked(lists, 5, 2)[it] for it in ("next", "more")))

    def test_an_entry_has_all_that_its_row_has(self) -> None:
        (entry,) = self.asked(lists_of(*ROWS), 3, 1)["entries"]
        self.assertEqual(
            {
                "number": 4,
                "key": "K4",
                "kind": "single",
                "plate": "EF-56",
                "at": "2025-03-10T09:00:00Z",
                "gross_kg": 18340,
                "preset_kg": 5000,
                "interval_kg": 20,
                "max_kg": 60000,
                "serial": "WB01",
                "digest": ROWS[3].split(",")[10],
                "sound": True,
                "first": None,
                "net_kg": 13340,
                "given": {},
            },
            entry,
        )

    def test_after_a_purge_it_begins_with_the_first_that_stays(self) -> None:
        answer = self.asked(lists_of(*ROWS[3:]), 0)
        self.assertEqual(([4, 5, 6, 7], 4), (numbers(answer), answer["first"]))

    def test_nothing_comes_behind_a_number_that_is_missing(self) -> None:
        answer = self.asked(lists_of(*ROWS[:3], *ROWS[4:]), 0)
        self.assertEqual(
            ([1, 2, 3], 3, False, 4),
            (numbers(answer), answer["next"], answer["more"], answer["missing"]),
        )

    def test_one_that_passed_waits_for_those_before_it(self) -> None:
        lists = lists_of(*ROWS[:3])
        lists.passed(slip(5, "FIRST", "XY-1"))
        self.assertEqual([1, 2, 3], numbers(self.asked(lists, 0)))
        lists.passed(slip(4, "FIRST", "XY-2"))
        answer = self.asked(lists, 0)
        self.assertEqual(([1, 2, 3, 4, 5], None), (numbers(answer), answer["missing"]))

    def test_one_whose_text_is_not_kept_any_more_waits_for_an_export(self) -> None:
        lists = lists_of(ROWS[0])
        for number in range(2, MOST_TEXTS + 12):
            lists.passed(slip(number, "FIRST", f"A-{number}"))
        answer = self.asked(lists, 0)
        self.assertEqual(([1], 1, True), (numbers(answer), answer["next"], answer["more"]))
        self.assertEqual([], numbers(self.asked(lists, 5)))

    def test_a_changed_row_is_not_sound(self) -> None:
        lists = lists_of(ROWS[0].replace("18340", "18360"), *ROWS[1:])
        self.assertEqual(
            [False] + [True] * 6, [it["sound"] for it in self.asked(lists, 0)["entries"]]
        )

    def test_a_journal_without_entries(self) -> None:
        answer = self.asked(lists_of(), 0)
        self.assertEqual(
            {"entries": [], "first": None, "next": 0, "more": False, "missing": None}, answer
        )
        lists = lists_of()
        lists.passed(slip(1, "FIRST", "AB-12"))
        answer = self.asked(lists, 0)
        self.assertEqual(([1], 1), (numbers(answer), answer["first"]))

    def test_after_a_purge_of_all_the_next_one_waits_for_an_export(self) -> None:
        lists = lists_of()
        lists.passed(slip(503, "FIRST", "AB-12"))
        self.assertEqual([], numbers(self.asked(lists, 500)))


class TheTickets(unittest.TestCase):
    def asked(self, lists: Lists, after: int, limit: int = 100) -> dict[str, Any]:
        return tickets_after(lists, Asked(after, limit, None))

    def test_each_after_a_number(self) -> None:
        lists = lists_of(*ROWS)
        for after in range(9):
            answer = self.asked(lists, after)
            self.assertEqual([it for it in (3, 4, 5) if it > after], numbers(answer, "tickets"))
            self.assertEqual((max(after, 7), False), (answer["next"], answer["more"]))

    def test_as_many_as_are_asked_for(self) -> None:
        lists = lists_of(*ROWS)
        for after, wanted in ((0, ([3, 4], 4, True)), (3, ([4, 5], 7, False))):
            answer = self.asked(lists, after, 2)
            self.assertEqual(wanted, (numbers(answer, "tickets"), answer["next"], answer["more"]))

    def test_one_that_passes_late_has_its_place(self) -> None:
        lists = lists_of(*ROWS[:3])
        for number in (5, 4):
            lists.passed(slip(number, "SINGLE", f"A-{number}", preset=5000))
        self.assertEqual([3, 4, 5], numbers(self.asked(lists, 0), "tickets"))
        self.assertEqual([4], numbers(self.asked(lists, 3, 1), "tickets"))

    def test_both_ways_and_a_preset_tare(self) -> None:
        tickets = self.asked(lists_of(*ROWS), 0)["tickets"]
        names = ("kind", "plate", "gross_kg", "tare_kg", "net_kg", "direction", "sound")
        self.assertEqual(
            [
                ("pair", "AB-12", 18340, 8140, 10200, "in", True),
                ("preset", "EF-56", 18340, 5000, 13340, None, True),
                ("pair", "CD-34", 18340, 8140, 10200, "out", True),
            ],
            [tuple(it[name] for name in names) for it in tickets],
        )
        self.assertEqual([[1, 3], [4], [2, 5]], [numbers(it, "weighings") for it in tickets])

    def test_a_changed_first_makes_its_ticket_unsound(self) -> None:
        lists = lists_of(ROWS[0].replace("18340", "18360"), *ROWS[1:])
        self.assertEqual(
            [False, True, True], [it["sound"] for it in self.asked(lists, 0)["tickets"]]
        )

    def test_a_second_without_its_first_is_not_sound(self) -> None:
        (ticket,) = self.asked(lists_of(ROWS[2]), 0)["tickets"]
        self.assertEqual(
            (None, None, False), (ticket["net_kg"], ticket["gross_kg"], ticket["sound"])
        )

    def test_nothing_comes_behind_a_number_that_is_missing(self) -> None:
        answer = self.asked(lists_of(*ROWS[:3], *ROWS[4:]), 0)
        self.assertEqual(
            ([3], 3, 4), (numbers(answer, "tickets"), answer["next"], answer["missing"])
        )


class TheFields(unittest.TestCase):
    def test_what_is_asked(self) -> None:
        journal = "0123456789abcdef" * 2
        rows: list[tuple[list[tuple[str, str]], Asked]] = [
            ([], Asked(0, 100, None)),
            ([("after", "4294967295"), ("limit", "1")], Asked(4294967295, 1, None)),
            ([("journal", journal), ("limit", str(MOST))], Asked(0, MOST, journal)),
            ([("other", "x")], Asked(0, 100, None)),
        ]
        for text, wanted in rows:
            self.assertEqual(wanted, asked_of(MultiDict(text)))

    def test_a_bad_field_is_named(self) -> None:
        for name, bad in (
            ("after", ["-1", "01", "1.0", "", "x", "12345678901", "1 ", "\u0661"]),
            ("limit", ["0", "1001", "-1", "", "all", "99999999999"]),
            ("journal", ["", "0" * 31, "0" * 33, "G" * 32, "0" * 31 + "\n"]),
        ):
            for it in bad:
                with self.subTest(name=name, it=it), self.assertRaises(BadField) as fault:
                    asked_of(MultiDict([(name, it)]))
                self.assertEqual(name, fault.exception.field)
            with self.assertRaises(BadField) as fault:
                asked_of(MultiDict([(name, "1"), (name, "1")]))
            self.assertEqual(name, fault.exception.field)


def fetching_over(books: Books) -> Fetching:
    async def in_turn(think: Any) -> Any:
        return think()

    return Fetching(SimpleNamespace(books=books), in_turn)  # type: ignore[arg-type]


async def get(books: Books, target: str, **fields: str) -> tuple[int, Any, Mapping[str, str]]:
    it = fetching_over(books)
    handler = {"entries": it.entries, "tickets": it.tickets, "vehicles": it.vehicles}
    request = make_mocked_request("GET", target, headers=fields)
    response = await handler[target.split("?")[0][1:]](request)
    body = getattr(response, "body", None)
    return response.status, json.loads(body) if body else None, response.headers


class TheRoutes(WithBooks):
    async def test_before_an_export_was_read_a_client_asks_again(self) -> None:
        self.counter(PlayedJournal())
        for target in ("/entries", "/tickets", "/vehicles"):
            status, answer, fields = await get(self.books, target)
            self.assertEqual(
                (503, "no_export", "no_export", "later", "1"),
                (
                    status,
                    *(answer[it] for it in ("why", "name", "retry")),
                    fields["Retry-After"],
                ),
            )

    async def test_an_answer_has_the_journal(self) -> None:
        await self.begin(3)
        status, answer, _ = await get(self.books, "/entries?after=1")
        self.assertEqual((200, [2, 3], True), (status, numbers(answer), answer["whole"]))
        self.assertEqual(self.books.journal.identifier, answer["journal"])
        status, answer, _ = await get(self.books, f"/entries?journal={answer['journal']}")
        self.assertEqual((200, [1, 2, 3]), (status, numbers(answer)))

    async def test_of_another_journal_nothing_is_given(self) -> None:
        await self.begin(3)
        for target in ("/entries", "/tickets", "/vehicles"):
            status, answer, _ = await get(self.books, f"{target}?journal={'0' * 32}")
            own = (409, "other_journal", "other_journal", self.books.journal.identifier)
            found = (status, *(answer[it] for it in ("why", "name", "journal")))
            self.assertEqual(own, found)
            self.assertEqual({"why", "journal"}, answer.keys() - Refusal("gone").shown().keys())

    async def test_a_bad_field(self) -> None:
        await self.begin(1)
        status, answer, _ = await get(self.books, "/tickets?limit=0")
        self.assertEqual((422, "limit"), (status, answer["field"]))

    async def test_nothing_new_has_no_body(self) -> None:
        journal = await self.begin(2)
        _, _, fields = await get(self.books, "/entries?after=1")
        known = {"If-None-Match": fields["ETag"]}
        self.assertEqual((304, None), (await get(self.books, "/entries?after=1", **known))[:2])
        self.passes(journal.weigh("B-3"))
        self.assertEqual(200, (await get(self.books, "/entries?after=1", **known))[0])

    async def test_vehicles_on_site(self) -> None:
        await self.begin(2)
        _, answer, _ = await get(self.books, "/vehicles")
        self.assertEqual(["A-2", "A-1"], [it["plate"] for it in answer["vehicles"]])

    async def test_the_identifier_outlives_a_restart_and_no_other_journal(self) -> None:
        journal = await self.begin(5)
        before, older = self.books.journal.identifier, journal.copy()
        self.assertTrue(await self.files.bring())
        self.counter(journal)
        await self.read()
        self.assertEqual(before, self.books.journal.identifier)
        self.passes(journal.weigh("B-6"))
        self.assertTrue(await self.files.bring())
        older.name = "restored"
        for plate in ("C-6", "C-7", "C-8"):
            older.weigh(plate)
        self.counter(older)
        await self.read()
        self.assertNotEqual(before, self.books.journal.identifier)

    async def test_a_text_that_is_not_kept_makes_the_counter_ask_for_an_export(self) -> None:
        journal = await self.begin(1)
        for number in range(MOST_TEXTS + 5):
            self.passes(journal.weigh(f"B-{number}"))
        self.books.wants_export = False
        self.assertEqual([], numbers((await get(self.books, "/entries?after=1"))[1]))
        self.assertTrue(self.books.wants_export)


class Follower:
    """A program that fetches entries, and keeps what it got by the digest."""

    def __init__(self) -> None:
        self.after, self.journal, self.got = 0, "", dict[str, int]()
        self.given: set[tuple[str, int]] = set()

    async def pull(self, books: Books, limit: int) -> None:
        for _ in range(50):
            named = f"&journal={self.journal}" if self.journal else ""
            status, answer, _ = await get(
                books, f"/entries?after={self.after}&limit={limit}{named}"
            )
            if status == 409:
                self.after, self.journal = 0, answer["journal"]
                continue
            if status == 503:
                return
            self.journal, self.after = answer["journal"], answer["next"]
            for it in answer["entries"]:
                place = (self.journal, it["number"])
                if place in self.given:
                    raise AssertionError(f"{place} was given twice")
                self.given.add(place)
                self.got[it["digest"]] = it["number"]
            if not answer["more"]:
                return


class AnyHistory(WithBooks):
    """Entries come, the journal is purged and restored, and the counter restarts, in a random order."""

    async def play(self, chance: random.Random) -> None:
        journal, follower, restored = await self.begin(chance.randrange(4)), Follower(), 0
        copies = [journal.copy()]
        for step in range(60):
            act = chance.choice(
                "pass pass pass direct read read restart pull pull pull copy restore purge".split()
            )
            if act in ("pass", "direct"):
                text = journal.weigh(f"P-{step}")
                if act == "pass":
                    self.passes(text)
            elif act == "read":
                await self.read()
            elif act == "restart":
                self.assertTrue(await self.files.bring())
                self.counter(journal)
            elif act == "pull":
                await follower.pull(self.books, chance.choice((1, 2, 100)))
            elif act == "copy":
                copies.append(journal.copy())
            elif act == "restore" and chance.random() < 0.5:
                restored += 1
                journal = chance.choice(copies).copy()
                journal.name = f"r{restored}"
                self.office.journal = journal
            elif act == "purge" and len(journal.rows) > 2:
                journal.purge(min(journal.rows) + chance.randrange(2))
        await self.read()
        await follower.pull(self.books, 100)
        self.assertEqual(
            set(),
            {it.split(",")[10] for it in journal.rows.values()} - set(follower.got),
            "an entry of the journal was never given",
        )

    async def test_nothing_is_skipped_or_given_twice(self) -> None:
        for seed in SEEDS:
            with self.subTest(seed=seed):
                await self.play(random.Random(seed))


if __name__ == "__main__":
    unittest.main()
