"""The counter after the office's journal was exchanged for another one.

The lists are those of the newest export and of what passed after it. If the change can't be a purge, the counter reports it until a clerk closes it.
"""

import asyncio
import contextlib
import datetime
import hashlib
import io
import tempfile
import unittest
import zoneinfo
from collections import Counter as Counts
from pathlib import Path
from types import SimpleNamespace
from typing import Any
from unittest import mock

from aiohttp.test_utils import make_mocked_request
from weighbridge_counter.books import Books
from weighbridge_counter.counter import Counter
from weighbridge_counter.files import Files, found_in
from weighbridge_counter.health import faults_of, health_of
from weighbridge_counter.journal import CHANGED, EMPTY, SERIAL, SHORTER, Journal
from weighbridge_counter.office import Answer
from weighbridge_counter.papers import Printing
from weighbridge_counter.routes import Routes
from weighbridge_counter.setup import Setup
from weighbridge_counter.today import day_of
from weighbridge_paper.export import HEADER
from weighbridge_paper.layout import Template
from weighbridge_paper.printers import Papers

from .papers import Sample
from .played import at_once

BERLIN, ZEROS = zoneinfo.ZoneInfo("Europe/Berlin"), "0" * 64
TODAY = datetime.datetime.now(datetime.timezone.utc).strftime("%Y-%m-%d 12:00:00")


class PlayedJournal:
    """The journal of an office, which weighs vehicles in, purges, and can be exchanged for a copy."""

    def __init__(self, name: str = "", serial: str = "WB01") -> None:
        self.name, self.serial, self.rows, self.last = name, serial, dict[int, str](), 0

    def weigh(self, plate: str) -> str:
        """Weigh a vehicle in, and return the text of its First."""
        self.last += 1
        previous = self.rows[self.last - 1].split(",")[10] if self.last - 1 in self.rows else ZEROS
        digest = hashlib.sha256(f"{self.name} {self.last} {plate} {previous}".encode()).hexdigest()
        self.rows[
            self.last
        ] = f"{self.last},K{self.name}{self.last},first,{plate},{TODAY},18340,,20,60000,{self.serial},{digest},{previous}"
        return (
            f"WEIGHING SLIP {self.last}\nPLATE {plate}\nFIRST NO {self.last}\nAT {TODAY}\nG      18340 kg\n"
            f"E 20 kg MAX 60000 kg SERIAL {self.serial}\nDIGEST {digest}\n"
        )

    def purge(self, until: int) -> None:
        self.rows = {number: row for number, row in self.rows.items() if number > until}

    def copy(self) -> "PlayedJournal":
        other = PlayedJournal(self.name, self.serial)
        other.rows, other.last = dict(self.rows), self.last
        return other

    def export(self) -> str:
        return "\n".join((HEADER, *self.rows.values(), ""))


class Office:
    """Answers with the export of the moment of the request, once a test sets `goes_on`."""

    def __init__(self, journal: PlayedJournal) -> None:
        self.journal, self.goes_on = journal, asyncio.Event()
        self.goes_on.set()

    async def ask(
        self, method: str, target: str, body: bytes | None = None, within: float = 15.0
    ) -> Answer:
        export = self.journal.export()
        await self.goes_on.wait()
        return Answer(200, "text/csv", export.encode())


class WithBooks(unittest.IsolatedAsyncioTestCase):
    def setUp(self) -> None:
        folder = tempfile.TemporaryDirectory()
        self.addCleanup(folder.cleanup)
        self.folder, self.said = Path(folder.name), io.StringIO()
        told = contextlib.redirect_stderr(self.said)
        told.__enter__()
        self.addCleanup(told.__exit__, None, None, None)

    def counter(self, journal: PlayedJournal) -> Books:
        """Return the books of a counter that is started now."""
        self.office: Any = Office(journal)
        self.files = Files(self.folder, at_once)
        self.books = Books(self.office, BERLIN, Counts(), Journal(self.files))
        self.entries: list[int] = []
        self.books.on_entry = lambda entry: self.entries.append(entry.number)
        return self.books

    async def read(self) -> None:
        with mock.patch("weighbridge_counter.books.REST", 0):
            await self.books.read_anew()
        self.assertTrue(await self.files.bring())

    async def begin(self, vehicles: int = 5) -> PlayedJournal:
        """Make a counter that has read a journal with `vehicles` on site. Return the journal."""
        (self.folder / "journal.json").unlink(missing_ok=True)
        journal = PlayedJournal()
        for it in range(1, vehicles + 1):
            journal.weigh(f"A-{it}")
        self.counter(journal)
        await self.read()
        return journal

    def on_site(self) -> list[str]:
        return [it["plate"] for it in self.books.lists.on_site()]

    def told(self) -> tuple[str, int, int] | None:
        """Return the reason, the last number before, and the last number now. Return None if the counter reports nothing."""
        it = self.books.journal.told
        return None if it is None else (it["why"], it["before"], it["now"])

    def passes(self, text: str) -> None:
        self.books.passed(text, {})


class TheSameJournal(WithBooks):
    async def test_what_passes_goes_on_the_lists(self) -> None:
        journal = await self.begin()
        self.passes(journal.weigh("B-6"))
        await self.read()
        self.assertEqual(
            (["B-6", "A-5", "A-4", "A-3", "A-2", "A-1"], None, True),
            (self.on_site(), self.told(), self.books.is_whole()),
        )
        self.assertEqual(
            "passed", (self.books.lists.slip_again(6) or ("", ""))[1], "its text stays as it passed"
        )

    async def test_what_passes_while_an_export_is_made_stays(self) -> None:
        journal = await self.begin()
        self.office.goes_on.clear()
        reading = asyncio.ensure_future(self.read())
        await asyncio.sleep(0.05)
        self.passes(journal.weigh("B-6"))
        self.office.goes_on.set()
        await reading
        self.assertEqual(
            (["B-6", "A-5", "A-4", "A-3", "A-2", "A-1"], None, [6]),
            (self.on_site(), self.told(), self.entries),
        )

    async def test_a_purge_of_a_part_is_none_other(self) -> None:
        journal = await self.begin()
        journal.purge(3)
        await self.read()
        self.assertEqual((["A-5", "A-4"], None), (self.on_site(), self.told()))
        self.passes(journal.weigh("B-6"))
        journal.purge(5)
        await self.read()
        self.assertEqual((["B-6"], None), (self.on_site(), self.told()))

    async def test_a_purge_of_everything_and_a_weighing_before_it_was_noticed_is_none_other(
        self,
    ) -> None:
        journal = await self.begin()
        journal.purge(5)
        self.passes(journal.weigh("B-6"))
        await self.read()
        self.assertEqual((["B-6"], None), (self.on_site(), self.told()))

    async def test_nor_is_it_if_that_weighing_did_not_pass(self) -> None:
        for is_restarted in (False, True):
            journal = await self.begin()
            journal.purge(5)
            journal.weigh("B-6")
            if is_restarted:
                self.counter(journal)
            await self.read()
            self.assertEqual((["B-6"], None), (self.on_site(), self.told()), is_restarted)

    async def test_an_entry_that_did_not_pass_is_found(self) -> None:
        journal = await self.begin()
        journal.weigh("B-6")
        self.passes(journal.weigh("B-7"))
        self.assertFalse(self.books.is_whole())
        await self.read()
        self.assertEqual(
            (["B-7", "B-6"], None, True), (self.on_site()[:2], self.told(), self.books.is_whole())
        )

    async def test_a_counter_that_is_started_again_finds_the_same(self) -> None:
        journal = await self.begin()
        journal.purge(2)
        for weighed in (0, 3):
            for it in range(weighed):
                journal.weigh(f"C-{it}")
            self.counter(journal)
            await self.read()
            self.assertIsNone(self.told())

    async def test_a_text_that_passes_before_the_first_export_begins_nothing_again(self) -> None:
        journal = await self.begin()
        self.counter(journal)
        self.passes(journal.weigh("B-6"))
        await self.read()
        self.assertEqual((None, 6), (self.told(), len(self.on_site())))


class WhatIsNoText(WithBooks):
    async def test_it_leads_to_an_export_and_changes_no_list(self) -> None:
        journal = await self.begin()
        good = journal.weigh("B-6")
        for text in (
            "",
            "refused 7 unstable\n",
            "WEIGHING SLIP 1\n",
            "WEIGHING SLIP 1\nPLATE A\n",
            "WEIGHING SLIP 6\nPLATE B-6\nFIRST NO 6\nAT 2025-03-10 08:00:00\n",
            good[:-1],
            good + "N      10200 kg\n",
            good.replace("FIRST", "SECOND"),
            good.replace("18340", "18341"),
            good.replace("NO 6", "NO 7"),
            good.replace("12:00:00", "12:60:00"),
            good.replace("DIGEST ", "DIGEST x"),
        ):
            self.books.wants_export = False
            self.passes(text)
            self.assertEqual(
                (True, False, 5, []),
                (
                    self.books.wants_export,
                    self.books.is_whole(),
                    len(self.books.lists.entries),
                    self.entries,
                ),
                text,
            )
        await self.read()
        self.assertEqual((True, 6), (self.books.is_whole(), len(self.books.lists.entries)))

    async def test_an_export_that_is_none_is_counted_and_changes_no_list(self) -> None:
        journal = await self.begin()
        self.books.wants_export = True
        for export in (
            journal.export()[:-1],
            journal.export().replace("18340", "18340 "),
            "store 2 disk\n",
        ):
            self.office.journal = SimpleNamespace(export=lambda export=export: export)
            await self.read()
        self.assertEqual(
            (3, 1, True, 5),
            (
                self.books.counts["exports_not_understood"],
                self.books.counts["exports"],
                self.books.wants_export,
                len(self.on_site()),
            ),
        )


class AnotherJournal(WithBooks):
    async def test_an_older_copy_takes_what_it_has_not_off_the_lists(self) -> None:
        journal = await self.begin()
        older = journal.copy()
        for it in (6, 7):
            self.passes(journal.weigh(f"B-{it}"))
        self.office.journal = older
        await self.read()
        self.assertEqual(
            (["A-5", "A-4", "A-3", "A-2", "A-1"], (SHORTER, 7, 5)), (self.on_site(), self.told())
        )
        self.assertIsNone(self.books.lists.slip_again(7))
        self.assertIn(
            "the journal: its last number is 5 and was 7, so an older copy", self.said.getvalue()
        )

    async def test_an_older_copy_is_reported_after_a_restart_of_the_counter(self) -> None:
        journal = await self.begin()
        older = journal.copy()
        self.passes(journal.weigh("B-6"))
        await self.files.bring()
        self.counter(older)
        await self.read()
        self.assertEqual((5, (SHORTER, 6, 5)), (len(self.on_site()), self.told()))

    async def test_if_nothing_is_remembered_nothing_is_reported_and_nothing_old_is_shown(
        self,
    ) -> None:
        journal = await self.begin()
        older = journal.copy()
        self.passes(journal.weigh("B-6"))
        await self.files.bring()
        (self.folder / "journal.json").unlink()
        self.counter(older)
        await self.read()
        self.assertEqual((5, None), (len(self.on_site()), self.told()))

    async def test_an_older_copy_in_which_others_were_weighed_since(self) -> None:
        journal = await self.begin()
        older = journal.copy()
        for it in (6, 7):
            self.passes(journal.weigh(f"B-{it}"))
        self.office.journal = older
        for it in (6, 7, 8):
            older.weigh(f"C-{it}")
        await self.read()
        self.assertEqual(
            (["C-8", "C-7", "C-6"], (CHANGED, 7, 8)), (self.on_site()[:3], self.told())
        )

    async def test_a_text_of_it_begins_the_lists_again_at_once(self) -> None:
        await self.begin()
        other = PlayedJournal("new")
        self.office.journal = other
        self.passes(other.weigh("N-1"))
        self.assertEqual(
            (["N-1"], ["N-1"], (SHORTER, 5, 1), [1]),
            (self.on_site(), self.today(), self.told(), self.entries),
        )
        self.passes(other.weigh("N-2"))
        self.books.journal.seen()
        await self.read()
        self.assertEqual(
            (["N-2", "N-1"], ["N-2", "N-1"], None),
            (self.on_site(), self.today(), self.told()),
            "the counter reports it once",
        )

    async def test_a_text_of_a_number_that_was_purged_is_of_another_journal(self) -> None:
        journal = await self.begin()
        journal.purge(3)
        await self.read()
        other = PlayedJournal("new")
        self.passes(other.weigh("N-1"))
        self.assertEqual((["N-1"], (SHORTER, 5, 1)), (self.on_site(), self.told()))

    def today(self) -> list[str]:
        return [
            it["plate"] for it in day_of(self.books.lists, datetime.datetime.now(BERLIN))["today"]
        ]

    async def test_a_new_file_empties_the_lists(self) -> None:
        await self.begin()
        self.office.journal = PlayedJournal("new")
        await self.read()
        self.assertEqual(([], [], (EMPTY, 5, 0)), (self.on_site(), self.today(), self.told()))
        self.passes(self.office.journal.weigh("N-1"))
        await self.read()
        self.assertEqual((["N-1"], (EMPTY, 5, 0)), (self.on_site(), self.told()))

    async def test_another_serial_is_named(self) -> None:
        await self.begin()
        other = PlayedJournal("other", "WB02")
        for it in range(9):
            other.weigh(f"N-{it}")
        self.office.journal = other
        await self.read()
        self.assertEqual((9, (SERIAL, 5, 9)), (len(self.on_site()), self.told()))
        third = PlayedJournal("third", "WB03")
        self.passes([third.weigh(f"T-{it}") for it in range(9)][8])
        self.assertEqual((["T-8"], (SERIAL, 9, 9)), (self.on_site(), self.told()))

    async def test_numbers_far_above_are_none_of_a_purge(self) -> None:
        await self.begin()
        other = PlayedJournal("other")
        other.last = 50
        other.weigh("N-51")
        self.office.journal = other
        await self.read()
        self.assertEqual((["N-51"], (CHANGED, 5, 51)), (self.on_site(), self.told()))

    async def test_the_next_number_on_another_digest_is_none_of_a_purge(self) -> None:
        await self.begin()
        other = PlayedJournal("other")
        for it in range(6):
            other.weigh(f"N-{it}")
        other.purge(5)
        self.office.journal = other
        await self.read()
        self.assertEqual((["N-5"], (CHANGED, 5, 6)), (self.on_site(), self.told()))

    async def test_a_copy_from_before_a_purge_and_one_that_lacks_a_number_between(self) -> None:
        journal = await self.begin()
        before = journal.copy()
        journal.purge(2)
        await self.read()
        self.office.journal = before
        await self.read()
        self.assertEqual(((CHANGED, 5, 5), 5), (self.told(), len(self.on_site())))
        self.books.journal.seen()
        del before.rows[3]
        await self.read()
        self.assertEqual(((CHANGED, 5, 5), 4), (self.told(), len(self.on_site())))

    async def test_an_export_from_before_it_does_not_bring_it_back(self) -> None:
        """Exchange the journal and weigh a vehicle after the counter has asked for an export, and before that export comes."""
        await self.begin()
        other = PlayedJournal("new")
        self.office.goes_on.clear()
        reading = asyncio.ensure_future(self.read())
        await asyncio.sleep(0.05)
        self.office.journal = other
        self.passes(other.weigh("N-1"))
        self.office.goes_on.set()
        await reading
        self.assertEqual((["N-1"], False), (self.on_site(), self.books.is_whole()))
        await self.read()
        self.assertEqual((["N-1"], True), (self.on_site(), self.books.is_whole()))

    async def test_it_is_reported_until_a_clerk_closes_it_even_after_a_restart(self) -> None:
        journal = await self.begin()
        self.office.journal = PlayedJournal("new")
        await self.read()
        for _ in range(2):
            self.counter(self.office.journal)
            await self.read()
            self.assertEqual((EMPTY, 5, 0), self.told())
        self.books.journal.seen()
        await self.files.bring()
        self.counter(self.office.journal)
        await self.read()
        self.assertIsNone(self.told())
        self.assertEqual(journal.last, 5)

    async def test_a_file_of_it_that_says_nothing_is_ignored(self) -> None:
        for it in (
            [],
            {"known": 5, "told": 5},
            {"known": {"last": "5"}, "told": {"why": "x"}},
            {"told": {"why": SHORTER}},
        ):
            self.counter(PlayedJournal())
            self.files.keep("journal.json", it)
            await self.files.bring()
            self.assertEqual(
                (None, 0),
                (self.counter(PlayedJournal()).journal.told, self.books.journal.kept.last),
                it,
            )

    async def test_the_page_and_health_say_so_until_it_is_closed(self) -> None:
        counter: Any = Counter(Setup(state=self.folder), lambda address: None)
        counter.files.beside = at_once
        counter.terminal.is_in_doubt = lambda: False
        self.addCleanup(counter.printing.notes.shutdown)
        journal = PlayedJournal()
        for it in range(3):
            journal.weigh(f"A-{it}")
        self.books, self.files, self.office = counter.books, counter.files, Office(journal)
        self.books.office = self.office
        await self.read()
        self.assertEqual(
            (None, False),
            (counter.state()["journal_changed"], "journal_changed" in faults_of(counter)),
        )
        self.office.journal = PlayedJournal("new")
        await self.read()
        told = health_of(counter)["state"]["journal_changed"]
        self.assertEqual(
            ((EMPTY, 3, 0), True),
            ((told["why"], told["before"], told["now"]), "journal_changed" in faults_of(counter)),
        )
        routes = Routes(counter, Path("."))
        answer = await routes.guarded(
            make_mocked_request("POST", "/lists/seen", headers={"Host": "127.0.0.1"}), routes.seen
        )
        self.assertEqual((200, None), (answer.status, counter.state()["journal_changed"]))
        await self.files.bring()
        self.assertIsNone(found_in(self.folder / "journal.json")["told"])


class ThePaperAfterAPurge(unittest.IsolatedAsyncioTestCase):
    async def taken(self, text: str, before: str | None, key: str = "K2") -> tuple[bool, bool]:
        """Return two truths: the counter accepts the text as the office's, and it checks the lists again."""
        missed: list[bool] = []
        with tempfile.TemporaryDirectory() as folder, contextlib.redirect_stderr(io.StringIO()):
            printing = Printing(
                Papers(Path(folder), Template(("Kieswerk",), (), "en", BERLIN)),
                lambda number: before,
            )
            printing.on_unlinked = lambda: missed.append(True)
            printing.passed(text, {"key": key})
            await asyncio.gather(*printing.tasks)
            printing.notes.shutdown()
        return printing.refused is None, bool(missed)

    async def test_the_first_after_a_purge_of_everything_is_printed(self) -> None:
        after_all = Sample("single", number=7)  # on the digest before it that the sample has
        self.assertEqual((True, False), await self.taken(after_all.text, after_all.digests[6]))
        zeros = at_zeros(7)
        self.assertEqual(
            (True, True),
            await self.taken(zeros, "5" * 64),
            "the lists have an entry before, which was purged",
        )
        self.assertEqual((True, False), await self.taken(zeros, None))

    async def test_a_changed_one_is_not(self) -> None:
        zeros = at_zeros(7)
        for changed in (
            zeros.replace("18340", "18360").replace("10200", "10220"),
            zeros.replace("AB-12", "AB-13"),
        ):
            self.assertEqual((False, True), await self.taken(changed, "5" * 64))


def at_zeros(number: int) -> str:
    """Return a First that follows a purge of all entries before it."""
    moment, at = 1741593600, "2025-03-10 08:00:00"
    signed = f"version 2\nnumber {number}\nkey K2\nkind first\nplate AB-12\nmoment {moment}\ngross 18340\npreset -\ninterval 20\nmax 60000\nserial WB01\nprevious {ZEROS}\n"
    digest = hashlib.sha256(signed.encode()).hexdigest()
    return f"WEIGHING SLIP {number}\nPLATE AB-12\nFIRST NO {number}\nAT {at}\nG      18340 kg\nE 20 kg MAX 60000 kg SERIAL WB01\nDIGEST {digest}\n"


if __name__ == "__main__":
    unittest.main()
