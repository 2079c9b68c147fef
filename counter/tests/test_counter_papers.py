"""Papers in the counter: what passes is printed once, what isn't the office's is refused, and nothing of it holds up who asks."""

import asyncio
import contextlib
import io
import tempfile
import unittest
import zoneinfo
from collections.abc import Callable
from pathlib import Path
from typing import Any
from unittest import mock

from weighbridge_counter.once import void_key
from weighbridge_counter.papers import MOST_SHOWN, Printing
from weighbridge_paper import spool
from weighbridge_paper.layout import Template
from weighbridge_paper.printers import Papers, Printer
from weighbridge_paper.text import read_text

from .papers import USUAL, Sample
from .played_printer import PlayedPrinter
from .test_paper_printing import job_of

TEMPLATE = Template(("Kieswerk",), (), "en", zoneinfo.ZoneInfo("UTC"))


def first_of(pair: Sample) -> str:
    """Return the slip of a ticket's first weighing."""
    block = pair.text.split("SECOND NO")[0].split("\n", 2)[2]
    return f"WEIGHING SLIP {pair.number - 1}\nPLATE {pair.plate}\n{block}"


class InTheCounter(unittest.IsolatedAsyncioTestCase):
    async def asyncSetUp(self) -> None:
        folder = tempfile.TemporaryDirectory()
        self.addCleanup(folder.cleanup)
        self.played = PlayedPrinter()
        self.addCleanup(self.played.gone)
        printer = Printer(
            "yard",
            "tcp",
            "127.0.0.1",
            str(self.played.port),
            "escpos80",
            TEMPLATE,
            48,
            (("cp858", 19),),
            True,
        )
        self.papers = Papers(Path(folder.name), TEMPLATE, (printer,), "yard")
        self.printing = Printing(self.papers, {1: USUAL["second"].digests[1]}.get)
        self.running = asyncio.ensure_future(self.printing.run())

    async def asyncTearDown(self) -> None:
        self.running.cancel()
        self.printing.end()
        self.printing.notes.shutdown()

    async def becomes(self, look: Callable[[], object]) -> None:
        for _ in range(250):
            if look():
                return
            await asyncio.sleep(0.02)
        raise AssertionError("it doesn't become so")

    async def test_what_passes_is_printed_once(self) -> None:
        for _ in range(3):
            self.printing.passed(
                USUAL["second"].text, {"key": "K2", "goods": "Kies", "plate": "AB-12"}
            )
            await self.becomes(lambda: self.played.printed and not self.printing.jobs)
            await asyncio.sleep(0.2)
        self.assertEqual(
            (1, 1, None),
            (
                len(self.played.printed),
                self.played.printed[0].count(b"Kies\n"),
                self.printing.state()["refused"],
            ),
        )

    async def test_what_is_not_the_office_s_is_refused_and_told(self) -> None:
        for changed in (
            USUAL["second"].text.replace("8140", "8120").replace("10200", "10220"),
            USUAL["second"].text.replace("AB-12", "ab-12"),
        ):
            self.printing.refused = None
            with self.assertLogsOnStandardError() as said:
                self.printing.passed(changed, {"key": "K2"})
                await self.becomes(lambda: self.printing.refused == 2)
            self.assertIn("a text of the office isn't printed", said.getvalue())
        for number in ("²", "9" * 5000):  # int takes neither
            self.printing.refused = None
            with self.assertLogsOnStandardError():
                self.printing.passed(f"WEIGHING SLIP {number}\n", {})
                await self.becomes(lambda: self.printing.refused == 0)
        self.assertTrue(self.printing.faults())
        self.assertEqual(
            ([], []), (self.played.printed, self.printing.spool.jobs("waits", "begun", "printed"))
        )

    async def test_without_its_key_a_text_is_printed_all_the_same(self) -> None:
        self.printing.passed(Sample("single", number=7).text, {})
        await self.becomes(lambda: self.played.printed)

    async def test_a_void_names_its_first_outside_the_legal_text(self) -> None:
        void, first = Sample("void", number=27), Sample("first", number=28)
        self.printing.first_of = {27: 26, 28: 3, 30: 29}.get

        def texts(paper: dict[str, Any]) -> list[str]:
            return [it.get("text", "") for it in paper["blocks"] if it["is"] in ("line", "rule")]

        said = texts(await self.printing.for_browser(void.text))
        self.assertIn("Slip 26", said)
        self.assertNotIn("Given by the clerk. No part of the weighing.", said)
        legal = [
            it["text"]
            for it in (await self.printing.for_browser(void.text))["blocks"]
            if it["is"] == "legal"
        ]
        self.assertEqual([void.text], legal)
        self.assertNotIn("Slip 3", texts(await self.printing.for_browser(first.text)))
        self.printing.passed(Sample("void", number=30).text, {})
        await self.becomes(lambda: self.played.printed)
        self.assertIn(b"Slip 29", self.played.printed[0])
        self.printing.first_of = lambda number: None
        self.assertIn("Slip 26", texts(await self.printing.for_browser(void.text)), "it is kept")

    async def test_a_vehicle_that_is_weighed_once_has_a_slip_that_says_so_and_no_other_paper(
        self,
    ) -> None:
        slip, void = Sample("first", number=7), Sample("void", number=9)
        self.printing.passed(slip.text, {"once": "1", "goods": "Kies"})
        await self.becomes(lambda: len(self.played.printed) == 1)
        self.assertEqual(
            [True, True],
            [it in self.played.printed[0] for it in (b"Weighed once. No second", b"Kies")],
        )
        self.printing.passed(void.text, {"key": void_key("page-1")})
        await self.becomes(lambda: not self.printing.tasks and self.printing.spool.text_of(9))
        await asyncio.sleep(0.2)
        self.assertEqual((1, []), (len(self.played.printed), self.printing.jobs))
        await self.printing.print(void.text, "yard")
        await self.becomes(lambda: len(self.played.printed) == 2)
        self.printing.passed(Sample("void", number=11).text, {"key": "page-2"})
        await self.becomes(lambda: len(self.played.printed) == 3)
        changed = await self.printing.give(slip.text, {"goods": "Sand"}, True)
        self.assertEqual({"goods": "Sand"}, changed)
        again = await self.printing.for_browser(slip.text)
        said = [it.get("text") for it in again["blocks"]]
        self.assertIn("Weighed once. No second weighing follows.", said, "it still says so")

    async def test_what_was_given_at_the_first_weighing_is_on_the_ticket(self) -> None:
        pair = Sample("second", number=8)
        first = first_of(pair)
        self.printing.passed(first, {"key": "K1", "goods": "Kies 0/32", "driver": "Ada"})
        await self.becomes(lambda: len(self.played.printed) == 1)
        again = Printing(self.papers, lambda number: None)  # as after a restart
        self.addCleanup(again.notes.shutdown)
        again.passed(pair.text, {"key": "K2", "driver": "", "order": "7"})
        await self.becomes(lambda: not again.tasks and again.spool.text_of(8))
        self.printing._wake()
        await self.becomes(lambda: len(self.played.printed) == 2)
        ticket = self.played.printed[1]
        self.assertEqual(
            [True, True, False], [it in ticket for it in (b"Kies 0/32", b"Order", b"Ada")]
        )
        self.assertEqual({"goods": "Kies 0/32", "order": "7"}, again.given.of(pair.digest))

    async def test_lines_can_be_changed_until_the_original_is_printed(self) -> None:
        self.played.state = "cover_open"
        ticket = USUAL["single"]
        self.printing.passed(ticket.text, {"goods": "Sand"})
        await self.becomes(lambda: [it["why"] for it in self.printing.jobs] == ["cover_open"])
        self.assertEqual(
            {"goods": "Kies"}, await self.printing.give(ticket.text, {"goods": "Kies"}, False)
        )
        self.played.state = ""
        await self.becomes(lambda: self.played.printed)
        self.assertEqual([False, True], [it in self.played.printed[0] for it in (b"Sand", b"Kies")])
        self.assertIsNone(await self.printing.give(ticket.text, {"goods": "Erde"}, False))
        self.assertEqual({"goods": "Kies"}, self.printing.given.of(ticket.digest))
        self.assertEqual(
            {"goods": "Erde"},
            await self.printing.give(ticket.text, {"goods": "Erde"}, True),
            "of a vehicle on site, because its ticket will have it",
        )

    async def test_lines_that_change_while_the_paper_is_rendered_are_on_it(self) -> None:
        spool = self.printing.spool
        job = job_of(spool, spool.put(spool.take(read_text(USUAL["single"].text)), "other"))
        self.assertTrue(spool.give(job.paper, (("goods", "Kies"),)))
        self.assertFalse(spool.begin(job, True))
        now = job_of(spool, job.id)
        self.assertEqual((("goods", "Kies"),), now.given)
        self.assertTrue(spool.begin(now, True))
        self.assertFalse(spool.give(job.paper, (("goods", "Erde"),)))

    async def test_a_trouble_is_a_fault_and_a_press_asks_for_nothing(self) -> None:
        self.played.state = "cover_open"
        self.printing.passed(USUAL["single"].text, {})
        await self.becomes(lambda: [it["why"] for it in self.printing.jobs] == ["cover_open"])
        self.assertTrue(self.printing.faults())
        self.played.state = ""
        await self.becomes(lambda: self.played.printed and not self.printing.jobs)
        self.assertFalse(self.printing.faults())
        await self.printing.print(USUAL["single"].text, "yard")
        await self.becomes(lambda: len(self.played.printed) == 2)
        self.assertEqual([0, 2], [it.count(b"DUPLICATE") for it in self.played.printed])
        self.assertFalse((await self.printing.for_browser(USUAL["single"].text))["is_original"])

    async def test_of_many_that_wait_so_many_are_read(self) -> None:
        paper = self.printing.spool.take(read_text(USUAL["second"].text))
        for it in range(MOST_SHOWN + 5):
            self.printing.spool.put(paper, f"printer_{it}")
        with mock.patch.object(spool, "job_of", wraps=spool.job_of) as read:
            self.assertEqual(MOST_SHOWN, len(self.printing._look()))
        self.assertEqual(MOST_SHOWN, read.call_count)

    async def test_what_can_not_be_noted_is_told_and_ends_nothing(self) -> None:
        await self.becomes(lambda: self.printing.threads)
        path = self.printing.spool.folder / "papers.db"
        whole = path.read_bytes()
        with self.assertLogsOnStandardError() as said:
            path.write_bytes(b"x" * 5000)
            with self.assertRaises(OSError):
                await self.printing.print(USUAL["second"].text, "yard")
            self.printing.passed(USUAL["second"].text, {"key": "K2"})
            await self.becomes(
                lambda: "papers.db: file is not a database: look at the disk" in said.getvalue()
            )
        self.assertEqual(
            (False, True, []),
            (self.printing.state()["is_writable"], self.printing.faults(), self.played.printed),
        )
        self.assertFalse(self.running.done())
        path.write_bytes(whole)
        await self.printing.print(USUAL["second"].text, "yard")
        await self.becomes(lambda: self.played.printed)
        self.assertTrue(self.printing.state()["is_writable"])

    def assertLogsOnStandardError(self) -> contextlib.AbstractContextManager[io.StringIO]:
        return contextlib.redirect_stderr(io.StringIO())


if __name__ == "__main__":
    unittest.main()
