"""Papers at printers that are played: one original, whatever fails; each trouble in its own name; nothing printed twice, and nothing lost."""

import contextlib
import dataclasses
import io
import os
import re
import sqlite3
import subprocess
import tempfile
import threading
import unittest
import zoneinfo
from collections.abc import Callable
from pathlib import Path
from typing import Any
from unittest import mock

from weighbridge_paper import devices, escpos, layout, words
from weighbridge_paper.__main__ import main
from weighbridge_paper.code import QUIET, modules_of
from weighbridge_paper.page import page_of, path_of
from weighbridge_paper.forms import FORMS
from weighbridge_paper.pdf import Sheet
from weighbridge_paper.printers import Papers, Printer, read_papers
from weighbridge_paper.printing import Worker, about
from weighbridge_paper.reader import SetupFault
from weighbridge_paper.spool import Job, Spool
from weighbridge_paper.text import read_text

from .papers import USUAL, Sample
from .played_printer import ANSWERS, PlayedPrinter

TEMPLATE = layout.Template(("Kieswerk",), (), "en", zoneinfo.ZoneInfo("Europe/Berlin"))
FAST = {
    "ANSWER_WITHIN": 0.3,
    "STUCK_AFTER": 0.5,
    "BEHIND_EVERY": 0.3,
    "BEHIND_WITHIN": 1.5,
    "CONNECT_WITHIN": 0.5,
    "UNKNOWN_AFTER": 99,
}


def job_of(spool: Spool, number: int) -> Job:
    """Return a job that is there."""
    job = spool.job(number)
    assert job is not None
    return job


def marks(data: bytes) -> int:
    return data.count(b"DUPLICATE") + data.count(b"COPY")


class AtAPrinter(unittest.TestCase):
    def setUp(self) -> None:
        folder = tempfile.TemporaryDirectory()
        self.addCleanup(folder.cleanup)
        self.spool = Spool(Path(folder.name))
        self.played = PlayedPrinter()
        self.addCleanup(self.played.gone)
        for name, value in FAST.items():
            changed = mock.patch.object(devices, name, value)
            changed.start()
            self.addCleanup(changed.stop)
        self.printer = Printer(
            "yard",
            "tcp",
            "127.0.0.1",
            str(self.played.port),
            "escpos80",
            TEMPLATE,
            48,
            (("cp858", 19),),
            True,
        )

    def put(self, *samples: Sample) -> list[int]:
        return [self.spool.put(self.spool.take(read_text(it.text)), "yard") for it in samples]

    def turn(self, **how: Any) -> bool:
        return Worker(self.spool, self.printer).turn(**how)

    def state(self, job: int) -> tuple[str, str]:
        found = job_of(self.spool, job)
        return found.state, found.why

    def test_one_original_and_then_duplicates(self) -> None:
        for it in range(3):
            self.put(USUAL["second"])
            self.assertTrue(self.turn())
        self.assertEqual([0, 2, 2], [marks(it) for it in self.played.printed])
        self.assertFalse(self.turn())
        self.assertIn(
            b"\x1d!\x22\x1bEAB-12".replace(b"\x1bE", b"\x1bE\x01"), self.played.printed[0]
        )

    def test_many_presses_at_one_that_waits_make_one_paper(self) -> None:
        self.played.gone()
        jobs = [self.put(USUAL["second"])[0] for _ in range(3) if not self.turn()]
        self.played.there()
        self.assertTrue(self.turn())
        self.assertFalse(self.turn())
        self.assertEqual((1, [0]), (len(set(jobs)), [marks(it) for it in self.played.printed]))

    def test_a_printer_that_another_program_has_is_left_to_it(self) -> None:
        (job,) = self.put(USUAL["second"])
        with self.spool.holding("yard") as is_mine:
            self.assertTrue(is_mine)
            self.assertFalse(self.turn())
        self.assertEqual((("waits", ""), 0), (self.state(job), self.played.connections))

    def test_a_first_that_is_printed_again_is_a_copy(self) -> None:
        for it in range(2):
            self.put(USUAL["first"])
            self.turn()
        self.assertEqual([0, 2], [it.count(b"COPY") for it in self.played.printed])

    def test_they_come_in_their_order(self) -> None:
        samples = [Sample("single", plate=f"NO-{it}") for it in range(5)]
        self.put(*samples)
        while self.turn():
            pass
        self.assertEqual(
            [it.plate.encode() in data for it, data in zip(samples, self.played.printed)],
            [True] * 5,
        )

    def test_each_trouble_is_told_in_its_name_and_the_original_comes_once_it_is_over(self) -> None:
        for name in ("paper_out", "cover_open", "offline", "knife", "fault"):
            self.played.state = name
            (job,) = self.put(Sample("single", plate=name[:5].upper().replace("_", "-")))
            for _ in range(3):
                self.assertFalse(self.turn())
            self.assertEqual(("waits", name), self.state(job))
            self.played.state = ""
            self.assertTrue(self.turn())
            self.assertFalse(self.turn())
            self.assertEqual(("printed", ""), self.state(job))
        self.assertEqual([0] * 5, [marks(it) for it in self.played.printed])

    def test_little_paper_is_paper(self) -> None:
        self.played.state = "paper_low"
        (job,) = self.put(USUAL["void"])
        self.assertTrue(self.turn())
        self.assertEqual(("printed", ""), self.state(job))

    def test_gone_and_back(self) -> None:
        self.played.gone()
        (job,) = self.put(USUAL["second"])
        self.assertFalse(self.turn())
        self.assertEqual(("waits", "gone"), self.state(job))
        self.played.there()
        self.assertTrue(self.turn())
        self.assertEqual([0], [marks(it) for it in self.played.printed])

    def test_one_that_is_full_takes_nothing_and_is_asked_again(self) -> None:
        self.played.is_deaf = True
        (job,) = self.put(USUAL["second"])
        self.assertFalse(self.turn())
        self.assertEqual(("waits", "no_answer"), self.state(job))
        self.played.reset()
        self.played.is_deaf = False
        self.assertTrue(self.turn())
        self.assertEqual([0], [marks(it) for it in self.played.printed])

    def test_cut_in_the_middle_it_comes_again_as_a_duplicate(self) -> None:
        self.played.cut_after = 500
        (job,) = self.put(USUAL["second"])
        self.assertFalse(self.turn())
        self.assertEqual(("waits", "cut"), self.state(job))
        self.assertTrue(self.turn())
        self.assertEqual(
            ([0], [2]),
            ([marks(it) for it in self.played.begun], [marks(it) for it in self.played.printed]),
        )

    def test_cut_three_times_it_has_failed_and_a_press_prints_it(self) -> None:
        (job,) = self.put(USUAL["second"])
        for _ in range(3):
            self.played.cut_after = 500
            self.assertFalse(self.turn())
        self.assertEqual(("failed", "cut"), self.state(job))
        self.assertFalse(self.turn())
        self.assertTrue(self.spool.again(job))
        self.assertTrue(self.turn())
        self.assertEqual([2], [marks(it) for it in self.played.printed])

    def test_without_paper_in_the_middle_it_is_told_and_goes_on_once(self) -> None:
        self.played.out_after = 700
        (job,) = self.put(USUAL["second"])
        done = threading.Thread(target=self.turn, daemon=True)
        done.start()
        for _ in range(100):
            if self.state(job) == ("begun", "paper_out"):
                break
            threading.Event().wait(0.05)
        self.assertEqual(("begun", "paper_out"), self.state(job))
        self.played.state = ""
        done.join(5)
        self.assertEqual(
            (("printed", ""), [0], []),
            (self.state(job), [marks(it) for it in self.played.printed], self.played.begun),
        )

    def test_one_in_trouble_is_given_up_if_nobody_waits_any_more(self) -> None:
        self.played.out_after = 700
        (job,) = self.put(USUAL["second"])
        self.assertFalse(self.turn(give_up=lambda: True))
        self.assertEqual(("waits", "paper_out"), self.state(job))

    def test_a_slow_one_is_waited_for(self) -> None:
        self.played.rate = 8000
        (job,) = self.put(USUAL["second"])
        self.assertTrue(self.turn(give_up=lambda: True))
        self.assertEqual([0], [marks(it) for it in self.played.printed])

    def test_one_that_does_not_know_gs_r_is_believed_if_it_is_well(self) -> None:
        self.played.knows_behind = False
        (job,) = self.put(USUAL["second"])
        with mock.patch.object(devices, "UNKNOWN_AFTER", 3):
            self.assertTrue(self.turn())
        self.assertEqual(("printed", ""), self.state(job))

    def test_one_without_status_is_asked_nothing(self) -> None:
        self.printer = Printer(
            "yard",
            "tcp",
            "127.0.0.1",
            str(self.played.port),
            "escpos80",
            TEMPLATE,
            48,
            (("cp858", 19),),
            False,
        )
        self.played.is_dumb = True
        self.put(USUAL["second"])
        self.assertTrue(self.turn())
        for _ in range(100):
            if self.played.printed:
                break
            threading.Event().wait(0.02)
        self.assertEqual(([0], 0), ([marks(it) for it in self.played.printed], self.played.asked))

    def test_a_program_that_died_in_the_middle_makes_a_duplicate(self) -> None:
        (job,) = self.put(USUAL["second"])
        self.assertTrue(self.spool.begin(job_of(self.spool, job), True))
        self.assertTrue(self.turn())
        self.assertEqual([2], [marks(it) for it in self.played.printed])

    def test_one_that_is_dropped_is_not_printed_and_leaves_the_original_to_the_next(self) -> None:
        self.played.gone()
        (one,) = self.put(USUAL["second"])
        self.assertFalse(self.turn())
        self.assertTrue(self.spool.drop(one))
        (other,) = self.put(USUAL["second"])
        self.played.there()
        self.assertTrue(self.turn())
        self.assertFalse(self.turn())
        self.assertEqual([0], [marks(it) for it in self.played.printed])
        self.assertFalse(self.spool.drop(other))

    def test_what_the_browser_printed_meanwhile_is_the_original(self) -> None:
        (job,) = self.put(USUAL["second"])
        self.assertTrue(self.spool.elsewhere(self.spool.take(read_text(USUAL["second"].text)))[0])
        self.assertFalse(self.spool.elsewhere(self.spool.take(read_text(USUAL["second"].text)))[0])
        self.assertTrue(self.turn())
        self.assertEqual([2], [marks(it) for it in self.played.printed])

    def test_that_of_the_browser_is_noted_whole_or_not_at_all(self) -> None:
        paper = self.spool.take(read_text(USUAL["second"].text), (("goods", "Kies"),))
        with mock.patch.object(self.spool, "_open", wraps=self.spool._open) as transactions:
            self.assertEqual((True, (("goods", "Kies"),)), self.spool.elsewhere(paper))
        self.assertEqual(1, transactions.call_count)
        self.assertEqual(
            ["printed"], [it.state for it in self.spool.jobs("waits", "begun", "printed")]
        )

    def test_root_makes_nothing_in_another_user_s_folder_nor_where_his_link_leads(self) -> None:
        if os.geteuid():
            self.skipTest("it isn't run by root")
        theirs, ours = self.spool.folder / "theirs", self.spool.folder / "ours"
        for it in (theirs, ours):
            it.mkdir()
        os.chown(theirs, 12345, 12345)
        (theirs / "link").symlink_to(ours)
        for name in ("papers", "link", "more/papers", "link/papers"):
            with self.assertRaisesRegex(PermissionError, "theirs belongs to the user 12345"):
                Spool(theirs / name)
        self.assertEqual((["link"], []), (os.listdir(theirs), os.listdir(ours)))

    def test_a_link_in_a_folder_of_files_is_not_followed(self) -> None:
        box, kept = self.spool.folder / "box", self.spool.folder / "kept"
        box.mkdir()
        kept.write_text("kept")
        (job,) = self.put(USUAL["second"])
        name = f"WB01-2-{job}.escpos"
        (box / f".{name}.new").symlink_to(kept)
        self.printer = Printer(
            "yard", "file", str(box), "", "escpos80", TEMPLATE, 48, (("cp858", 19),)
        )
        self.assertTrue(self.turn())
        self.assertEqual(
            ("kept", [name], False), (kept.read_text(), os.listdir(box), (box / name).is_symlink())
        )
        self.put(USUAL["first"])
        with mock.patch("os.replace", side_effect=OSError):
            self.assertFalse(self.turn())
        self.assertEqual([name], os.listdir(box))

    def test_a_duplicate_that_did_not_come_out_gives_no_original_back(self) -> None:
        paper = self.spool.take(read_text(USUAL["second"].text))
        first, second = (job_of(self.spool, self.spool.put(paper, it)) for it in ("one", "other"))
        self.assertTrue(self.spool.begin(first, True))
        self.spool.printed(first.id)
        self.assertTrue(self.spool.begin(second, False))
        self.spool.give_back(second.id, "cover_open")
        self.assertFalse(job_of(self.spool, second.id).is_original)

    def test_of_many_at_once_one_is_the_original(self) -> None:
        paper = self.spool.take(read_text(USUAL["second"].text))
        jobs = [self.spool.job(self.spool.put(paper, f"printer_{it}")) for it in range(12)]
        found = []
        threads = [
            threading.Thread(target=lambda job=job: found.append(self.spool.begin(job, True)))
            for job in jobs
        ]
        for it in threads:
            it.start()
        for it in threads:
            it.join()
        self.assertEqual(1, found.count(True))

    def test_it_is_noted_before_a_byte_goes_out_and_rendered_before_it_is_noted(self) -> None:
        (job,) = self.put(USUAL["second"])
        seen = []
        write = devices.Wire.write

        def looks(wire: devices.Wire, data: bytes) -> None:
            if len(data) > 100:
                with contextlib.closing(
                    sqlite3.connect(self.spool.folder / "papers.db")
                ) as database:
                    seen.append(
                        database.execute(
                            "SELECT state, is_original, is_spent FROM job JOIN paper ON paper.id = paper"
                        ).fetchone()
                    )
            write(wire, data)

        with mock.patch.object(devices.Wire, "write", looks):
            self.turn()
        self.assertEqual([("begun", 1, 1)], seen)
        (job,) = self.put(Sample("single"))
        with mock.patch(
            "weighbridge_paper.printing.data_of", side_effect=ValueError
        ), self.assertRaises(ValueError):
            self.turn()
        self.assertEqual("waits", self.state(job)[0])

    def test_a_text_that_was_changed_where_it_waits_is_not_printed(self) -> None:
        self.put(USUAL["second"])
        with contextlib.closing(sqlite3.connect(self.spool.folder / "papers.db")) as database:
            database.execute("UPDATE paper SET letters = replace(letters, '10200', '10220')")
            database.commit()
        looks: tuple[Callable[[], object], ...] = (
            self.turn,
            lambda: self.spool.jobs("waits"),
            lambda: self.spool.text_of(2),
        )
        for look in looks:
            with self.assertRaisesRegex(OSError, "a text that was changed"):
                look()
        self.assertEqual([], self.played.printed)

    def test_the_same_number_of_another_journal_is_another_paper(self) -> None:
        other = Sample("second", first=18320)
        self.put(USUAL["second"], other)
        self.assertTrue(self.turn() and self.turn())
        self.assertEqual([0, 0], [marks(it) for it in self.played.printed])


class EscPos(unittest.TestCase):
    def test_no_letter_that_a_page_has_is_a_question_mark(self) -> None:
        for pages, text in (
            ((("cp858", 19),), "äöüßÄÖÜéèêëàâçîïôûùœ ñÑ¿¡ áíóú €º·"),
            ((("cp858", 19), ("cp852", 18)), "Łódź Żółć ěščřž äöü"),
            ((("cp866", 17), ("cp437", 0)), "Щебень für Иванов"),
        ):
            self.assertNotIn(b"?", escpos.Letters(pages).of(text), text)

    def test_a_letter_is_read_back_by_the_page_that_stands_before_it(self) -> None:
        text, at, now, found = "Łódź für Щ", 0, "ascii", ""
        data = escpos.Letters((("cp858", 19), ("cp852", 18), ("cp866", 17))).of(text)
        while at < len(data):
            if data[at : at + 2] == b"\x1bt":
                now = {19: "cp858", 18: "cp852", 17: "cp866"}[data[at + 2]]
                at += 3
                continue
            found += data[at : at + 1].decode(now)
            at += 1
        self.assertEqual(text, found)

    def test_what_no_page_has_is_alike_or_a_question_mark(self) -> None:
        self.assertEqual(
            b"Zolc - EUR ?",
            escpos.Letters((("cp437", 0),))
            .of("Żółc – € 山")
            .replace(b"\x1bt\x00", b"")
            .replace(b"\xa2", b"o"),
        )

    def test_a_text_has_no_commands_of_the_printer(self) -> None:
        text = "Kies\x1b@ 0/16\x1dV\x00\r\n\x7f"
        self.assertEqual(b"Kies @ 0/16 V    ", escpos.Letters((("cp437", 0),)).of(text))

    def test_a_picture_begins_at_its_left(self) -> None:
        self.assertEqual(
            b"\x1dv0\x00\x02\x00\x01\x00\x80\x80", escpos.raster([[True] + [False] * 7 + [True]])
        )

    def test_the_status_says_what_is_wrong(self) -> None:
        for name, answers in ANSWERS.items():
            self.assertEqual(
                None if name in ("", "paper_low") else name,
                escpos.trouble_of(dict(zip((1, 2, 3, 4), answers))),
            )
            self.assertTrue(all(escpos.is_status(it) for it in answers))
        self.assertEqual(
            [False, True],
            [escpos.is_low(dict(zip((1, 2, 3, 4), ANSWERS[it]))) for it in ("", "paper_low")],
        )

    def test_nothing_is_wider_than_the_roll(self) -> None:
        for columns in (30, 32, 42, 48):
            for language in words.LANGUAGES:
                template = layout.Template(
                    ("A very long name of a company that needs more than one line",),
                    (),
                    language,
                    TEMPLATE.zone,
                )
                given = layout.given_of(
                    {"goods": "œ" * 60, "order": "y z " * 15, "driver": "山…€ " * 15}
                )
                blocks = layout.blocks_of(
                    layout.Paper(read_text(USUAL["single"].text), given), template
                )
                data = escpos.Roll(columns, (("cp858", 19),), True).bytes_of(blocks)
                self.assertTrue(data.startswith(b"\x1b@") and data.endswith(b"\x1dVB\x00"))
                lines = re.sub(
                    rb"\x1d[!B].|\x1b[tEaR].|\x1b@", b"", data.partition(b"\x1dv0")[0], flags=re.S
                ).split(b"\n")
                self.assertLessEqual(max(map(len, lines)), columns)


class TheCode(unittest.TestCase):
    def test_its_path_has_each_dark_module_once(self) -> None:
        rows = modules_of("2 " + "a" * 64)
        self.assertEqual(QUIET, rows[QUIET].index(True))
        runs = path_of(rows).removesuffix("z").split("z")
        self.assertEqual(
            sum(map(sum, rows)), sum(int(it.partition("h")[2].partition("v")[0]) for it in runs)
        )

    def test_the_page_gets_the_legal_text_whole(self) -> None:
        blocks = page_of(layout.blocks_of(layout.Paper(read_text(USUAL["second"].text)), TEMPLATE))
        self.assertEqual(
            [USUAL["second"].text], [it["text"] for it in blocks if it["is"] == "legal"]
        )


class Pdf(unittest.TestCase):
    def test_the_same_paper_is_the_same_bytes(self) -> None:
        for form in FORMS:
            blocks = layout.blocks_of(layout.Paper(read_text(USUAL["second"].text)), TEMPLATE)
            paper = layout.Paper(read_text(USUAL["second"].text))
            one, other = (
                Sheet(FORMS[form]).pdf_of(blocks, about(paper, TEMPLATE)) for _ in range(2)
            )
            self.assertEqual(one, other)

    def test_it_says_what_it_is_and_when_and_in_which_language(self) -> None:
        for sample, language, title in (
            ("second", "en", "Ticket 2, WB01, AB-12"),
            ("second", "de", "Wiegeschein 2, WB01, AB-12"),
            ("first", "fr", "Bulletin 2, WB01, AB-12"),
        ):
            paper = layout.Paper(read_text(USUAL[sample].text))
            template = dataclasses.replace(TEMPLATE, language=language)
            data = Sheet(FORMS["a5"]).pdf_of(
                layout.blocks_of(paper, template), about(paper, template)
            )
            moment = f"{paper.text.own.at:D:%Y%m%d%H%M%S}+00'00'"
            for name, value in (("Title", title), ("CreationDate", moment), ("Lang", language)):
                self.assertTrue(f"/{name} ({value})".encode() in data, f"{name}: {value}")

    def test_a_reader_at_100_dots_per_inch_can_read_the_code(self) -> None:
        self.assertGreaterEqual(min(it.module for it in FORMS.values()) / 72 * 100, 2.5)

    def test_figures_of_the_legal_text_are_two_millimetres_high(self) -> None:
        self.assertGreaterEqual(min(it.legal for it in FORMS.values()) * 0.729 * 25.4 / 72, 2.0)


class TheSetup(unittest.TestCase):
    def read(self, text: str) -> Papers:
        with tempfile.NamedTemporaryFile("w", suffix=".toml") as file:
            file.write(text)
            file.flush()
            return read_papers(Path(file.name))

    def test_little_is_enough(self) -> None:
        papers = self.read(
            'spool = "/tmp/x"\n[[printer]]\nname = "yard"\nto = "tcp:192.0.2.50:9100"\n'
        )
        printer = papers.printers[0]
        self.assertEqual(
            ("yard", "escpos80", 48, (("cp858", 19),), True),
            (papers.by_itself, printer.form, printer.columns, printer.pages, printer.has_status),
        )

    def test_each_way(self) -> None:
        for to, way, place, detail in (
            ("tcp:yard.example:9100", "tcp", "yard.example", "9100"),
            ("usb:/dev/usb/lp0", "usb", "/dev/usb/lp0", ""),
            ("serial:/dev/ttyS0:19200", "serial", "/dev/ttyS0", "19200"),
            ("cups:desk", "cups", "desk", ""),
            ("cups:desk@127.0.0.1:631", "cups", "desk", "127.0.0.1:631"),
            ("file:/srv/papers", "file", "/srv/papers", ""),
        ):
            printer = self.read(
                f'spool = "/tmp/x"\n[[printer]]\nname = "a"\nto = "{to}"\n'
            ).printers[0]
            self.assertEqual((way, place, detail), (printer.way, printer.place, printer.detail))

    def test_each_mistake_is_named(self) -> None:
        yard = 'spool = "x"\n[[printer]]\nname = "yard"\nto = "tcp:192.0.2.50:9100"\n'
        rows = [
            ("", "spool: it is missing"),
            ('spool = "x"\nlanguage = "it"', 'language: write "en" or "de"'),
            ('spool = "x"\nheader = "one"', "header: write at most 8 lines"),
            ('spool = "x"\nfooter = ["' + "x" * 101 + '"]', "footer: write at most 8 lines"),
            ('spool = "x"\nby_itself = "yard"', "by_itself: write "),
            ('spool = "x"\npinter = 1', "pinter: there is no such key"),
            ('spool = "x"\nprinter = 1', "printer: write each printer as a table"),
            (yard.replace("yard", "Yard 1"), "printer 1: name: write"),
            (yard + yard.partition("\n")[2], "printer 2: name: there is a printer yard"),
            (yard.replace("tcp:192.0.2.50:9100", "192.0.2.50"), "printer 1: to: write"),
            (yard.replace(":9100", ":99999"), "printer 1: to: write"),
            (yard + 'form = "a4"', "form: such a printer gets ESC/POS"),
            (
                yard.replace("tcp:192.0.2.50:9100", "cups:desk") + 'form = "escpos80"',
                "form: a queue of CUPS gets PDF",
            ),
            (yard + 'form = "a3"', "form: write"),
            (yard + "columns = 20", "columns: write a whole number from 30 to 96"),
            (yard + 'code_pages = ["latin"]', "code_pages: write code pages"),
            (yard + 'code_pages = ["cp858=300"]', "code_pages: write code pages"),
            (yard + 'code_pages = ["cp858=²"]', "code_pages: write code pages"),
            (yard.replace(":9100", ":٩١٠٠"), "printer 1: to: write"),
            (yard + "status = 1", "status: write true or false"),
            (
                yard.replace("tcp:192.0.2.50:9100", "file:/x") + 'form = "escpos58"\nstatus = true',
                "status: a file answers nothing",
            ),
            (yard + "speed = 1", "speed: there is no such key"),
        ]
        for text, wanted in rows:
            with self.assertRaises(SetupFault) as caught:
                self.read(text)
            self.assertIn(wanted, str(caught.exception))
            self.assertIn(".toml: ", str(caught.exception))

    def test_all_mistakes_are_named_at_once(self) -> None:
        with self.assertRaises(SetupFault) as caught:
            self.read(
                'language = "it"\nby_itself = "x"\n[[printer]]\nname = "a"\nto = 5\nform = "a4"\ncolumns = 1\n'
                '[[printer]]\nname = "a"\nto = "usb:/dev/usb/lp0"\nform = "a4"\nstatus = 1\nheader = ["\\u0007"]\n'
            )
        keys = [
            it.split(".toml: ")[1].split(": write")[0].split(": there")[0].split(": it is")[0]
            for it in caught.exception.mistakes
        ]
        self.assertEqual(
            [
                "by_itself",
                "language",
                "printer 1: columns",
                "printer 1: to",
                "printer 2: form: such a printer gets ESC/POS",
                "printer 2: header",
                "printer 2: name",
                "printer 2: status",
                "spool",
            ],
            sorted(keys),
        )


class TheCommand(unittest.TestCase):
    def setUp(self) -> None:
        folder = tempfile.TemporaryDirectory()
        self.addCleanup(folder.cleanup)
        self.folder = Path(folder.name)
        (self.folder / "out").mkdir()
        self.setup = self.folder / "paper.toml"
        self.setup.write_text(
            f'spool = "{folder.name}/spool"\n[[printer]]\nname = "box"\nto = "file:{folder.name}/out"\nform = "escpos80"\n'
        )

    def run_with(self, letters: str, *words_given: str) -> tuple[int, str, str]:
        given = mock.Mock(isatty=lambda: False, buffer=io.BytesIO(letters.encode()))
        with mock.patch("sys.stdin", given), contextlib.redirect_stdout(
            io.StringIO()
        ) as out, contextlib.redirect_stderr(io.StringIO()) as err:
            status = main(["--setup", str(self.setup), *words_given])
        return status, out.getvalue(), err.getvalue()

    def test_a_text_is_printed_and_again_as_a_duplicate(self) -> None:
        it = USUAL["second"]
        self.assertEqual(0, self.run_with(it.text, "--printer", "box", "--goods", "Kies")[0])
        self.assertEqual(0, self.run_with("", "--printer", "box", "--reprint", "2")[0])
        made = [it.read_bytes() for it in sorted((self.folder / "out").iterdir())]
        self.assertEqual(
            ([0, 2], [1, 1]), ([marks(it) for it in made], [it.count(b"Kies\n") for it in made])
        )

    def test_what_is_refused_is_not_printed(self) -> None:
        it, keys = USUAL["second"], {1: "K1", 2: "K2"}
        export = self.folder / "journal.csv"
        header = "number,key,kind,plate,moment,gross_kg,preset_kg,interval_kg,max_kg,serial,digest,previous\n"
        digests = {1: it.digests[1], 2: it.digest}
        export.write_text(
            header
            + "".join(
                f"{number},{key},,,,,,,,,{digests[number]},\n" for number, key in keys.items()
            )
        )
        falsified = it.text.replace("8140", "8120").replace("10200", "10220")
        rows = [
            (falsified, ("--key", "K2"), 3, "the digest of number 2 isn't that of its fields"),
            (
                falsified,
                ("--against", str(export)),
                3,
                "the digest of number 2 isn't that of its fields",
            ),
            (it.text, ("--against", str(self.folder / "none")), 3, "is no export of the journal"),
            (it.text.replace("AB-12", "ab-12"), (), 3, "doesn't have the form of a slip or ticket"),
            ("", (), 3, "nothing came on standard input"),
            (it.text, ("--reprint", "9"), 3, "number 9 was never printed here"),
        ]
        for letters, more, status, wanted in rows:
            found = self.run_with(letters, "--printer", "box", *more)
            self.assertEqual(status, found[0])
            self.assertIn(wanted, found[2])
        self.assertEqual([], list((self.folder / "out").iterdir()))
        found = self.run_with(it.text, "--printer", "box", "--against", str(export))
        self.assertEqual((0, ""), (found[0], found[2]))
        self.assertIn("can't be made again", self.run_with(it.text, "--printer", "box")[2])

    def test_what_waits_is_listed_dropped_and_printed_by_the_next_call(self) -> None:
        (self.folder / "out").rename(self.folder / "away")
        status, out, err = self.run_with(USUAL["second"].text, "--printer", "box", "--within", "0")
        self.assertEqual(1, status)
        self.assertIn("job 1: ticket 2, AB-12, waits at box: its folder can't be written", err)
        self.assertIn("waits at box", self.run_with("", "--list")[1])
        (self.folder / "away").rename(self.folder / "out")
        self.assertEqual(0, self.run_with("", "--printer", "box")[0])
        self.assertEqual([0], [marks(it.read_bytes()) for it in (self.folder / "out").iterdir()])
        self.assertEqual(2, self.run_with("", "--drop", "1")[0])
        self.assertEqual((0, ""), self.run_with("", "--list")[:2])

    def test_what_a_killed_command_left_is_printed_by_the_next_call(self) -> None:
        spool = Spool(self.folder / "spool")
        job = job_of(spool, spool.put(spool.take(read_text(USUAL["second"].text)), "box"))
        spool.begin(job, True)
        self.assertEqual(0, self.run_with("", "--printer", "box")[0])
        self.assertEqual([2], [marks(it.read_bytes()) for it in (self.folder / "out").iterdir()])
        self.assertEqual(3, self.run_with("", "--printer", "box")[0])

    def test_what_fails_is_no_success(self) -> None:
        spool = Spool(self.folder / "spool")
        job = spool.put(spool.take(read_text(USUAL["second"].text)), "box")
        for _ in range(2):
            spool.begin(job_of(spool, job), False)
            spool.was_cut(job, "cut")
        spool.begin(job_of(spool, job), False)
        status, _, err = self.run_with("", "--printer", "box")
        self.assertEqual(
            (1, True), (status, "failed at box: the program ended in the middle" in err)
        )

    def test_nobody_s_modules_are_taken_but_the_system_s(self) -> None:
        (self.folder / "qrcode.py").write_text("raise SystemExit('another module')")
        (self.folder / "sitecustomize.py").write_text("raise SystemExit('another module')")
        for name in ("weighbridge-paper", "weighbridge-counter"):
            words = [str(Path(__file__).resolve().parents[1] / name), "--help"]
            found = subprocess.run(
                words,
                cwd=self.folder,
                env={"PYTHONPATH": str(self.folder)},
                capture_output=True,
                text=True,
            )
            self.assertEqual((0, ""), (found.returncode, found.stderr))

    def test_words_that_are_refused(self) -> None:
        self.assertEqual(2, self.run_with(USUAL["second"].text, "--printer", "none")[0])
        with self.assertRaises(SystemExit) as caught:
            self.run_with("")
        self.assertEqual(2, caught.exception.code)


class Words(unittest.TestCase):
    def test_each_trouble_that_can_be_told_has_words_on_the_page(self) -> None:
        import json

        for path in (Path(__file__).resolve().parent.parent / "web" / "lang").glob("*.json"):
            found = json.loads(path.read_text(encoding="utf-8"))
            self.assertEqual(
                set(devices.TROUBLES),
                {it.removeprefix("trouble_") for it in found if it.startswith("trouble_")},
                path,
            )


if __name__ == "__main__":
    unittest.main()
