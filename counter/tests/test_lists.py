"""The lists, texts made again, stored tares, the zero since a start, and the setup's mistakes."""

import contextlib
import datetime
import errno
import io
import os
import tempfile
import unittest
import unittest.mock
import zoneinfo
from pathlib import Path
from typing import Any

from weighbridge_counter.__main__ import main
from weighbridge_counter.files import Files
from weighbridge_counter.lists import Lists
from weighbridge_counter.service import Service, program_of
from weighbridge_counter.setup import Setup, languages, read_setup
from weighbridge_counter.slips import slip_of_row
from weighbridge_counter.tares import BadTare, Tares
from weighbridge_counter.tares import Kept as KeptTare
from weighbridge_counter.today import day_of
from weighbridge_counter.zero import Zero
from weighbridge_paper.export import HEADER, NoExport, Row, has_key, rows_of
from weighbridge_paper.reader import SetupFault
from weighbridge_paper.text import Text, read_text

from .played import at_once

BERLIN = zoneinfo.ZoneInfo("Europe/Berlin")
ZEROS = "0" * 64
DIGEST = "a982a0aaef75f8622de6a96ef3a1d8ddd9de4bd18d9cda420eeb00dfbfcfa68c"
ROW = f"1,K1,first,AB-12,2025-03-10 08:00:00,18340,,20,60000,WB01,{DIGEST},{ZEROS}"
SLIP = f"WEIGHING SLIP 1\nPLATE AB-12\nFIRST NO 1\nAT 2025-03-10 08:00:00\nG      18340 kg\nE 20 kg MAX 60000 kg SERIAL WB01\nDIGEST {DIGEST}\n"
WEB = Path(__file__).resolve().parent.parent / "web"


def row(
    number: int,
    kind: str,
    plate: str,
    gross: int | str,
    preset: int | str = "",
    at: str = "2025-03-10 09:00:00",
) -> str:
    return f"{number},K{number},{kind},{plate},{at},{gross},{preset},20,60000,WB01,{ZEROS},{ZEROS}"


def export(*rows: str) -> str:
    return "\n".join((HEADER, *rows, ""))


def block(number: int, kind: str, gross: int | None, preset: int | None = None) -> str:
    weights = "".join(
        f"{name} {kg:>10} kg\n" for name, kg in (("G", gross), ("PT", preset)) if kg is not None
    )
    return f"{kind} NO {number}\nAT 2025-03-10 08:00:00\n{weights}E 20 kg MAX 60000 kg SERIAL WB01\nDIGEST {ZEROS}\n"


def slip(
    number: int,
    kind: str,
    plate: str,
    gross: int | None = 18340,
    first: tuple[int, int] | None = None,
    preset: int | None = None,
) -> Text:
    """Return a slip or ticket that was read. `first` is the number and the gross of a Second's First."""
    net = None
    if gross is not None and preset is not None:
        net = gross - preset
    elif gross is not None and first is not None:
        net = abs(gross - first[1])
    return read_text(
        f"WEIGHING {'SLIP' if net is None else 'TICKET'} {number}\nPLATE {plate}\n"
        + (block(first[0], "FIRST", first[1]) if first else "")
        + block(number, kind, gross, preset)
        + ("" if net is None else f"N {net:>10} kg\n")
    )


def row_of(text: str) -> Row:
    """Return the only row of an export that has it."""
    (found,) = rows_of(export(text))
    return found


class Texts(unittest.TestCase):
    def test_a_slip_is_made_again_letter_for_letter(self) -> None:
        self.assertEqual(SLIP, slip_of_row(row_of(ROW)))

    def test_a_changed_row_gives_none(self) -> None:
        for old, new in (
            ("18340", "18360"),
            ("AB-12", "AB-13"),
            ("K1", "K2"),
            ("08:00:00", "08:00:01"),
            ("WB01", "WB02"),
            ("60000", "50000"),
            (ZEROS, "1" * 64),
            ("first", "void"),
        ):
            self.assertIsNone(slip_of_row(row_of(ROW.replace(old, new))), old)

    def test_a_key_is_found_in_the_column_of_keys_only(self) -> None:
        signed = f"2,20,second,WB01,2025-03-10 09:30:00,8140,,20,60000,WB01,{DIGEST[::-1]},{DIGEST}"
        rows = export(ROW, signed)
        self.assertEqual([True, True], [has_key(rows, it) for it in ("K1", "20")])
        for what, key in (
            ("an interval", "20"),
            ("a plate", "AB-12"),
            ("a serial", "WB01"),
            ("a kind", "first"),
            ("a number", "1"),
            ("a gross", "18340"),
            ("a Max", "60000"),
            ("a digest", DIGEST),
            ("a part of a digest", DIGEST[:32]),
            ("zeros, as the first entry's previous digest", ZEROS[:32]),
            ("another case", "k1"),
            ("a part of a key", "K"),
            ("a key and more", "K11"),
            ("a column's name", "key"),
            ("nothing", ""),
        ):
            self.assertFalse(has_key(export(ROW), key), what)
        self.assertFalse(has_key(export(), "K1"), "of a journal whose entries were purged")

    def test_a_key_is_looked_for_in_an_export_only(self) -> None:
        for text in (
            "",
            "store 2 disk\n",
            export(ROW + ",more"),
            HEADER,
            export(ROW)[:-1],
            export(ROW)[:-40],
        ):
            with self.assertRaises(NoExport):
                has_key(text, "K1")


class TheLists(unittest.TestCase):
    def test_an_export_and_what_passed(self) -> None:
        lists = Lists.of_export(
            BERLIN,
            export(
                row(1, "first", "AB-12", 18340),
                row(2, "single", "CD-34", 18340, 5000),
                row(3, "first", "EF-56", 9000),
            ),
        )
        self.assertEqual(["EF-56", "AB-12"], [it["plate"] for it in lists.on_site()])
        entry, is_new = lists.passed(slip(4, "SECOND", "AB-12", 8140, (1, 18340)))
        self.assertTrue(is_new and lists.is_whole)
        self.assertEqual((10200, 1), (lists.shown(4)["net"], lists.shown(4)["first"]))
        self.assertEqual(13340, lists.shown(2)["net"])
        lists.passed(slip(5, "VOID", "EF-56", None))
        self.assertEqual([], lists.on_site())

    def test_plates_weighed_before_are_told_if_they_are_near_one_on_site(self) -> None:
        rows = [
            row(1, "single", "RA-KM-1237", 18340, 5000),
            row(2, "first", "RA-KM-1236", 18340),
            row(3, "single", "HB-X-1", 18340, 5000),
        ]
        lists = Lists.of_export(BERLIN, export(*rows))
        self.assertEqual(["RAKM1237"], lists.near.shown())
        lists.passed(slip(4, "SINGLE", "RA-KM-1226", preset=5000))
        self.assertEqual(["RAKM1226", "RAKM1237"], lists.near.shown())
        lists.passed(slip(5, "VOID", "RA-KM-1236", None))
        self.assertEqual([], lists.near.shown())

    def test_before_an_export_was_read_no_plate_counts_as_weighed(self) -> None:
        lists = Lists(BERLIN)
        lists.passed(slip(4, "FIRST", "RA-KM-1236"))
        self.assertEqual([], lists.near.shown())

    def test_what_a_void_withdraws_is_named_only_while_nothing_is_missing(self) -> None:
        lists = Lists.of_export(BERLIN, export(ROW))
        lists.passed(slip(2, "VOID", "AB-12", None))
        self.assertEqual([1, None], [lists.first_of(2), lists.first_of(3)])
        lists.passed(slip(4, "FIRST", "AB-12"))
        lists.passed(slip(5, "VOID", "AB-12", None))
        self.assertEqual([None, None], [lists.first_of(2), lists.first_of(5)], "3 is missing")
        lists = Lists(BERLIN)
        lists.passed(slip(1, "FIRST", "AB-12"))
        lists.passed(slip(2, "VOID", "AB-12", None))
        self.assertIsNone(lists.first_of(2), "there was no export")

    def test_a_number_between_is_missed(self) -> None:
        lists = Lists.of_export(BERLIN, export(ROW))
        lists.passed(slip(3, "FIRST", "EF-56"))
        self.assertFalse(lists.is_whole)

    def test_a_second_of_a_first_that_is_not_known_is_missed(self) -> None:
        lists = Lists.of_export(BERLIN, export(ROW))
        lists.passed(slip(2, "SECOND", "ZZ-1", 8140, (1, 18340)))
        self.assertFalse(lists.is_whole)

    def test_the_next_second_of_another_first_than_the_open_one_is_missed(self) -> None:
        lists = Lists.of_export(
            BERLIN, export(*(row(it, "first", f"A-{it}", 1000) for it in (1, 2, 3)))
        )
        lists.passed(slip(4, "SECOND", "A-3", 8140, (2, 18340)))
        self.assertFalse(lists.is_whole)

    def test_a_text_that_comes_again_is_not_new(self) -> None:
        lists = Lists.of_export(BERLIN, export(ROW))
        self.assertEqual(
            [False, True, False],
            [
                lists.passed(it)[1]
                for it in (read_text(SLIP), slip(2, "FIRST", "EF-56"), slip(2, "FIRST", "EF-56"))
            ],
        )

    def test_today_is_the_day_of_the_zone(self) -> None:
        lists = Lists.of_export(
            BERLIN,
            export(
                row(1, "first", "A", 1000, at="2025-03-09 22:59:00"),
                row(2, "first", "B", 1000, at="2025-03-09 23:01:00"),
            ),
        )
        now = datetime.datetime(2025, 3, 10, 12, tzinfo=BERLIN)
        self.assertEqual(["B"], [it["plate"] for it in day_of(lists, now)["today"]])

    def test_search_by_number_and_by_a_part_of_a_plate(self) -> None:
        lists = Lists.of_export(
            BERLIN,
            export(
                row(1, "first", "HB-AB-12", 1000),
                row(2, "first", "OL-X-1", 1000),
                row(3, "second", "HB-AB-12", 9000),
            ),
        )
        rows: tuple[tuple[str, list[int]], ...] = (
            ("2", [2, 3, 1]),
            ("bab", [3, 1]),
            ("b-ab", [3, 1]),
            ("x", [2]),
            ("", []),
            ("-", []),
            ("zz", []),
            ("9", []),
            ("²", []),
        )
        for words, found in rows:
            hits, count = lists.search(words)
            self.assertEqual((found, len(found)), ([it["number"] for it in hits], count), words)

    def test_search_says_how_many_fit_in_all(self) -> None:
        rows = [row(it, "single", f"HB-{it}", 20000, 8000) for it in range(1, 101)]
        hits, count = Lists.of_export(BERLIN, export(*rows)).search("hb")
        self.assertEqual((60, 100, 100), (len(hits), count, hits[0]["number"]))

    def test_the_last_empty_weight_of_a_plate_is_the_smaller_of_its_last_pair(self) -> None:
        rows = (
            row(1, "first", "IN", 30000),
            row(2, "second", "IN", 12000),
            row(3, "first", "OUT", 9000),
            row(4, "second", "OUT", 30000),
            row(5, "first", "IN", 12400),
            row(6, "single", "ONCE", 20000, 8000),
        )
        lists = Lists.of_export(BERLIN, export(*rows))
        empty = [lists.empty_of(it) for it in ("IN", "OUT", "ONCE", "NEW")]
        self.assertEqual([12000, 9000, None, None], empty)
        lists = Lists.of_export(BERLIN, export(*rows, row(7, "second", "IN", 31000)))
        self.assertEqual(12400, lists.empty_of("IN"))

    def test_what_is_no_export_is_refused(self) -> None:
        for text in ("", "store 2 disk\n", export(ROW + ",more")):
            with self.assertRaises(NoExport):
                Lists.of_export(BERLIN, text)


class Kept(unittest.IsolatedAsyncioTestCase):
    def setUp(self) -> None:
        folder = tempfile.TemporaryDirectory()
        self.addCleanup(folder.cleanup)
        self.folder, self.day = Path(folder.name), datetime.date(2025, 3, 10)

    def files(self) -> Files:
        """Return the files as a counter that is started now finds them."""
        return Files(self.folder, at_once)

    def tares(self) -> Tares:
        return Tares(self.files(), lambda: self.day, 90, 60000, {"AB-12": 4980}.get)

    async def test_a_tare_has_a_last_day_and_who_kept_it(self) -> None:
        await self.tares().keep("AB-12", 5000, "anna")
        shown = {
            "kg": 5000,
            "until": "2025-06-08",
            "by": "anna",
            "used": None,
            "is_over": False,
            "empty": 4980,
        }
        self.assertEqual({"AB-12": shown}, self.tares().all_shown())
        self.day = datetime.date(2025, 6, 8)
        self.assertFalse((self.tares().shown("AB-12") or {})["is_over"], "on its last day")
        self.day = datetime.date(2025, 6, 9)
        self.assertTrue((self.tares().shown("AB-12") or {})["is_over"])
        await self.tares().drop("AB-12")
        self.assertEqual({}, self.tares().all_shown())

    async def test_the_day_of_its_last_use_is_kept(self) -> None:
        tares, told = self.tares(), []
        tares.on_change = lambda plate: told.append((plate, tares.shown(plate)))
        await tares.keep("AB-12", 5000, "anna")
        unused: tuple[dict[str, str], ...] = (
            {"plate": "AB-12", "kind": "first"},
            {"plate": "CD-34", "tare": "5000"},
            {"plate": "AB-12", "kind": "single", "tare": "4980"},
            {"plate": "AB-12", "kind": "single", "tare": ""},
            {"tare": "5000"},
            {},
        )
        for asked in unused:
            await tares.use(asked)
        self.assertEqual(["AB-12"], [plate for plate, _ in told])
        self.day = datetime.date(2025, 3, 12)
        for _ in range(2):
            await tares.use({"plate": "AB-12", "kind": "single", "tare": "5000"})
        await tares.files.bring()
        self.assertEqual("2025-03-12", (self.tares().shown("AB-12") or {})["used"])
        self.assertEqual(["AB-12", "AB-12"], [plate for plate, _ in told])
        await tares.keep("AB-12", 5100, "otto")
        self.assertIsNone(
            (self.tares().shown("AB-12") or {})["used"], "another tare was never used"
        )
        await tares.drop("AB-12")
        self.assertEqual(("AB-12", None), told[-1])
        await tares.drop("AB-12")
        self.assertEqual(4, len(told), "nothing was dropped")

    async def test_rows_that_are_no_tares_are_left_out_and_said(self) -> None:
        good: dict[str, Any] = {"kg": 5000, "until": "2025-06-08", "by": "anna"}
        bad: list[object] = [
            None,
            5000,
            [],
            {},
            {**good, "kg": "5000"},
            {**good, "kg": True},
            {**good, "by": None},
        ]
        bad += [{**good, "until": "soon"}, {**good, "until": None}, {**good, "used": "soon"}]
        rows = {f"BAD-{at}": it for at, it in enumerate(bad)} | {"AB-12": good}
        await self.files().write("tares.json", rows, 1)
        with contextlib.redirect_stderr(io.StringIO()) as said:
            self.assertEqual(["AB-12"], list(self.tares().kept))
        self.assertIn(f"tares.json: {len(bad)} of its rows are no tares", said.getvalue())

    async def test_what_is_none_is_refused(self) -> None:
        for plate, kg in (
            ("ab", 5000),
            ("", 5000),
            ("A" * 13, 5000),
            ("A", 0),
            ("A", -1),
            ("A", 60000),
            ("A", "5000"),
            ("A", 5000.0),
            ("A", True),
            ("A", None),
        ):
            with self.assertRaises(BadTare):
                await self.tares().keep(plate, kg, "")

    async def test_a_tare_that_the_scale_rounds_to_nothing_is_refused(self) -> None:
        tares = Tares(self.files(), lambda: self.day, 90, 60000, least=10)
        with self.assertRaisesRegex(BadTare, "from 10 to 59999"):
            await tares.keep("AB-12", 9, "")
        await tares.keep("AB-12", 10, "")

    async def test_so_many_are_kept_and_no_more(self) -> None:
        tares = self.tares()
        tares.kept = {f"P{it}": KeptTare(1, self.day, "") for it in range(2000)}
        await tares.keep("P7", 5000, "")
        with self.assertRaisesRegex(BadTare, "2000 already"):
            await tares.keep("NEW", 5000, "")
        await tares.drop("P7")
        await tares.keep("NEW", 5000, "")

    async def test_zero_is_known_until_the_service_is_another_one(self) -> None:
        def zero() -> Zero:
            return Zero(self.files(), lambda: datetime.datetime(2025, 3, 10, 9, tzinfo=BERLIN))

        service, other = Service(10, 500, "boot", ()), Service(10, 501, "boot", ())
        first = zero()
        self.assertTrue(first.connected(service, False))
        first.was_set("anna")
        self.assertTrue(await first.files.bring())
        again = zero()  # the counter was started again, the service wasn't
        self.assertFalse(again.connected(service, True))
        self.assertEqual((True, "anna"), (again.shown()["known"], again.shown()["by"]))
        self.assertTrue(again.connected(other, False))
        self.assertFalse(again.shown()["known"])

    def test_without_a_process_a_refused_connection_is_a_start(self) -> None:
        zero = Zero(self.files(), lambda: datetime.datetime(2025, 3, 10, 9, tzinfo=BERLIN))
        zero.was_set("")
        self.assertFalse(zero.connected(None, False))
        self.assertTrue(zero.connected(None, True))

    def test_a_program_that_another_user_could_put_there_is_not_run(self) -> None:
        program, asked = self.folder / "program", self.folder / "asked"
        program.write_text(f"#!/bin/sh\necho 1.2.3\ntouch {asked}\n")
        for folder, own, user, version in (
            (0o755, 0o755, None, "1.2.3"),
            (0o755, 0o757, None, ""),
            (0o757, 0o755, None, ""),
            (0o755, 0o755, 12345, ""),
        ):
            if user is not None and os.geteuid():
                continue  # only root can give a file to another user
            asked.unlink(missing_ok=True)
            if user is not None:
                os.chown(program, user, -1)
            program.chmod(own)
            program.parent.chmod(folder)
            found = program_of(Service(1, 0, "boot", (str(program),)))
            self.assertEqual((version, bool(version)), (found["version"], asked.exists()))
        asked.unlink(missing_ok=True)
        asked.symlink_to(asked)
        self.assertEqual("", program_of(Service(1, 0, "boot", (str(asked),)))["version"])


class TheSetup(unittest.TestCase):
    def read(self, text: str) -> Setup:
        with tempfile.NamedTemporaryFile("w", suffix=".toml") as file:
            file.write(text)
            file.flush()
            return read_setup(Path(file.name), WEB)

    def test_little_is_enough(self) -> None:
        setup = self.read('state = "/tmp/x"')
        self.assertEqual((("127.0.0.1", 8090), 20, ()), (setup.listen, setup.interval, setup.ports))

    def test_a_port_is_exact_unless_it_is_lenient(self) -> None:
        port = 'state = "x"\n[[port]]\nname = "till"\nlisten = "127.0.0.1:883"\n'
        for line, wanted in (("", False), ('kind = "exact"', False), ('kind = "lenient"', True)):
            with self.subTest(line=line):
                self.assertEqual([wanted], [it.is_lenient for it in self.read(port + line).ports])
        with self.assertRaisesRegex(SetupFault, "kind.*exact.*lenient"):
            self.read(port + 'kind = "loose"')

    def test_a_language_is_a_file(self) -> None:
        self.assertEqual(
            {"de": "Deutsch", "en": "English", "es": "Español", "fr": "Français"},
            self.read('state = "x"').languages,
        )

    def test_one_that_is_put_there_is_known_and_one_that_is_broken_is_named(self) -> None:
        with tempfile.TemporaryDirectory() as web:
            folder = Path(web) / "lang"
            folder.mkdir()
            (folder / "it.json").write_text('{"name": "Italiano"}')
            self.assertEqual({"it": "Italiano"}, languages(Path(web)))
            (folder / "pl.json").write_text("{")
            with self.assertRaisesRegex(SetupFault, "pl.json: it is no file of words"):
                languages(Path(web))

    def test_each_mistake_is_named_by_its_key(self) -> None:
        port = '[[port]]\nname = "till"\nlisten = "127.0.0.1:4101"\nmay = "change"\n'
        rows = [
            ("", "state: it is missing"),
            ('state = ""', "state: write"),
            ("state = 5", "state: write"),
            ('state = "x"\nlisten = "0.0.0.0:8090"', "listen: write an address of this machine"),
            ('state = "x"\nlisten = "127.0.0.1:0"', "listen: write"),
            ('state = "x"\noffice = "127.0.0.1"', "office: write"),
            ('state = "x"\noffice = "127.0.0.1:4001"', "office: it is the address of terminal"),
            ('state = "x"\nzone = "Mars/Base"', "zone: write a time zone"),
            ('state = "x"\nlanguage = "xx"', "language: write "),
            ('state = "x"\ninterval = 3', "interval: write 1, 2, 5, 10, 20 or 50"),
            ('state = "x"\nmax = true', "max: write a whole number"),
            ('state = "x"\ntare_days = 0', "tare_days: write a whole number from 1"),
            ('state = "x"\nhosts = "a"', "hosts: write"),
            ('state = "x"\nlissten = "127.0.0.1:1"', "lissten: there is no such key"),
            ('state = "x"\nport = 5', "port: write each port as a table"),
            ('state = "x"\n' + port.replace("till", "Till 1"), "port 1: name: write"),
            (
                'state = "x"\n' + port.replace("change", "all"),
                'port 1: may: write "read" or "change"',
            ),
            (
                'state = "x"\n' + port.replace("4101", "8090"),
                "port 1: listen: it is the address of listen",
            ),
            ('state = "x"\n' + port + port, "port 2: listen: it is the address of port 1"),
            (
                'state = "x"\n' + port + port.replace("4101", "4102"),
                "port 2: name: there is a port till",
            ),
            ('state = "x"\n' + port + "speed = 1", "port 1: speed: there is no such key"),
            ("state = ", "it is no TOML"),
        ]
        for text, wanted in rows:
            with self.assertRaises(SetupFault) as caught:
                self.read(text)
            self.assertIn(wanted, str(caught.exception))
            self.assertIn(".toml: ", str(caught.exception))

    def test_all_mistakes_are_named_at_once(self) -> None:
        with tempfile.TemporaryDirectory() as folder:
            papers = Path(folder) / "paper.toml"
            papers.write_text(
                'header = 1\n[[printer]]\nname = "A"\nto = "yard"\ncolumns = 5\ncut = 1\nx = 1\n'
            )
            with self.assertRaises(SetupFault) as caught:
                self.read(
                    'interval = 3\nmax = "9"\nzone = "Mars"\nlissten = 1\ndemo = true\nserial = ""\nlisten = "127.0.0.1:0"\n'
                    f'office = "127.0.0.1:4001"\npapers = "{papers}"\n'
                    '[[port]]\nname = "T"\nmay = "all"\nspeed = 1\n[[port]]\nlisten = "127.0.0.1:4001"\nname = 5\n'
                )
        keys = [": ".join(it.split(": ")[1:-1])[:40] for it in caught.exception.mistakes]
        wanted = (
            ["state", "listen", "zone", "max"]
            + ["port 1: name", "port 1: listen", "port 1: may", "port 1: speed", "port 2: name"]
            + ["header", "spool", "printer 1: name", "printer 1: to", "printer 1: columns"]
            + ["printer 1: cut", "printer 1: x", "serial", "interval", "demo", "lissten", "office"]
            + ["port 2: listen"]
        )
        for key in wanted:
            self.assertEqual(
                1,
                sum(f".toml: {key}: " in it for it in caught.exception.mistakes),
                f"{key}: {keys}",
            )
        self.assertEqual(len(wanted), len(caught.exception.mistakes), keys)

    def test_digits_of_other_scripts_are_none(self) -> None:
        for text in ('listen = "127.0.0.1:٨٠٩٠"', 'office = "١٢٧.0.0.1:8080"'):
            with self.assertRaises(SetupFault):
                self.read(f'state = "x"\n{text}')

    def checked(self, text: str) -> tuple[int, str, str]:
        with tempfile.NamedTemporaryFile("w", suffix=".toml") as file:
            file.write(text)
            file.flush()
            out, err = io.StringIO(), io.StringIO()
            with contextlib.redirect_stdout(out), contextlib.redirect_stderr(err):
                status = main(["--check", file.name])
            said, complained = (it.getvalue().replace(file.name, "FILE") for it in (out, err))
            return status, said, complained

    def test_a_check_says_where_the_page_will_be_and_makes_nothing(self) -> None:
        with tempfile.TemporaryDirectory() as folder:
            for state in (f"{folder}/new/state", folder):
                self.assertEqual(
                    (0, "FILE: in order; the page will be at http://127.0.0.1:8123/\n", ""),
                    self.checked(f'state = "{state}"\nlisten = "127.0.0.1:8123"'),
                )
            self.assertEqual([], list(Path(folder).iterdir()))

    def test_a_check_tries_the_folders(self) -> None:
        with tempfile.TemporaryDirectory() as folder:
            (Path(folder) / "file").touch()
            papers = Path(folder) / "paper.toml"
            papers.write_text('spool = "/proc/papers"')
            status, said, faults = self.checked(
                f'state = "{folder}/file/state"\npapers = "{papers}"'
            )
        self.assertEqual((1, ""), (status, said))
        self.assertEqual(
            [
                f"weighbridge-counter: FILE: state: {folder}/file/state: it is missing, and {folder}/file can't take it: Not a directory",
                "weighbridge-counter: FILE: the spool of papers: /proc/papers: it is missing, and /proc can't take it",
            ],
            [
                ":".join(it.split(" (tried")[0].split(":")[:n])
                for it, n in zip(faults.split("\n"), (6, 5))
            ],
        )

    def test_a_check_finds_a_full_disk(self) -> None:
        full = unittest.mock.MagicMock()
        full.__enter__().write.side_effect = OSError(errno.ENOSPC, "No space left on device")
        with tempfile.TemporaryDirectory() as folder:
            with unittest.mock.patch(
                "weighbridge_paper.reader.tempfile.TemporaryFile", return_value=full
            ):
                status, said, faults = self.checked(f'state = "{folder}"')
        self.assertEqual((1, ""), (status, said))
        self.assertIn(f"state: {folder}: No space left on device", faults)

    def test_a_file_that_is_not_there(self) -> None:
        with self.assertRaises(SetupFault):
            read_setup(Path("/nowhere/counter.toml"), WEB)


if __name__ == "__main__":
    unittest.main()
