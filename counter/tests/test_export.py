"""The rows of an export: each is typed once, what isn't the office's is refused, and the lists of them are those of the texts."""

import datetime
import random
import re
import unittest
import zoneinfo
from pathlib import Path

from weighbridge_counter import lists
from weighbridge_counter.lists import Lists
from weighbridge_counter.slips import slip_of_row
from weighbridge_paper import export as export_module
from weighbridge_paper.export import COLUMNS, HEADER, NoExport, Row, has_key, records_of, rows_of
from weighbridge_paper.text import read_text

from .papers import LONGEST, USUAL, ZEROS, entry

UTC = zoneinfo.ZoneInfo("UTC")
PROGRAMS = Path(lists.__file__).parent.parent
DIGEST = "a982a0aaef75f8622de6a96ef3a1d8ddd9de4bd18d9cda420eeb00dfbfcfa68c"
FIELDS = {
    "number": "1",
    "key": "K1",
    "kind": "first",
    "plate": "AB-12",
    "moment": "2025-03-10 08:00:00",
    "gross_kg": "18340",
    "preset_kg": "",
    "interval_kg": "20",
    "max_kg": "60000",
    "serial": "WB01",
    "digest": DIGEST,
    "previous": ZEROS,
}


def export(*rows: str) -> str:
    return "\n".join((HEADER, *rows, ""))


def line(**others: str) -> str:
    return ",".join((FIELDS | others).values())


class PlayedJournal:
    """A journal of random weighings: the rows of its export, and the text that the office gave for each."""

    def __init__(self, chance: random.Random, entries: int) -> None:
        self.chance = chance
        self.rows: list[str] = []
        self.texts: list[str] = []
        self.open: dict[str, tuple[int, str]] = {}
        self.at, self.digest = datetime.datetime(2025, 3, 10, tzinfo=datetime.timezone.utc), ZEROS
        for number in range(1, entries + 1):
            self.weigh(number)

    def weigh(self, number: int) -> None:
        choose = self.chance.choice
        self.at += datetime.timedelta(seconds=choose((0, 1, 3600)))
        interval, plate = choose((1, 2, 5, 10, 20, 50)), choose(("A", "AB-12", "W" * 12, "007"))
        gross = interval * self.chance.randint(2, choose((50, 9_999_999 // interval)))
        preset, key = None, f"{choose(('K', '-', 'z' * 20))}{number}"
        kind = choose(("second", "void") if plate in self.open else ("first", "single"))
        if kind == "single":
            preset = interval * self.chance.randrange(1, gross // interval)
        at, most, serial = f"{self.at:%Y-%m-%d %H:%M:%S}", choose((1, 60000, 500000)), "S" * 16
        before, moment = self.digest, int(self.at.timestamp())
        weight = None if kind == "void" else gross
        self.digest, block = entry(
            number, kind, plate, moment, at, weight, preset, interval, most, serial, before, key
        )
        values = (number, key, kind, plate, at, weight or "", preset or "", interval, most, serial)
        self.rows.append(",".join(map(str, (*values, self.digest, before))))
        first, net = self.open.pop(plate, None), gross - preset if preset else None
        if kind == "second" and first is not None:
            block, net = first[1] + block, abs(first[0] - gross)
        if kind == "first":
            self.open[plate] = (gross, block)
        word = "TICKET" if kind in ("second", "single") else "SLIP"
        shown = "" if net is None else f"N {net:>10} kg\n"
        self.texts.append(f"WEIGHING {word} {number}\nPLATE {plate}\n{block}{shown}")


class TheRows(unittest.TestCase):
    def test_a_row_has_the_types_of_its_columns(self) -> None:
        at = datetime.datetime(2025, 3, 10, 8, tzinfo=datetime.timezone.utc)
        (row,) = rows_of(export(line()))
        self.assertEqual(
            Row(1, "K1", "first", "AB-12", at, 18340, None, 20, 60000, "WB01", DIGEST, ZEROS), row
        )
        self.assertEqual(
            [int, str, str, str, datetime.datetime, int, type(None), int, int, str, str, str],
            [type(getattr(row, it)) for it in COLUMNS],
        )
        self.assertEqual([], list(rows_of(export())))

    def test_a_field_that_the_office_does_not_write_is_refused(self) -> None:
        numbers = ("", "x", "-1", "+1", " 1", "1 ", "01", "1.0", "1_0", "١", "²", "9" * 5000)
        wrong = {
            "number": (*numbers, "0"),
            "key": ("", "K 1", "K_1", "K" * 33, "Ä", "K1\u2028"),
            "kind": ("", "First", "third", "first "),
            "plate": ("", "ab-12", "AB 12", "A" * 13, "Ä"),
            "moment": (
                "",
                "2025-03-10",
                "2025-03-10T08:00:00",
                "2025-W11-1 08:00:00",
                "2025-02-30 08:00:00",
                "2025-03-10 24:00:00",
                "2025-03-10 08:00:60",
                "2025-03-10 08:00:00Z",
                "٢025-03-10 08:00:00",
            ),
            "gross_kg": numbers[1:],
            "preset_kg": numbers[1:],
            "interval_kg": numbers,
            "max_kg": numbers,
            "serial": ("", "wb01", "W" * 17, "WB 01"),
            "digest": ("0" * 65,),
            "previous": ("0" * 65,),
        }
        self.assertEqual(set(COLUMNS), set(wrong))
        for column, fields in wrong.items():
            for field in fields:
                with self.assertRaises(NoExport, msg=f"{column}: {field[:30]}"):
                    list(rows_of(export(line(**{column: field}))))

    def test_a_damaged_digest_may_have_any_letters(self) -> None:
        for damaged in ("\r\n", "\n", '"",', "Ä\r\nx"):
            rows = list(rows_of(export(line(digest=f'"{damaged}"'), line(number="2"))))
            self.assertEqual([damaged.replace('""', '"'), DIGEST], [it.digest for it in rows])

    def test_what_is_no_export_is_refused(self) -> None:
        good = export(line())
        for text in (
            "",
            "\n",
            "store 2 disk\n",
            HEADER,
            HEADER + ",more\n",
            good[:-1],
            good[:-40],
            good + "\n",
            good.replace("\n", "\r\n"),
            good[:-1] + "\r\n",
            good.replace(",K1,", ",K1,,"),
            good.replace(",K1,", ","),
            good.replace("K1", '"K1'),
            good.replace("K1", 'K"1"'),
            good.replace("K1", '"K1"x'),
            good.replace("K1", '"K1,first"'),
            good.replace("number,key", "key,number"),
            "\ufeff" + good,
        ):
            with self.assertRaises(NoExport, msg=text):
                list(rows_of(text))

    def test_numbers_that_do_not_rise_are_refused(self) -> None:
        for one, other in ((1, 1), (2, 1)):
            with self.assertRaises(NoExport):
                list(rows_of(export(line(number=str(one)), line(number=str(other)))))

    def test_a_digest_of_a_damaged_journal_may_be_any_text(self) -> None:
        for digest in ("", "x", "a,b", 'a"b', "a\nb", "ä" * 64):
            quoted = '"' + digest.replace('"', '""') + '"'
            (row, other) = rows_of(export(line(digest=quoted), line(number="2", previous=quoted)))
            self.assertEqual((digest, digest), (row.digest, other.previous))
            self.assertIsNone(slip_of_row(row))

    def test_a_key_is_found_in_rows_that_are_quoted_too(self) -> None:
        text = export(line(digest='"a,K2"'), line(number="2", key='"K2"'))
        self.assertEqual([True, False], [has_key(text, it) for it in ("K2", "K2,")])
        self.assertEqual([12, 12], [len(it) for it in records_of(text)])

    def test_lines_are_cut_the_same_wherever_the_text_is_cut(self) -> None:
        rows = [line(number=str(it), plate="A" * (1 + it % 12)) for it in range(1, 60)]
        wanted = [it.plate for it in rows_of(export(*rows))]
        self.assertEqual(["A" * (1 + it % 12) for it in range(1, 60)], wanted)
        for export_module.AT_ONCE in (1, 2, 100, 191, 192, 193, 1000):
            self.assertEqual(wanted, [it.plate for it in rows_of(export(*rows))])

    def setUp(self) -> None:
        self.addCleanup(setattr, export_module, "AT_ONCE", export_module.AT_ONCE)

    def test_no_other_file_names_the_columns(self) -> None:
        columns = re.compile(r"\b(gross_kg|preset_kg|interval_kg|max_kg)\b")
        found = {
            it.name for it in PROGRAMS.glob("weighbridge_*/*.py") if columns.search(it.read_text())
        }
        # slips.py names fields of Row, and cursor.py and shown.py those of the answers with entries and tickets
        self.assertEqual({"cursor.py", "export.py", "shown.py", "slips.py"}, found)
        self.assertNotRegex((PROGRAMS / "weighbridge_counter/slips.py").read_text(), '"gross_kg')


class TheSameLists(unittest.TestCase):
    def test_the_lists_of_an_export_are_those_of_the_texts_that_passed(self) -> None:
        kinds = set()
        for seed in range(40):
            journal = PlayedJournal(random.Random(seed), 60)
            of_export, of_texts = Lists.of_export(UTC, export(*journal.rows)), Lists(UTC)
            for text in journal.texts:
                of_texts.passed(read_text(text))
            self.assertEqual(
                [of_export.shown(it) for it in of_export.entries],
                [of_texts.shown(it) for it in of_texts.entries],
            )
            self.assertEqual(
                (of_export.on_site(), of_export.last, of_export.per_day, of_export.partner),
                (of_texts.on_site(), of_texts.last, of_texts.per_day, of_texts.partner),
            )
            for number, text in enumerate(journal.texts, 1):
                self.assertFalse(of_export.contradicts(read_text(text)))
                self.assertEqual(of_export.digest_of(number), of_texts.digest_of(number))
                self.assertEqual((text, "passed"), of_texts.slip_again(number))
                kind = of_export.entries[number].kind
                kinds.add(kind)
                again = text if kind in ("first", "void") else None
                self.assertEqual((again, "export"), of_export.slip_again(number))
            known, other = of_texts.known(0), of_export.known(0)
            self.assertEqual((other.last, other.serial), (known.last, known.serial))
        self.assertEqual({"first", "second", "single", "void"}, kinds)

    def test_what_a_text_says_is_what_the_lists_show(self) -> None:
        for it in (*USUAL.values(), *LONGEST.values()):
            made = Lists(UTC)
            entry_, _ = made.passed(read_text(it.text))
            self.assertEqual(
                (it.number, it.kind, it.plate), (entry_.number, entry_.kind, entry_.plate)
            )
            self.assertEqual(it.digest, made.digest_of(it.number))
            self.assertEqual(it.number - 1 if it.kind == "second" else None, entry_.first)


if __name__ == "__main__":
    unittest.main()
