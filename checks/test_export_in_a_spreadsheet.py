"""Shows that a spreadsheet program finds the rows and fields of both exports.

The exports are those of a bridge that weighed over real sockets, and of a journal of 5,000 entries. The ssconvert of
gnumeric converts them to a workbook, without a hint about their columns. The check compares each cell of the workbook
with the export. Texts are the same, numbers are numbers of the same value, and moments are dates of the same second. An
absent value is an empty cell.

A spreadsheet program decides for itself what a number or a date is. A plate such as 007, 1E5 or MAR-10 is valid, so the
check prints what became of these. The previous digest of the first entry, 64 zeros, becomes the number 0. Anybody who
imports an export has to say that key, plate, serial, digest and previous are texts.
"""

import csv
import datetime
import io
import os
import subprocess
import zipfile
from pathlib import Path
from xml.etree import ElementTree
from xml.etree.ElementTree import Element

from checks.lib import bridge
from checks.lib.case import PROGRAM, Check
from checks.lib.journal import make_journal
from checks.lib.program import PROGRAM as BUILT
from checks.lib.program import printed
from checks.lib.showing import same

# The cells of a row that aren't empty, by column.
Cells = dict[int, str | float]
ENTRIES = 5_000
SHEET = "{http://schemas.openxmlformats.org/spreadsheetml/2006/main}"
TEXTS = ("key", "kind", "plate", "serial", "digest", "previous")
ZEROS = "0" * 64
MOMENTS = ("moment", "at")
NUMBER_LIKE = ("007", "1E5", "MAR-10")


def workbook(folder: str, text: str) -> list[Cells]:
    """Return the cells of the workbook that ssconvert makes of an export: a list of rows, each of its cells by column."""
    export, book = f"{folder}/export.csv", f"{folder}/export.xlsx"
    Path(export).write_text(text, encoding="ascii")
    subprocess.run(["ssconvert", export, book], check=True, capture_output=True)
    with zipfile.ZipFile(book) as it:
        shared = "xl/sharedStrings.xml"
        parts = [*ElementTree.fromstring(it.read(shared))] if shared in it.namelist() else []
        texts = [part.findtext(f"{SHEET}t") for part in parts]
        sheet = ElementTree.fromstring(it.read("xl/worksheets/sheet1.xml"))
    return [row_of(row, texts) for row in sheet.iter(f"{SHEET}row")]


def row_of(row: Element, texts: list[str | None]) -> Cells:
    cells: Cells = {}
    for cell in row.iter(f"{SHEET}c"):
        value = value_of(cell, texts)
        if value is not None:
            column = str(cell.get("r"))[0]
            cells[ord(column) - ord("A")] = value
    return cells


def value_of(cell: Element, texts: list[str | None]) -> str | float | None:
    """Return a text, a number, or None. A text that comes often is stored apart from the sheet."""
    inline, value = cell.find(f"{SHEET}is/{SHEET}t"), cell.find(f"{SHEET}v")
    if inline is not None:
        return inline.text
    if value is None:
        return None
    number = value.text or ""
    return texts[int(number)] if cell.get("t") == "s" else float(number)


def field_of(name: str, cell: str | float | None) -> str | float:
    """Return the field of an export that a cell shows."""
    if cell is None:
        return ""
    if name in MOMENTS and isinstance(cell, float):
        moment = datetime.datetime(1899, 12, 30) + datetime.timedelta(days=cell)
        return f"{moment + datetime.timedelta(milliseconds=500):%Y-%m-%d %H:%M:%S}"
    if name == "previous" and cell == 0:
        return ZEROS
    if name not in TEXTS and isinstance(cell, float) and cell.is_integer():
        return str(int(cell))
    return cell


def show(what: str, folder: str, text: str) -> None:
    """Show that the workbook of an export has its rows and fields."""
    wanted = list(csv.reader(io.StringIO(text)))
    rows = workbook(folder, text)
    same(f"{what}: rows", len(wanted), len(rows))
    names = wanted[0]
    same(f"{what}: columns", names, [rows[0].get(column) for column in range(len(names))])
    found = [
        [field_of(name, row.get(column)) for column, name in enumerate(names)] for row in rows[1:]
    ]
    for one, other in zip(wanted[1:], found):
        if one != other:
            same(f"{what}: row {one[0]}", one, other)
    same(f"{what}: fields of {len(found)} rows", wanted[1:], found)


class ExportInASpreadsheet(Check):
    """Both exports in ssconvert."""

    needs = (PROGRAM, "ssconvert")
    seconds = 20

    def weigh(self, number: int, target: str, **form: str) -> None:
        """Put the next load onto the cleared bridge, and weigh it."""
        self.service.next_vehicle(9170 - 100 * number)
        body = "&".join(f"{name}={value}" for name, value in {"key": f"K{number}", **form}.items())
        answer = bridge.post(self.service, target, body)
        self.assertEqual(201, answer and answer[0], f"{target} with the plate {form['plate']}")

    def text(self, target: str) -> str:
        answer = bridge.get(self.service, target)
        return answer[1] if answer else ""

    def test_journal_of_a_bridge(self) -> None:
        folder = self.folder()
        service = bridge.Service(BUILT, f"{folder}/journal.db", bridge.Played(100.0))
        self.service = self.enterContext(service)
        self.weigh(1, "/weighings", kind="first", plate="AB-12")
        self.weigh(2, "/weighings", kind="first", plate="CD-34")
        self.weigh(3, "/weighings", kind="second", plate="AB-12")
        self.weigh(4, "/voids", plate="CD-34")
        with bridge.Terminal(self.service) as terminal:
            self.same("a preset tare", "TA A       5000 kg", terminal.ask("TA 5000 kg"))
        self.weigh(5, "/weighings", kind="single", plate="EF-56")
        show("the journal of a bridge", folder, self.text("/journal.csv"))
        show("its tickets", folder, self.text("/tickets.csv"))
        for number, plate in enumerate(NUMBER_LIKE, 6):
            self.weigh(number, "/weighings", kind="single", plate=plate)
        rows = workbook(folder, self.text("/journal.csv"))
        for plate, row in zip(NUMBER_LIKE, rows[-len(NUMBER_LIKE) :]):
            print(f"the plate {plate} is taken for {row[3]}")

    def test_many_entries(self) -> None:
        folder = self.folder()
        file = os.path.join(folder, "many.db")
        make_journal(file, ENTRIES)
        for what in ("journal", "tickets"):
            status, text, fault = printed("export", "--file", file, "--what", what)
            ended = (status, text.count("\n"), fault)
            self.same(f"the {what} of many entries", (0, ENTRIES + 1, ""), ended)
            show(f"the {what} of many entries", folder, text)
