"""The setup of printers: a TOML file with a table for each. packaging/counter/weighbridge-paper.toml says each key with its meaning."""

import re
from dataclasses import dataclass
from pathlib import Path

from .catalogue import ENGLISH
from .escpos import PAGES
from .layout import Template
from .forms import FORMS
from .reader import Reader, table_of, tables_in, zone_of
from .words import LANGUAGES, fault_of

COLUMNS = {"escpos80": 48, "escpos58": 32}
NARROWEST, WIDEST = 30, 96
MOST_LINES, LONGEST_LINE = 8, 100  # of a header or footer
LINES = {
    "tcp": r"tcp:([^\s:]+):([0-9]{1,5})",
    "usb": r"usb:(/\S+)",
    "serial": r"serial:(/[^\s:]+):([0-9]{3,7})",
}
QUEUES = {"cups": r"cups:([^\s/#@]+)(?:@([^\s:]+:[0-9]{1,5}))?", "file": r"file:(/\S*)"}
HOW_TO = 'write "tcp:192.0.2.50:9100", "usb:/dev/usb/lp0", "serial:/dev/ttyS0:19200", "cups:QUEUE", "cups:QUEUE@127.0.0.1:631" or "file:/FOLDER"'


@dataclass(frozen=True)
class Printer:
    name: str
    way: str  # tcp, usb, serial, cups, file
    place: str  # a machine, a device, a queue or a folder
    detail: str  # a port, a speed, CUPS's address
    form: str  # of COLUMNS or of FORMS
    template: Template
    columns: int = 0
    pages: tuple[tuple[str, int], ...] = ()
    has_status: bool = False
    is_cut: bool = True

    @property
    def is_escpos(self) -> bool:
        return self.form in COLUMNS


@dataclass(frozen=True)
class Papers:
    spool: Path  # the folder of what waits and what was printed
    template: Template  # of the browser
    printers: tuple[Printer, ...] = ()
    by_itself: str | None = None  # the printer that prints each weighing of the counter

    def printer(self, name: str) -> Printer | None:
        return next((it for it in self.printers if it.name == name), None)


def read_papers(path: Path) -> Papers:
    """Return the printers of a file. Raise SetupFault with all mistakes of it."""
    reader = Reader(table_of(path), str(path), [])
    tables = tables_in(reader, "printer")
    spool = Path(
        reader.text(
            "spool",
            None,
            "write the folder in which papers wait, as /var/lib/weighbridge-counter/papers",
        )
    )
    template = template_of(reader, Template((), (), ENGLISH, zone_of(reader)))
    if (fault := fault_of(ENGLISH)) is not None:  # it fills in for each language
        reader.mistake("language", fault)
    printers = tuple(printer_of(it, template) for it in tables)
    names = [it.name for it in printers]
    for at, name in enumerate(names, 1):
        if name and name in names[: at - 1]:
            reader.mistake(
                f"printer {at}: name", f"there is a printer {name} already: take another name"
            )
    given = tuple(filter(None, names))
    by_itself = reader.choice("by_itself", (*given, "none")[0], (*given, "none"))
    reader.end()
    reader.refuse()
    return Papers(spool, template, printers, None if by_itself == "none" else by_itself)


def template_of(reader: Reader, of_all: Template) -> Template:
    what = (
        f"write at most {MOST_LINES} lines of at most {LONGEST_LINE} characters, as a list of texts"
    )
    found = {}
    for key, default in (("header", of_all.header), ("footer", of_all.footer)):
        found[key] = reader.texts(key, what) if key in reader.table else default
        if len(found[key]) > MOST_LINES or any(
            len(it) > LONGEST_LINE or not it.isprintable() for it in found[key]
        ):
            reader.mistake(key, what)
    is_chosen = "language" in reader.table
    language = reader.choice("language", of_all.language, LANGUAGES)
    if is_chosen and language not in ("", ENGLISH) and (fault := fault_of(language)) is not None:
        reader.mistake("language", fault)
    return Template(found["header"], found["footer"], language, of_all.zone)


def printer_of(reader: Reader, of_all: Template) -> Printer:
    what = "write a name of small letters, digits and _, as yard_1"
    name = reader.matching("name", None, "[a-z0-9_]{1,20}", what)
    way, place, detail = way_of(reader)
    form = reader.choice("form", "a4" if way in QUEUES else "escpos80", (*COLUMNS, *FORMS))
    if form in COLUMNS and way == "cups":
        reader.mistake("form", f"a queue of CUPS gets PDF: write {', '.join(FORMS)}")
    if form in FORMS and way in LINES:
        reader.mistake("form", f"such a printer gets ESC/POS: write {' or '.join(COLUMNS)}")
    template = template_of(reader, of_all)
    if form in FORMS and way not in LINES:
        reader.end()
        return Printer(name, way, place, detail, form, template)
    columns = reader.number("columns", COLUMNS.get(form, NARROWEST), NARROWEST, WIDEST)
    pages = tuple(
        page_of(reader, it)
        for it in reader.texts("code_pages", 'write a list, as ["cp858"]') or ("cp858",)
    )
    has_status, is_cut = reader.flag("status", way != "file"), reader.flag("cut", True)
    if has_status and way == "file":
        reader.mistake("status", "a file answers nothing: write false, or remove it")
    reader.end()
    return Printer(name, way, place, detail, form, template, columns, pages, has_status, is_cut)


def way_of(reader: Reader) -> tuple[str, str, str]:
    """Return way, place and detail. Return three empty texts after a mistake."""
    before = len(reader.mistakes)
    to = reader.text("to", None, HOW_TO)
    for way, form in {**LINES, **QUEUES}.items():
        found = re.fullmatch(form, to)
        if found is not None:
            detail = (found.groups()[1] or "") if len(found.groups()) > 1 else ""
            if way == "tcp" and not 0 < int(detail) < 65536:
                break
            return way, found[1], detail
    if len(reader.mistakes) == before:
        reader.mistake("to", HOW_TO)
    return "", "", ""


def page_of(reader: Reader, text: str) -> tuple[str, int]:
    """Return a code page, and its number at the printer, of `cp858`, or of `cp858=19` if the printer has another list."""
    name, _, number = text.partition("=")
    what = f'write code pages of the printer\'s list, as "cp858", or with its number there, "cp858=19"; there are {", ".join(PAGES)}'
    if name not in PAGES or not re.fullmatch("([0-9]{1,3})?", number) or int(number or 0) > 255:
        reader.mistake("code_pages", what)
        return name, 0
    return name, int(number) if number else PAGES[name]
