"""The setup: a TOML file. Each mistake in it is named by file, key and what to do, all of them at once."""

import zoneinfo
from collections.abc import Iterable
from dataclasses import dataclass, field
from pathlib import Path

from weighbridge_paper.catalogue import ENGLISH, NoCatalogue, misfits, missing, read, some_of
from weighbridge_paper.printers import Papers, read_papers
from weighbridge_paper.reader import (
    NO_ADDRESS,
    Address,
    Reader,
    SetupFault,
    table_of,
    tables_in,
    zone_of,
)
from weighbridge_paper.text import DEMO

from .scoreboard import FORMS

INTERVALS = (1, 2, 5, 10, 20, 50)
BAUDS = (1200, 2400, 4800, 9600, 19200, 38400, 57600, 115200)
DEVICE = "write the serial line of the scoreboard, as /dev/ttyUSB0, or write listen in place of it"


@dataclass(frozen=True)
class Port:
    name: str
    listen: Address
    may_change: bool
    is_lenient: bool = False  # it takes lines that the terminal wouldn't


@dataclass(frozen=True)
class Board:
    """A driver's display. It listens at an address, or is at the other end of a serial line."""

    name: str
    form: str
    listen: Address | None
    device: str | None
    baud: int


@dataclass(frozen=True)
class Setup:
    state: Path
    listen: Address = ("127.0.0.1", 8090)
    terminal: Address = ("127.0.0.1", 4001)
    office: Address = ("127.0.0.1", 8080)
    zone: zoneinfo.ZoneInfo = zoneinfo.ZoneInfo("UTC")
    company: str = "Weighbridge"
    address: tuple[str, ...] = ()
    language: str = "en"
    interval: int = 20
    max: int = 60000
    wait: int = 20
    tare_days: int = 90
    once: bool = False  # whether a vehicle may be weighed once
    hosts: tuple[str, ...] = ()
    languages: dict[str, str] = field(default_factory=dict)  # the name of each, in itself
    ports: tuple[Port, ...] = field(default=())
    boards: tuple[Board, ...] = field(default=())
    papers: Papers | None = None  # the printers; without them the browser prints
    serial: str | None = None  # the serial of the service, if the setup names it
    is_demo: bool = False  # the pages say DEMO
    demo_page: str | None = None  # the address of the page of the played bridge


def languages(web: Path) -> dict[str, str]:
    """Return the languages of the page and the papers, a file each. Raise SetupFault with each file that can't be used."""
    found, faults = dict[str, str](), list[str]()
    for path in sorted((web / "lang").glob("??.json")):
        try:
            found[path.stem] = str(read(path)["name"])
        except NoCatalogue as fault:
            faults.append(str(fault))
    if faults:
        raise SetupFault(*faults)
    return found


def gaps_of(web: Path, known: Iterable[str]) -> tuple[list[str], list[str]]:
    """Return a line for each language that lacks keys, and one for each that has other placeholders than English.

    The page and the papers show the English of these keys. Raise SetupFault if there is no English.
    """
    folder = web / "lang"
    lacking, misfitting = list[str](), list[str]()
    try:
        english = read(folder / f"{ENGLISH}.json")
        for path in (folder / f"{it}.json" for it in sorted(known)):
            own = read(path)
            if keys := missing(own, english):
                are = "1 key is" if len(keys) == 1 else f"{len(keys)} keys are"
                lacking.append(
                    f"{path}: {are} missing ({some_of(keys)}), so English is shown there; translate what en.json has"
                )
            if keys := misfits(own, english):
                have = "1 key has" if len(keys) == 1 else f"{len(keys)} keys have"
                misfitting.append(
                    f"{path}: {have} other names in braces than en.json ({some_of(keys)}), so English is shown there; write the names of en.json"
                )
    except NoCatalogue as fault:
        raise SetupFault(str(fault)) from None
    return lacking, misfitting


def read_setup(path: Path, web: Path) -> Setup:
    """Return the setup of a file. Raise SetupFault with all mistakes of it, and of the file of the printers."""
    reader, known = Reader(table_of(path), str(path), []), languages(web)
    ports, boards = tables_in(reader, "port"), tables_in(reader, "scoreboard")
    setup = Setup(
        state=Path(
            reader.text("state", None, "write the folder in which the counter keeps its files")
        ),
        listen=reader.address("listen", "127.0.0.1:8090"),
        terminal=reader.address("terminal", "127.0.0.1:4001"),
        office=reader.address("office", "127.0.0.1:8080"),
        zone=zone_of(reader),
        company=reader.text("company", "Weighbridge", "write the name that stands on the page"),
        address=reader.texts("address", "write the lines below the name, as a list of texts"),
        language=reader.choice("language", "en", known),
        languages=known,
        interval=reader.number("interval", 20, 1, 50),
        max=reader.number("max", 60000, 500, 500000),
        wait=reader.number("wait", 20, 1, 600),
        tare_days=reader.number("tare_days", 90, 1, 3660),
        once=reader.flag("once", False),
        hosts=reader.texts(
            "hosts", 'write the names that browsers ask for, as ["weighbridge.example"]'
        ),
        ports=tuple(port_of(it) for it in ports),
        boards=tuple(board_of(it) for it in boards),
        papers=papers_of(reader),
        serial=serial_of(reader),
        is_demo=reader.flag("demo", False),
        demo_page=demo_page_of(reader),
    )
    if setup.interval not in INTERVALS:
        reader.mistake(
            "interval", "write 1, 2, 5, 10, 20 or 50, as after --interval of the service"
        )
    note_false_demo(setup, reader)
    reader.end()
    note_twice(setup, reader)
    reader.refuse()
    return setup


def serial_of(reader: Reader) -> str | None:
    """Return the service's serial, or None if the setup doesn't name it."""
    if "serial" not in reader.table:
        return None
    what = "write the serial as after --serial of the service: 1 to 16 characters of A-Z and 0-9"
    return reader.matching("serial", None, "[A-Z0-9]{1,16}", what)


def demo_page_of(reader: Reader) -> str | None:
    """Return the address of the played bridge's page, or None if the setup doesn't name it."""
    if "demo_page" not in reader.table:
        return None
    what = 'write an address of this machine, as "http://127.0.0.1:8091/"'
    return reader.matching("demo_page", None, r"http://127(\.[0-9]{1,3}){3}:[0-9]{1,5}/", what)


def note_false_demo(setup: Setup, reader: Reader) -> None:
    """Note a demo whose legal texts wouldn't say DEMO, so that no true weighing is taken for a played one."""
    if setup.is_demo and setup.serial != DEMO:
        reader.mistake(
            "demo",
            f'the serial is in each legal text, so that of a demo must be {DEMO}: write serial = "{DEMO}" here and '
            f"--serial {DEMO} after the service, or remove demo",
        )
    if setup.demo_page is not None and not setup.is_demo:
        reader.mistake(
            "demo_page", "only a demo has such a page: write demo = true too, or remove it"
        )


def warning_of(setup: Setup, path: Path) -> str | None:
    """Return a line about a setup that is accepted but is probably a mistake. Return None if there is nothing to warn of."""
    if setup.serial == DEMO and not setup.is_demo:
        return f"{path}: serial: {DEMO} is the serial of a demo, but the setup has no demo = true; add it, or write the serial of the instrument"
    return None


def papers_of(reader: Reader) -> Papers | None:
    """Return the printers, if a file of them is named."""
    if "papers" not in reader.table:
        return None
    path = reader.text(
        "papers",
        None,
        "write the file of the printers, as /etc/weighbridge-paper.toml, or remove the key",
    )
    try:
        return read_papers(Path(path)) if path else None
    except SetupFault as fault:
        reader.mistakes.extend(fault.mistakes)
        return None


def name_of(reader: Reader) -> str:
    what = "write a name of small letters, digits and _, as till_1"
    return reader.matching("name", None, "[a-z0-9_]{1,20}", what)


def port_of(reader: Reader) -> Port:
    port = Port(
        name_of(reader),
        reader.address("listen", None),
        reader.choice("may", "read", ("read", "change")) == "change",
        reader.choice("kind", "exact", ("exact", "lenient")) == "lenient",
    )
    reader.end()
    return port


def board_of(reader: Reader) -> Board:
    is_serial = "device" in reader.table
    baud = reader.number("baud", 9600, BAUDS[0], BAUDS[-1]) if is_serial else 0
    if is_serial and baud not in BAUDS:
        reader.mistake("baud", f"write {', '.join(map(str, BAUDS[:-1]))} or {BAUDS[-1]}")
    board = Board(
        name_of(reader),
        reader.choice("form", None, sorted(FORMS)),
        None if is_serial else reader.address("listen", None),
        reader.matching("device", None, "/dev/[A-Za-z0-9/_-]+", DEVICE) if is_serial else None,
        baud,
    )
    reader.end()
    return board


def note_twice(setup: Setup, reader: Reader) -> None:
    """Note each address and each name that another key has already."""
    known: dict[Address, str] = {}
    for key, address, what_to_do in (
        ("listen", setup.listen, "take another port"),
        ("terminal", setup.terminal, "take the one after --terminal of the service"),
        ("office", setup.office, "take the one after --office of the service"),
        *(
            (f"port {at}: listen", it.listen, "take another port")
            for at, it in enumerate(setup.ports, 1)
        ),
        *(
            (f"scoreboard {at}: listen", it.listen, "take another port")
            for at, it in enumerate(setup.boards, 1)
            if it.listen is not None
        ),
    ):
        if address != NO_ADDRESS and address in known:
            reader.mistake(key, f"it is the address of {known[address]}: {what_to_do}")
        known.setdefault(address, key.removesuffix(": listen"))
    for kind, names in (
        ("port", [it.name for it in setup.ports]),
        ("scoreboard", [it.name for it in setup.boards]),
    ):
        for at, name in enumerate(names):
            if name and name in names[:at]:
                what = f"there is a {kind} {name} already: take another name"
                reader.mistake(f"{kind} {at + 1}: name", what)
    devices: set[str] = set()
    for at, board in enumerate(setup.boards, 1):
        if board.device and board.device in devices:
            reader.mistake(
                f"scoreboard {at}: device", "another scoreboard has this line: write its own"
            )
        devices.add(board.device or "")
