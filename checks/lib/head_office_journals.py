"""Journals that the built program weighed, each at a bridge of a head office. One is weighed over a running service, and the others are copies of it with
another serial."""

import contextlib
import functools
import os
import shutil
import sqlite3
import subprocess
import tempfile

from checks.lib import bridge, leftovers, program
from checks.lib.head_office import OfficeCheck, lines_of, written
from checks.lib.journal import ZEROS, digest_of
from checks.lib.tampering import KINDS, File

COUNT = 60
COLUMNS = (
    "number, request_key, kind, plate, moment, gross_kg, preset_kg, interval_kg, max_kg, serial"
)


def start_service(path: str, serial: str) -> bridge.Service:
    words = ["--serial", serial, "--capacity", "10000", "--retention", "30"]
    return bridge.Service(program.compiled(), path, bridge.Fed(), *words)


def end_service(service: bridge.Service) -> None:
    """Let the service end because its converter does."""
    service.converter.close()
    service.process.wait(20)


def preset(service: bridge.Service, command: bytes, gross: int) -> None:
    with bridge.Terminal(service) as terminal:
        terminal.send(command)
        terminal.stream.settimeout(0.2)
        for _ in range(20):
            service.converter.send(gross)
            try:
                terminal.line()
                break
            except TimeoutError:
                pass
    service.converter.send(gross, gross)


def weigh(service: bridge.Service, number: int, plate: str = "") -> None:
    """Weigh a vehicle: pairs, Voids and Singles in turn."""
    kind = ("first", "second", "first", "void", "single", "first")[number % 6]
    plate = plate or f"V-{number // 2}"
    gross = 5_000 + 30 * number if kind in ("first", "single") else 2_000 + 10 * number
    service.converter.send(0, gross, gross, gross, gross)
    if kind == "single":
        preset(service, b"TA 5000 kg\r\n", gross)
    target, form = ("/weighings", f"key=K{number}&kind={kind}&plate={plate}")
    if kind == "void":
        target, form = ("/voids", f"key=K{number}&plate={plate}")
    for _ in range(10):
        request = bridge.request_bytes("POST", target, form)
        answer = bridge.exchange(service, request, meanwhile=lambda: service.converter.send(gross))
        if answer and answer[0] == 201:
            break
    else:
        raise RuntimeError(f"a {kind} returned {answer}")
    if kind == "single":
        preset(service, b"TAC\r\n", gross)


@functools.cache
def weighed() -> dict[str, str]:
    """Weigh a journal over a running service. Return both exports of its office, and its file."""
    folder = leftovers.until_the_end.enter_context(tempfile.TemporaryDirectory())
    path = f"{folder}/weighed.db"
    service = start_service(path, "NORTH1")
    for number in range(COUNT):
        weigh(service, number)
    found = {"file": path}
    for what in ("journal", "tickets"):
        request = bridge.request_bytes("GET", f"/{what}.csv")
        answer = bridge.exchange(service, request, meanwhile=lambda: service.converter.send(0))
        assert answer
        found[what] = written(f"{folder}/{what}.csv", [answer[1]])
    end_service(service)
    # somebody who changes a journal removes what says which entry is the newest
    os.remove(f"{path}-newest")
    return found


class Journal(File):
    """A journal that the program weighed, and that no service holds."""

    def __init__(self, path: str, serial: str) -> None:
        """Copy the journal, and give its entries another serial and the digests that fit."""
        super().__init__(path)
        source = weighed()["file"]
        for end in ("", "-wal"):
            if os.path.exists(f"{source}{end}"):
                shutil.copy(f"{source}{end}", f"{path}{end}")
        with contextlib.closing(sqlite3.connect(path)) as it, it:
            previous = ZEROS
            for row in it.execute(f"SELECT {COLUMNS} FROM journal ORDER BY number").fetchall():
                number, key, kind, plate, moment, gross, tare, interval, most, _ = row
                weights = ("-" if kg is None else kg for kg in (gross, tare))
                parts = (number, key, KINDS[kind - 1], plate, moment, *weights, most, serial)
                digest = digest_of(*parts, previous, interval)
                values = (serial, digest, previous, number)
                it.execute(
                    "UPDATE journal SET serial = ?, digest = ?, previous = ? WHERE number = ?",
                    values,
                )
                previous = digest

    def export(self, what: str = "journal") -> str:
        return exported(self.path, what)

    def first(self, count: int) -> str:
        """Write the export as it was when it had this many entries."""
        return written(f"{self.path}.{count}.csv", lines_of(self.export())[: count + 1])

    def own_check(self) -> str:
        words = [program.compiled(), "check", "--file", self.path]
        it = subprocess.run(words, capture_output=True, text=True)
        return (it.stdout + it.stderr).strip()


def exported(path: str, what: str = "journal") -> str:
    """Export a file by the program, and return the path."""
    with open(f"{path}.{what}.csv", "wb") as out:
        words = [program.compiled(), "export", "--file", path, "--what", what]
        subprocess.run(words, stdout=out, stderr=subprocess.DEVNULL)
    return out.name


class JournalCheck(OfficeCheck):
    """A check with journals that the program weighed."""

    def journal(self, name: str) -> Journal:
        """Register a bridge, and return a journal of it with sixty entries."""
        self.office.register(name)
        return Journal(f"{self.office.folder}/{name}.db", f"{name}1")
