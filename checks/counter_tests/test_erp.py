"""The two programs of docs/erp.md, over a bridge whose counter and service are killed and started again, and whose journal is restored from an older copy."""

import os
import re
import shutil
import sqlite3
import subprocess
import sys
from pathlib import Path

from checks.lib.bridge import HOST, Closing
from checks.lib.case import PROGRAM
from checks.lib.counter import Bridge
from checks.lib.counter_case import CounterCheck

from checks import TOP

TARE, LOAD = 5000, 9170
# With the bridge empty, the counter asks for an export some seconds later.
EXPORT_WITHIN = 60


def block_of(kind: str) -> str:
    """Return the only block of the page that begins so."""
    text = (TOP / "docs" / "erp.md").read_text(encoding="utf-8")
    blocks = re.findall(rf"^```{kind}\n(.*?)^```$", text, re.M | re.S)
    assert len(blocks) == 1, kind
    return str(blocks[0])


class Erp(Closing):
    """The program that fetches tickets, with its database."""

    def __init__(self, bridge: Bridge) -> None:
        self.bridge, self.path = bridge, f"{bridge.folder}/erp.db"
        self.script = f"{bridge.folder}/fetch.py"
        script = block_of("python").replace("PAUSE = 5 ", "PAUSE = 0.2 ")
        Path(self.script).write_text(script, encoding="utf-8")
        self.start()

    def start(self) -> None:
        words = [sys.executable, self.script, f"http://{HOST}:{self.bridge.http}", self.path]
        with open(f"{self.bridge.folder}/fetch.log", "ab") as log:
            self.process = subprocess.Popen(words, stdout=log, stderr=log)

    def close(self) -> None:
        self.process.kill()
        self.process.wait()

    def tickets(self) -> list[tuple[int, str]]:
        """Return the number and the digest of each ticket, in the order in which they were stored."""
        try:
            with sqlite3.connect(f"file:{self.path}?mode=ro", uri=True) as database:
                found = database.execute("SELECT number, digest FROM ticket ORDER BY rowid")
                return [(number, digest) for number, digest in found]
        except sqlite3.OperationalError:
            return []  # its tables aren't made yet


class Programs(CounterCheck):
    """Both programs, at twenty readings a second."""

    needs = (PROGRAM, "aiohttp", "prometheus_client", "curl")
    seconds = 100

    def setUp(self) -> None:
        self.bridge = self.new_bridge(20, ports=()).start_counter()
        self.single("TABLE-1")
        self.single("TABLE-2")

    def single(self, plate: str) -> None:
        """Weigh a vehicle with a tare, through the counter."""
        status, text = self.bridge.weigh_next(LOAD, f"erp-{plate}", "single", plate, TARE)
        self.holds(f"{plate} has a ticket", status == 201, text)

    def pair(self, plate: str) -> None:
        """Weigh a vehicle in and out at the office itself, so that the counter doesn't see it."""
        bridge = self.bridge
        for kind, load in (("first", LOAD), ("second", LOAD // 2)):
            bridge.next_vehicle(load)
            status, text = bridge.weigh(f"erp-{plate}-{kind}", kind, plate, port=bridge.office)
            self.holds(f"{plate} has its {kind} weighing", status == 201, text)

    def stored(self) -> set[tuple[int, str]]:
        """Return the number and the digest of each ticket that the journal has now."""
        rows = self.bridge.entries()
        return {(int(it[0]), it[10]) for it in rows if it[2] in ("second", "single")}

    def test_table(self) -> None:
        """Show the script of the page that fetches a table."""
        folder = f"{self.bridge.folder}/table"
        os.mkdir(folder)
        script = block_of("sh").replace("127.0.0.1:880", f"{HOST}:{self.bridge.office}")

        def run() -> list[str]:
            subprocess.run(["sh", "-c", script], cwd=folder, check=True)
            lines = Path(folder, "added.csv").read_text(encoding="utf-8").splitlines()
            return [it.split(",")[0] for it in lines]

        self.same("the first table has each ticket", ["ticket", "1", "2"], run())
        self.same("the same table adds none", ["ticket"], run())
        self.single("TABLE-3")
        self.same("a later table adds the new ticket", ["ticket", "3"], run())
        known = Path(folder, "known.csv").read_text(encoding="utf-8").splitlines()
        self.same("each ticket is known once", 3, len(known))
        failing = script.replace(": import", "false import")
        self.single("TABLE-4")
        it = subprocess.run(["sh", "-c", failing], cwd=folder, check=False)
        self.holds("a failed import has a status", it.returncode != 0)
        self.same("its ticket comes again", ["ticket", "4"], run())

    def copy_journal(self, source: str, target: str) -> None:
        for ending in ("", "-wal"):
            shutil.copy(f"{source}/journal.db{ending}", target)

    def test_loop(self) -> None:
        """Show the program of the page that fetches each ticket once."""
        bridge, ever = self.bridge, self.stored()
        erp = self.enterContext(Erp(bridge))

        def has(what: str, seconds: float = 20) -> None:
            self.becomes(what, ever, lambda: {*erp.tickets()}, seconds)

        has("the program fetches what is there")
        erp.close()
        self.single("KILLED-4")
        self.pair("DIRECT-6")
        self.single("KILLED-7")
        ever |= self.stored()
        erp.start()
        bridge.put(0)
        what = "killed, it fetches what came meanwhile, and a pair of another client"
        has(what, EXPORT_WITHIN)

        bridge.kill_service()
        copy = f"{bridge.folder}/copy"
        os.mkdir(copy)
        self.copy_journal(bridge.folder, copy)
        bridge.start_service()
        bridge.wait_until_up()
        self.single("AFTER-8")
        bridge.restart_counter()
        self.single("AFTER-9")
        ever |= self.stored()
        has("over restarts of service and counter it fetches each ticket")

        bridge.kill_counter()
        bridge.kill_service()
        for it in Path(bridge.folder).glob("journal.db*"):
            it.unlink()
        self.copy_journal(copy, bridge.folder)
        bridge.start_service()
        self.pair("AGAIN-9")
        bridge.start_counter()
        self.single("AGAIN-10")
        again = self.stored()
        numbers = {number for number, _ in again - ever} & {number for number, _ in ever}
        self.holds("numbers were given again", numbers)
        ever |= again
        bridge.put(0)
        has("over a restored journal it fetches the other tickets too", EXPORT_WITHIN)
        found = erp.tickets()
        self.same("no ticket is there twice", len(set(found)), len(found))
        self.same("the program still runs", None, erp.process.poll())
