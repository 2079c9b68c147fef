"""Plays the clock, other programs, the office, a host with sftp, and a journal."""

import fnmatch
import os
import shutil
import sqlite3
import sys
import tempfile
import unittest
from collections.abc import Sequence
from datetime import datetime, timedelta, timezone

TOP = os.path.dirname(os.path.dirname(os.path.dirname(os.path.abspath(__file__))))
sys.path.insert(0, os.path.join(TOP, "night"))

from weighbridge_night.files import Fault  # noqa: E402
from weighbridge_night.last import Step  # noqa: E402
from weighbridge_night.night import Night, World  # noqa: E402
from weighbridge_night.programs import Ran  # noqa: E402
from weighbridge_night.setup import GB, Place, Setup  # noqa: E402

BEGIN = datetime(2026, 11, 30, 2, 3, 14, tzinfo=timezone.utc)
HEADER = "number,key,kind,plate,moment,gross_kg,preset_kg,interval_kg,max_kg,serial,digest,previous"
EMPTY = "STABLE G          0 kg N          0 kg"


class Clock:
    """A clock that moves only when a test moves it."""

    def __init__(self) -> None:
        self.now = BEGIN
        self.slept: list[float] = []

    def __call__(self) -> datetime:
        return self.now

    def sleep(self, seconds: float) -> None:
        self.slept.append(seconds)
        self.now += timedelta(seconds=seconds)


class PlayedOffice:
    """Answers as an office, and notes what it was asked."""

    def __init__(self) -> None:
        self.shown, self.purged = EMPTY, "PURGED 2"
        self.asked: list[str] = []

    def ask(self, method: str, target: str, seconds: float) -> str:
        self.asked.append(f"{method} {target}")
        return self.purged if method == "POST" else self.shown


class PlayedPrograms:
    """Plays weighbridge, verify.py and sftp. Its host keeps files in a folder of this machine."""

    def __init__(self, host: str) -> None:
        self.host = host
        self.entries = 3
        self.check, self.check_status = "", 0
        self.verify, self.verify_status = "", 0
        self.refused_export: str | None = None
        self.sftp_fault: str | None = None  # what sftp says, with status 255
        self.hangs = False
        self.writable = "-/srv/weighbridge-copies -/mnt/weighbridge-night"  # as systemctl says it
        self.loses = False  # the host keeps only a part of each file
        self.ran: list[str] = []
        self.batches: list[str] = []

    def run(
        self, words: Sequence[str], seconds: float, given: str = "", to: str | None = None
    ) -> Ran:
        name = os.path.basename(words[0])
        self.ran.append(" ".join(words))
        if name == "sftp":
            return self.sftp(given)
        if name == "systemctl":
            return Ran(0, f"{self.writable}\n", "")
        if name == "python3":
            return Ran(self.verify_status, self.verify, "")
        if words[1] == "check":
            return Ran(self.check_status, self.check or f"SOUND {self.entries}\n", "")
        return self.export(words[-1], to)

    def export(self, what: str, to: str | None) -> Ran:
        assert to is not None
        with open(to, "w", encoding="ascii") as file:
            if what == self.refused_export:
                return Ran(1, "", "refused 17 damaged\n")
            if what == "journal":
                file.write(f"{HEADER}\n")
                for number in range(1, self.entries + 1):
                    file.write(
                        f"{number},K{number},first,AB-{number},2025-03-10 08:00:00,18340,,20,60000,WB01,d,p\n"
                    )
            else:
                file.write("ticket,kind,plate,first,at,gross_kg,tare_kg,net_kg\n")
        return Ran(0, "", "")

    def sftp(self, given: str) -> Ran:
        self.batches.append(given)
        if self.hangs:
            raise Fault("/usr/bin/sftp: it didn't end within 180 seconds and was killed")
        if self.sftp_fault is not None:
            return Ran(255, "", f"{self.sftp_fault}\nConnection closed\n{self.sftp_fault}\n")
        out = []
        for line in given.splitlines():
            out.append(f"sftp> {line}")
            may_fail = line.startswith("-")
            words = line.removeprefix("-").split()
            try:
                out += self.command(words[0], words[1:])
            except OSError as error:
                if not may_fail:
                    return Ran(1, "\n".join(out), f"{line}: {error.strerror}")
        return Ran(0, "\n".join(out), "")

    def command(self, name: str, words: list[str]) -> list[str]:
        at = [os.path.join(self.host, it) for it in words]
        if name == "ls":
            names = sorted(os.listdir(at[-1]))
            if words[0] == "-1a":
                return [f"{words[-1]}/{it}" for it in [".", "..", *names]]
            sizes = [os.path.getsize(os.path.join(at[-1], it)) for it in names]
            return [
                f"-rw-------    ? 1000     1000 {size:12} Nov 30 02:03 {words[-1]}/{it}"
                for it, size in zip(names, sizes)
            ]
        if name == "mkdir":
            os.mkdir(at[0])
        elif name == "rename":
            os.rename(at[0], at[1])
        elif name == "rmdir":
            os.rmdir(at[0])
        elif name == "rm":
            folder, pattern = os.path.split(at[0])
            for it in fnmatch.filter(os.listdir(folder), pattern):
                os.unlink(os.path.join(folder, it))
        elif name == "put":
            shutil.copyfile(words[1].strip('"'), at[2])
            if self.loses:
                os.truncate(at[2], 1)
        return []


def make_journal(path: str, entries: int = 3) -> None:
    """Write a database whose rows are in its log, as a service that was killed leaves it."""
    with tempfile.TemporaryDirectory() as folder:
        live = os.path.join(folder, "journal.db")
        connection = sqlite3.connect(live, isolation_level=None)
        connection.execute("PRAGMA journal_mode=WAL")
        connection.execute("CREATE TABLE journal (number INTEGER PRIMARY KEY)")
        connection.executemany(
            "INSERT INTO journal VALUES (?)", [(it,) for it in range(1, entries + 1)]
        )
        for ending in ("", "-wal"):
            shutil.copyfile(live + ending, path + ending)
        connection.close()
    with open(f"{path}-newest", "w", encoding="ascii") as file:
        file.write("newest\n")


class NightCase(unittest.TestCase):
    """A bridge with a journal, a folder for copies, and a host."""

    def setUp(self) -> None:
        # in memory, because a night waits for the disk at each file
        self.box = tempfile.mkdtemp(dir="/dev/shm" if os.access("/dev/shm", os.W_OK) else None)
        self.addCleanup(shutil.rmtree, self.box)
        for name in ("state", "copies", "host", "bridge"):
            os.mkdir(os.path.join(self.box, name))
        self.state = os.path.join(self.box, "state")
        self.copies = os.path.join(self.box, "copies")
        self.host = os.path.join(self.box, "host")
        self.journal = os.path.join(self.box, "bridge", "journal.db")
        make_journal(self.journal)
        self.clock, self.office = Clock(), PlayedOffice()
        self.programs = PlayedPrograms(self.host)
        self.steps: list[Step] = []
        self.places = [
            Place("folder", GB, path=self.copies),
            Place("ssh", GB, host="backup", user="bridge", folder="kept"),
        ]
        self.purge = True

    @property
    def setup(self) -> Setup:
        return Setup("WB01", self.purge, self.places, self.journal)

    @property
    def world(self) -> World:
        return World(self.clock, self.clock.sleep, self.programs, self.office, self.steps.append)

    def night(self) -> bool:
        """Run a night, and let a day go by. Return True if nothing failed."""
        self.steps.clear()
        is_well = Night(self.setup, self.state, self.world).run()
        self.clock.now += timedelta(days=1)
        return is_well

    def states(self) -> dict[str, str]:
        return {it.step: it.state for it in self.steps}

    def words(self, step: str) -> str:
        return next(it.words for it in self.steps if it.step == step)

    def in_folder(self) -> list[str]:
        return sorted(os.listdir(os.path.join(self.copies, "WB01")))

    def on_host(self) -> list[str]:
        return sorted(os.listdir(os.path.join(self.host, "kept", "WB01")))
