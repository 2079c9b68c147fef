"""A bridge on a played clock: its service, its weighings, and the check's own record of what was answered.

The service reads its wall clock from a file, by libfaketime. The file has one moment, which stays until the check writes the next one. So the check knows
the moment of each entry. Another file stands for `/proc/uptime`, because the service answers nothing if its clock goes another way than that. The times that
the service waits for are real.
"""

import glob
import os
import random
import re
import socket
import time
from contextlib import suppress
from dataclasses import dataclass
from datetime import datetime, timedelta
from pathlib import Path

from checks.lib import bridge
from checks.lib.showing import fail

LIBRARY = "/usr/lib/*/faketime/libfaketimeMT.so.1"
FORM = "%Y-%m-%d %H:%M:%S"
RATE, WINDOW = 1000.0, 8
# Lines of an empty bridge before a vehicle, and of the vehicle before the check requests its weighing.
EMPTY, LOADED = 6, 12
PRESET = 5000  # kg
INTERVAL, MOST = 20, 60000
PATIENCE = 60.0  # seconds
ON_SITE = 3  # how many vehicles are on site before one of them is weighed out
KINDS = {"first": "FIRST", "second": "SECOND", "single": "SINGLE", "void": "VOID"}


class Clock:
    """The wall clock of a bridge."""

    def __init__(self, folder: str, now: datetime) -> None:
        self.path, self.uptime = os.path.join(folder, "clock"), os.path.join(folder, "uptime")
        self.now, self.began = now, now - timedelta(hours=1)
        self.set(now)

    def set(self, now: datetime) -> None:
        self.now = now
        with open(f"{self.path}.new", "w", encoding="ascii") as file:
            file.write(f"{now.timestamp():.0f}\n")
        os.rename(f"{self.path}.new", self.path)
        # the service holds this file open
        handle = os.open(self.uptime, os.O_WRONLY | os.O_CREAT)
        os.pwrite(handle, f"{(now - self.began).total_seconds():014.2f} 0.00\n".encode(), 0)
        os.close(handle)

    def wait(self, seconds: float) -> None:
        self.set(self.now + timedelta(seconds=seconds))

    def follow(self, folder: str, program: str) -> str:
        """Return a program that runs this one under this clock."""
        path = os.path.join(folder, "weighbridge-by-the-clock")
        with open(path, "w", encoding="utf-8") as file:
            file.write(
                "#!/bin/sh\n"
                # a mount of its own, which ends with the program
                'test -n "$UNSHARED" || UNSHARED=1 exec unshare --mount --propagation private "$0" "$@"\n'
                f"mount --bind '{self.uptime}' /proc/uptime || exit 9\n"
                f"export LD_PRELOAD={glob.glob(LIBRARY)[0]} FAKETIME_TIMESTAMP_FILE='{self.path}'\n"
                "export FAKETIME_FMT=%s FAKETIME_NO_CACHE=1 DONT_FAKE_MONOTONIC=1 NO_FAKE_STAT=1 TZ=UTC\n"
                f"exec '{program}' \"$@\"\n"
            )
        os.chmod(path, 0o755)
        return path


@dataclass(frozen=True)
class Entry:
    """An entry, as the check requested it and the service answered it."""

    number: int
    key: str
    kind: str
    plate: str
    moment: datetime
    gross: str  # kg; empty if it has none
    preset: str  # kg; empty if it has none
    serial: str

    def fields(self) -> list[str]:
        """Return the fields of its record in an export of the journal, without the digests."""
        moment, own = self.moment.strftime(FORM), [
            str(self.number),
            self.key,
            self.kind,
            self.plate,
        ]
        return [*own, moment, self.gross, self.preset, str(INTERVAL), str(MOST), self.serial]


@dataclass(frozen=True)
class Asked:
    """A weighing or void that the check requests under one key until the service answers it."""

    key: str
    kind: str
    plate: str
    load: int  # tenths of the interval
    preset: str = ""

    @property
    def target(self) -> str:
        return "/voids" if self.kind == "void" else "/weighings"

    @property
    def body(self) -> str:
        kind = "" if self.kind == "void" else f"&kind={self.kind}"
        return f"key={self.key}{kind}&plate={self.plate}"


class Bridge:
    """A bridge with one journal, and the record of its entries."""

    def __init__(
        self, clock: Clock, program: str, journal: str, serial: str, retention: int
    ) -> None:
        self.clock, self.program, self.journal, self.serial = clock, program, journal, serial
        self.retention = retention
        self.entries: list[Entry] = []
        self.purged = 0  # up to this number they are purged
        self.open: list[str] = []  # the plates of vehicles on site, in their order
        self.count = 0  # of keys
        self.repeated = 0
        self.converter = bridge.Played(RATE)
        self.service: bridge.Service | None = None

    @property
    def running(self) -> bridge.Service:
        assert self.service is not None
        return self.service

    @property
    def newest(self) -> int:
        return len(self.entries)

    def start(self, program: str = "") -> float:
        """Start the service, and return how many seconds it took until it answered a request."""
        self.converter = bridge.Played(RATE)
        begin = time.monotonic()
        self.service = bridge.Service(
            program or self.program,
            self.journal,
            self.converter,
            *("--pace", "50", "--window", str(WINDOW), "--interval", str(INTERVAL)),
            *("--max", str(MOST), "--serial", self.serial),
            *("--retention", str(self.retention), "--capacity", "100000"),
        )
        while bridge.get(self.service, "/indication") is None:
            if time.monotonic() > begin + PATIENCE:
                fail("the service doesn't answer after its start")
        return time.monotonic() - begin

    def stop(self) -> None:
        """End the service as its unit does."""
        self.running.process.terminate()
        self.running.process.wait(20)
        self.clear()

    def kill(self) -> None:
        self.running.kill()
        self.clear()

    def clear(self) -> None:
        """Remove what libfaketime leaves in memory if its program is killed."""
        self.converter.close()
        for name in ("faketime_shm", "sem.faketime_sem"):
            Path(f"/dev/shm/{name}_{self.running.process.pid}").unlink(missing_ok=True)

    def next(self, kind: str, plate: str, load: int = 0, preset: str = "") -> Asked:
        self.count += 1
        return Asked(f"{self.serial}-{self.count}", kind, plate, load, preset)

    def drive(self, it: Asked) -> None:
        """Clear the bridge, and let the vehicle drive onto it."""
        if it.kind != "void":
            self.converter.put(0, EMPTY)
            self.converter.put(it.load, LOADED)

    def ask(self, it: Asked) -> bridge.Answer | None:
        """Ask until an answer comes that is none of a bridge that isn't ready. A service that was held up drops a request without one."""
        until = time.monotonic() + PATIENCE
        while True:
            try:
                answer = bridge.post(self.running, it.target, it.body)
            except OSError:
                answer = None
            if (answer and answer[0] != 409) or time.monotonic() > until:
                return answer
            self.drive(it)

    def lose(self, it: Asked) -> None:
        """Ask, and go before the answer comes."""
        data = bridge.request_bytes("POST", it.target, it.body)
        with socket.create_connection((bridge.HOST, self.running.office), 20) as stream:
            stream.sendall(data)
            time.sleep(0.02)

    def store(self, it: Asked, is_lost: bool = False, former: datetime | None = None) -> None:
        """Let a vehicle be weighed, or a weighing be voided, and note the entry.

        If the check requested it before without an answer, the entry may have that former moment.
        """
        self.drive(it)
        if is_lost:
            self.lose(it)
            self.repeated += 1
        answer = self.ask(it)
        if answer is None or answer[0] != 201:
            fail(f"{it} is answered {answer}")
        self.note(it, answer[1], former)
        if is_lost and bridge.post(self.running, it.target, it.body) != answer:
            fail(f"{it}, asked again, has another answer")

    def note(self, it: Asked, text: str, former: datetime | None = None) -> None:
        """Note the entry of an answer. Its number must be the next one."""
        gross = "" if it.kind == "void" else str(it.load * INTERVAL // 10)
        number, lines = self.newest + 1, text.splitlines()
        title = f"{KINDS[it.kind]} NO {number}"
        if not re.fullmatch(rf"WEIGHING (SLIP|TICKET) {number}", lines[0]) or title not in lines:
            fail(f"{it} isn't answered with number {number}:\n{text}")
        own = lines[lines.index(title) :]
        moments = [at for at in (self.clock.now, former) if at and f"AT {at.strftime(FORM)}" in own]
        if not moments or (gross and f"G {gross:>10} kg" not in own):
            fail(f"{it} at {self.clock.now} is answered\n{text}")
        self.entries.append(
            Entry(number, it.key, it.kind, it.plate, moments[0], gross, it.preset, self.serial)
        )
        if it.kind == "first":
            self.open.append(it.plate)
        elif it.kind in ("second", "void"):
            self.open.remove(it.plate)

    def tare(self, command: str) -> None:
        """Set or clear the tare. A service that was held up drops a command without a reply."""
        until = time.monotonic() + PATIENCE
        while time.monotonic() < until:
            with bridge.Terminal(self.running, 5) as terminal, suppress(OSError, EOFError):
                if " A" in (found := terminal.ask(command)):
                    return
                fail(f"{command} is answered {found}")
        fail(f"{command} isn't answered")

    def day(self, count: int, chance: random.Random, seconds: float) -> None:
        """Weigh `count` times: pairs, every tenth time a Single, and every tenth time a First that is voided."""
        for number in range(count):
            self.clock.wait(seconds)
            is_lost = number % 23 == 7
            load = 10 * chance.randrange(300, 2900)
            plate = f"{chance.choice('ABCDEFGH')}-{self.serial[-1]}{self.count}"
            if number % 10 == 4:
                self.tare(f"TA {PRESET} kg")
                self.store(self.next("single", plate, load, str(PRESET)), is_lost)
                self.tare("TAC")
            elif number % 10 == 9:
                self.store(self.next("void", self.open[-1]), is_lost)
            elif number % 10 != 8 and len(self.open) >= ON_SITE:
                self.store(self.next("second", self.open[0], load), is_lost)
            else:
                self.store(self.next("first", plate, load), is_lost)
        self.converter.put(0, LOADED)

    def bound(self) -> int:
        """Return up to which number a purge must purge now, by the rules."""
        last, standing = self.purged, set[str]()
        today = self.clock.now.date()
        for it in self.entries[self.purged :]:
            if (today - it.moment.date()).days <= self.retention:
                break
            if it.kind == "first":
                standing.add(it.plate)
            elif it.kind in ("second", "void"):
                standing.discard(it.plate)
            if not standing:
                last = it.number
        return last
