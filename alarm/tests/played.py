"""Plays the clock, the machine, counter, office and receivers."""

import json
import os
import shutil
import subprocess
import sys
import tempfile
import time
import unittest
from dataclasses import replace
from datetime import datetime, timedelta, timezone
from datetime import time as hour
from typing import Any

TOP = os.path.dirname(os.path.dirname(os.path.dirname(os.path.abspath(__file__))))
sys.path[:0] = [os.path.join(TOP, "alarm"), os.path.join(TOP, "night")]

from weighbridge_alarm.asking import Answer, NoAnswer  # noqa: E402
from weighbridge_alarm.due import Times  # noqa: E402
from weighbridge_alarm.handing import Hands, Message, NotTaken  # noqa: E402
from weighbridge_alarm.machine import Space  # noqa: E402
from weighbridge_alarm.run import Alarm, read_state  # noqa: E402
from weighbridge_alarm.setup import Receiver, Setup  # noqa: E402
from weighbridge_alarm.state import State  # noqa: E402
from weighbridge_alarm.watch import Tick  # noqa: E402

os.environ["TZ"] = "Europe/Berlin"
time.tzset()

BEGIN = datetime(2026, 11, 30, 9, 0, 0, tzinfo=timezone.utc)  # 10:00 in Berlin
ROOMY = Space(10**11, 10**6, 10**7, False)
TIMES = Times(hour(7), 20)


def copied_at(at: datetime) -> str:
    """Return the night's file after a night that went well."""
    return json.dumps(
        {
            "version": 1,
            "began": at.strftime("%Y-%m-%dT%H:%M:%SZ"),
            "ended": at.strftime("%Y-%m-%dT%H:%M:%SZ"),
            "is_well": True,
            "steps": [],
            "failing": {},
            "places": {"disk X": {"newest_sound": at.strftime("%Y-%m-%dT%H%M%SZ_sound_1_2")}},
        }
    )


class PlayedWorld:
    """A machine on which all is well, until a test changes something."""

    def __init__(self) -> None:
        self.now, self.uptime, self.boot = BEGIN, 1000.0, "first"
        self.faults: list[Any] | None = []  # what /health names; None if the counter is silent
        self.health: bytes | None = None
        self.more: dict[str, Any] = {}
        self.indication: bytes | None = b"STABLE G          0 kg N          0 kg\n"
        self.office_status = self.ticket_status = 200
        self.last: str | None = None
        self.is_copied = True
        self.failed: list[str] = []
        self.spaces: dict[str, Space | str] = {}
        self.ends: dict[str, datetime | str] = {}
        self.is_set: bool | None = True

    def tick(self) -> Tick:
        return Tick(self.now, self.uptime, self.boot)

    def ask(self, url: str, seconds: float) -> Answer:
        if url.endswith("/health"):
            if self.health is not None:
                return Answer(200, self.health)
            if self.faults is None:
                raise NoAnswer("Connection refused")
            stops = {"terminal", "weight", "office", "full"} & {str(it) for it in self.faults}
            body = {"can_weigh": not stops, "faults": self.faults, **self.more}
            return Answer(503 if stops else 200, json.dumps(body).encode())
        if self.indication is None:
            raise NoAnswer("Connection refused")
        if url.endswith("/indication"):
            return Answer(self.office_status, self.indication)
        return Answer(self.ticket_status, b"")

    def file(self, path: str) -> str | None:
        return copied_at(self.now - timedelta(hours=8)) if self.is_copied else self.last

    def units(self) -> str:
        return "\n\n".join(f"Id={it}.service\nActiveState=failed" for it in self.failed)

    def space(self, path: str) -> Space | str:
        return self.spaces.get(path, ROOMY)

    def certificate_end(self, where: str) -> datetime | str:
        return self.ends[where]

    def made(self) -> datetime:
        return BEGIN - timedelta(days=30)

    def is_synchronized(self) -> bool | None:
        return self.is_set


class PlayedHands(Hands):
    """Notes what each receiver took. A receiver in `refusing` takes nothing."""

    def __init__(self, path: str) -> None:
        self.path, self.refusing = path, set[str]()
        self.given: list[tuple[str, Message]] = []

    def give(self, to: Receiver, it: Message, now: datetime) -> None:
        if to.name in self.refusing:
            raise NotTaken("the mail server is away")
        # a file, so that a process that is killed leaves what it sent
        handle = os.open(self.path, os.O_WRONLY | os.O_APPEND | os.O_CREAT, 0o600)
        os.write(handle, json.dumps([to.name, it.subject, it.hook]).encode() + b"\n")
        os.close(handle)
        self.given.append((to.name, it))


def receiver(name: str = "owner", **more: Any) -> Receiver:
    return replace(
        Receiver(name, "mail", TIMES, address="owner@example.com", sender="pc@example.com"), **more
    )


def own_certificate(folder: str, days: int) -> str:
    """Make a certificate of 127.0.0.1 that nobody knows. Return the path of the file with it and its key."""
    path = os.path.join(folder, "own.pem")
    words = "openssl req -x509 -newkey ec -pkeyopt ec_paramgen_curve:prime256v1 -nodes -subj /CN=127.0.0.1"
    more = ["-days", f"{days}", "-keyout", path, "-out", f"{path}.end"]
    subprocess.run([*words.split(), *more], capture_output=True, check=True)
    with open(f"{path}.end", encoding="ascii") as end, open(path, "a", encoding="ascii") as file:
        file.write(end.read())
    return path


class AlarmCase(unittest.TestCase):
    """A bridge with an alarm that looks each minute."""

    def setUp(self) -> None:
        self.box = tempfile.mkdtemp(dir="/dev/shm" if os.access("/dev/shm", os.W_OK) else None)
        self.addCleanup(shutil.rmtree, self.box)
        self.folders = [os.path.join(self.box, it) for it in ("state", "spare")]
        for it in self.folders:
            os.mkdir(it)
        self.world = PlayedWorld()
        self.hands = PlayedHands(os.path.join(self.box, "sent"))
        self.said: list[str] = []
        self.receivers = [receiver()]
        self.more: dict[str, Any] = {}

    @property
    def setup(self) -> Setup:
        return Setup("WB01", self.receivers, **self.more)

    @property
    def alarm(self) -> Alarm:
        return Alarm(self.setup, self.folders, self.world, self.hands, self.said.append)

    def state(self) -> State:
        found = read_state(self.folders)
        assert found is not None
        return found

    def later(self, seconds: float) -> None:
        self.world.now += timedelta(seconds=seconds)
        self.world.uptime += seconds

    def look(self, times: int = 1) -> bool:
        """Look, and let a minute go by, so often."""
        is_well = True
        for _ in range(times):
            is_well = self.alarm.run()
            self.later(60)
        return is_well

    def taken(self, name: str = "owner") -> list[Message]:
        return [it for who, it in self.hands.given if who == name]

    def events(self, name: str = "owner") -> list[str]:
        """Return what a receiver heard: the names with their state."""
        return [
            f"{one['name']} {one['state']}" for it in self.taken(name) for one in it.hook["faults"]
        ]

    def forget(self) -> None:
        self.hands.given.clear()
