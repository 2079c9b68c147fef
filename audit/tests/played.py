"""Plays a machine for the audit trail: its clocks, the system's journal, and everything that a look sees."""

import hashlib
import os
import sys
from pathlib import Path

TOP = Path(__file__).resolve().parent.parent.parent
sys.path[:0] = [str(TOP / it) for it in ("audit", "night", "support")]

from weighbridge_audit import trail as file  # noqa: E402
from weighbridge_audit.deciding import Clock, Log, Thing, seconds_of  # noqa: E402
from weighbridge_audit.looking import NAME, Append, look  # noqa: E402
from weighbridge_audit.saying import Message  # noqa: E402
from weighbridge_audit.trail import Event, Trail, trail_of  # noqa: E402
from weighbridge_audit.world import joined  # noqa: E402

BEGIN = seconds_of("2026-12-01T07:00:00Z")
BOOT, NEXT_BOOT = "a" * 32, "b" * 32
DIGEST = "a982a0aaef75f8622de6a96ef3a1d8ddd9de4bd18d9cda420eeb00dfbfcfa68c"
OTHER = "b3b5f9b7b253a32759e7f7696c8248ad2d85333673358587ad599ef71b8e7d3e"
SETUP = "--interval 20 --max 60000 --window 10 --band 2 --pace 10 --wait 20 --serial WB01 --retention 90 --capacity 1000"
START = (
    "start: weighbridge 2.1.1, sources 57210be7602a, proved by rattle-kit-13f logic dac8; "
    f"{SETUP}; /var/lib/weighbridge/journal.db, newest 124 {DIGEST}; terminal 127.0.0.1:881, office 127.0.0.1:880, "
    "converter /run/weighbridge/converter"
)
SERVICE, CONVERTER = "weighbridge.service", "weighbridge-converter.service"
CONF = "setup /etc/weighbridge.conf"


class Killed(Exception):
    """The program was killed, or the power went."""


class Played:
    """A machine. Tests change what it has."""

    def __init__(self, folder: str) -> None:
        self.folder = folder
        self.wall, self.up, self.boot = BEGIN, 1000, BOOT
        self.messages: list[Message] = []
        self.no_log: str | None = None
        self.seen: dict[str, Thing] = {
            "programs": {"files": 40, "sha256": "1" * 64},
            "packages": {"weighbridge": "2.1.1"},
            CONF: {"changed": "2026-11-01T10:00:00Z", "sha256": "2" * 64, "--interval": "20"},
            "calibration": {"number": 3, "digest": "3" * 64},
            "zero": {"tenths": 0, "set": "2026-12-01T06:50:00Z"},
            "journal": {"file": 7, "newest": 124, "digest": DIGEST},
            "move": None,
        }
        self.asked: list[str | None] = []

    def clock(self) -> Clock:
        return Clock(self.wall, self.up, self.boot)

    def log(self, cursor: str | None) -> Log | str:
        self.asked.append(cursor)
        if self.no_log is not None:
            return self.no_log
        if cursor is None:
            return joined(cursor, self.messages)
        after = [it for it in self.messages if int(it.cursor[1:]) >= int(cursor[1:])]
        return joined(cursor, after)

    def things(self) -> dict[str, Thing]:
        return dict(self.seen)

    def say(self, text: str, unit: str = SERVICE, number: str = "", **fields: str) -> None:
        """Add a line to the system's journal."""
        last = int(self.messages[-1].cursor[1:]) if self.messages else 0
        self.messages.append(Message(text, unit, self.wall, f"c{last + 1}", number, fields))

    def later(self, seconds: int = 300) -> None:
        self.wall += seconds
        self.up += seconds

    @property
    def path(self) -> str:
        return os.path.join(self.folder, NAME)

    def look(self, append: Append = file.append) -> list[Event]:
        """Look once, and return the events that this look noted."""
        before = len(self.trail().lines)
        look(self, self.folder, append)
        return [event for it in self.trail().lines[before:] for event in it.events]

    def kinds(self) -> list[str]:
        return [it["event"] for it in self.look()]

    def trail(self) -> Trail:
        return trail_of(file.read_trail(self.path))

    def events(self) -> list[Event]:
        return [event for it in self.trail().lines for event in it.events]

    def data(self) -> bytes:
        return file.read_trail(self.path)


def hand_checked(data: bytes) -> list[str]:
    """Check a trail as docs/inspection.md says that an inspector does, without any code of the program. Return what is wrong."""
    wrong, digest, number = [], "0" * 64, 0
    for line in data.splitlines():
        text, _, rest = line.rpartition(b',"digest":"')
        number += 1
        if hashlib.sha256(text).hexdigest() != rest[:64].decode():
            wrong.append(f"line {number} doesn't fit its digest")
        if not text.endswith(f'"previous":"{digest}"'.encode()):
            wrong.append(f"line {number} isn't chained")
        digest = rest[:64].decode()
    return wrong
