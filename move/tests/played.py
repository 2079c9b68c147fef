"""Plays a spare machine, its programs, and a disk with copies of a night and an archive of the settings."""

import contextlib
import hashlib
import io
import json
import os
import shutil
import sys
import tarfile
import tempfile
import unittest
from collections.abc import Sequence
from datetime import datetime, timedelta, timezone

TOP = os.path.dirname(os.path.dirname(os.path.dirname(os.path.abspath(__file__))))
sys.path[:0] = [os.path.join(TOP, "move"), os.path.join(TOP, "night")]

from weighbridge_move.__main__ import run, words_of  # noqa: E402
from weighbridge_night.programs import Ran  # noqa: E402

NOW = datetime(2026, 11, 30, 7, 4, 0, tzinfo=timezone.utc)
NIGHT = datetime(2026, 11, 30, 2, 35, 12, tzinfo=timezone.utc)
HEADER = "number,key,kind,plate,moment,gross_kg,preset_kg,interval_kg,max_kg,serial,digest,previous"
CONF = """# a comment with --serial OTHER
WEIGHBRIDGE_CONVERTER=/run/weighbridge/converter
WEIGHBRIDGE_TERMINAL=127.0.0.1:881
WEIGHBRIDGE_OFFICE=127.0.0.1:880
WEIGHBRIDGE_SETUP="--interval 20 --max 60000 --serial WB01 --pace 10 --window 10 --retention 90 --capacity 1000"
"""
NIGHT_TOML = '# bridge = "WB01"\nbridge = "WB01"\npurge = false\n[[to]]\nkind = "folder"\npath = "/srv/x"\nmost_gb = 1\n'
ALARM_TOML = 'bridge = "WB01"\n[[to]]\nname = "owner"\nkind = "mail"\n'
COUNTER_TOML = 'listen = "127.0.0.1:882"\npapers = "/etc/weighbridge-paper.toml"\n'
PAPER_TOML = 'spool = "/var/lib/weighbridge-counter/papers"\n[[printer]]\nname = "yard"\n'
VERSIONS = "weighbridge\t2.1.1\nweighbridge-counter\t2.1.1\nweighbridge-doc\t\n"
SETTINGS = {
    "etc/weighbridge.conf": CONF,
    "etc/weighbridge-converter.conf": 'WEIGHBRIDGE_READER="modbus"\n',
    "etc/weighbridge-night.toml": NIGHT_TOML,
    "etc/weighbridge-alarm.toml": ALARM_TOML,
    "etc/weighbridge-counter.toml": COUNTER_TOML,
    "etc/weighbridge-paper.toml": PAPER_TOML,
    "etc/weighbridge-head-office/bridge.key": "key\n",
    "etc/systemd/system/weighbridge-night.timer.d/override.conf": "[Timer]\nOnCalendar=\n",
    "etc/msmtprc": "password p\n",
    "etc/nginx/weighbridge/passwords": "clerk:x\n",
    "var/backups/weighbridge/version.txt": VERSIONS,
    "var/lib/weighbridge-night/ssh/key": "private\n",
    "var/lib/weighbridge-converter/calibration": "calibration 1\n",
    "var/lib/weighbridge-counter/tares.json": "{}\n",
}
# Each user has a number of its own, as on a machine.
USERS = {
    "root": 0,
    "www-data": 33,
    "weighbridge": 901,
    "weighbridge-counter": 902,
    "weighbridge-converter": 905,
    "weighbridge-night": 906,
    "weighbridge-alarm": 907,
}
ENTRIES = [
    (118, "first", "AB-12", "WB01"),
    (119, "first", "XY-7", "WB01"),
    (120, "second", "AB-12", "WB01"),
    (121, "single", "T-1", "WB01"),
    (122, "first", "V-1", "WB01"),
    (123, "void", "V-1", "WB01"),
    (124, "first", "Z-9", "WB01"),
]


def export_of(entries: Sequence[tuple[int, str, str, str]]) -> str:
    rows = [HEADER]
    for number, kind, plate, serial in entries:
        gross = "" if kind == "void" else "18340"
        rows.append(
            f"{number},K{number},{kind},{plate},2026-11-29 16:{number % 60:02}:00,{gross},,20,60000,{serial},d,p"
        )
    return "\n".join(rows) + "\n"


def witness_of(number: int) -> bytes:
    line = f"newest {number:010} {'a' * 64} {'b' * 64}\n"
    return (line + line).encode()


def digest(data: bytes) -> str:
    return hashlib.sha256(data).hexdigest()


class PlayedPrograms:
    """Plays weighbridge, systemctl and dpkg-query. A played journal is its own export."""

    def __init__(self, root: str) -> None:
        self.root = root
        self.versions = VERSIONS
        self.active: set[str] = set()
        self.enabled: set[str] = set()
        self.stopped = "inactive"  # what systemd says of a unit that doesn't run
        self.broken: set[str] = set()  # units that don't start
        self.check = ""  # what a check prints in place of the truth
        self.ran: list[str] = []
        self.starts = 0
        self.note = f"{root}-units"  # what a process that is killed started

    def load(self) -> None:
        """Take over which units another process started."""
        if os.path.lexists(self.note):
            with open(self.note, encoding="ascii") as file:
                self.starts, *units = json.load(file)
            self.active |= {*units}

    def run(
        self, words: Sequence[str], seconds: float, given: str = "", to: str | None = None
    ) -> Ran:
        self.ran.append(" ".join(words))
        name = os.path.basename(words[0])
        if name == "runuser":
            return self.run(words[4:], seconds)
        if name == "dpkg-query":
            return Ran(0, self.versions, "")
        if name == "systemctl":
            return self.systemctl(list(words[1:]))
        with open(words[3], encoding="utf-8") as file:
            text = file.read()
        if words[1] == "export":
            return Ran(0, text, "")
        count = len(text.splitlines()) - 1
        said = self.check or f"SOUND {count}"
        return Ran(0 if said.startswith("SOUND") else 1, f"{said}\n", "")

    def systemctl(self, words: list[str]) -> Ran:
        if words[0] == "is-active":
            states = ["active" if it in self.active else self.stopped for it in words[1:]]
            return Ran(0, "\n".join(states) + "\n", "")
        if words[0] == "enable":
            for it in words[2:]:
                if it in self.broken:
                    return Ran(1, "", f"Job for {it}.service failed.")
                self.enabled.add(it)
                if it not in self.active:
                    self.active.add(it)
                    self.started(it)
            with open(self.note, "w", encoding="ascii") as file:
                json.dump([self.starts, *sorted(self.active)], file)
        return Ran(0, "", "")

    def started(self, unit: str) -> None:
        """Start the service. It makes an empty journal, and refuses one that lacks what `-newest` names."""
        if unit != "weighbridge":
            return
        self.starts += 1
        journal = os.path.join(self.root, "var/lib/weighbridge/journal.db")
        if not os.path.lexists(journal):
            assert not os.path.lexists(f"{journal}-newest"), "a start is refused"
            for ending, data in (("", export_of([])), ("-wal", ""), ("-newest", "new")):
                with open(f"{journal}{ending}", "w", encoding="ascii") as file:
                    file.write(data)


class PlayedWorld:
    """A spare machine, in a folder."""

    def __init__(self, root: str) -> None:
        self.root = root
        self.programs = PlayedPrograms(root)
        self.moment, self.root_user = NOW, True
        self.users = dict(USERS)
        self.said: list[str] = []

    def now(self) -> datetime:
        return self.moment

    def is_root(self) -> bool:
        return self.root_user

    def ids(self, user: str, group: str) -> tuple[int, int] | None:
        if user not in self.users or group not in self.users:
            return None
        return self.users[user], self.users[group]

    def say(self, line: str) -> None:
        self.said.append(line)


class MoveCase(unittest.TestCase):
    """A lost bridge WB01, the disk with its copies, and a spare machine."""

    def setUp(self) -> None:
        # in memory, because a move waits for the disk at each file
        self.box = tempfile.mkdtemp(dir="/dev/shm" if os.access("/dev/shm", os.W_OK) else None)
        self.addCleanup(shutil.rmtree, self.box)
        self.disk = os.path.join(self.box, "disk")
        self.bridge = os.path.join(self.disk, "WB01")
        os.makedirs(self.bridge)
        self.make_machine()
        self.entries = list(ENTRIES)
        self.copy = self.make_copy()
        self.settings = dict(SETTINGS)
        self.make_archive()
        self.faults = ""

    def make_machine(self) -> None:
        self.root = os.path.join(self.box, "root")
        shutil.rmtree(self.root, ignore_errors=True)
        with contextlib.suppress(FileNotFoundError):
            os.unlink(f"{self.root}-units")
        # the package of the counter makes no folder before its first start
        for path in ("var/lib/weighbridge", "etc", "run", "srv"):
            os.makedirs(os.path.join(self.root, path))
        with open(self.at("etc/weighbridge.conf"), "w", encoding="ascii") as file:
            file.write("# as the package has it\n")
        self.world = PlayedWorld(self.root)
        self.programs = self.world.programs

    def at(self, path: str) -> str:
        return os.path.join(self.root, path.lstrip("/"))

    def make_copy(
        self,
        moment: datetime = NIGHT,
        verdict: str = "sound",
        witness: int | None = None,
        more: dict[str, bytes] | None = None,
        newest: int | None = None,
    ) -> str:
        """Make a copy as the night makes it, and return its folder."""
        text = export_of(self.entries).encode()
        last = self.entries[-1][0] if self.entries else 0
        files = {
            "journal.db": text,
            "journal.db-wal": b"wal",
            "journal.db-newest": witness_of(last if witness is None else witness),
            "journal.csv": text,
            "tickets.csv": b"ticket\n",
            **(more or {}),
        }
        files["SHA256SUMS"] = "".join(
            f"{digest(files[it])}  {it}\n" for it in sorted(files)
        ).encode()
        size = sum(map(len, files.values()))
        stamp = moment.strftime("%Y-%m-%dT%H%M%SZ")
        folder = os.path.join(
            self.bridge, f"{stamp}_{verdict}_{last if newest is None else newest}_{size}"
        )
        os.mkdir(folder)
        for name, data in files.items():
            self.write(os.path.join(folder, name), data)
        return folder

    def write(self, path: str, data: bytes) -> None:
        with open(path, "wb") as file:
            file.write(data)

    def make_archive(self, name: str = "settings-2026-11-20-bridge.tar") -> str:
        path = os.path.join(self.disk, name)
        with tarfile.open(path, "w") as tar:
            for it, text in self.settings.items():
                self.add(tar, it, text.encode())
        return path

    def add(self, tar: tarfile.TarFile, name: str, data: bytes, **more: object) -> None:
        it = tarfile.TarInfo(name)
        it.size, it.mode = len(data), 0o644
        for key, value in more.items():
            setattr(it, key, value)
        tar.addfile(it, io.BytesIO(data))

    def move(self, line: str) -> int:
        """Run a command, whose words `DISK` and `COPY` are folders. Its faults are in `self.faults`."""
        words = [{"DISK": self.disk, "COPY": self.copy}.get(it, it) for it in line.split()]
        said = io.StringIO()
        with contextlib.redirect_stderr(said):
            status = run(words_of(words), self.world)
        self.faults = said.getvalue()
        return status

    def refused(self, line: str, *words: str) -> None:
        """Fail unless a command is refused with these words, and changes nothing."""
        before = self.everything()
        self.assertIn(self.move(line), (1, 2))
        for it in words:
            self.assertIn(it, self.faults)
        self.assertEqual(self.everything(), before)
        self.assertEqual(self.programs.starts, 0)

    def everything(self) -> dict[str, bytes]:
        """Return each file of the machine, without this program's lock."""
        found = {}
        for folder, _, names in os.walk(self.root):
            for name in names:
                path = os.path.join(folder, name)
                if not path.endswith("run/weighbridge-move.lock"):
                    with open(path, "rb") as file:
                        found[os.path.relpath(path, self.root)] = file.read()
        return found

    def read(self, path: str) -> str:
        with open(self.at(path), encoding="utf-8") as file:
            return file.read()

    def owner(self, path: str) -> tuple[int, int, str]:
        about = os.stat(self.at(path))
        return about.st_uid, about.st_gid, f"{about.st_mode & 0o7777:o}"

    @property
    def said(self) -> str:
        return "\n".join(self.world.said)

    def later(self, hours: int) -> datetime:
        return NIGHT + timedelta(hours=hours)
