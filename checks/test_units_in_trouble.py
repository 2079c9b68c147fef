"""Shows the packages' units when the machine around them fails: its power, its memory or its disk, or if programs stand still for ten minutes.

The packages run under a systemd of their own (checks/lib/booted.py), over a disk of their own at /var/lib/weighbridge. A folder plays the load cell.

- After a power cut and a start of the machine, the bridge weighs without anybody's hand.
- A journal of 100,000 entries and 300,000 spent keys starts within the unit's memory and time.
- With too little memory the service is ended, said by name, and comes back once it has memory.
- A start that stands still is ended after its time, and tried again.
- A disk that is read-only stores nothing and says so. The service weighs again once the disk can be written.
- A disk that takes 20 seconds for each sync delays answers, and nothing is stored twice.
- The service, the counter, `weighbridge-converter` or the reader stands still while one vehicle leaves and another comes: the weight of the one that left
  is never stored. After ten minutes, systemd has restarted service and counter, and both others continue.

It needs control groups that limit memory, and takes a quarter of an hour. With --times 0.2, programs stand still for two
minutes only. WEIGHBRIDGE_TROUBLE_ROOT names a tar file with the root, which mmdebstrap makes if it isn't named.
"""

import functools
import os
import shutil
import subprocess
import tempfile
import time
import unittest
from collections.abc import Iterator
from contextlib import contextmanager
from pathlib import Path

from checks import TOP
from checks.lib.booted import Machine, disk, groups_of_this_machine, root_of
from checks.lib.case import Check, many
from checks.lib.journal import make_journal, spend
from checks.lib.showing import becomes, fail, same

NEEDED = "adduser curl fonts-dejavu-core iproute2 nftables procps python3 python3-aiohttp python3-prometheus-client"
NEEDED += " python3-qrcode python3-reportlab systemd systemd-sysv tzdata"
UNITS = ("weighbridge-ports", "weighbridge-converter", "weighbridge", "weighbridge-counter")
FOLDER = "/var/lib/weighbridge"
CALIBRATION = "/var/lib/weighbridge-converter/calibration"
JOURNAL = f"{FOLDER}/journal.db"
COUNTS_OF_KG = 5  # of the played load cell
A, B = 18_340, 7_000  # kg, two vehicles
MEMORY = 1 << 30  # of the unit
START_WITHIN = 90  # seconds, of the unit
ENTRIES, KEYS = 100_000, 300_000  # of the journal that is as great as it may become


class Bridge:
    """The bridge on a machine: its load cell, its office and its counter."""

    def __init__(self, machine: Machine) -> None:
        self.machine, self.keys = machine, 0

    def load(self, kg: int) -> None:
        """Put a load on the bridge."""
        folder = self.machine.root / "srv/device"
        folder.mkdir(exist_ok=True)
        (folder / "new").write_text(f"{kg * COUNTS_OF_KG}\n")
        (folder / "new").rename(folder / "in_voltage0_raw")

    def asked(self, target: str, port: int = 880, body: str = "", seconds: float = 10) -> str:
        """Return the answer of the office or the counter, or why there is none."""
        words = ["curl", "-s", "-m", str(seconds)]
        words += ["-d", body] if body else []
        ran = self.machine.run(*words, f"http://127.0.0.1:{port}{target}")
        return ran.stdout if ran.stdout else f"no answer: {ran.returncode}"

    def indication(self) -> str:
        return self.asked("/indication", seconds=3).rstrip("\n")

    def shows(self, kg: int) -> None:
        """Wait until the bridge shows this weight, stable."""
        wanted = f"STABLE G {kg:10} kg N {kg:10} kg"
        becomes(f"the bridge shows {kg} kg", wanted, self.indication, 60)

    def comes(self, kg: int) -> None:
        """Let the bridge be empty, and then a vehicle come that may be weighed."""
        self.load(0)
        self.shows(0)
        self.load(kg)
        self.shows(kg)

    def can_weigh(self) -> bool:
        return '"can_weigh": true' in self.asked("/health", 882, seconds=3)

    def weigh(self, key: str = "", port: int = 880, seconds: float = 10) -> str:
        """Weigh a first of a plate of its own. Return the answer."""
        if not key:
            self.keys += 1
            key = f"T{self.keys}"
        body = f"key={key}&kind=first&plate={key}"
        return self.asked("/weighings", port, body, seconds)

    def gross(self, slip: str) -> str:
        """Return the gross of a slip, or the first line of any other answer."""
        lines = slip.splitlines() or [""]
        if not lines[0].startswith("WEIGHING SLIP"):
            return lines[0]
        return next((line.split()[-2] for line in lines if line.startswith("G ")), slip)

    def check(self) -> str:
        words = f"runuser -u weighbridge -- weighbridge check --file {JOURNAL}"
        return self.machine.said(*words.split())


def set_up(bridge: Bridge) -> None:
    """Install the packages, calibrate, and set the bridge up by the page."""
    machine = bridge.machine
    debs = sorted(it.name for it in machine.root.glob("*.deb"))
    quiet = ("env", "DEBIAN_FRONTEND=noninteractive")
    machine.does(*quiet, "dpkg", "--install", *(f"/{it}" for it in debs))
    machine.does("chown", "weighbridge:weighbridge", FOLDER)
    machine.does("chmod", "0700", FOLDER)
    to_converter = "runuser -u weighbridge-converter -- weighbridge-converter".split()
    for counts, tenths in ((0, 0), (100_000, 10_000)):
        words = f"point --calibration {CALIBRATION} --load {tenths} --spread 0".split()
        machine.does(*to_converter, *words, given=f"{counts}\n" * 50)
    machine.does(*to_converter, "finish", "--calibration", CALIBRATION)
    for name, old, new in (
        (
            "weighbridge-converter.conf",
            "WEIGHBRIDGE_READER=",
            "WEIGHBRIDGE_READER=\"iio --folder '/srv/device' --channel in_voltage0_raw --pace 10\"\n",
        ),
        (
            "weighbridge.conf",
            "#WEIGHBRIDGE_SETUP=",
            'WEIGHBRIDGE_SETUP="--interval 20 --max 60000 --serial WB01 --pace 10 --window 10 --retention 90 --capacity 100000"\n',
        ),
    ):
        path = machine.root / "etc" / name
        lines = path.read_text().splitlines(keepends=True)
        path.write_text("".join(new if line.startswith(old) else line for line in lines))
    bridge.load(0)
    machine.does("systemctl", "enable", *UNITS)


@contextmanager
def changed(machine: Machine, unit: str, line: str) -> Iterator[None]:
    """Change one setting of a unit for a while. It holds from the next start on."""
    folder = f"/run/systemd/system/{unit}.service.d"
    machine.does("mkdir", "-p", folder)
    machine.does("sh", "-c", f'printf "[Service]\\n%s\\n" "{line}" >{folder}/now.conf')
    machine.does("systemctl", "daemon-reload")
    try:
        yield
    finally:
        machine.does("rm", "-r", folder)
        machine.does("systemctl", "daemon-reload")


def built(name: str, folder: Path) -> Path:
    """Return the package that this script of packaging/ builds."""
    ran = subprocess.run([TOP / "packaging" / name, folder], capture_output=True, text=True)
    if ran.returncode:
        fail(f"packaging/{name}: {ran.stderr[-500:]}")
    return Path(ran.stdout.strip())


def is_repaired(device: str) -> bool:
    """Repair a disk as a start does. Return False if it can't be repaired, or is still in use."""
    return subprocess.run(["e2fsck", "-p", device], capture_output=True).returncode in (0, 1)


class UnitsInTrouble(Check):
    """The packages on a machine that fails around them."""

    needs = (
        "root",
        "mmdebstrap",
        "unshare",
        "nsenter",
        "losetup",
        "mkfs.ext4",
        "strace",
        "dpkg-deb",
        "dh",
    )
    slow = True
    seconds = 900
    bridge: Bridge
    work: Path
    device: str

    @classmethod
    def setUpClass(cls) -> None:
        if groups_of_this_machine() is None:
            raise unittest.SkipTest("no control group limits memory here")
        cls.work = Path(cls.enterClassContext(tempfile.TemporaryDirectory(prefix="units-")))
        debs = [built(name, cls.work) for name in ("build", "build_counter")]
        tar = os.environ.get("WEIGHBRIDGE_TROUBLE_ROOT")
        root = cls.work / "root"
        root_of(Path(tar) if tar else None, root, NEEDED.split(), debs)
        (root / FOLDER.lstrip("/")).mkdir(parents=True)
        cls.device = cls.enterClassContext(disk(cls.work / "disk", 600))
        cls.bridge = Bridge(cls.enterClassContext(Machine(root, {FOLDER: cls.device})))
        set_up(cls.bridge)
        cls.bridge.machine.does("systemctl", "start", *UNITS)

    @classmethod
    def tearDownClass(cls) -> None:
        cls.bridge.machine.does("systemctl", "stop", *UNITS)
        same("the journal is sound at last", "SOUND", cls.bridge.check().split()[0])

    def setUp(self) -> None:
        """Put a vehicle on the bridge, with which each part begins."""
        self.bridge.comes(A)

    def logs(self, what: str, words: str, seconds: float, unit: str = "weighbridge") -> None:
        """Show that the log of a unit has these words within a time."""
        self.comes(what, lambda: words in self.bridge.machine.log_of(unit), seconds)

    def test_after_a_power_cut(self) -> None:
        """Cut the machine's power with a vehicle on the bridge, and start it again."""
        bridge = self.bridge
        self.same("a vehicle is weighed", str(A), bridge.gross(bridge.weigh("CUT")))
        bridge.machine.cut_off()
        bridge.machine.start()
        bridge.shows(A)
        self.becomes("it weighs automatically after a power cut", True, bridge.can_weigh, 60)
        health = bridge.asked("/health", 882)
        self.holds("the counter says that nobody set zero", '"known": false' in health, health)
        self.same("what was answered is stored", str(A), bridge.gross(bridge.weigh("CUT")))

    def test_many_keys(self) -> None:
        """Start the service over a journal as great as it may become."""
        bridge, machine = self.bridge, self.bridge.machine
        machine.does("systemctl", "stop", "weighbridge")
        path = self.work / "great.db"
        make_journal(str(path), ENTRIES + KEYS)
        spend(str(path), KEYS)
        machine.does("sh", "-c", f"mkdir {FOLDER}/kept && mv {JOURNAL}* {FOLDER}/kept/")
        shutil.copy(path, machine.root / "srv/great.db")
        install = f"install -m 0600 -o weighbridge -g weighbridge /srv/great.db {JOURNAL}"
        machine.does(*install.split())
        began = time.monotonic()
        machine.does("systemctl", "start", "weighbridge")
        took = time.monotonic() - began
        most = machine.most_memory_of("weighbridge.service")
        self.holds("the start is over within half the unit's time", took < START_WITHIN / 2, took)
        self.holds("and within half the unit's memory", most < MEMORY / 2, most)
        print(f"started in {took:.1f} s, with at most {most / 1e6:.0f} MB", flush=True)
        self.same("it is the first try", 0, machine.tries_of("weighbridge"))
        bridge.comes(A)
        refused = bridge.gross(bridge.weigh())
        self.same("the refusal says that no place is left", "refused 14 journal_full", refused)
        self.with_little_memory()
        machine.does("systemctl", "stop", "weighbridge")
        self.same("the journal is sound", f"SOUND {ENTRIES}", bridge.check())
        machine.does(
            "sh", "-c", f"rm {JOURNAL}* && mv {FOLDER}/kept/* {FOLDER}/ && rmdir {FOLDER}/kept"
        )
        machine.does("systemctl", "start", "weighbridge")
        bridge.shows(A)

    def with_little_memory(self) -> None:
        """Give the service less memory than it needs for the great journal."""
        bridge, machine = self.bridge, self.bridge.machine
        with changed(machine, "weighbridge", "MemoryMax=48M"):
            machine.run("systemctl", "restart", "--no-block", "weighbridge")
            self.logs("with too little memory it is ended", "killed", 60)
            self.comes("it is tried again", lambda: machine.tries_of("weighbridge"), 60)
            self.same("the counter says that it can't weigh", False, bridge.can_weigh())
        machine.run("systemctl", "restart", "--no-block", "weighbridge")
        bridge.shows(A)
        self.becomes("with its memory it comes back automatically", True, bridge.can_weigh, 60)

    def test_slow_start(self) -> None:
        """Let a start stand still before it says that it serves."""
        bridge, machine = self.bridge, self.bridge.machine
        with changed(machine, "weighbridge", "TimeoutStartSec=10"):
            machine.does("systemctl", "stop", "weighbridge")
            machine.run("systemctl", "start", "--no-block", "weighbridge")
            self.comes("a start", lambda: machine.process_of("weighbridge"), 10)
            machine.signal(machine.process_of("weighbridge"), "STOP")
            self.logs("a start that stands still is ended", "start operation timed out", 40)
            bridge.shows(A)
            state = functools.partial(machine.shown, "weighbridge", "ActiveState", "NRestarts")
            self.becomes("and tried again", "active 1", state)
        self.becomes("the counter weighs", True, bridge.can_weigh, 30)

    def test_disk_without_writing(self) -> None:
        """Let Linux make the disk read-only, as after a fault of the disk, and start the machine again."""
        bridge, machine = self.bridge, self.bridge.machine
        self.same("a vehicle before", str(A), bridge.gross(bridge.weigh("BEFORE")))
        bridge.comes(A)
        machine.does("mount", "-o", "remount,abort", FOLDER)
        answers = {bridge.gross(bridge.weigh("READONLY")) for _ in range(3)}
        print(f"over a disk that is read-only: {sorted(answers)}", flush=True)
        self.same("nothing is said to be stored", set(), {it for it in answers if it.isdigit()})
        by_counter = bridge.gross(bridge.weigh(port=882))
        self.same("the counter refuses too", "refused 15 store", by_counter)
        self.same("the counter says that it can't weigh", False, bridge.can_weigh())
        self.logs("the log names the file", JOURNAL, 0)
        machine.cut_off()
        self.becomes("the disk is repaired at the start", True, lambda: is_repaired(self.device))
        machine.start()
        bridge.comes(A)
        self.becomes("the counter weighs", True, bridge.can_weigh, 60)
        self.same("the same key is weighed then", str(A), bridge.gross(bridge.weigh("READONLY")))
        self.same("what was before is still there", str(A), bridge.gross(bridge.weigh("BEFORE")))

    def test_slow_disk(self) -> None:
        """Let each sync of the disk take 20 seconds."""
        bridge = self.bridge
        process = bridge.machine.seen_from_here(bridge.machine.process_of("weighbridge"))
        words = ["strace", "-f", "-qq", "-o", "/dev/null", "-p", str(process)]
        words += ["-e", "trace=fsync,fdatasync", "-e", "inject=fsync,fdatasync:delay_enter=20s"]
        slow = subprocess.Popen(words)
        bridge.comes(A)
        began = time.monotonic()
        answer = bridge.weigh("SLOW", seconds=5)
        self.same("an answer is late", "no answer: 28", answer)
        what = "the same key is answered once it is stored"
        self.becomes(what, str(A), lambda: bridge.gross(bridge.weigh("SLOW", seconds=30)), 120)
        self.holds("after more than 20 seconds", time.monotonic() - began > 20)
        slow.terminate()
        slow.wait()
        self.becomes("a disk that is fast again", True, bridge.can_weigh, 60)
        export = bridge.asked("/journal.csv")
        self.same("the key is stored once", 1, export.count(",SLOW,first,"))

    def never_the_former(self, what: str, seconds: float, stop: list[str], *ports: int) -> None:
        """Let processes stand still while vehicle A leaves and B comes. No request may store A's weight then, however soon it comes."""
        bridge, machine = self.bridge, self.bridge.machine
        bridge.comes(A)
        for process in stop:
            machine.does("sh", "-c", f"kill -STOP {process}")
        time.sleep(1)
        bridge.load(0)
        time.sleep(seconds / 2)
        bridge.load(B)
        time.sleep(seconds / 2)
        for process in stop:
            machine.run("sh", "-c", f"kill -CONT {process}")
        found: set[str] = set()
        until = time.monotonic() + 4
        while time.monotonic() < until:
            for port in ports:
                found.add(bridge.gross(bridge.weigh(port=port, seconds=5)))
        print(f"{what}: {sorted(found)}", flush=True)
        others = {it for it in found - {str(B)} if it.isdigit()}
        self.same(f"{what}: no weighing has the weight of the vehicle that left", set(), others)
        bridge.comes(B)
        self.same(f"{what}: the next vehicle is weighed", str(B), bridge.gross(bridge.weigh()))

    def test_standing_still(self) -> None:
        """Let one program after another stand still, and then all of them for a long time."""
        bridge, machine = self.bridge, self.bridge.machine
        service, counter = (
            f"$(systemctl show --property MainPID --value {it})" for it in UNITS[2:]
        )
        reader = "$(pgrep -f '^/usr/bin/python3.*lib/weighbridge/iio')"
        converter = "$(pgrep -x weighbridge-con)"
        for name in (reader, converter):
            processes = machine.said("sh", "-c", f"echo {name}").split()
            self.same(f"{name} is one process", 1, len(processes))
        for what, process, ports in (
            ("the service", service, [880]),
            ("the converter", converter, [880]),
            ("the reader", reader, [880]),
            ("the counter", counter, [880, 882]),
        ):
            self.never_the_former(f"{what}, for 20 s", 20, [process], *ports)
        seconds = many(600)
        before = [machine.process_of(it) for it in UNITS[2:]]
        self.never_the_former(
            f"all, for {seconds:.0f} s", seconds, [service, converter, reader, counter], 880
        )
        for unit, number in zip(UNITS[2:], before):
            self.holds(f"{unit} is another process", machine.process_of(unit) != number)
            self.logs(f"the log of {unit} says why", "Watchdog timeout", 0, unit)
        self.becomes("the counter weighs", True, bridge.can_weigh, 30)
