"""Shows that after a year of 60,000 weighings the program, both verifiers and each copy agree. The year has two
power cuts, a full disk, a changed USB disk and a dead PC.

The service runs under a clock that the check sets, and reads loads of a played converter at a thousand lines a second. Each
working day has pairs, Singles, voids, and requests that are repeated because their answer was lost. The check records each
answer. On the evening of each working day, the steps of `weighbridge-night` copy the journal into a folder and onto a USB disk,
and purge it. Then the alarm looks twice. The PC is a tmpfs, and each USB disk is an ext4 file system in a loop device.

- Two power cuts come amid a weighing. They leave the files as a disk may leave them. No answered entry is missing.
- In spring another USB disk with the same label comes, a night after the first one was unplugged.
- One day the PC's disk fills up until a weighing is refused. It is stored once there is space again.
- In autumn the PC dies in the middle of a day. `weighbridge-move` refuses to continue with the numbers that were lost, and
  names them. It begins a journal with a new serial on another PC.
- The alarm begins and ends a fault at the full disk and at the missing USB disk, and has no other fault in the year.
- At the end, `weighbridge check`, `verify.py` and `verify.c` find nothing wrong in the journal and in each copy that is kept.
  Each has exactly the entries that were answered until then, except for those that are purged. The rule of 7 days, 5
  weeks, 12 months and 10 years, written again here, gives the same copies. The last line has the times.

Usage: checks/year [--days N] [--weighings M]. N is 300 if it isn't given, and at least 20. M is how many weighings a day has,
200 if it isn't given.
"""

import contextlib
import csv
import glob
import os
import random
import shutil
import subprocess
import tempfile
import threading
import time
import uuid
from dataclasses import dataclass, field, replace
from datetime import date, datetime, timedelta, timezone
from pathlib import Path
from unittest import mock

from weighbridge_alarm.asking import ask as ask_web
from weighbridge_alarm.handing import Hands
from weighbridge_alarm.run import Alarm, begun, read_state
from weighbridge_alarm.setup import read_setup as read_alarm
from weighbridge_alarm.watch import Tick
from weighbridge_alarm.world import RealWorld
from weighbridge_move import copied
from weighbridge_night import night
from weighbridge_night.keep import copies_of, copy_of
from weighbridge_night.last import FAILED, Step
from weighbridge_night.office import RealOffice
from weighbridge_night.programs import RealPrograms
from weighbridge_night.setup import read_setup as read_night

from checks import TOP
from checks.lib import bridge, crash_states
from checks.lib.case import PROGRAM, Check, given
from checks.lib.machines import CONF, Machine, archive, moved
from checks.lib.program import compiled
from checks.lib.second_verifier import Second, lacking, said_by_both
from checks.lib.showing import fail, ok, same
from checks.lib.waiting import wait_until
from checks.lib.year_bridge import LIBRARY, Asked, Bridge, Clock, Entry

BEGIN = datetime(2027, 1, 4, 7, tzinfo=timezone.utc)  # a Monday
SECONDS, SEED = 170.0, 90
LABEL, DISK_BYTES = "WBCOPIES", 1 << 30
# The disk of the PC has this much, and more for each day that is played.
PC_BYTES, PC_BYTES_A_DAY = 160 << 20, 2 << 20
SERIAL, NEXT_SERIAL = "WB01", "WB01B"
# A disk that fills up has this much space left, and the alarm wants more.
LEFT_BYTES, LEAST_MB = 64 << 10, 20
# The rule which copies stay, as docs/operating.md says it.
RULE = ((7, "%Y-%m-%d"), (5, "%G-%V"), (12, "%Y-%m"), (10, "%Y"))
# A copy has at most these bytes, for each entry in it, for each purged one, and for the log.
BYTES_OF_ENTRY, BYTES_OF_SPENT, BYTES_OF_LOG = 1_200, 250, 16 << 20

NIGHT_SETUP = """bridge = "WB01"
purge = true
journal = "{pc}/var/lib/weighbridge/journal.db"
[[to]]
kind = "folder"
path = "{pc}/srv/copies"
most_gb = 1
[[to]]
kind = "disk"
label = "{label}"
path = "{disk}"
most_gb = 1
"""
ALARM_SETUP = """bridge = "WB01"
after_minutes = 1
counter = false
network_time = false
night_file = "{pc}/var/lib/weighbridge-night/last.json"
disks = ["{pc}"]
least_free_mb = {least}
[[to]]
name = "owner"
kind = "mail"
address = "owner@example.com"
from = "bridge@example.com"
program = "{box}/sendmail"
"""


def ran(*words: str) -> str:
    it = subprocess.run(words, capture_output=True, text=True)
    if it.returncode != 0:
        fail(f"{' '.join(words)}: {it.stderr.strip()}")
    return it.stdout.strip()


@dataclass
class Disk:
    """A USB disk with a label, and the names of all copies that were ever stored on it, by their folder."""

    image: str
    device: str = ""
    stored: dict[str, list[str]] = field(default_factory=dict)


class AlarmWorld(RealWorld):
    """This machine with the played clock, and without its own units."""

    def __init__(self, clock: Clock, state: str) -> None:
        super().__init__(RealPrograms(state))
        self.clock = clock

    def tick(self) -> Tick:
        return Tick(self.clock.now, (self.clock.now - BEGIN).total_seconds() + 1000, "year")

    def units(self) -> str:
        return ""

    def made(self) -> datetime:
        return BEGIN


def working_days(count: int) -> list[date]:
    """Return the first working days of the year, which are all days but Sundays."""
    found: list[date] = []
    day = BEGIN.date()
    while len(found) < count:
        if day.isoweekday() != 7:
            found.append(day)
        day += timedelta(days=1)
    return found


def staying(names: list[str]) -> set[str]:
    """Return which of all copies that were ever stored stay, by the rule."""
    found: set[str] = set()
    for count, form in RULE:
        newest: dict[str, str] = {}
        for name in sorted(names):
            it = copy_of(name)
            assert it is not None
            newest[it.moment.strftime(form)] = name
        found.update(newest[it] for it in sorted(newest)[-count:])
    return found


class Year:
    """The PC, its disks, and what happens to them."""

    def __init__(self, box: str, program: str, days: int, weighings: int) -> None:
        self.box, self.program, self.weighings = box, program, weighings
        self.pc, self.mount = os.path.join(box, "pc"), os.path.join(box, "usb")
        self.by_label = os.path.join(box, "by-label")
        self.memory = os.path.join(box, "run")  # of the PC, for the alarm if the disk is full
        self.days = working_days(days)
        self.cuts = {round(days * 0.15), round(days * 0.6)}
        self.spring, self.full, self.dies = round(days * 0.3), round(days * 0.45), round(days * 0.8)
        self.chance = random.Random(SEED)
        for it in (self.pc, self.mount, self.by_label):
            os.mkdir(it)
        self.clock = Clock(box, BEGIN)
        self.follower = self.clock.follow(box, program)
        self.retention = max(5, days // 5)
        self.folder = Disk("")  # the folder of the PC
        self.disk: Disk | None = None
        self.disks: list[Disk] = []
        self.nights: list[float] = []
        self.starts: list[float] = []
        self.histories: dict[str, list[Entry]] = {}
        self.bridges: list[Bridge] = []
        self.machine = self.new_pc()
        write(os.path.join(box, "sendmail"), f"#!/bin/sh\ncat >>{box}/mails\n", 0o755)
        words = {"pc": self.pc, "disk": self.mount, "label": LABEL, "box": box, "least": LEAST_MB}
        self.settings = {
            "etc/weighbridge.conf": CONF,
            "etc/weighbridge-night.toml": NIGHT_SETUP.format(**words),
            "etc/weighbridge-alarm.toml": ALARM_SETUP.format(**words),
        }
        os.mkdir(os.path.join(self.pc, "etc"))
        for name, text in self.settings.items():
            write(os.path.join(self.pc, name), text, 0o640)
        self.bridge = self.new_bridge(SERIAL)
        self.plug_in(self.new_disk())

    # The machine and its disks.

    def new_pc(self) -> Machine:
        size = PC_BYTES + PC_BYTES_A_DAY * len(self.days)
        ran("mount", "-t", "tmpfs", "-o", f"size={size}", "year", self.pc)
        for it in ("srv/copies", "var/lib/weighbridge-night", "var/lib/weighbridge-alarm"):
            os.makedirs(os.path.join(self.pc, it))
        self.folder = Disk("")
        shutil.rmtree(self.memory, ignore_errors=True)
        os.mkdir(self.memory)
        return Machine(self.pc, lambda: self.clock.now)

    def new_bridge(self, serial: str) -> Bridge:
        it = Bridge(self.clock, self.follower, self.machine.journal, serial, self.retention)
        self.histories[serial] = it.entries
        self.bridges.append(it)
        return it

    def new_disk(self) -> Disk:
        it = Disk(os.path.join(self.box, f"disk{len(self.disks)}"))
        with open(it.image, "wb") as file:
            file.truncate(DISK_BYTES)
        ran("mkfs.ext4", "-q", "-L", LABEL, it.image)
        self.disks.append(it)
        return it

    def plug_in(self, it: Disk) -> None:
        """Mount a disk as udev and /etc/fstab do, with an archive of the settings on it."""
        it.device = ran("losetup", "--find", "--show", it.image)
        os.symlink(it.device, os.path.join(self.by_label, LABEL))
        ran("mount", it.device, self.mount)
        name = f"settings-{self.clock.now:%Y-%m-%d}-bridge.tar"
        archive(os.path.join(self.mount, name), self.settings)
        self.disk = it

    def unplug(self) -> None:
        assert self.disk is not None
        ran("umount", self.mount)
        ran("losetup", "--detach", self.disk.device)
        os.unlink(os.path.join(self.by_label, LABEL))
        self.disk = None

    def close(self) -> None:
        """Leave no process, mount or loop device."""
        service = self.bridge.service
        if service is not None and service.process.poll() is None:
            self.bridge.kill()
        if self.disk is not None:
            self.unplug()
        if os.path.ismount(self.pc):
            ran("umount", "--lazy", self.pc)

    # A night.

    def night(self) -> dict[str, Step]:
        """Let the night run, and note each copy that it stored. A step that can't even be noted counts as failed."""
        self.clock.set(self.clock.now.replace(hour=2, minute=35, second=0) + timedelta(days=1))
        state = os.path.join(self.pc, "var/lib/weighbridge-night")
        setup = read_night(os.path.join(self.pc, "etc/weighbridge-night.toml"))
        setup = replace(setup, office=f"{bridge.HOST}:{self.bridge.running.office}")
        steps: dict[str, Step] = {}
        world = night.World(
            lambda: self.clock.now,
            time.sleep,
            RealPrograms(os.path.join(state, "work", "tmp")),
            RealOffice(setup.office),
            lambda it: steps.update({it.step: it}),
            self.by_label,
        )
        wanted, begin = self.bridge.bound(), time.monotonic()
        try:
            is_well = night.Night(setup, state, world).run()
        except OSError as error:
            is_well = False
            steps["night"] = Step("night", FAILED, str(error))
        self.nights.append(time.monotonic() - begin)
        if is_well:
            purged = f"{wanted - self.bridge.purged} entries were purged"
            if (found := steps["purge"].words) != purged:
                fail(f"{self.clock.now}: {found}, and by the rules {purged}")
            self.bridge.purged = wanted
        for place, disk in zip(setup.places, (self.folder, self.disk)):
            step = steps.get(f"store {place.title}")
            if disk is not None and step is not None and step.state == "done":
                disk.stored.setdefault(setup.bridge, []).append(step.words.split(";")[0])
        return steps

    def look(self) -> set[str]:
        """Let the alarm look twice, and return the faults that have begun."""
        state = os.path.join(self.pc, "var/lib/weighbridge-alarm")
        setup = read_alarm(os.path.join(self.pc, "etc/weighbridge-alarm.toml"))
        setup = replace(setup, office=f"{bridge.HOST}:{self.bridge.running.office}")
        hands = Hands(RealPrograms(state), ask_web, lambda: uuid.uuid4().hex)
        for _ in range(2):
            self.clock.wait(90)
            world = AlarmWorld(self.clock, state)
            Alarm(setup, [state, self.memory], world, hands, lambda it: None).run()
        found = read_state([state, self.memory])
        assert found is not None
        return begun(found)

    def quiet_night(self) -> None:
        steps = self.night()
        if failed := [it for it in steps.values() if it.state == FAILED]:
            fail(f"the night of {self.clock.now}: {failed}")
        if found := self.look():
            fail(f"the alarm at {self.clock.now}: {found}")

    # What happens.

    def weigh(self, count: int) -> None:
        self.bridge.day(count, self.chance, SECONDS)

    def power_cut(self) -> None:
        """Weigh with recorded writes, and cut the power in a weighing. Then continue with what a disk may have left."""
        it, journal = self.bridge, self.machine.journal
        it.stop()
        begun_with = [Path(journal + end).read_bytes() for end in ("", "-wal", "-newest")]
        folder = tempfile.mkdtemp(dir=self.box)
        recording = crash_states.Recording(folder, self.follower)
        it.start(recording.program)
        self.weigh(20)
        self.clock.wait(SECONDS)
        asked = it.next("first", f"CUT-{it.count}", 10_000)
        it.drive(asked)
        before = settled(recording)
        waiting = threading.Thread(target=self.ask_in_vain, args=(asked,), daemon=True)
        waiting.start()
        wait_until("a write", recording.count, lambda count: count != before, pause=0.001)
        time.sleep(self.chance.uniform(0.0, 0.003))
        it.kill()
        waiting.join(30)
        total = settled(recording)
        disk, cut = crash_states.Disk(*begun_with), self.chance.randint(before, total)
        for call in recording.calls[:cut]:
            disk.take(call)
        for which, end in (("file", ""), ("log", "-wal"), ("witness", "-newest")):
            Path(journal + end).write_bytes(disk.torn(which, self.chance))
        shutil.rmtree(folder)
        left = ran(self.program, "check", "--file", journal)
        kept = it.newest - it.purged
        when = f"{self.clock.now:%d %B}: a power cut, {cut} writes after the start and {total - cut} before the kill"
        same(f"{when}, leaves {left}", True, left in (f"SOUND {kept}", f"SOUND {kept + 1}"))
        it.start()
        it.store(asked)

    def ask_in_vain(self, asked: Asked) -> None:
        with contextlib.suppress(OSError):
            bridge.post(self.bridge.running, asked.target, asked.body)

    def full_disk(self) -> None:
        """Fill the disk of the PC, weigh until a weighing is refused, and let the night and the alarm find it so."""
        ballast, it = os.path.join(self.pc, "ballast"), self.bridge
        about = os.statvfs(self.pc)
        handle = os.open(ballast, os.O_WRONLY | os.O_CREAT)
        os.posix_fallocate(handle, 0, about.f_bavail * about.f_frsize - LEFT_BYTES)
        os.close(handle)
        for number in range(5000):
            self.clock.wait(2)
            asked = it.next("single", f"FULL-{it.count}", 10_000, "5000")
            it.tare("TA 5000 kg")
            it.drive(asked)
            answer = it.ask(asked)
            it.tare("TAC")
            if answer is None or answer[0] != 201:
                break
            it.note(asked, answer[1])
        what = f"{self.clock.now:%d %B}: the disk is full, and a weighing is refused after {number}"
        same(what, (503, "refused 15 store\n"), answer)
        it.converter.put(0, 12)
        refused = self.clock.now
        steps = self.night()
        failed = sorted(one.step for one in steps.values() if one.state == FAILED)
        found = self.look()
        same("the night fails", True, bool(failed))
        same("the alarm has the full disk", True, f"disk_low {self.pc}" in found)
        print(f"  steps that failed: {failed}; faults of the alarm: {sorted(found)}")
        os.unlink(ballast)
        it.stop()
        self.starts.append(it.start())
        it.tare("TA 5000 kg")
        it.store(asked, former=refused)
        it.tare("TAC")
        it.converter.put(0, 12)

    def change_disk(self) -> None:
        """Unplug the USB disk before a night, and plug in another one before the next."""
        self.unplug()
        steps = self.night()
        failed = [it.step for it in steps.values() if it.state == FAILED]
        same(f"{self.clock.now:%d %B}: the USB disk is missing", [f"store disk {LABEL}"], failed)
        same("which the alarm has", {f"night_step store disk {LABEL}"}, self.look())
        self.plug_in(self.new_disk())

    def pc_dies(self) -> None:
        """Let the PC die after some weighings of a day, and move the bridge to another PC."""
        it = self.bridge
        self.weigh(self.weighings // 2)
        it.kill()
        ran("umount", "--lazy", self.pc)
        self.clock.wait(3 * 3600)
        self.machine = self.new_pc()
        [newest, *_] = copies_of(os.listdir(os.path.join(self.mount, SERIAL)))
        words = f"{newest.newest + 1} to {it.newest} ({it.newest - newest.newest} numbers)"
        last = ("--last", str(it.newest), "--keep", "/srv/kept")
        when = f"{self.clock.now:%d %B}"
        same(f"{when}: the PC is dead, and a look finds a copy", 0, self.move("look")[0])
        status, said = self.move("continue", *last, "--nothing-later")
        same("a move doesn't continue", (1, True), (status, words in said))
        status, said = self.move("begin", "--serial", NEXT_SERIAL, *last)
        same("a move begins a journal", (0, ""), (status, said))
        [path] = glob.glob(os.path.join(self.pc, "srv/kept/move-*.txt"))
        report = Path(path).read_text(encoding="utf-8")
        same(f"its report has `missing: {words}`", True, f"missing: {words}" in report)
        on_site = open_at(it.entries[: newest.newest])
        lines = [f"First {one.number}  {one.plate}" for one in on_site]
        same("and each vehicle on site", [], [line for line in lines if line not in report])
        self.unplug()
        self.plug_in(self.new_disk())
        self.bridge = self.new_bridge(NEXT_SERIAL)
        self.starts.append(self.bridge.start())

    def move(self, command: str, *words: str) -> tuple[int, str]:
        return moved(self.machine, command, self.mount, *words)

    def play(self) -> None:
        for number, day in enumerate(self.days, 1):
            self.clock.set(datetime(day.year, day.month, day.day, 7, tzinfo=timezone.utc))
            if number == 1:
                self.starts.append(self.bridge.start())
            elif day.isoweekday() == 1 or number == len(self.days):
                self.bridge.stop()
                self.starts.append(self.bridge.start())
            if number in self.cuts:
                self.power_cut()
            if number == self.dies:
                self.pc_dies()
            self.weigh(self.weighings)
            if number == self.full:
                self.full_disk()
            elif number == self.spring:
                self.change_disk()
            else:
                self.quiet_night()
            if number == 1 or number % 25 == 0 or number == len(self.days):
                said = f"day {number}, {sum(map(len, self.histories.values()))} entries"
                took = f"the night took {self.nights[-1]:.1f} s"
                print(f"{self.clock.now:%d %B}: {said}; {took}", flush=True)

    # The end.

    def judge(self, journal: str, serial: str, last: int, second: Second) -> int:
        """Fail unless all programs agree on a journal, and it has what was answered up to this number. Return how many entries it has."""
        out = ran(self.program, "export", "--file", journal, "--what", "journal")
        rows = list(csv.reader(out.splitlines()))[1:]
        count = len(rows)
        checked = ran(self.program, "check", "--file", journal)
        same_or_fail(f"{journal}: check", f"SOUND {count}", checked)
        said = said_by_both(second, [journal])
        found = (said.returncode, said.stdout.decode().splitlines()[-1])
        same_or_fail(f"{journal}: both verifiers", (0, f"entries: {count}, faults: 0"), found)
        wanted = [it.fields() for it in self.histories[serial][last - count : last]]
        same_or_fail(f"{journal}: its entries", wanted, [it[:10] for it in rows])
        return count

    def judge_place(self, root: str, disk: Disk, what: str, second: Second) -> None:
        """Judge each copy of a place, and whether those stay that the rule says."""
        for serial, stored in disk.stored.items():
            folder = os.path.join(root, serial)
            found = copies_of(os.listdir(folder))
            names = {it.name for it in found}
            same_or_fail(f"{what}: the copies that stay", staying(stored), names)
            size = 0
            for it in found:
                path = os.path.join(folder, it.name)
                self.judge(os.path.join(path, "journal.db"), serial, it.newest, second)
                rows = Path(path, "journal.csv").read_text(encoding="utf-8").count("\n") - 1
                most = BYTES_OF_ENTRY * rows + BYTES_OF_SPENT * (it.newest - rows) + BYTES_OF_LOG
                if it.size > most:
                    fail(f"{path}: {it.size} bytes, and at most {most} are expected")
                size += it.size
            ok(
                f"{what}: of {len(stored)} copies of {serial} the rule keeps {len(found)}, with {size} bytes"
            )

    def end(self) -> None:
        it = self.bridge
        if it.purged:
            first = it.entries[0]
            body = f"key={first.key}&kind={first.kind}&plate={first.plate}"
            answer = bridge.post(it.running, "/weighings", body)
            same("a purged key is never used again", (410, "refused 2 gone\n"), answer)
        it.stop()
        second = Second(self.box)
        count = self.judge(self.machine.journal, it.serial, it.newest, second)
        same("the journal has what isn't purged", it.newest - it.purged, count)
        self.judge_place(os.path.join(self.pc, "srv/copies"), self.folder, "the folder", second)
        kept = os.path.join(self.pc, "srv/kept")
        for one in copies_of(os.listdir(kept)):
            self.judge(os.path.join(kept, one.name, "journal.db"), SERIAL, one.newest, second)
        for number, disk in enumerate(self.disks, 1):
            if disk is not self.disk:
                self.unplug()
                self.plug_in(disk)
            self.judge_place(self.mount, disk, f"USB disk {number}", second)
        mails = Path(self.box, "mails").read_text(encoding="utf-8").splitlines()
        print("\n".join(it for it in mails if it.startswith("Subject: ")))


def write(path: str, text: str, mode: int) -> None:
    Path(path).write_text(text, encoding="ascii")
    os.chmod(path, mode)


def settled(recording: crash_states.Recording) -> int:
    """Return how many calls were recorded, once strace has written them all."""
    found = -1
    while (count := recording.count()) != found:
        found = count
        time.sleep(0.3)
    return found


def open_at(entries: list[Entry]) -> list[Entry]:
    """Return the Firsts of the vehicles that are on site after these entries."""
    found: dict[str, Entry] = {}
    for it in entries:
        if it.kind == "first":
            found[it.plate] = it
        elif it.kind in ("second", "void"):
            del found[it.plate]
    return [*found.values()]


def same_or_fail(what: str, wanted: object, found: object) -> None:
    """Fail where the two differ, and say nothing where they don't."""
    if wanted != found:
        fail(f"{what}\nwanted: {str(wanted)[:2000]}\nfound:  {str(found)[:2000]}")


class WholeYear(Check):
    """A year of a bridge, from its first working day to the judgement of all copies."""

    needs = (PROGRAM, "root", "strace", "cc", "losetup", "mkfs.ext4")
    options = {"--days": "N", "--weighings": "M"}
    slow = True
    seconds = 2_000

    def test_year(self) -> None:
        why = lacking()
        if not glob.glob(LIBRARY):
            why = "faketime is not installed"
        elif not os.path.exists("/dev/loop-control"):
            why = "there is no /dev/loop-control"
        if why:
            self.skipTest(why)
        days, weighings = int(given.get("days") or 300), int(given.get("weighings") or 200)
        self.assertGreaterEqual(days, 20, "--days")
        self.assertIn(weighings, range(10, 201), "--weighings")
        for module in (night, copied):
            self.enterContext(mock.patch.object(module, "WEIGHBRIDGE", compiled()))
        self.enterContext(mock.patch.object(night, "VERIFY", str(TOP / "inspect" / "verify.py")))
        begin = time.monotonic()
        # in memory, because each copy is synced
        box = self.folder()
        ran("mount", "-t", "tmpfs", "-o", "size=6G", "year", box)
        self.addCleanup(ran, "umount", "--lazy", box)
        it = Year(box, compiled(), days, weighings)
        self.addCleanup(it.close)
        it.play()
        it.end()
        entries = sum(map(len, it.histories.values()))
        repeated = sum(one.repeated for one in it.bridges)
        print(
            f"{days} days, {entries} entries, {time.monotonic() - begin:.0f} s; a night took {it.nights[0]:.1f} s on day 1 and"
            f" {it.nights[-1]:.1f} s on the last day, a start {it.starts[0]:.1f} s and {it.starts[-1]:.1f} s;"
            f" {repeated} answers were lost and asked for again"
        )
