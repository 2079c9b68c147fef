"""Does the steps of a move. Each step is noted before it begins and after it ended, and a step that is done again does no harm.

A kill may come at any moment. Then the same command finishes the move. A file has a temporary name until it is whole. The journal's files go in place in an order in which a start refuses
each half: `-newest` names the newest entry, and a start refuses a journal that lacks it. If somebody started the service in between, the journal in place has other bytes than the copy, and
this program changes no byte of it.
"""

import os
from collections.abc import Callable

from weighbridge_night.files import (
    SPARE,
    Fault,
    copy_synced,
    digest_of,
    digest_on_disk,
    fault_of,
    remove_folder,
    sync_folder,
)
from weighbridge_night.folder import SUMS

from . import deciding
from .archive import ROOT, Member
from .copied import ENDINGS, JOURNAL, OTHER, sound
from .deciding import BEGIN, Asked, Seen, next_step
from .editing import CONF, COUNTER, EDITED, NoEdit, edited, uses_converter
from .looking import ASKING, FOLDER, STAGED, STOPPED, SYSTEMCTL
from .report import report_of
from .state import STATE, State
from .world import FULL, World, at, make_folder, put

RUNUSER = "/usr/sbin/runuser"
STARTING = 150.0  # seconds
SERVICE, CONVERTER, COUNTER_UNIT = "weighbridge", "weighbridge-converter", "weighbridge-counter"
AGAIN = "then run the same command again"
USER = ("weighbridge", "weighbridge")


def setups_of(asked: Asked, seen: Seen) -> tuple[list[Member], list[str]]:
    """Return the settings as they go in place, and each fault of them."""
    members, faults = [], []
    assert seen.archive is not None
    for it in seen.archive.members.values():
        if asked.command == BEGIN and it.path in EDITED and seen.plate is not None:
            try:
                text = edited(it.path, it.data.decode("utf-8"), seen.plate.serial, asked.serial)
            except (NoEdit, UnicodeDecodeError) as why:
                faults.append(
                    f"/{it.path}: {why}; leave it out by --without {it.path}, and set it up by hand"
                )
                continue
            it = Member(it.path, text.encode(), it.user, it.group, it.mode, it.package)
        members.append(it)
    return members, faults


def choice_of(asked: Asked, seen: Seen) -> dict[str, object]:
    """Return what a move can't change any more, once it began."""
    return {
        "command": asked.command,
        "copy": seen.copy.name,
        "sums": seen.copied.sums_digest,
        "last": asked.last,
        "serial": asked.serial,
        "old": seen.plate.serial if seen.plate is not None else "",
        "keep": asked.keep,
    }


class Move:
    """A move whose decision allows it."""

    def __init__(self, asked: Asked, seen: Seen, world: World, state: State) -> None:
        self.asked, self.seen, self.world, self.state = asked, seen, world, state
        self.folder = at(world, STATE)
        self.members, _ = setups_of(asked, seen)

    def run(self) -> str:
        """Do each step that isn't done. Return the report."""
        acts: dict[str, Callable[[], str]] = {
            deciding.KEEP: self.keep,
            deciding.SETTINGS: self.settings,
            deciding.RELOAD: self.reload,
            deciding.JOURNAL: self.journal,
            deciding.CHECK: self.check,
            deciding.REPORT: self.report,
            deciding.START: self.start,
            deciding.COUNTER: self.counter,
        }
        make_folder(self.world, STATE, 0o700)
        while (step := next_step(self.asked.command, self.state.done)) is not None:
            self.state.begin(self.folder, step)
            words = acts[step]()
            self.world.say(f"{step}: {words}")
            self.state.end(self.folder, step)
        self.report()  # again, with the notes of the last steps
        self.state.close(self.folder, self.world.now())
        return self.text()

    def keep(self) -> str:
        """Keep a second copy as evidence."""
        make_folder(self.world, self.asked.keep, 0o700)
        name = self.seen.copy.name
        target = os.path.join(at(self.world, self.asked.keep), name)
        new = os.path.join(at(self.world, self.asked.keep), f"{STAGED}{name}")
        sums = {**self.seen.copied.sums, SUMS: self.seen.copied.sums_digest}
        try:
            if os.path.lexists(new):
                remove_folder(new)  # of a move that was killed
            if os.path.lexists(target):
                compare(target, sums)
                return f"{self.asked.keep}/{name} is there"
            os.mkdir(new, 0o700)
            for it in sums:
                copy_synced(os.path.join(self.seen.copied.path, it), os.path.join(new, it))
            sync_folder(new)
            compare(new, sums)
            os.rename(new, target)
            sync_folder(os.path.dirname(target))
        except OSError as error:
            raise fault_of(error.filename or target, error, f"{FULL}, {AGAIN}") from None
        return f"{self.asked.keep}/{name} is a second copy, as evidence"

    def settings(self) -> str:
        """Put the settings in place, and keep the former files."""
        count = 0
        for it in self.members:
            owner = self.world.ids(it.user, it.group)
            if owner is None:
                raise Fault(f"/{it.path}: its user {it.user} is gone; install {it.package}")
            place = at(self.world, it.path)
            own = it.path.startswith("etc/weighbridge-head-office/")
            make_folder(self.world, os.path.dirname(it.path), 0o700 if own else 0o755)
            if it.user != ROOT:
                self.own_folder(os.path.dirname(place), owner)
            if os.path.lexists(place):
                if os.path.islink(place) or not os.path.isfile(place):
                    raise Fault(f"/{it.path}: it is no file; move it away, {AGAIN}")
                self.save(it, place)
            put(self.world, it.path, it.data, owner, it.mode)
            count += 1
        return f"{count} files are in place"

    def own_folder(self, folder: str, owner: tuple[int, int]) -> None:
        """Give a folder of a user to that user. A package makes some only at the first start of its unit."""
        try:
            if os.stat(folder).st_uid != owner[0]:
                os.chown(folder, *owner, follow_symlinks=False)
                os.chmod(folder, 0o700)
        except OSError as error:
            raise fault_of(folder, error, f"see who made it, {AGAIN}") from None

    def save(self, it: Member, place: str) -> None:
        """Keep what a file had before the move."""
        with open(place, "rb") as file:
            data = file.read()
        path = f"{STATE}/before/{it.path}"
        if data != it.data and not os.path.lexists(at(self.world, path)):
            make_folder(self.world, os.path.dirname(path), 0o700)
            put(self.world, path, data, (os.getuid(), os.getgid()), 0o600)

    def reload(self) -> str:
        self.systemctl(["daemon-reload"], ASKING)
        return "systemd has read its units again"

    def journal(self) -> str:
        """Put the copy's journal in place."""
        owner = self.world.ids(*USER)
        if owner is None:
            raise Fault("weighbridge: there is no such user; install the package weighbridge")
        if self.is_active() not in STOPPED:
            raise Fault(f"{SERVICE}: it runs; run `systemctl disable --now {SERVICE}`, {AGAIN}")
        folder, sums = at(self.world, FOLDER), self.seen.copied.sums
        names = [it for it in (f"{JOURNAL}{one}" for one in ENDINGS) if it in sums]
        for name in sorted(os.listdir(folder)):
            place = os.path.join(folder, name)
            if not name.startswith(STAGED) and (
                name not in names or not os.path.isfile(place) or digest_of(place) != sums[name]
            ):
                raise Fault(
                    f"{FOLDER}/{name}: it isn't the copy's, so somebody started the service meanwhile. It stays as it is;"
                    " call your service company, because weighings may be in it"
                )
        try:
            for name in names:
                self.stage(name, owner)
            for name in names:
                os.rename(os.path.join(folder, f"{STAGED}{name}"), os.path.join(folder, name))
                sync_folder(folder)
        except OSError as error:
            raise fault_of(error.filename or folder, error, f"{FULL}, {AGAIN}") from None
        return f"{len(names)} files of {self.seen.copy.name} are in {FOLDER}"

    def stage(self, name: str, owner: tuple[int, int]) -> None:
        """Copy a file of the journal next to its place, under a temporary name."""
        new = os.path.join(at(self.world, FOLDER), f"{STAGED}{name}")
        if os.path.lexists(new):
            os.unlink(new)  # of a move that was killed
        copy_synced(os.path.join(self.seen.copied.path, name), new)
        os.chown(new, *owner, follow_symlinks=False)
        if digest_on_disk(new) != self.seen.copied.sums[name]:
            raise Fault(f"{new}: it doesn't fit its checksum; {OTHER}, {AGAIN}")

    def check(self) -> str:
        """Check the journal in place, as the service's user."""
        path = os.path.join(at(self.world, FOLDER), JOURNAL)
        found = sound(path, [RUNUSER, "-u", USER[0], "--"], self.world.programs)
        if found != self.seen.copied.entries:
            raise Fault(
                f"{FOLDER}/{JOURNAL}: it has {found} entries, and the copy {self.seen.copied.entries}; don't start the"
                " service, and call your service company"
            )
        return f"SOUND {found}, as in the copy"

    def start(self) -> str:
        """Start the service, and the converter if it is used."""
        conf = self.text_of(CONF)
        units = [CONVERTER, SERVICE] if uses_converter(conf) else [SERVICE]
        self.systemctl(["enable", "--now", *units], STARTING)
        if (state := self.is_active()) != "active":
            raise Fault(
                f"{SERVICE}: it is {state}; see `journalctl -u {SERVICE}` and troubleshooting.md,"
                f" The service doesn't start, {AGAIN}"
            )
        return f"{' and '.join(units)} run, and start with this machine from now on"

    def counter(self) -> str:
        """Start the counter, if the lost machine had one. The bridge weighs without it, so its failure is only noted."""
        if not self.text_of(COUNTER):
            return "the settings have none"
        try:
            self.systemctl(["enable", "--now", COUNTER_UNIT], STARTING)
        except Fault as why:
            self.state.notes = [f"The counter doesn't run: {why}"]
            return str(why)
        return "the clerk's page is at http://127.0.0.1:882/ on this machine"

    def is_active(self) -> str:
        ran = self.world.programs.run([SYSTEMCTL, "is-active", SERVICE], ASKING)
        return ran.out.strip() or "not there"

    def systemctl(self, words: list[str], seconds: float) -> None:
        ran = self.world.programs.run([SYSTEMCTL, *words], seconds)
        if ran.status != 0:
            raise Fault(
                f"systemctl {' '.join(words)}: {ran.said()}; see `journalctl -u {SERVICE}`, {AGAIN}"
            )

    def text_of(self, path: str) -> str:
        found = [it.data for it in self.members if it.path == path]
        return found[0].decode("utf-8", "replace") if found else ""

    def text(self) -> str:
        has = {it.path for it in self.members}
        return report_of(self.asked, self.seen, self.state.began, has, self.state.notes)

    def report(self) -> str:
        """Write the report for the operator and the inspector."""
        make_folder(self.world, self.asked.keep, 0o700)
        path = report_path(self.asked, self.seen)
        put(self.world, path, self.text().encode(), (os.getuid(), os.getgid()), 0o600)
        return f"{path} is for the inspector"


def report_path(asked: Asked, seen: Seen) -> str:
    own = seen.plate.serial if seen.plate is not None else "bridge"
    return f"{asked.keep}/move-{asked.serial or own}-{seen.copy.name}.txt"


def compare(folder: str, sums: dict[str, str]) -> None:
    """Raise a Fault unless a folder has these files with these digests."""
    if sorted(os.listdir(folder)) != sorted(sums):
        raise Fault(f"{folder}: it has other files than the copy; move it away, {AGAIN}")
    for name, digest in sums.items():
        if digest_on_disk(os.path.join(folder, name)) != digest:
            raise Fault(f"{folder}/{name}: it doesn't fit its checksum; move it away, {AGAIN}")


def need_room(asked: Asked, seen: Seen, world: World) -> list[str]:
    """Return the folders whose disk has no room. A new journal and others need some too."""
    found, needed = [], 2 * seen.copied.size + SPARE
    for path in (FOLDER, asked.keep):
        place = at(world, path)
        while not os.path.isdir(place):
            place = os.path.dirname(place)
        about = os.statvfs(place)
        if (free := about.f_bavail * about.f_frsize) < needed:
            found.append(
                f"{path}: {free} bytes are free on its disk, and {needed} are needed; make room"
            )
    return found
