"""One night: each step after the other, and what each needs of those before.

A kill between any two steps, or within one, does no harm. The night only reads the journal. A copy has a temporary name until it is whole, and the next
night removes one that isn't. The next night copies the journal again, so it makes up for all that this one missed.
"""

import csv
import fcntl
import os
import re
from collections.abc import Callable
from dataclasses import dataclass
from datetime import datetime
from typing import Protocol

from .copying import NAME, copy_journal, copy_trail
from .files import Fault, LeftOut, digest_of, fault_of, read_json, remove_folder
from .folder import SUMS, Disk, Folder
from .keep import DOUBTFUL, SOUND, Copy, later, newest_sound, surplus
from .last import DONE, FAILED, LEFT_OUT, Book, Step, cut_off
from .office import Office, purge
from .programs import Programs
from .remote import Remote
from .setup import Place, Setup

WEIGHBRIDGE = "/usr/bin/weighbridge"
VERIFY = "/usr/share/weighbridge/inspect/verify.py"
UNIT = "weighbridge-night"
CHECKING = 600.0  # seconds
SOUND_LINE = re.compile(r"SOUND (\d+)")
EXPORTS = {"journal": "journal.csv", "tickets": "tickets.csv"}


class Keeper(Protocol):
    """A place of copies."""

    def ready(self) -> None:
        """Raise a Fault if no copies can be kept here."""

    def open(self) -> list[str]:
        """Make the place ready, and remove what a night that was killed left. Return what can't be removed."""

    def copies(self) -> list[Copy]:
        """Return the copies, the newest first."""

    def store(self, folder: str, copy: Copy) -> None:
        """Keep this folder as a copy."""

    def remove(self, copy: Copy) -> None:
        """Remove a copy."""


@dataclass
class World:
    """The clock, other programs and the office, as a night asks them."""

    now: Callable[[], datetime]
    sleep: Callable[[float], None]
    programs: Programs
    office: Office
    say: Callable[[Step], None]
    by_label: str = "/dev/disk/by-label"
    trail: str = "/var/lib/weighbridge-audit/trail.jsonl"

    def keeper(self, place: Place, bridge: str) -> Keeper:
        if place.kind == "ssh":
            return Remote(place, bridge, self.programs)
        if place.kind == "disk":
            return Disk(place.path, bridge, place.label, self.by_label)
        return Folder(place.path, bridge)


class Night:
    """Does a night's steps, and notes each."""

    def __init__(self, setup: Setup, state: str, world: World) -> None:
        self.setup, self.state, self.world = setup, state, world
        self.work = os.path.join(state, "work")
        self.folder = os.path.join(self.work, "copy")
        self.journal = os.path.join(self.folder, NAME)
        path = os.path.join(state, "last.json")
        self.cut = cut_off(path)
        places = read_json(path).get("places")
        self.before = places if isinstance(places, dict) else {}
        self.book = Book(path, world.now())
        for it in setup.places:
            if isinstance(former := self.before.get(it.title), dict):
                self.book.last.places[it.title] = former
        self.is_sound = True
        self.newest, self.interval, self.entries = 0, 0, 0
        self.stored = 0  # how many places have this night's copy

    def note(self, step: str, state: str, words: str) -> None:
        self.world.say(self.book.note(step, state, words))

    def step(self, name: str, does: Callable[[], str]) -> bool:
        """Do a step, and note what became of it."""
        try:
            words = does()
        except LeftOut as why:
            self.note(name, LEFT_OUT, str(why))
            return False
        except Fault as fault:
            self.note(name, FAILED, str(fault))
            return False
        except OSError as error:
            at = error.filename or self.state
            self.note(name, FAILED, str(fault_of(str(at), error, "see whether the disk is full")))
            return False
        except Exception as error:  # the other steps and places don't depend on it
            self.note(name, FAILED, f"a mistake of this program: {error!r}; report it")
            return False
        self.note(name, DONE, words)
        return True

    def run(self) -> bool:
        """Do all steps. Return True if nothing fails."""
        try:
            return self.all_steps()
        finally:
            self.clear()

    def clear(self) -> None:
        """Remove what this night made for itself. If that fails, the next night removes it."""
        try:
            if os.path.lexists(self.work):
                remove_folder(self.work)
        except OSError:
            pass

    def all_steps(self) -> bool:
        titles = [it.title for it in self.setup.places]
        known = {"copy", "trail", "check", "verify", "export", "purge"}
        known |= {f"{act} {it}" for it in titles for act in ("store", "thin")}
        if self.step("copy", self.copy):
            if os.path.lexists(self.world.trail):
                self.step("trail", self.copy_trail)  # the journal's copy is sound without it
            # an unsound copy is kept too, under a name that says so
            checked = self.step("check", self.check)
            verified = self.step("verify", self.verify)
            exported = self.step("export", self.export)
            self.is_sound = checked and verified and exported
            copy = self.seal()
            for place in self.setup.places:
                self.keep(place, copy)
        else:
            self.clear()
            for name in ["check", "verify", "export", *(f"store {it}" for it in titles)]:
                self.note(name, LEFT_OUT, "there is no copy of this night")
        self.purge()
        return self.book.end(self.world.now(), known)

    def copy(self) -> str:
        if os.path.lexists(self.work):
            remove_folder(self.work)  # of a night that was killed
        for path in (self.work, self.folder, os.path.join(self.work, "tmp")):
            os.mkdir(path, 0o700)
        try:
            tries = copy_journal(self.setup.journal, self.folder, self.world.sleep)
        except (Fault, OSError):
            self.clear()  # the disk may be full, and the failure has to be noted on it
            raise
        after = f"; the night that began at {self.cut} was cut off" if self.cut else ""
        return f"read twice with the same bytes, at try {tries}{after}"

    def copy_trail(self) -> str:
        return f"{copy_trail(self.world.trail, self.folder)} lines of the audit trail are copied"

    def check(self) -> str:
        words = [WEIGHBRIDGE, "check", "--file", self.journal]
        ran = self.world.programs.run(words, CHECKING)
        if ran.status != 0 or not SOUND_LINE.fullmatch(ran.out.strip()):
            said = ran.out.strip() or ran.said()
            raise Fault(
                f"weighbridge check of this night's copy: {said}; let nobody weigh, and see"
                " troubleshooting.md, A damaged journal"
            )
        self.entries = int(ran.out.split()[1])
        return ran.out.strip()

    def verify(self) -> str:
        ran = self.world.programs.run(["/usr/bin/python3", "-I", VERIFY, self.journal], CHECKING)
        if ran.status != 0:
            said = "; ".join((ran.out + ran.err).strip().splitlines()[:5])
            raise Fault(
                f"verify.py of this night's copy: {said}; see inspection.md, Check a journal on your own machine"
            )
        return "nothing is wrong"

    def export(self) -> str:
        entries = 0
        for what, name in EXPORTS.items():
            words = [WEIGHBRIDGE, "export", "--file", self.journal, "--what", what]
            path = os.path.join(self.folder, name)
            try:
                ran = self.world.programs.run(words, CHECKING, to=path)
                if ran.status != 0:
                    raise Fault(
                        f"weighbridge export --what {what} of this night's copy: {ran.said()};"
                        " see troubleshooting.md, A damaged journal"
                    )
                if what == "journal":
                    entries = self.read_export(path)
            except Fault:
                if os.path.lexists(path):
                    os.unlink(path)  # half an export looks like a whole one
                raise
        if entries != self.entries:
            raise Fault(
                f"weighbridge check of this night's copy counted {self.entries} entries, and its export has {entries};"
                " see troubleshooting.md, A damaged journal"
            )
        return f"{entries} entries, the newest is number {self.newest}"

    def read_export(self, path: str) -> int:
        """Note the newest entry and its interval. Return how many entries there are."""
        entries, newest, interval = 0, 0, 0
        with open(path, encoding="utf-8", newline="") as file:
            try:
                for row in csv.DictReader(file):
                    entries += 1
                    newest, interval = int(row["number"]), int(row["interval_kg"])
            except (KeyError, TypeError, ValueError, csv.Error) as error:
                raise Fault(
                    f"{path}: record {entries} is none of an export ({error!r}); see"
                    " troubleshooting.md, A damaged journal"
                ) from None
        self.newest, self.interval = newest, interval
        return entries

    def seal(self) -> Copy:
        """Write the checksums, and return the copy with its name."""
        names = sorted(os.listdir(self.folder))
        with open(os.path.join(self.folder, SUMS), "w", encoding="ascii") as file:
            for name in names:
                file.write(f"{digest_of(os.path.join(self.folder, name))}  {name}\n")
        size = sum(os.path.getsize(os.path.join(self.folder, it)) for it in [*names, SUMS])
        moment = self.world.now().replace(microsecond=0)
        it = Copy(moment, SOUND if self.is_sound else DOUBTFUL, self.newest, size)
        self.book.last.copy = it.name
        return it

    def keep(self, place: Place, copy: Copy) -> None:
        """Keep the copy at a place, and remove copies there that the rule lets go."""
        keeper = self.world.keeper(place, self.setup.bridge)

        left: list[str] = []

        def store() -> str:
            left.extend(keeper.open())
            former = self.before.get(place.title)
            last = former.get("newest_sound") if isinstance(former, dict) else None
            there = keeper.copies()
            note = (
                f"; the copy of the night before isn't there, so it is another disk or folder, with {len(there)} copies"
                if last and last not in {it.name for it in there}
                else ""
            )
            # a smaller most_gb makes room for this copy
            for it in surplus(there, place.most_bytes, copy):
                keeper.remove(it)
            keeper.store(self.folder, copy)
            return copy.name + note

        if not self.step(f"store {place.title}", store):
            self.note(f"thin {place.title}", LEFT_OUT, "this night's copy isn't there")
            return
        self.step(f"thin {place.title}", lambda: self.thin(place, keeper, copy, left))

    def thin(self, place: Place, keeper: Keeper, own: Copy, left: list[str]) -> str:
        """Remove the copies that don't stay. This night's copy is never one of them."""
        there = keeper.copies()
        gone = surplus(there, place.most_bytes, own)
        for it in gone:
            keeper.remove(it)
        removed = {*gone}
        kept = [it for it in there if it not in removed]
        size, newest = sum(it.size for it in kept), newest_sound(kept)
        self.book.last.places[place.title] = {
            "copies": len(kept),
            "bytes": size,
            "newest_sound": newest.name if newest else None,
        }
        if own not in keeper.copies():
            raise Fault(
                f"{place.title}: this night's copy isn't there any more; see who removed it"
            )
        self.stored += 1
        if odd := later(kept, own):
            raise Fault(
                f"{place.title}: {odd[0].name} is dated after this night; see whether the clock is right, and move"
                " away what is dated wrong"
            )
        if left:
            raise Fault(f"{left[0]}: a killed night left it, and it can't be removed; remove it")
        return f"{len(kept)} copies of {size} bytes stay, {len(gone)} were removed"

    def purge(self) -> None:
        """Ask for a purge, if a sound copy of this night is kept. That copy then has each entry that the purge removes."""
        if not self.setup.purge:
            self.book.last.failing.pop("purge", None)  # nobody wants it any more
            self.note("purge", LEFT_OUT, "the setup has purge = false")
        elif not (self.stored and self.is_sound):
            self.note("purge", LEFT_OUT, "no sound copy of this night is kept")
        elif self.newest == 0:
            self.note("purge", DONE, "nothing was purged, because there is no entry")
        else:
            self.step("purge", lambda: purge(self.world.office, self.interval))


def locked(state: str) -> int | None:
    """Return a handle that holds the night's lock. Return None if another night runs."""
    handle = os.open(os.path.join(state, "lock"), os.O_RDWR | os.O_CREAT, 0o600)
    try:
        fcntl.flock(handle, fcntl.LOCK_EX | fcntl.LOCK_NB)
    except BlockingIOError:
        os.close(handle)
        return None
    return handle
