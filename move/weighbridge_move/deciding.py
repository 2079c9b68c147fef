"""Decides whether a move may begin, and what its next step is. There is no clock, disk or program here."""

from dataclasses import dataclass, field
from datetime import datetime

from weighbridge_night.keep import Copy

from .archive import Archive
from .copied import Copied
from .editing import SERIAL, Plate

CONTINUE, BEGIN = "continue", "begin"
KEEP, SETTINGS, RELOAD, JOURNAL, CHECK, REPORT, START, COUNTER = (
    "keep",
    "settings",
    "reload",
    "journal",
    "check",
    "report",
    "start",
    "counter",
)
# The journal goes in place as the last thing before the start, and the report is there before anything weighs.
STEPS = {
    CONTINUE: [SETTINGS, RELOAD, REPORT, JOURNAL, CHECK, START, COUNTER],
    BEGIN: [KEEP, SETTINGS, RELOAD, REPORT, START, COUNTER],
}
VERSIONS, INSTRUMENT = "versions", "instrument"
MOST_NUMBER = 4_294_967_295
MOMENT = "%Y-%m-%d %H:%M:%S UTC"
DEMO = "DEMO"


@dataclass(frozen=True)
class Asked:
    """The words of the operator."""

    command: str
    folder: str
    last: int | None = None
    nothing_later: bool = False
    serial: str = ""
    settings: str | None = None
    no_settings: bool = False
    accept: frozenset[str] = frozenset()
    without: frozenset[str] = frozenset()
    keep: str = "/srv/kept"


@dataclass
class Seen:
    """The findings on the disk and on this machine."""

    now: datetime
    is_root: bool
    copy: Copy
    copied: Copied
    copies: list[Copy] = field(default_factory=list)  # the newest first
    contradicting: list[Copy] = field(default_factory=list)
    archive: Archive | None = None
    archive_path: str | None = None
    plate: Plate | None = None  # of the setup that will be in force
    versions_here: dict[str, str] = field(default_factory=dict)
    journal_there: list[str] = field(default_factory=list)  # names in the journal's folder
    running: list[str] = field(default_factory=list)  # units
    used: set[str] = field(default_factory=set)  # names that may have been serials
    faults: list[str] = field(default_factory=list)  # of what was read
    local: str = ""  # the moment of the copy on the clock of this machine, if it isn't in UTC

    @property
    def greatest(self) -> int:
        """Return the greatest number that any copy shows."""
        return max([self.copied.greatest, *(it.newest for it in self.contradicting)])

    @property
    def serials(self) -> set[str]:
        """Return each name that may have been a serial."""
        own = {self.plate.serial} if self.plate is not None else set()
        return self.copied.journal.serials | self.used | own | {DEMO}


def missing(greatest: int, last: int | None) -> str:
    """Return which numbers are known to be missing."""
    if last is None or last <= greatest:
        return "none is known"
    count = last - greatest
    if count == 1:
        return f"{last} (1 number)"
    return f"{greatest + 1} to {last} ({count} numbers)"


def next_serial(seen: Seen) -> str:
    """Return a serial that the copy and the setup don't have."""
    newest = seen.copied.journal.newest
    own = seen.plate.serial if seen.plate is not None else newest.serial if newest else "WB01"
    taken = {it.upper() for it in seen.serials}
    base = own[:15]
    for letter in "BCDEFGHIJKLMNOPQRSTUVWXYZ":
        if f"{base}{letter}" not in taken:
            return f"{base}{letter}"
    return ""


def wrong_words(asked: Asked) -> list[str]:
    """Return each mistake that the arguments show without the disk."""
    found = []
    if asked.last is not None and not 0 <= asked.last <= MOST_NUMBER:
        found.append(f"--last {asked.last}: a number is 0 to {MOST_NUMBER}; give the greatest one")
    if asked.command == BEGIN and not SERIAL.fullmatch(asked.serial):
        found.append(
            f"--serial {ascii(asked.serial)[1:-1]}: a serial has 1 to 16 characters of A-Z and 0-9; give the old one with"
            " a letter behind it, as WB01B"
        )
    if asked.settings is not None and asked.no_settings:
        found.append("--settings and --no-settings: they contradict each other; give one of them")
    if not asked.keep.startswith("/") or ".." in asked.keep.split("/"):
        found.append(f"--keep {ascii(asked.keep)[1:-1]}: give a path from / on, without ..")
    return found


def wrong_machine(asked: Asked, seen: Seen, is_placed: bool) -> list[str]:
    """Return each thing of this machine that stops the move."""
    found = []
    if not is_placed:
        if seen.journal_there:
            found.append(
                f"/var/lib/weighbridge: it has {', '.join(seen.journal_there[:5])} already; this program changes no"
                " journal. Stop the service, and move these files into another folder"
            )
        for it in seen.running:
            found.append(f"{it}: it runs on this machine; run `systemctl disable --now {it}`")
    newest = seen.copied.journal.newest
    latest = max([seen.copy.moment, *([newest.moment] if newest is not None else [])])
    if seen.now < latest:
        found.append(
            f"the clock: it shows {seen.now.strftime(MOMENT)}, which is before {latest.strftime(MOMENT)} of the copy;"
            " set it by timedatectl, because the service refuses each weighing until that time"
        )
    if seen.archive is not None and not asked.no_settings and VERSIONS not in asked.accept:
        found += wrong_versions(seen.archive.versions, seen.versions_here)
    return found


def wrong_versions(there: dict[str, str], here: dict[str, str]) -> list[str]:
    todo = f"or, if the supplier says that it fits, add --accept {VERSIONS}"
    if not there:
        return [
            "version.txt: the archive has none, so nobody knows the versions of the lost machine; ask who installed"
            f" it, {todo}"
        ]
    return [
        f"{name}: the lost machine had {version}, and this one has {here.get(name) or 'none'}; install {version},"
        f" {todo}"
        for name, version in sorted(there.items())
        if here.get(name) != version
    ]


def wrong_instrument(asked: Asked, seen: Seen) -> list[str]:
    """Return where the setup and the newest entry are of two instruments."""
    newest, plate = seen.copied.journal.newest, seen.plate
    if newest is None or plate is None:
        return []
    if INSTRUMENT in asked.accept:
        if asked.command == CONTINUE and plate.serial != newest.serial:
            # the numbers that follow may have been given under that serial
            return [
                f"--accept {INSTRUMENT}: the setup has the serial {plate.serial}, and entry {newest.number} of the copy has"
                f" {newest.serial}, so numbers could be given twice; use `weighbridge-move begin`"
            ]
        return []
    pairs = [
        ("--serial", plate.serial, newest.serial),
        ("--interval", str(plate.interval), str(newest.interval)),
        ("--max", str(plate.most), str(newest.most)),
    ]
    return [
        f"{option}: the setup has {own}, and entry {newest.number} of the copy has {other}; they are of two bridges, or"
        f" it was changed later. Give the right archive by --settings, or add --accept {INSTRUMENT}"
        for option, own, other in pairs
        if own != other
    ]


def wrong_number(asked: Asked, seen: Seen) -> list[str]:
    """Return what forbids the copy to continue, or the new journal to begin, by numbers and serials. A number is never given twice."""
    if not seen.copied.is_whole:
        return []
    newest, found = seen.copied.greatest, []
    other = "use `weighbridge-move begin`"
    if asked.last is not None and asked.last < seen.greatest:
        found.append(
            f"--last {asked.last}: the copies on the disk show number {seen.greatest} already; look again, and give the"
            " greatest number that anybody knows"
        )
    if asked.command == CONTINUE:
        for it in seen.contradicting[:20]:
            found.append(
                f"{it.name}: this copy shows that {it.newest or 'an unknown number'} was stored, and the chosen one"
                f" ends with {newest}; {other}"
            )
        if asked.last is None:
            found.append(
                "--last: it is missing; give the greatest number on any slip, ticket, till or at the head office"
            )
        elif asked.last > newest:
            found.append(
                f"--last {asked.last}: the copy ends with {newest}, so these are missing: {missing(newest, asked.last)}."
                f" They would be given twice; {other}"
            )
        if not asked.nothing_later:
            found.append(
                f"--nothing-later: it is missing; give it only if it is certain that nothing was stored after"
                f" {seen.copy.moment.strftime(MOMENT)}. Otherwise {other}"
            )
    if asked.command == BEGIN and asked.serial.upper() in {it.upper() for it in seen.serials}:
        found.append(
            f"--serial {asked.serial}: it was used before, or is the name of a folder of copies; give one that was never"
            f" used, such as {next_serial(seen)}"
        )
    return found


def faults_of(asked: Asked, seen: Seen, is_placed: bool) -> list[str]:
    """Return everything that stops the move. `is_placed` says that this move itself began to put a journal in place, or to start the service."""
    found = [*seen.faults, *wrong_machine(asked, seen, is_placed)]
    found += [*wrong_instrument(asked, seen), *wrong_number(asked, seen)]
    if asked.command in STEPS and not seen.is_root:
        found.append("root: this user can't change the machine; run the command as root")
    return found


def next_step(command: str, done: list[str]) -> str | None:
    """Return the step that comes next. Return None after the last one."""
    return next((it for it in STEPS[command] if it not in done), None)
