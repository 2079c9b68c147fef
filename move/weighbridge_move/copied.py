"""Examines a copy of the night: its files, their checksums, the check of its journal, and its entries."""

import os
import re
import stat
from dataclasses import dataclass, field

from weighbridge_night.copying import TRAIL_NAME
from weighbridge_night.files import Fault, digest_of, fault_of
from weighbridge_night.folder import SUMS
from weighbridge_night.keep import Copy
from weighbridge_night.programs import Programs, printable

from .entries import Journal, NoExport, journal_of, witnessed

WEIGHBRIDGE = "/usr/bin/weighbridge"
CHECKING = 600.0  # seconds
SOUND_LINE = re.compile(r"SOUND (\d{1,10})")
SUM = re.compile(r"([0-9a-f]{64})  ([A-Za-z0-9._-]{1,64})")
JOURNAL = "journal.db"
# The files of a journal, in the order in which they go in place. While the last ones are missing, a start refuses a journal that lacks the entry of `-newest`.
ENDINGS = ("-newest", "-zero", "", "-wal")
NEEDED = {f"{JOURNAL}", f"{JOURNAL}-wal", f"{JOURNAL}-newest"}
KNOWN = NEEDED | {f"{JOURNAL}-zero", "journal.csv", "tickets.csv", TRAIL_NAME}
MOST_BYTES, MOST_FILES = 2 << 30, 20
OTHER = "take another copy, or call your service company"


@dataclass
class Copied:
    """A copy that was examined."""

    path: str
    sums: dict[str, str] = field(default_factory=dict)  # the digest of each file
    sums_digest: str = ""  # of SHA256SUMS itself
    size: int = 0
    entries: int = 0  # that the check counted
    journal: Journal = field(default_factory=Journal)
    greatest: int = 0  # the greatest number that the copy shows, of purged entries too
    is_whole: bool = False  # nothing is wrong with it


def sizes_of(path: str) -> dict[str, int]:
    """Return the size of each file of a copy."""
    found = {}
    try:
        names = sorted(os.listdir(path))
        if len(names) > MOST_FILES:
            raise Fault(f"{path}: it has more than {MOST_FILES} files; {OTHER}")
        for name in names:
            about = os.lstat(os.path.join(path, name))
            if not stat.S_ISREG(about.st_mode):
                raise Fault(f"{path}/{printable(name)}: it is no file; {OTHER}")
            found[name] = about.st_size
    except OSError as error:
        raise fault_of(error.filename or path, error, "run it as root, or see the disk") from None
    return found


def sums_of(path: str, sizes: dict[str, int]) -> dict[str, str]:
    """Return the digests that the copy names, once each file has its own."""
    if sizes.get(SUMS, 0) not in range(1, 65_536):
        raise Fault(f"{path}/{SUMS}: it isn't there, or has no checksums; {OTHER}")
    with open(os.path.join(path, SUMS), encoding="ascii", errors="replace") as file:
        rows = [SUM.fullmatch(it) for it in file.read().splitlines()]
    sums = {it[2]: it[1] for it in rows if it is not None}
    if None in rows or len(sums) != len(rows) or {*sums} != {*sizes} - {SUMS}:
        raise Fault(f"{path}/{SUMS}: it doesn't name the files that are there; {OTHER}")
    if not NEEDED <= {*sums} <= KNOWN:
        odd = sorted(({*sums} - KNOWN) | (NEEDED - {*sums}))
        raise Fault(f"{path}/{odd[0]}: it is missing, or is no file of a copy; {OTHER}")
    for name, digest in sums.items():
        if digest_of(os.path.join(path, name)) != digest:
            raise Fault(f"{path}/{name}: it doesn't fit its checksum in {SUMS}; {OTHER}")
    return sums


def examine(path: str, copy: Copy, programs: Programs) -> tuple[Copied, list[str]]:
    """Return what a copy has, and each fault that was found in it."""
    it = Copied(path)
    try:
        if not copy.is_sound:
            raise Fault(f"{path}: the night called this copy doubtful; {OTHER}")
        sizes = sizes_of(path)
        it.size = sum(sizes.values())
        if it.size > MOST_BYTES:
            raise Fault(f"{path}: it has {it.size} bytes, and {MOST_BYTES} are allowed; {OTHER}")
        if it.size != copy.size:
            raise Fault(
                f"{path}: its files have {it.size} bytes, and its name says {copy.size}; {OTHER}"
            )
        it.sums = sums_of(path, sizes)
        it.sums_digest = digest_of(os.path.join(path, SUMS))
        it.entries = sound(os.path.join(path, JOURNAL), [], programs)
        it.journal = exported(path, programs)
        it.greatest = greatest_of(it, copy)
        it.is_whole = True
    except Fault as why:
        return it, [str(why)]
    except OSError as error:
        return it, [f"{error.filename or path}: {error.strerror}; run it as root, or see the disk"]
    return it, []


def sound(journal: str, before: list[str], programs: Programs) -> int:
    """Return how many entries a sound journal has."""
    ran = programs.run([*before, WEIGHBRIDGE, "check", "--file", journal], CHECKING)
    found = SOUND_LINE.fullmatch(ran.out.strip())
    if ran.status != 0 or found is None:
        said = [one.strip() for one in (ran.out + ran.err).splitlines() if one.strip()]
        last = printable(said[-1]) if said else "nothing"
        raise Fault(
            f"{journal}: weighbridge check printed {last}; {OTHER}, and see troubleshooting.md, A damaged journal"
        )
    return int(found[1])


def exported(path: str, programs: Programs) -> Journal:
    journal = os.path.join(path, JOURNAL)
    words = [WEIGHBRIDGE, "export", "--file", journal, "--what", "journal"]
    ran = programs.run(words, CHECKING)
    if ran.status != 0:
        raise Fault(f"{journal}: weighbridge export failed: {ran.said()}; {OTHER}")
    try:
        return journal_of(ran.out)
    except NoExport as why:
        raise Fault(f"{journal}: weighbridge export: {why}; {OTHER}") from None


def greatest_of(it: Copied, copy: Copy) -> int:
    """Return the greatest number that the copy shows, once its parts agree."""
    newest = it.journal.newest.number if it.journal.newest is not None else 0
    if newest != copy.newest or it.journal.count != it.entries:
        raise Fault(
            f"{it.path}: its name says that the newest entry is {copy.newest}, the check counted {it.entries}"
            f" entries, and the export has {it.journal.count} with the newest {newest}; {OTHER}"
        )
    with open(os.path.join(it.path, f"{JOURNAL}-newest"), "rb") as file:
        named = witnessed(file.read(4096))
    if named is None:
        raise Fault(f"{it.path}/{JOURNAL}-newest: it names no entry; {OTHER}")
    return max(newest, named)
