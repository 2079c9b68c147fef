"""Copies the files of a journal while the service has them open.

SQLite's own online backup can't be used. The service holds the lock of `journal.db` as long as it runs, so SQLite in another process finds the database locked.
It would also have to write a `-shm` file into the journal's folder, and the night may write nothing there.

So the night reads the bytes of all files, and then reads all of them again. It takes the first reading only if the second has the same bytes. Then these
bytes were in all files at one moment, which is the one between the two readings. A byte can't have changed and changed back. The log only grows until it
begins again, and then its header has other salts. `journal.db` changes only at a checkpoint, which lies between two changes of the log. The
files at one moment are what a kill of the service at that moment would have left, and the service promises that a kill loses nothing that it answered.

A reading takes no lock and writes nothing, so the service doesn't notice it.
"""

import errno
import hashlib
import os
import stat
from collections.abc import Callable
from dataclasses import dataclass

from .files import CHUNK, SPARE, Fault, fault_of

# The order of the first reading. The entry that `-newest` names is in the files that are read later.
ENDINGS = ("-newest", "", "-wal")
# A journal in use always has these.
NEEDED = ("", "-wal")
TRIES, PAUSE = 40, 3.0  # seconds
NAME = "journal.db"
READING = (
    "the night's user must be able to read it; see whether weighbridge-night.service was changed"
)
# A night's work has the copy, those that weighbridge and verify.py make of it, and two exports.
ROOM = 5
# The audit trail in a copy, and its most bytes. It grows by some hundred kilobytes a year.
TRAIL_NAME, MOST_OF_A_TRAIL = "audit.jsonl", 256 << 20


@dataclass(frozen=True)
class Seen:
    """A file, as a reading found it."""

    inode: int
    size: int
    digest: str


def read_one(path: str, to: str | None) -> Seen | None:
    """Read a file, and write its bytes to `to`. Return None if there is no such file.

    The night may read every file, so it follows no link that the service's user may have made, and waits for no FIFO. It reads as many bytes as the file has
    when it is opened. The second reading finds what was added.
    """
    try:
        handle = os.open(path, os.O_RDONLY | os.O_NOFOLLOW | os.O_NONBLOCK | os.O_CLOEXEC)
    except FileNotFoundError:
        return None
    except OSError as error:
        if error.errno == errno.ELOOP:
            raise Fault(f"{path}: it is a link; name the file itself in the setup") from None
        raise fault_of(path, error, READING) from None
    with open(handle, "rb") as file:
        about = os.fstat(handle)
        if not stat.S_ISREG(about.st_mode) or about.st_uid != os.stat(os.path.dirname(path)).st_uid:
            raise Fault(f"{path}: it is no file of its folder's owner; see who made it")
        it, left = hashlib.sha256(), about.st_size
        try:
            target = open(to, "wb") if to is not None else None
            try:
                while left > 0 and (chunk := file.read(min(CHUNK, left))):
                    it.update(chunk)
                    left -= len(chunk)
                    if target is not None:
                        target.write(chunk)
            finally:
                if target is not None:
                    target.close()
        except OSError as error:
            raise fault_of(error.filename or to or path, error, READING) from None
    return Seen(about.st_ino, about.st_size - left, it.hexdigest())


def read_all(journal: str, to: str | None) -> list[Seen | None]:
    return [
        read_one(journal + ending, None if to is None else os.path.join(to, NAME + ending))
        for ending in ENDINGS
    ]


def need_room(journal: str, to: str) -> None:
    """Raise a Fault if the disk has no room for a night's work. The service may use the same disk, and must be able to write."""
    sizes = [os.lstat(journal + it).st_size for it in ENDINGS if os.path.lexists(journal + it)]
    needed, about = ROOM * sum(sizes) + SPARE, os.statvfs(to)
    if (free := about.f_bavail * about.f_frsize) < needed:
        raise Fault(
            f"{to}: {free} bytes are free on its disk, and a night's work needs {needed}; make room"
        )


def copy_journal(journal: str, to: str, sleep: Callable[[float], None]) -> int:
    """Copy the journal's files into the folder, all of one moment. Return how many readings that took."""
    # the other files of a journal are in the folder to which a link leads
    journal = os.path.join(os.path.realpath(os.path.dirname(journal)), os.path.basename(journal))
    need_room(journal, to)
    for tried in range(1, TRIES + 1):
        for ending in ENDINGS:
            if os.path.exists(os.path.join(to, NAME + ending)):
                os.unlink(os.path.join(to, NAME + ending))
        first = read_all(journal, to)
        second = read_all(journal, None)
        if first == second:
            for ending, seen in zip(ENDINGS, first):
                if seen is None and ending in NEEDED:
                    raise Fault(
                        f"{journal}{ending}: it isn't there, and a journal in use always has it;"
                        " see whether `journal` in the setup is the service's file"
                    )
            return tried
        if tried < TRIES:
            sleep(PAUSE)
    raise Fault(
        f"{journal}: it changed during each of {TRIES} readings; begin the night at an hour when"
        " nobody weighs, by OnCalendar= of weighbridge-night.timer"
    )


def copy_trail(trail: str, to: str) -> int:
    """Copy the whole lines of the audit trail, and return how many they are. A line that is being added belongs to the next night's copy."""
    path = os.path.join(to, TRAIL_NAME)
    try:
        if (size := os.lstat(trail).st_size) > MOST_OF_A_TRAIL:
            raise Fault(
                f"{trail}: it has {size} bytes, and {MOST_OF_A_TRAIL} are copied; look what fills it"
            )
        if read_one(trail, path) is None:
            raise Fault(f"{trail}: it isn't there any more; see who removed it")
        with open(path, "r+b") as file:
            data = file.read(MOST_OF_A_TRAIL)
            file.truncate(data.rfind(b"\n") + 1)
    except (Fault, OSError):
        if os.path.lexists(path):
            os.unlink(path)
        raise
    return data.count(b"\n")
