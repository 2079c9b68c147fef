"""The machine: its clock, users, programs and files. Tests play it."""

import grp
import os
import pwd
from datetime import datetime, timezone
from typing import Protocol

from weighbridge_night.files import Fault, fault_of, sync_folder
from weighbridge_night.programs import Programs, RealPrograms, printable

# The temporary name of a file that isn't whole yet.
NEW = ".weighbridge-move"
# The service's user must be able to write there too, when it checks the journal. $TMPDIR of root may be closed to it.
SCRATCH = "/tmp"
FULL = "see whether the disk is full"


class World(Protocol):
    """The machine that a move asks and changes."""

    @property
    def root(self) -> str:
        """Return where the machine's files are: "/", except in a test."""

    @property
    def programs(self) -> Programs:
        """Return what runs other programs."""

    def now(self) -> datetime:
        """Return the moment, in UTC."""

    def is_root(self) -> bool:
        """Return True if this user may change the machine."""

    def ids(self, user: str, group: str) -> tuple[int, int] | None:
        """Return the numbers of a user and a group. Return None if one of them isn't there."""

    def say(self, line: str) -> None:
        """Print a line for the operator."""


class RealWorld:
    """This machine."""

    root = "/"

    def __init__(self) -> None:
        self.programs: Programs = RealPrograms(SCRATCH)

    def now(self) -> datetime:
        return datetime.now(timezone.utc)

    def is_root(self) -> bool:
        return os.geteuid() == 0

    def ids(self, user: str, group: str) -> tuple[int, int] | None:
        try:
            return pwd.getpwnam(user).pw_uid, grp.getgrnam(group).gr_gid
        except KeyError:
            return None

    def say(self, line: str) -> None:
        # what a disk names must not command a terminal
        print("\n".join(map(printable, line.split("\n"))), flush=True)


def at(world: World, path: str) -> str:
    """Return the place of a path of the machine."""
    return os.path.join(world.root, path.lstrip("/"))


def make_folder(world: World, path: str, mode: int = 0o755) -> None:
    """Make a folder, and those above it. Raise a Fault if one of them is a link or a file."""
    here, parts = world.root, [it for it in path.split("/") if it]
    for number, part in enumerate(parts, 1):
        above, here = here, os.path.join(here, part)
        is_strange = os.path.islink(here) and os.lstat(here).st_uid != 0  # only root's links count
        if is_strange or (os.path.lexists(here) and not os.path.isdir(here)):
            raise Fault(f"{here}: it is no folder; see who made it, and move it away")
        if not os.path.isdir(here):
            try:
                os.mkdir(here, mode if number == len(parts) else 0o755)
                sync_folder(above)
            except OSError as error:
                raise fault_of(here, error, FULL) from None


def put(world: World, path: str, data: bytes, owner: tuple[int, int], mode: int) -> None:
    """Put a file into its place, whole or not at all."""
    target = at(world, path)
    new = f"{target}{NEW}"
    try:
        if os.path.lexists(new):
            os.unlink(new)  # of a move that was killed
        handle = os.open(new, os.O_WRONLY | os.O_CREAT | os.O_EXCL | os.O_NOFOLLOW, 0o600)
        with open(handle, "wb") as file:
            file.write(data)
            os.fchown(file.fileno(), *owner)
            os.fchmod(file.fileno(), mode)
            file.flush()
            os.fsync(file.fileno())
        os.rename(new, target)
        sync_folder(os.path.dirname(target))
    except OSError as error:
        raise fault_of(target, error, FULL) from None


def read_bounded(path: str, most: int) -> bytes:
    """Return what a file has. Raise a Fault if it is no file, or has more than `most` bytes."""
    try:
        handle = os.open(path, os.O_RDONLY | os.O_NOFOLLOW | os.O_NONBLOCK)
        with open(handle, "rb") as file:
            data = file.read(most + 1)
    except OSError as error:
        raise fault_of(path, error, "give the path of a file that this user can read") from None
    if len(data) > most:
        raise Fault(f"{path}: it has more than {most} bytes; give the right file")
    return data
