"""The faults in what the system says of its units, disks, clock and certificates."""

from dataclasses import dataclass
from datetime import datetime, timedelta

from .faults import Fault, fault

UNITS = (
    "weighbridge",
    "weighbridge-converter",
    "weighbridge-counter",
    "weighbridge-night",
    "weighbridge-audit",
)
LEAST_INODES = 2000
SOON = timedelta(days=21)


@dataclass(frozen=True)
class Space:
    """The free space of a folder's disk. A disk without a bound of files has no `all_files`."""

    free_bytes: int
    free_files: int
    all_files: int
    is_read_only: bool


def failed_units(shown: str) -> list[str]:
    """Return the names of the units that failed, from what `systemctl show` printed."""
    found = []
    for block in shown.split("\n\n"):
        values = dict(line.split("=", 1) for line in block.splitlines() if "=" in line)
        name = values.get("Id", "").removesuffix(".service")
        if name in UNITS and values.get("ActiveState") == "failed":
            found.append(name)
    return found


def faults_of_units(shown: str, others: list[Fault]) -> list[Fault]:
    """Return the units that failed. A night that says itself what failed isn't named twice."""
    is_told = any(it.name in ("night_check", "night_step") for it in others)
    return [
        fault("unit", name)
        for name in failed_units(shown)
        if not (name == "weighbridge-night" and is_told)
    ]


def faults_of_disk(path: str, space: Space | str, least_bytes: int) -> list[Fault]:
    """Return the faults of the disk of this folder. A text says why it can't be seen."""
    if isinstance(space, str):
        return [fault("disk_unseen", path, space)]
    if space.is_read_only:
        return [fault("disk_read_only", path)]
    if space.free_bytes < least_bytes:
        return [fault("disk_low", path, f"{space.free_bytes // 10**6} MB are free")]
    if space.all_files and space.free_files < LEAST_INODES:
        return [fault("disk_low", path, f"it takes only {space.free_files} more files")]
    return []


def is_read_only(mounts: str, device: str) -> bool:
    """Return True if the file system of this device, such as `8:1`, is read-only in the kernel's table of mounts.

    The unit sees every disk as read-only. So only the options of the file system count, which are the last of a line.
    """
    found = [
        words[-1].split(",")
        for line in mounts.splitlines()
        if (words := line.split())[2:3] == [device]
    ]
    return bool(found) and all("ro" in it for it in found)


def faults_of_clock(now: datetime, made: datetime, is_synchronized: bool | None) -> list[Fault]:
    """Return the faults of the clock. `made` is when this program's files were made."""
    if now < made:
        return [fault("clock", "", "it is behind the date of this program")]
    if is_synchronized is False:
        return [fault("clock", "", "it isn't set by the network")]
    return []


def faults_of_certificate(where: str, end: datetime | str, now: datetime) -> list[Fault]:
    """Return the fault of a certificate with this end. A text says why it can't be read."""
    if isinstance(end, str):
        return [fault("certificate", where, end)]
    if end - now > SOON:
        return []
    verb = "ended" if end <= now else "ends"
    return [fault("certificate", where, f"it {verb} on {end:%-d %B %Y}")]
