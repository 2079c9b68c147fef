"""Finds copies of the night and archives of the settings in a folder, such as a USB disk."""

import os
import re
from dataclasses import dataclass, field

from weighbridge_night.files import Fault, fault_of
from weighbridge_night.keep import Copy, copies_of, copy_of, newest_sound
from weighbridge_night.programs import printable

# Names of a folder that are read.
MOST_NAMES = 10_000
ARCHIVE = re.compile(r"settings-(\d{4}-\d\d-\d\d)-[A-Za-z0-9][A-Za-z0-9.-]{0,62}\.tar")
UNPLUGGED = "see whether the disk is plugged in, and give the folder where it is mounted"


@dataclass
class Found:
    """Copies and archives."""

    folder: str  # that has the copies
    copies: list[Copy]  # the newest first
    chosen: Copy  # the newest sound one, or the one that was given
    archives: list[str] = field(default_factory=list)  # paths, the newest first
    neighbours: set[str] = field(default_factory=set)  # names next to the copies' folder

    @property
    def path(self) -> str:
        return os.path.join(self.folder, self.chosen.name)


def names_in(folder: str) -> list[str]:
    """Return the names in a folder."""
    names: list[str] = []
    try:
        with os.scandir(folder) as found:
            for it in found:
                names.append(it.name)
                if len(names) > MOST_NAMES:
                    raise Fault(
                        f"{printable(folder)}: it has more than {MOST_NAMES} names; give the folder of the"
                        " bridge, or of one copy"
                    )
    except PermissionError as error:
        raise fault_of(printable(folder), error, "run the command as root") from None
    except OSError as error:
        raise fault_of(printable(folder), error, UNPLUGGED) from None
    return sorted(names)


def is_folder(path: str) -> bool:
    return os.path.isdir(path) and not os.path.islink(path)


def copies_in(folder: str) -> list[Copy]:
    """Return the copies in a folder, the newest first."""
    return [it for it in copies_of(names_in(folder)) if is_folder(os.path.join(folder, it.name))]


def archives_in(folders: list[str]) -> list[str]:
    """Return the paths of archives, the newest first."""
    found = []
    for folder in folders:
        for name in names_in(folder) if os.path.isdir(folder) else []:
            if it := ARCHIVE.fullmatch(name):
                found.append((it[1], name, os.path.join(folder, name)))
    return [path for _, _, path in sorted(found, reverse=True)]


def find(given: str) -> Found:
    """Return what is found in a folder: of a disk, of a bridge, or of one copy.

    Raises a Fault.
    """
    path = os.path.realpath(given)
    above = os.path.dirname(path)
    if (one := copy_of(os.path.basename(path))) is not None:
        copies = copies_in(above)
        if one not in copies:
            raise Fault(f"{printable(given)}: it is no folder; {UNPLUGGED}")
        folders = [above, os.path.dirname(above)]
        return Found(above, copies, one, archives_in(folders), neighbours_of(above))
    names = names_in(path)
    bridges = [path] if copies_of(names) else []
    if not bridges:
        below = [os.path.join(path, it) for it in names if is_folder(os.path.join(path, it))]
        # A folder that this user may not read can't hide a copy from the person who chooses.
        bridges = [it for it in below if copies_in(it)]
    if not bridges:
        raise Fault(
            f"{printable(given)}: no copy of the night is there, whose name is such as"
            f" 2026-11-30T023512Z_sound_124_33258; {UNPLUGGED}"
        )
    if len(bridges) > 1:
        listed = ", ".join(printable(it) for it in bridges[:20])
        raise Fault(
            f"{printable(given)}: it has the copies of {len(bridges)} bridges: {listed}; give the folder of the"
            " lost bridge"
        )
    folder = bridges[0]
    copies = copies_in(folder)
    if (chosen := newest_sound(copies)) is None:
        raise Fault(
            f"{printable(folder)}: none of its {len(copies)} copies is sound; call your service company"
        )
    folders = [folder, os.path.dirname(folder)]
    return Found(folder, copies, chosen, archives_in(folders), neighbours_of(folder))


def neighbours_of(folder: str) -> set[str]:
    """Return the names of the folders next to this one, and its own. Each may be a serial that was used."""
    above = os.path.dirname(folder)
    return {it for it in names_in(above) if is_folder(os.path.join(above, it))}


def contradicting(found: Found, greatest: int) -> list[Copy]:
    """Return the copies that show, or may show, an entry above the greatest number of the chosen copy."""
    own = found.chosen
    # A later copy whose name has 0 doesn't show its number.
    shown = {own.newest, greatest} - {0}
    return [
        it
        for it in found.copies
        if it.newest > greatest or (it.moment > own.moment and it.newest not in shown)
    ]
