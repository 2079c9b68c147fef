"""Gathers what a decision needs, and changes nothing."""

import os

from weighbridge_night.files import Fault
from weighbridge_night.programs import printable

from . import archive as archives
from .archive import Archive, Member, archive_of, rule_of, versions_of
from .copied import examine
from .deciding import Asked, Seen
from .editing import EDITED, CONF, NoEdit, bridges_of, plate_of
from .finding import Found, contradicting, find
from .world import World, at, read_bounded

SYSTEMCTL, DPKG_QUERY = "/usr/bin/systemctl", "/usr/bin/dpkg-query"
ASKING = 30.0  # seconds
UNITS = ("weighbridge", "weighbridge-converter", "weighbridge-counter")
FOLDER = "/var/lib/weighbridge"
# Files of this program in the journal's folder, until they are whole.
STAGED = ".move-"
# The words of systemd for a unit that doesn't run, or isn't installed.
STOPPED = ("inactive", "failed", "unknown")
MOST_SETUP = 1 << 20


def look(asked: Asked, world: World) -> tuple[Found, Seen]:
    """Return what is found. `Seen.faults` has all that is wrong with it.

    Raises a Fault if there is no copy at all.
    """
    found = find(asked.folder)
    copied, faults = examine(found.path, found.chosen, world.programs)
    seen = Seen(world.now(), world.is_root(), found.chosen, copied, faults=faults)
    seen.copies = found.copies
    local = found.chosen.moment.astimezone()
    seen.local = local.strftime("%H:%M:%S") if local.utcoffset() else ""
    seen.contradicting = contradicting(found, copied.greatest) if copied.is_whole else []
    seen.used = {*found.neighbours}
    look_at_settings(asked, found, seen, world)
    look_at_machine(seen, world)
    return found, seen


def chosen_archive(asked: Asked, found: Found) -> str:
    """Return the path of the archive. Raise a Fault if it isn't clear which one it is."""
    if asked.settings is not None:
        return asked.settings
    if not found.archives:
        raise Fault(
            "settings: no settings-DATE-HOST.tar is next to the copies; give its path by --settings. If there is none,"
            " set this machine up by install.md, with the lost serial, and add --no-settings"
        )
    hosts = {os.path.basename(it)[len("settings-2026-11-30-") :] for it in found.archives}
    if len(hosts) > 1:
        listed = ", ".join(printable(it) for it in found.archives[:20])
        raise Fault(
            f"settings: there are archives of {len(hosts)} machines: {listed}; give that of the lost one by --settings"
        )
    return found.archives[0]


def look_at_settings(asked: Asked, found: Found, seen: Seen, world: World) -> None:
    """Read the archive, or the setups of this machine if there is none."""
    try:
        if asked.no_settings:
            seen.archive = of_this_machine(world)
        else:
            path = chosen_archive(asked, found)
            seen.archive_path = path
            seen.archive, wrong = archive_of(read_bounded(path, archives.MOST_BYTES), asked.without)
            seen.faults += [f"{printable(path)}: {it}" for it in wrong]
    except Fault as why:
        seen.faults.append(str(why))
        return
    texts = {it: seen.archive.text(it) for it in EDITED if it in seen.archive.members}
    seen.used |= bridges_of(texts)
    try:
        seen.plate = plate_of(texts.get(CONF, ""))
    except NoEdit as why:
        where = seen.archive_path or "this machine"
        seen.faults.append(
            f"/{CONF} of {printable(where)}: {why}; take another archive, or correct the line by install.md and add"
            " --no-settings"
        )
    for member in seen.archive.members.values():
        if world.ids(member.user, member.group) is None:
            seen.faults.append(
                f"/{member.path}: its user {member.user} or group {member.group} isn't on this machine; install the"
                f" package {member.package}"
            )


def of_this_machine(world: World) -> Archive:
    """Return the setups of this machine, as if they came from an archive."""
    found = Archive()
    for path in EDITED:
        place, one = at(world, path), rule_of(path)
        if os.path.lexists(place) and one is not None:
            data = read_bounded(place, MOST_SETUP)
            mode = os.stat(place).st_mode & 0o777
            found.members[path] = Member(path, data, one.user, one.group, mode, one.package)
    return found


def look_at_machine(seen: Seen, world: World) -> None:
    folder = at(world, FOLDER)
    try:
        seen.journal_there = sorted(it for it in os.listdir(folder) if not it.startswith(STAGED))
    except FileNotFoundError:
        seen.faults.append(f"{FOLDER}: it isn't there; install the package weighbridge")
    except OSError:
        if seen.is_root:
            raise
    try:
        ran = world.programs.run([SYSTEMCTL, "is-active", *UNITS], ASKING)
        states = ran.out.split()
        if len(states) != len(UNITS):
            raise Fault(f"systemctl is-active: {ran.said()}; start this machine with systemd")
        seen.running = [unit for unit, state in zip(UNITS, states) if state not in STOPPED]
        ran = world.programs.run([DPKG_QUERY, "-W", "weighbridge*"], ASKING)
        seen.versions_here = versions_of(ran.out)
    except Fault as why:
        seen.faults.append(str(why))
