"""Tries what a night needs, as far as the user who runs this can see it.

Only the unit has the right to read the journal, and only the unit is kept from writing to other folders. So the first night shows the rest.
"""

import os
import stat
from collections.abc import Callable, Iterator
from dataclasses import dataclass

from . import night
from .copying import NEEDED
from .files import Fault
from .night import World
from .office import LOOKING
from .setup import Place, Setup

SETPRIV, PYTHON, SFTP = "/usr/bin/setpriv", "/usr/bin/python3", "/usr/bin/sftp"
SYSTEMCTL = "/usr/bin/systemctl"
# The folders that weighbridge-night.service may write to, besides the night's own.
WRITABLE = ("/srv/weighbridge-copies", "/mnt/weighbridge-night")


@dataclass(frozen=True)
class Tried:
    """A thing that was tried, and what was found of it."""

    words: str
    is_fault: bool = False


def tried(setup: Setup, state: str, world: World) -> Iterator[Tried]:
    """Yield what a night with this setup would meet. No mistake hides another."""
    acts: list[Callable[[], str]] = [
        lambda: try_programs(setup),
        lambda: try_state(state),
        lambda: try_journal(setup.journal),
    ]
    for place in setup.places:
        acts += [lambda it=place: try_place(setup, it, world)]  # type: ignore[misc]
        if place.kind != "ssh":
            acts += [lambda it=place: try_unit(it, world)]  # type: ignore[misc]
    acts += [lambda: try_office(setup, world)]
    for act in acts:
        try:
            if words := act():
                yield Tried(words)
        except Fault as why:
            for line in str(why).splitlines():
                yield Tried(line, True)


def try_programs(setup: Setup) -> str:
    needed = {
        night.WEIGHBRIDGE: (os.X_OK, "weighbridge"),
        night.VERIFY: (os.R_OK, "weighbridge"),
        PYTHON: (os.X_OK, "python3"),
        SETPRIV: (os.X_OK, "util-linux"),
    }
    if any(it.kind == "ssh" for it in setup.places):
        needed[SFTP] = (os.X_OK, "openssh-client")
    wrong = [
        f"{path}: it isn't there, or this user may not use it; install the package {package}"
        for path, (right, package) in needed.items()
        if not os.access(path, right)
    ]
    if wrong:
        raise Fault("\n".join(wrong))
    return "programs: all are there"


def try_state(state: str) -> str:
    if not os.access(state, os.W_OK | os.X_OK):
        raise Fault(
            f"{state}: this user can't write there; run the check by `runuser -u weighbridge-night --`"
        )
    return ""


def try_journal(journal: str) -> str:
    """Return what can be seen of the journal's files."""
    folder = os.path.realpath(os.path.dirname(journal))
    path = os.path.join(folder, os.path.basename(journal))
    todo = (
        "see whether `journal` in the setup is the service's file, and whether the service was"
        " ever started"
    )
    try:
        owner = os.stat(folder).st_uid
        for ending in NEEDED:
            about = os.lstat(path + ending)
            if stat.S_ISLNK(about.st_mode):
                raise Fault(f"{path}{ending}: it is a link; name the file itself in the setup")
            if not stat.S_ISREG(about.st_mode) or about.st_uid != owner:
                raise Fault(f"{path}{ending}: it is no file of its folder's owner; see who made it")
    except PermissionError:
        return (
            f"journal {journal}: not tried, because this user may not look into its folder;"
            " the first night tries it"
        )
    except OSError as error:
        raise Fault(f"{error.filename}: {error.strerror}; {todo}") from None
    return f"journal {journal}: it is there"


def try_place(setup: Setup, place: Place, world: World) -> str:
    for path in (place.key, place.known_hosts) if place.kind == "ssh" else ():
        if not os.access(path, os.R_OK):
            raise Fault(
                f"{place.title}: {path}: it isn't there, or this user can't read it; see"
                " install.md, Set up the night"
            )
    world.keeper(place, setup.bridge).ready()
    return f"{place.title}: copies can be kept there"


def is_in(path: str, folders: list[str]) -> bool:
    return any(path == it or path.startswith(f"{it.rstrip('/')}/") for it in folders)


def try_unit(place: Place, world: World) -> str:
    """Return a warning, if nothing shows that the unit may write to this place."""
    if is_in(place.path, [*WRITABLE]):
        return ""
    todo = (
        f"name {place.path} in ReadWritePaths= of weighbridge-night.service; see install.md,"
        " Set up the night"
    )
    try:
        ran = world.programs.run([SYSTEMCTL, "show", "-P", "ReadWritePaths", night.UNIT], LOOKING)
    except Fault:
        return f"{place.title}: warning: nothing shows that the night may write there; {todo}"
    if not is_in(place.path, [it.lstrip("-+") for it in ran.out.split()]):
        raise Fault(f"{place.title}: the unit keeps the night from writing there; {todo}")
    return ""


def try_office(setup: Setup, world: World) -> str:
    if not setup.purge:
        return "purge: never, because the setup has purge = false"
    world.office.ask("GET", "/indication", LOOKING)
    return "purge: each night, of entries past --retention; the office answers"
