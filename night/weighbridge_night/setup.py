"""The file of the setup. Every mistake in it is found at once."""

import difflib
import os
import re
import tomllib
from dataclasses import dataclass, field
from typing import Any

PATH = "/etc/weighbridge-night.toml"
STATE = "/var/lib/weighbridge-night"
BRIDGE = re.compile(r"[A-Za-z0-9][A-Za-z0-9_-]{0,31}")
ADDRESS = re.compile(r"127(?:\.\d{1,3}){3}:\d{1,5}")
# The label of a FAT disk has eleven characters at most, that of ext4 sixteen.
LABEL = re.compile(r"[A-Za-z0-9_-]{1,16}")
HOST = re.compile(r"[A-Za-z0-9][A-Za-z0-9.:-]{0,252}")
USER = re.compile(r"[a-z_][a-z0-9_-]{0,31}")
# Paths that need no quotes in a batch of sftp.
REMOTE = re.compile(r"/?[A-Za-z0-9_][A-Za-z0-9_.-]*(?:/[A-Za-z0-9_][A-Za-z0-9_.-]*)*")
KINDS = {
    "folder": {"path"},
    "disk": {"label", "path"},
    "ssh": {"host", "user", "folder"},
}
OWN = {"bridge", "purge", "to"}
OPTIONAL = {"journal", "office"}
OPTIONAL_TO = {"ssh": {"port", "key", "known_hosts"}}
MOST_GB = 10_000
GB = 10**9


@dataclass(frozen=True)
class Place:
    """A place where copies are kept."""

    kind: str
    most_bytes: int
    path: str = ""
    label: str = ""
    host: str = ""
    user: str = ""
    folder: str = ""
    port: int = 22
    key: str = "/var/lib/weighbridge-night/ssh/key"
    known_hosts: str = "/var/lib/weighbridge-night/ssh/known_hosts"

    @property
    def title(self) -> str:
        if self.kind == "ssh":
            return f"ssh {self.user}@{self.host}:{self.folder}"
        if self.kind == "disk":
            return f"disk {self.label}"
        return f"folder {self.path}"


@dataclass(frozen=True)
class Setup:
    """The whole setup of a night."""

    bridge: str
    purge: bool
    places: list[Place] = field(default_factory=list)
    journal: str = "/var/lib/weighbridge/journal.db"
    office: str = "127.0.0.1:880"


class Refused(Exception):
    """A setup that can't work. `faults` has all its mistakes."""

    def __init__(self, faults: list[str]) -> None:
        super().__init__("; ".join(faults))
        self.faults = faults


class Reader:
    """Takes values out of a table, and notes what is wrong with them."""

    def __init__(self, where: str, table: dict[str, Any], faults: list[str]) -> None:
        self.where, self.table, self.faults = where, table, faults

    def refuse(self, key: str, why: str) -> None:
        self.faults.append(f"{self.where}{key}: {why}")

    def text(self, key: str, form: re.Pattern[str], wanted: str, default: str | None = None) -> str:
        if key not in self.table and default is not None:
            return default
        found = self.table.get(key)
        if isinstance(found, str) and form.fullmatch(found):
            return found
        quotes = ", in quotes" if found is not None and not isinstance(found, str) else ""
        self.refuse(
            key, f"{'it is missing' if found is None else ascii(found)}; write {wanted}{quotes}"
        )
        return ""

    def path(self, key: str, wanted: str, default: str | None = None) -> str:
        wanted = f"{wanted}, from / on and without / at its end"
        found = self.text(key, re.compile(r"/[^\x00-\x1f]*[^/\x00-\x1f]"), wanted, default)
        return os.path.normpath(found) if found else found

    def whole(self, key: str, most: int, wanted: str, default: int | None = None) -> int:
        found = self.table.get(key, default)
        if isinstance(found, int) and not isinstance(found, bool) and 1 <= found <= most:
            return found
        quoted = ", without quotes" if isinstance(found, str) else ""
        self.refuse(
            key, f"{'it is missing' if found is None else ascii(found)}; write {wanted}{quoted}"
        )
        return 1

    def only(self, known: set[str]) -> None:
        for key in self.table:
            if key not in known:
                near = difflib.get_close_matches(key, sorted(known), 1)
                likely = f"write {near[0]}; " if near else ""
                self.refuse(key, f"no such key; {likely}the keys are {', '.join(sorted(known))}")


def place_of(number: int, given: object, faults: list[str]) -> Place | None:
    where = f"[[to]] {number}: "
    if not isinstance(given, dict):
        faults.append(f"{where}it is no table; begin each place of copies with [[to]]")
        return None
    table: dict[str, Any] = given
    it = Reader(where, table, faults)
    kind = table.get("kind")
    if not isinstance(kind, str) or kind not in KINDS:
        why = "it is missing" if kind is None else ascii(kind)
        it.refuse("kind", f'{why}; write "folder", "disk" or "ssh", in quotes')
        return None
    it.only({"kind", "most_gb", *KINDS[kind], *OPTIONAL_TO.get(kind, set())})
    most = it.whole("most_gb", MOST_GB, f"how many GB the copies may have, 1 to {MOST_GB}") * GB
    if kind == "folder":
        return Place(
            kind, most, path=it.path("path", "the folder's path, as /srv/weighbridge-copies")
        )
    if kind == "disk":
        label = it.text("label", LABEL, "the disk's label, 1 to 16 characters of A-Z a-z 0-9 _ -")
        return Place(kind, most, it.path("path", "where /etc/fstab mounts the disk"), label)
    default = Place(kind, most)
    return Place(
        kind,
        most,
        host=it.text("host", HOST, "the host's name or address"),
        user=it.text("user", USER, "the user's name on the host"),
        folder=it.text("folder", REMOTE, "a folder on the host, of A-Z a-z 0-9 _ - . and /"),
        port=it.whole("port", 65535, "a port, 1 to 65535", default.port),
        key=it.path("key", "the path of the private key", default.key),
        known_hosts=it.path("known_hosts", "the path of the known hosts", default.known_hosts),
    )


def setup_of(text: str) -> Setup:
    """Return the setup in this text.

    Raises Refused with all mistakes.
    """
    try:
        table = tomllib.loads(text)
    except tomllib.TOMLDecodeError as error:
        raise Refused(
            [
                f"it is no TOML: {error}; write texts in quotes, and numbers, true and false without quotes"
                " or a unit"
            ]
        ) from None
    faults: list[str] = []
    it = Reader("", table, faults)
    it.only(OWN | OPTIONAL)
    bridge = it.text(
        "bridge",
        BRIDGE,
        "the bridge's name, as its serial WB01, 1 to 32 characters of A-Z a-z 0-9 _ - without blanks",
    )
    journal = it.path("journal", "the path of the service's journal.db", Setup.journal)
    office = it.text("office", ADDRESS, "the office's address, as 127.0.0.1:880", Setup.office)
    purge = table.get("purge")
    if not isinstance(purge, bool):
        it.refuse(
            "purge",
            f"{'it is missing' if purge is None else ascii(purge)}; write true to purge past retention each"
            " night, or false, without quotes",
        )
    given = table.get("to")
    if isinstance(given, dict):
        it.refuse("to", "it has one bracket; write [[to]], with two on each side, above each place")
        given = []
    elif not isinstance(given, list) or not given:
        it.refuse("to", "there is no place for copies; write [[to]] above each place")
        given = []
    places = [place_of(number, one, faults) for number, one in enumerate(given, 1)]
    found = [one for one in places if one is not None]
    for number, place in enumerate(places, 1):
        here = os.path.realpath(place.path) if place is not None and place.path else ""
        for taken, what in (
            (STATE, "the night's own folder, where each night clears up"),
            (os.path.dirname(journal), "the journal's folder, with which they would be lost"),
        ):
            real = os.path.realpath(taken) if here and taken else ""
            if real and os.path.commonpath([here, real]) == real:
                faults.append(
                    f"[[to]] {number}: path: {here} is in {what}, {taken}; write another path"
                )
    titles = [one.title for one in found]
    for title in sorted({one for one in titles if titles.count(one) > 1} if not faults else set()):
        faults.append(f"to: {title} is there twice; remove one of them")
    if faults:
        raise Refused(faults)
    return Setup(bridge, purge is True, found, journal, office)


def read_setup(path: str) -> Setup:
    """Return the setup in this file.

    Raises Refused if it can't be read, or has mistakes.
    """
    try:
        with open(path, encoding="utf-8") as file:
            return setup_of(file.read())
    except (OSError, UnicodeDecodeError) as error:
        why = error.strerror if isinstance(error, OSError) else "it isn't UTF-8"
        raise Refused(
            [f"{why}; copy /usr/share/doc/weighbridge/examples/weighbridge-night.toml and edit it"]
        ) from None
