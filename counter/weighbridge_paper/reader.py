"""Reads a setup in TOML. Each mistake in it is a line that names file, key and what to do. All of them are found in one pass."""

import os
import pwd
import re
import tempfile
import tomllib
import zoneinfo
from collections.abc import Iterable
from pathlib import Path
from typing import Any

Address = tuple[str, int]
NO_ADDRESS: Address = ("", 0)  # stands for an address that is a mistake


class SetupFault(Exception):
    """Raised for a setup that can't be used. `mistakes` has a line for each of its mistakes."""

    def __init__(self, *mistakes: str) -> None:
        super().__init__("\n".join(mistakes))
        self.mistakes = mistakes


class Reader:
    """Takes keys out of a table, each once, and notes each mistake.

    If a key is a mistake, its method returns a stand-in. Nobody may use what was read until `refuse` has shown that no mistake was noted.
    """

    def __init__(self, table: dict[str, Any], place: str, mistakes: list[str]) -> None:
        self.table, self.place, self.mistakes = dict(table), place, mistakes

    def mistake(self, key: str, what_to_do: str) -> None:
        self.mistakes.append(f"{self.place}: {key}: {what_to_do}")

    def _take(self, key: str, of: type, default: Any, what: str) -> Any:
        """Return the value of a key, or None after a mistake was noted."""
        if key not in self.table:
            if default is None:
                self.mistake(key, f"it is missing: {what}")
            return default
        value = self.table.pop(key)
        if not isinstance(value, of) or isinstance(value, bool):
            self.mistake(key, what)
            return None
        return value

    def text(self, key: str, default: str | None, what: str) -> str:
        return self.matching(key, default, r"(?s).+", what)

    def matching(self, key: str, default: str | None, form: str, what: str) -> str:
        """Return a text of the regular expression `form`."""
        if key not in self.table and default is not None:
            return default
        found: str | None = self._take(key, str, default, what)
        if found is not None and not re.fullmatch(form, found):
            self.mistake(key, what)
            return ""
        return found or ""

    def texts(self, key: str, what: str) -> tuple[str, ...]:
        found: list[str] | None = self._take(key, list, [], what)
        if found is not None and not all(isinstance(it, str) and it for it in found):
            self.mistake(key, what)
            return ()
        return tuple(found or ())

    def number(self, key: str, default: int, least: int, most: int) -> int:
        what = f"write a whole number from {least} to {most}"
        found: int | None = self._take(key, int, default, what)
        if found is not None and not least <= found <= most:
            self.mistake(key, what)
            return default
        return default if found is None else found

    def flag(self, key: str, default: bool) -> bool:
        found = self.table.pop(key, default)
        if not isinstance(found, bool):
            self.mistake(key, "write true or false")
            return default
        return found

    def address(self, key: str, default: str | None) -> Address:
        what = f'write an address of this machine and a port, as "{default or "127.0.0.1:4101"}"'
        given: str | None = self._take(key, str, default, what)
        if given is None:
            return NO_ADDRESS
        found = re.fullmatch(r"(127(?:\.[0-9]{1,3}){3}):([0-9]{1,5})", given)
        if (
            found is None
            or any(int(it) > 255 for it in found[1].split("."))
            or not 0 < int(found[2]) < 65536
        ):
            self.mistake(key, what)
            return NO_ADDRESS
        return found[1], int(found[2])

    def choice(self, key: str, default: str | None, allowed: Iterable[str]) -> str:
        allowed = tuple(allowed)
        what = "write " + " or ".join(f'"{it}"' for it in allowed)
        return self.matching(key, default, "|".join(map(re.escape, allowed)), what)

    def end(self) -> None:
        """Note each key that nobody took."""
        for key in self.table:
            self.mistake(key, "there is no such key: look at its spelling, or remove it")

    def refuse(self) -> None:
        """Raise SetupFault if a mistake was noted."""
        if self.mistakes:
            raise SetupFault(*self.mistakes)


def table_of(path: Path) -> dict[str, Any]:
    """Return what a file says. Raise SetupFault if it can't be read."""
    try:
        return tomllib.loads(path.read_text(encoding="utf-8"))
    except OSError as fault:
        raise SetupFault(
            f"{path}: it can't be read: {fault.strerror}; name the setup's file"
        ) from None
    except UnicodeDecodeError as fault:
        raise SetupFault(f"{path}: it can't be read: {fault}; save it as UTF-8") from None
    except tomllib.TOMLDecodeError as fault:
        raise SetupFault(
            f"{path}: it is no TOML: {fault}; compare the line with the package's example"
        ) from None


def tables_in(reader: Reader, name: str) -> list[Reader]:
    """Return the tables below lines [[name]], each with its place."""
    found = reader.table.pop(name, [])
    if not isinstance(found, list) or not all(isinstance(it, dict) for it in found):
        reader.mistake(name, f"write each {name} as a table of its own, below a line [[{name}]]")
        return []
    return [
        Reader(it, f"{reader.place}: {name} {at}", reader.mistakes)
        for at, it in enumerate(found, 1)
    ]


def zone_of(reader: Reader) -> zoneinfo.ZoneInfo:
    what = 'write a time zone, as "Europe/Berlin"; the package tzdata has them'
    name = reader.text("zone", "UTC", what) or "UTC"
    try:
        return zoneinfo.ZoneInfo(name)
    except (zoneinfo.ZoneInfoNotFoundError, ValueError, OSError):
        reader.mistake("zone", what)
        return zoneinfo.ZoneInfo("UTC")


def own_user() -> str:
    """Return the name of the user who runs this program, or its number if it has no name."""
    try:
        return pwd.getpwuid(os.geteuid()).pw_name
    except KeyError:
        return str(os.geteuid())


def trouble_of_folder(folder: Path) -> str | None:
    """Return why no file can be made in a folder. Return None if one was made there and removed, or if the folder itself can be made.

    A folder that is missing isn't made, because the user who asks may not be the one who needs it.
    """
    place = folder
    while not os.path.lexists(place) and place != place.parent:
        place = place.parent
    try:
        with tempfile.TemporaryFile(dir=place) as file:
            file.write(b"tried")
            file.flush()
    except OSError as fault:
        where = "" if place == folder else f"it is missing, and {place} can't take it: "
        return f"{folder}: {where}{fault.strerror} (tried as the user {own_user()})"
    return None
