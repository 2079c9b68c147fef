"""Reads the serial of setups, and writes another one. Each function is from text to text."""

import re
import tomllib
from dataclasses import dataclass
from typing import Any

CONF = "etc/weighbridge.conf"
NIGHT = "etc/weighbridge-night.toml"
ALARM = "etc/weighbridge-alarm.toml"
COUNTER = "etc/weighbridge-counter.toml"
PAPER = "etc/weighbridge-paper.toml"
# The setups that have the serial, or what depends on it.
EDITED = (CONF, NIGHT, ALARM, COUNTER, PAPER)
SERIAL = re.compile(r"[A-Z0-9]{1,16}")
LINE = re.compile(r"^[ \t]*WEIGHBRIDGE_SETUP=.*$", re.M)
CONVERTER = re.compile(r"^[ \t]*WEIGHBRIDGE_CONVERTER=[\"']?([^\"'\s]*)", re.M)
FIFO = "/run/weighbridge/converter"


class NoEdit(Exception):
    """Why a setup can't be changed."""


@dataclass(frozen=True)
class Plate:
    """The instrument, as a setup describes it."""

    serial: str
    interval: int
    most: int


def value_of(line: str, option: str) -> str | None:
    """Return the value of an option of a line. Return None unless it is there once."""
    found = re.findall(rf"(?<![\w-])--{option}[= ]+([A-Za-z0-9]+)", line)
    return found[0] if len(found) == 1 else None


def setup_line(text: str) -> str:
    found = LINE.findall(text)
    if len(found) != 1:
        raise NoEdit(f"it has {len(found)} lines with WEIGHBRIDGE_SETUP, and one is needed")
    return str(found[0])


def plate_of(text: str) -> Plate:
    """Return what /etc/weighbridge.conf says of the instrument.

    Raises NoEdit.
    """
    line = setup_line(text)
    serial, interval, most = (value_of(line, it) for it in ("serial", "interval", "max"))
    if serial is None or interval is None or most is None:
        raise NoEdit("WEIGHBRIDGE_SETUP doesn't have --interval, --max and --serial, each once")
    if not interval.isdigit() or not most.isdigit() or not SERIAL.fullmatch(serial):
        raise NoEdit("WEIGHBRIDGE_SETUP has an --interval, --max or --serial of another form")
    return Plate(serial, int(interval), int(most))


def uses_converter(text: str) -> bool:
    """Return True if the service reads what weighbridge-converter writes."""
    return CONVERTER.findall(text)[-1:] == [FIFO]


def with_serial(text: str, new: str) -> str:
    """Return /etc/weighbridge.conf with another serial."""
    line = setup_line(text)
    old = plate_of(text)
    changed = re.sub(r"((?<![\w-])--serial[= ]+)[A-Za-z0-9]+", rf"\g<1>{new}", line)
    edited = text.replace(line, changed)
    if plate_of(edited) != Plate(new, old.interval, old.most):
        raise NoEdit("its serial can't be replaced")
    return edited


def table_of(text: str) -> dict[str, Any]:
    try:
        return tomllib.loads(text)
    except tomllib.TOMLDecodeError as error:
        raise NoEdit(f"it is no TOML: {error}") from None


def with_value(text: str, key: str, new: str) -> str:
    """Return a TOML with another text as the value of a key above all tables."""
    before = table_of(text)
    changed = re.sub(
        rf"^([ \t]*{key}[ \t]*=[ \t]*)(\"[^\"\n]*\"|'[^'\n]*')",
        lambda it: f'{it[1]}"{new}"',
        text,
        count=1,
        flags=re.M,
    )
    try:
        is_right = table_of(changed) == {**before, key: new}
    except NoEdit:
        is_right = False
    if not is_right:
        raise NoEdit(f"the value of {key} can't be replaced")
    return changed


def edited(path: str, text: str, old: str, new: str) -> str:
    """Return a setup as it is under the new serial.

    Raises NoEdit.
    """
    if path == CONF:
        return with_serial(text, new)
    table = table_of(text)
    if path == NIGHT and isinstance(table.get("bridge"), str):
        # always: the new copies get a folder of their own, and no night removes the old ones
        return with_value(text, "bridge", new)
    if path == ALARM and table.get("bridge") == old:
        return with_value(text, "bridge", new)
    if path == COUNTER and table.get("serial") == old:
        return with_value(text, "serial", new)
    if path == PAPER and isinstance(spool := table.get("spool"), str):
        # the old folder notes by number what was printed
        return with_value(text, "spool", f"{spool.rstrip('/')}-{new}")
    return text


def bridges_of(texts: dict[str, str]) -> set[str]:
    """Return the names of the bridge in setups of the night and the alarm. Each may be a serial that was used."""
    found = set()
    for path in (NIGHT, ALARM):
        try:
            name = table_of(texts.get(path, "")).get("bridge")
        except NoEdit:
            continue
        if isinstance(name, str):
            found.add(name)
    return found
