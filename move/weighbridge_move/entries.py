"""Reads the export of a journal: the newest entry, the vehicles on site, and each serial."""

import csv
import io
import re
from dataclasses import dataclass, field
from datetime import datetime, timezone

MOST_ENTRIES = 200_000
FORM = "%Y-%m-%d %H:%M:%S"
NEWEST = re.compile(rb"newest (\d{10}) [0-9a-f]{64} [0-9a-f]{64}\n")
# The bytes of a line of `-newest`.
LINE = 148


class NoExport(Exception):
    """Why a text is no export."""


@dataclass(frozen=True)
class Entry:
    """An entry, as far as a move needs it."""

    number: int
    kind: str
    plate: str
    moment: datetime
    gross: str  # kg; empty if it has none
    interval: int
    most: int
    serial: str

    def __str__(self) -> str:
        return f"{self.number}, {self.kind} {self.plate}, {self.moment.strftime(FORM)} UTC"


@dataclass
class Journal:
    """The contents of an export."""

    count: int = 0
    newest: Entry | None = None
    open: list[Entry] = field(default_factory=list)  # the Firsts of vehicles on site
    serials: set[str] = field(default_factory=set)


def entry_of(row: dict[str, str]) -> Entry:
    return Entry(
        int(row["number"]),
        row["kind"],
        row["plate"],
        datetime.strptime(row["moment"], FORM).replace(tzinfo=timezone.utc),
        row["gross_kg"],
        int(row["interval_kg"]),
        int(row["max_kg"]),
        row["serial"],
    )


def journal_of(text: str) -> Journal:
    """Return what the export of a journal has.

    Raises NoExport.
    """
    it, standing = Journal(), {}
    try:
        for row in csv.DictReader(io.StringIO(text, newline="")):
            it.count += 1
            if it.count > MOST_ENTRIES:
                raise NoExport(f"it has more than {MOST_ENTRIES} entries")
            entry = entry_of(row)
            if it.newest is not None and entry.number <= it.newest.number:
                raise NoExport(f"entry {entry.number} is below entry {it.newest.number}")
            it.newest = entry
            it.serials.add(entry.serial)
            if entry.kind == "first":
                standing[entry.plate] = entry
            elif entry.kind in ("second", "void"):
                standing.pop(entry.plate, None)
    except (KeyError, TypeError, ValueError, csv.Error) as error:
        raise NoExport(f"record {it.count} is none of an export ({error!r})") from None
    it.open = sorted(standing.values(), key=lambda one: one.number)
    return it


def witnessed(data: bytes) -> int | None:
    """Return the number that a `-newest` file names. Return None if it names none."""
    lines = [data[at : at + LINE] for at in (0, LINE)]
    found = [int(it[1]) for it in map(NEWEST.fullmatch, lines) if it is not None]
    return max(found, default=None)
