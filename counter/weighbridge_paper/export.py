"""The journal's export: its columns, which only this file names, and its rows. docs/formats.md (Exports) has the form.

A field is accepted only as the office writes it. The texts of a damaged journal's digests may be of any form, because the office exports them too.
"""

import csv
import dataclasses
import datetime
import re
from collections.abc import Iterator
from dataclasses import dataclass
from functools import lru_cache

from .text import Weighing

KINDS = {it: it for it in ("first", "second", "single", "void")}
KEY = re.compile("[A-Za-z0-9-]{1,32}")
PLATE = re.compile("[A-Z0-9-]{1,12}")
SERIAL = re.compile("[A-Z0-9]{1,16}")
MOMENT = re.compile("[0-9]{4}-[0-9]{2}-[0-9]{2} [0-9]{2}:[0-9]{2}:[0-9]{2}")
LINE = re.compile("[^\n]*\n")
AT_ONCE = 65536  # characters of the export whose lines are cut at once
LONGEST_DIGEST = 64  # characters
DIFFERENT = 4096  # number of texts of a column whose values are kept, so that equal fields are read once and share their memory


class NoExport(Exception):
    """Raised for a text that is no export of the journal. Its text says why."""


@dataclass(frozen=True, slots=True)
class Row:
    """An entry as a row of the export. Its fields are the columns, in their order."""

    number: int
    key: str
    kind: str  # first, second, single, void
    plate: str
    moment: datetime.datetime  # in UTC
    gross_kg: int | None
    preset_kg: int | None
    interval_kg: int
    max_kg: int
    serial: str
    digest: str
    previous: str

    def weighing(self) -> Weighing:
        """Return the entry's block on a slip or ticket."""
        return Weighing(
            self.kind,
            self.number,
            self.moment,
            self.gross_kg,
            self.preset_kg,
            self.interval_kg,
            self.max_kg,
            self.serial,
            self.digest,
        )


COLUMNS = tuple(it.name for it in dataclasses.fields(Row))
HEADER = ",".join(COLUMNS)


def records_of(export: str) -> Iterator[list[str]]:
    """Return the fields of each row. Raises NoExport if the text is no export, or was cut."""
    if not export.startswith(f"{HEADER}\n"):
        raise NoExport(f"it begins with {export[:40]!r}, not with the columns of the journal")
    if not export.endswith("\n") or export.endswith("\r\n"):
        raise NoExport("its last line was cut, or ends with CR LF")
    try:
        for fields in csv.reader(lines_of(export, len(HEADER) + 1), strict=True):
            if len(fields) != len(COLUMNS):
                raise NoExport(f"a row has {len(fields)} fields: {','.join(fields)[:40]!r}")
            yield fields
    except csv.Error as fault:
        raise NoExport(f"it is no CSV: {fault}") from None


def lines_of(text: str, at: int) -> Iterator[str]:
    """Return one line after the other, from `at` on, without a copy of the whole text. Its last letter is the end of a line."""
    while at < len(text):
        end = text.index("\n", min(at + AT_ONCE, len(text) - 1)) + 1
        yield from LINE.findall(text, at, end)
        at = end


def rows_of(export: str) -> Iterator[Row]:
    """Return one row after the other. Raises NoExport if a field isn't as the office writes it, or if the numbers don't rise."""
    last, digest = 0, ""
    for fields in records_of(export):
        try:
            row = row_of(fields, digest)
        except (ValueError, KeyError) as fault:
            raise NoExport(
                f"a row isn't the office's: {','.join(fields)[:40]!r}: {fault}"
            ) from None
        if row.number <= last:
            raise NoExport(f"number {row.number} comes after number {last}")
        last, digest = row.number, row.digest
        yield row


def row_of(fields: list[str], digest_before: str) -> Row:
    """Return the row of its fields, where `digest_before` is the digest of the row before. Raises ValueError or KeyError."""
    (
        number,
        key,
        kind,
        plate,
        moment,
        gross,
        preset,
        interval,
        most,
        serial,
        digest,
        previous,
    ) = fields
    if not KEY.fullmatch(key):
        raise ValueError("its key")
    if len(digest) > LONGEST_DIGEST or len(previous) > LONGEST_DIGEST:
        raise ValueError("its digests")
    return Row(
        whole(number),
        key,
        KINDS[kind],
        plate_of(plate),
        moment_of(moment),
        weight_of(gross) if gross else None,
        weight_of(preset) if preset else None,
        weight_of(interval),
        weight_of(most),
        serial_of(serial),
        digest,
        digest_before if previous == digest_before else previous,  # which share their memory
    )


def whole(text: str) -> int:
    """Return a number from its decimal digits, as the office writes them. Raises ValueError."""
    found = int(text)
    if found < 0 or str(found) != text:
        raise ValueError(f"no number: {text[:20]!r}")
    return found


def moment_of(text: str) -> datetime.datetime:
    """Return a moment in UTC. Raises ValueError."""
    if not MOMENT.fullmatch(text):
        raise ValueError(f"no moment: {text[:20]!r}")
    return datetime.datetime.fromisoformat(f"{text}+00:00")


weight_of = lru_cache(DIFFERENT)(whole)


@lru_cache(DIFFERENT)
def plate_of(text: str) -> str:
    if not PLATE.fullmatch(text):
        raise ValueError(f"no plate: {text[:20]!r}")
    return text


@lru_cache(DIFFERENT)
def serial_of(text: str) -> str:
    if not SERIAL.fullmatch(text):
        raise ValueError(f"no serial: {text[:20]!r}")
    return text


def has_key(export: str, key: str) -> bool:
    """Return True if an entry of an export has exactly this key. Only the column `key` is compared. Raises NoExport."""
    column = COLUMNS.index("key")
    return key in {it[column] for it in records_of(export)}
