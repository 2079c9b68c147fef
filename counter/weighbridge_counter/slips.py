"""The entries of the lists: made of the office's texts, and of rows of the journal's export, of which a slip can be made again."""

import datetime
from dataclasses import dataclass

from weighbridge_paper.export import Row
from weighbridge_paper.text import TICKETS, Text, digest_of, written


@dataclass(frozen=True, slots=True)
class Entry:
    """An entry of the journal, as far as lists show it. `first` is the number of the First of a Second, if it was made of a text."""

    number: int
    kind: str
    plate: str
    at: datetime.datetime
    gross: int | None
    preset: int | None
    first: int | None = None


def entry_of_text(text: Text) -> Entry:
    """Return the entry that a slip or ticket was made for."""
    own = text.own
    first = text.weighings[0].number if len(text.weighings) > 1 else None
    return Entry(own.number, own.kind, text.plate, own.at, own.gross, own.preset, first)


def entry_of_row(row: Row) -> Entry:
    return Entry(row.number, row.kind, row.plate, row.moment, row.gross_kg, row.preset_kg)


def slip_of_row(row: Row) -> str | None:
    """Return the slip of a First or Void.

    Return None if the digest in the row isn't that of its fields, so that nobody is shown a changed entry, and for an entry that has a ticket.
    """
    own = row.weighing()
    if row.kind in TICKETS or digest_of(own, row.plate, row.key, row.previous) != row.digest:
        return None
    return written(Text("", row.plate, (own,), None))
