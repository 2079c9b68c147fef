"""Decides if the office's journal is still the one that the lists were made of.

A purge that the law allows removes entries at the low end, and changes no digest of the entries that stay. Numbers continue after a purge. So a
journal is still the same one if all of this holds:

- each entry that both have is the same
- no entry is missing between others or at the high end
- no entry is back at the low end

If a change may mean another journal, the counter shows it to the clerk.
"""

import re
import secrets
from collections.abc import Mapping
from dataclasses import dataclass, field
from typing import Any

from weighbridge_paper.export import Row
from weighbridge_paper.text import ZEROS

from .files import Files, tell

FILE = "journal.json"
SHORTER, EMPTY, CHANGED, SERIAL = "shorter", "empty", "changed", "serial"
WORDS = {
    SHORTER: "its last number is {now} and was {before}, so an older copy or another journal is in use",
    EMPTY: "it has no entry, and its last number was {before}, so it was purged or a new one is in use",
    CHANGED: "it has other entries than before, so another journal is in use",
    SERIAL: "its entries have another serial, so another bridge's journal is in use",
}


@dataclass(frozen=True)
class Known:
    """Facts about the journal: rows of an export, digests of texts that passed, and the first number, which only an export shows."""

    rows: Mapping[int, Row] = field(default_factory=dict)
    digests: Mapping[int, str] = field(default_factory=dict)
    first: int | None = None
    last: int = 0
    serial: str | None = None

    def digest(self, number: int) -> str | None:
        return (
            self.digests[number]
            if number in self.digests
            else self.rows[number].digest
            if number in self.rows
            else None
        )


def why_another(known: Known, rows: Mapping[int, Row]) -> str | None:
    """Return why an export isn't of the known journal. Return None if it is, or if no journal is known."""
    if known.last == 0:
        return None
    if not rows:
        return EMPTY
    first, last = min(rows), max(rows)
    has_common = False
    for number, row in rows.items():
        before = known.digest(number)
        if before is not None and before != row.digest:
            return changed_by(known, row.serial)
        has_common = has_common or before is not None
    if last < known.last:
        return SHORTER
    if has_common:
        is_gone = any(
            number > first and number not in rows
            for it in (known.rows, known.digests)
            for number in it
        )
        return CHANGED if is_gone or (known.first is not None and first < known.first) else None
    return None if follows(known, rows[first]) else changed_by(known, rows[first].serial)


def changed_by(known: Known, serial: str) -> str:
    return SERIAL if known.serial not in (None, serial) else CHANGED


def follows(known: Known, row: Row) -> bool:
    """Return True if a first entry may follow a purge of all known entries.

    Its number is the next one then. Its previous digest is that of the last known entry, or zeros.
    """
    return row.number == known.last + 1 and row.previous in (ZEROS, known.digest(known.last))


class Journal:
    """Remembers the journal when the counter restarts, and the change that the page shows until a clerk closes it."""

    def __init__(self, files: Files | None = None) -> None:
        self.files, self.begun = files, 0
        kept = files.read(FILE) if files is not None else None
        kept = kept if isinstance(kept, dict) else {}
        self.told: dict[str, Any] | None = kept["told"] if is_told(kept.get("told")) else None
        self.kept = known_in(kept.get("known"))
        # of this journal; another one gets another
        self.identifier = identifier_in(kept.get("identifier")) or new_identifier()

    def is_another(self, why: str, known: Known, last: int, at: str) -> None:
        """Record and log that another journal is in use, so that the lists start again from it."""
        self.begun += 1
        self.identifier = new_identifier()
        self.told = {"why": why, "before": known.last, "now": last, "at": at}
        tell(
            f"the journal: {WORDS[why].format(**self.told)}. The lists start again. If nobody planned that, check the service's --file"
        )

    def seen(self) -> None:
        self.told = None
        self.keep(self.kept)

    def keep(self, known: Known) -> None:
        """Remember where the journal begins and ends."""
        digest = known.digest(known.last) or ""
        self.kept = Known(
            {}, {known.last: digest} if known.last else {}, known.first, known.last, known.serial
        )
        if self.files is not None:
            what = (
                {"first": known.first, "last": known.last, "digest": digest, "serial": known.serial}
                if known.last
                else None
            )
            kept = {"known": what, "told": self.told, "identifier": self.identifier}
            self.files.keep(FILE, kept)


def new_identifier() -> str:
    return secrets.token_hex(16)


def identifier_in(it: object) -> str | None:
    return it if isinstance(it, str) and re.fullmatch("[0-9a-f]{32}", it) else None


def is_told(it: object) -> bool:
    return (
        isinstance(it, dict)
        and it.get("why") in WORDS
        and isinstance(it.get("before"), int)
        and isinstance(it.get("now"), int)
    )


def known_in(it: object) -> Known:
    if not isinstance(it, dict):
        return Known()
    first, last, digest, serial = (it.get(name) for name in ("first", "last", "digest", "serial"))
    if not (
        isinstance(last, int)
        and isinstance(digest, str)
        and isinstance(first, int | None)
        and isinstance(serial, str | None)
    ):
        return Known()
    return Known({}, {last: digest}, first, last, serial)
