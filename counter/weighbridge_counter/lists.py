"""The lists of the page, made of one export and of each text that passed since. They help the eye. The office judges."""

import bisect
import collections
import datetime
import zoneinfo
from collections.abc import Callable, Set
from typing import Any

from weighbridge_paper.export import Row, rows_of
from weighbridge_paper.text import TICKETS, Text, Weighing, digest_of

from .given import Given, Lines
from .journal import Known
from .near import Near
from .once import is_own_void
from .slips import Entry, entry_of_row, entry_of_text, slip_of_row

MOST_TEXTS = 2000  # that are kept as they passed
MOST_HITS = 60


class Lists:
    def __init__(self, zone: zoneinfo.ZoneInfo, given: Given | None = None) -> None:
        """`given` has what clerks gave for the papers of entries."""
        self.zone, self.given = zone, given or Given()
        self.entries: dict[int, Entry] = {}
        self.rows: dict[int, Row] = {}  # of the export, for a slip again
        self.texts: dict[int, Text] = {}  # as they passed
        self.places: dict[int, int] = {}  # of each text among all that passed
        self.keys: dict[int, str] = {}  # of the texts that passed
        self.by_key: dict[str, int] = {}
        self.closed: dict[int, int] = {}  # by a First: the entry that closed it
        # the keys of the Firsts of vehicles that are weighed once
        self.once: Callable[[], Set[str]] = frozenset
        self.first: int | None = None  # the first number of the export that they are made of
        self.is_of_export = False
        self.open: dict[str, int] = {}  # the number of the open First of a plate
        self.partner: dict[int, int] = {}
        self.by_plate: dict[str, list[int]] = {}
        self.empty: dict[str, int] = {}  # the number of a plate's last empty weighing
        self.near = Near()
        self.per_day: collections.Counter[datetime.date] = collections.Counter()
        self.last = 0
        self.tickets: list[int] = []  # the numbers of Seconds and Singles, in their order
        self.complete = 0  # the number up to which no entry is missing
        self.is_whole = False  # whether nothing is known to be missing

    # ---- what comes

    @classmethod
    def of_export(cls, zone: zoneinfo.ZoneInfo, export: str, given: Given | None = None) -> "Lists":
        """Return the lists of an export. This may run in a thread of its own. Raises NoExport."""
        made = cls(zone, given)
        for row in rows_of(export):
            if not made.rows:
                made.complete = row.number - 1  # earlier ones were purged
            made.rows[row.number] = row
            made.by_key.setdefault(row.key, row.number)
            made._take(entry_of_row(row))
        made.first = min(made.rows, default=None)
        made.is_whole = made.is_of_export = True
        made.near.shown()  # in this thread, where it delays nothing
        return made

    def known(self, until: int) -> Known:
        """Return what these lists know of the journal, from their export and the first `until` texts that passed. Another thread may read the result."""
        texts = {
            number: text for number, text in self.texts.items() if self.places[number] <= until
        }
        # an export's rows are in the order of their numbers
        last = max(next(reversed(self.rows), 0), max(texts, default=0))
        serial = (
            texts[last].own.serial if last in texts else self.rows[last].serial if last else None
        )
        return Known(
            self.rows,
            {number: text.own.digest for number, text in texts.items()},
            self.first,
            last,
            serial,
        )

    def with_texts_of(self, older: "Lists") -> None:
        """Keep the texts of `older` that passed, if their entries are in these lists too."""
        for number, text in older.texts.items():
            if number in self.rows and self.rows[number].digest == text.own.digest:
                self.texts[number], self.places[number] = text, older.places[number]
                self.keys[number] = older.keys[number]
                self.by_key[self.keys[number]] = number

    def passed_since(self, place: int) -> list[tuple[int, Text]]:
        """Return the texts that passed after a place, each with its own place, in the order in which they passed."""
        found = [
            (self.places[number], text)
            for number, text in self.texts.items()
            if self.places[number] > place
        ]
        return sorted(found, key=lambda it: it[0])

    def contradicts(self, text: Text) -> bool:
        """Return True if a text is from another journal.

        Then its entry is here with another digest, or the export ends at or after its number but has no such entry.
        """
        number = text.own.number
        if number not in self.entries:
            return number <= next(reversed(self.rows), 0)
        return self.digest_of(number) != text.own.digest

    def passed(self, text: Text, place: int = 0, key: str = "") -> tuple[Entry, bool]:
        """Take a text for which the office returned 201, and the key of its request. Return its entry, and whether it is new here."""
        entry = entry_of_text(text)
        self.texts[entry.number], self.places[entry.number] = text, place
        self.keys[entry.number] = key
        if key:
            self.by_key[key] = entry.number
        while len(self.texts) > MOST_TEXTS:
            oldest = next(iter(self.texts))
            del self.texts[oldest], self.places[oldest], self.keys[oldest]
        if entry.number in self.entries:
            return entry, False
        if entry.number != self.last + 1:
            self.is_whole = False
        if entry.kind == "second" and self.open.get(entry.plate) != entry.first:
            self.is_whole = False
        self._take(entry)
        return entry, True

    def _take(self, entry: Entry) -> None:
        self.entries[entry.number] = entry
        self.last = max(self.last, entry.number)
        self.by_plate.setdefault(entry.plate, []).append(entry.number)
        self.near.takes(entry.kind, entry.plate)
        self.per_day[entry.at.date()] += 1
        if entry.kind in TICKETS:
            bisect.insort(self.tickets, entry.number)
        while self.complete + 1 in self.entries:
            self.complete += 1
        if entry.kind == "first":
            self.open[entry.plate] = entry.number
        elif entry.kind in ("second", "void"):
            first = self.open.pop(entry.plate, None)
            first = entry.first if entry.first is not None else first
            if first is not None:
                self.partner[entry.number], self.closed[first] = first, entry.number
            if entry.kind == "second" and first in self.entries:
                self.empty[entry.plate] = self._lighter(first, entry.number)

    def lowest(self) -> int | None:
        """Return the first number that the journal still has, or None if it has none or that isn't known."""
        return self.first if self.first is not None else 1 if self.complete else None

    def missing(self) -> int | None:
        """Return the number of an entry that the export lacks, although it has later ones. Return None if there is none."""
        number = self.complete + 1
        return number if number < next(reversed(self.rows), 0) else None

    def own_of(self, number: int) -> Weighing | None:
        """Return the block of an entry, as it passed or as the export has it. Return None if its text isn't kept any more, and no export has it yet."""
        if number in self.texts:
            return self.texts[number].own
        return self.rows[number].weighing() if number in self.rows else None

    def is_sound(self, number: int) -> bool:
        """Return True if an entry's digest is that of its fields. A text that passed is the office's own."""
        row = self.rows.get(number)
        return number in self.texts or (
            row is not None
            and digest_of(row.weighing(), row.plate, row.key, row.previous) == row.digest
        )

    def first_of(self, number: int) -> int | None:
        """Return the First that an entry closes, or None if the lists may lack an entry, because they find a Void's First only by its plate."""
        return self.partner.get(number) if self.is_whole and self.is_of_export else None

    def _lighter(self, first: int, second: int) -> int:
        gross, other = self.entries[first].gross or 0, self.entries[second].gross or 0
        return first if gross < other else second

    def empty_of(self, plate: str) -> int | None:
        """Return the smaller weight in kg of a plate's last pair, or None if it has no pair."""
        return self.entries[self.empty[plate]].gross if plate in self.empty else None

    def digest_of(self, number: int) -> str | None:
        """Return the digest of an entry, as it passed or as the export has it."""
        if number in self.texts:
            return self.texts[number].own.digest
        return self.rows[number].digest if number in self.rows else None

    def open_first(self, plate: str) -> int | None:
        return self.open.get(plate)

    def ticket_with(self, number: int) -> int | None:
        """Return the number of the ticket that has an entry, or None if none has it."""
        kind, second = self.entries[number].kind, self.closed.get(number, 0)
        if kind in TICKETS:
            return number
        return second if second in self.entries and self.entries[second].kind == "second" else None

    def key_of(self, number: int) -> str:
        return self.rows[number].key if number in self.rows else self.keys.get(number, "")

    def number_of_key(self, key: str) -> int | None:
        """Return the number of the entry with a key, as the export and the texts since have it."""
        return self.by_key.get(key)

    def is_once(self, number: int) -> bool:
        """Return whether an entry is the First of a vehicle that is weighed once, or its Void."""
        void = number if self.entries[number].kind == "void" else self.closed.get(number, 0)
        return self.key_of(number) in self.once() or is_own_void(self.key_of(void))

    # ---- what is shown

    def slip_again(self, number: int) -> tuple[str | None, str] | None:
        """Return the text of an entry and where it is from, `passed` or `export`. The text is None if the digest isn't that of the fields. Return None if the entry isn't here."""
        if number in self.texts:
            return self.texts[number].letters, "passed"
        if number in self.rows:
            return slip_of_row(self.rows[number]), "export"
        return None

    def net_of(self, number: int) -> int | None:
        entry, first = self.entries[number], self.entries.get(self.partner.get(number, 0))
        if entry.gross is None:
            return None
        if entry.kind == "single" and entry.preset is not None:
            return entry.gross - entry.preset
        if entry.kind == "second" and first is not None and first.gross is not None:
            return abs(entry.gross - first.gross)
        return None

    def shown(self, number: int) -> dict[str, Any]:
        entry = self.entries[number]
        return {
            "number": number,
            "kind": entry.kind,
            "plate": entry.plate,
            "at": entry.at.strftime("%Y-%m-%dT%H:%M:%SZ"),
            "gross": entry.gross,
            "tare": entry.preset,
            "net": self.net_of(number),
            "first": self.partner.get(number),
            "given": dict(self.given.of(self.digest_of(number))),
            "once": self.is_once(number),
        }

    def on_site(self) -> list[dict[str, Any]]:
        return [self.shown(number) for number in sorted(self.there(), reverse=True)]

    def there(self) -> set[int]:
        """Return the Firsts of the vehicles on site."""
        once = self.once()
        return {it for it in self.open.values() if self.key_of(it) not in once}

    def last_given(self, plate: str) -> Lines:
        """Return what was given for the newest entry of a plate for which something was."""
        entries = (
            self.given.of(self.digest_of(it)) for it in reversed(self.by_plate.get(plate, []))
        )
        return next((it for it in entries if it), {})

    def search(self, words: str) -> tuple[list[dict[str, Any]], int]:
        """Return the newest entries that fit, and how many fit in all. They fit by their number, or by a part of their plate or of what was given for them."""
        given = self._with_given(words.strip())
        words = words.upper().replace(" ", "")
        bare = words.replace("-", "")
        hits = (
            [int(words)]
            if words.isdecimal() and len(words) < 11 and int(words) in self.entries
            else []
        )
        numbers = {
            number
            for plate, all in self.by_plate.items()
            if bare and bare in plate.replace("-", "")
            for number in all
        }
        hits += [it for it in sorted(numbers | given, reverse=True) if it not in hits[:1]]
        return [self.shown(number) for number in hits[:MOST_HITS]], len(hits)

    def _with_given(self, words: str) -> set[int]:
        if not words:
            return set()
        return {
            number
            for number, digest in self.given.with_words(words)
            if self.digest_of(number) == digest
        }
