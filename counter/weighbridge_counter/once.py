"""Vehicles that are weighed once. Their First has its slip, and the counter withdraws it when the plate comes again or at local midnight.

A First that stays open would let the plate's next visit make a ticket with this weight. A note of it is on the disk before the office gets the First. The
Void has a key of its own, made from the First's, so that it is stored once, however often it is sent. A note goes once the lists show that the First isn't
open any more.
"""

import datetime
import hashlib
from collections.abc import Callable, Mapping, Set
from dataclasses import dataclass, replace
from typing import Any, Protocol

from .files import Files, tell

FILE = "once.json"
PREFIX = "once-"  # of the key of a Void that the counter asked for
LATEST = 30.0  # seconds after which no request that was sent is stored any more


@dataclass(frozen=True)
class Note:
    """A vehicle that is weighed once. `number` and `digest` of its First are None until the office has answered."""

    plate: str
    day: datetime.date  # local
    number: int | None = None
    digest: str | None = None

    def noted(self) -> dict[str, Any]:
        return {
            "plate": self.plate,
            "day": self.day.isoformat(),
            "number": self.number,
            "digest": self.digest,
        }


def note_in(it: Any) -> Note | None:
    """Return the note that a file's row says, or None if it says none."""
    try:
        plate, number, digest = it["plate"], it["number"], it["digest"]
        if not isinstance(plate, str) or (number is None) != (digest is None):
            return None
        if number is not None and not (isinstance(number, int) and isinstance(digest, str)):
            return None
        return Note(plate, datetime.date.fromisoformat(it["day"]), number, digest)
    except (KeyError, TypeError, ValueError):
        return None


def void_key(key: str) -> str:
    """Return the key of the Void of a First with this key."""
    return PREFIX + hashlib.sha256(key.encode()).hexdigest()[: 32 - len(PREFIX)]


def is_own_void(key: str) -> bool:
    """Return whether the counter asked for a Void with this key, because its vehicle is weighed once. Such a Void has no printout."""
    return key.startswith(PREFIX)


@dataclass(frozen=True)
class Withdrawal:
    """A Void that the office has to get."""

    key: str
    plate: str


class Lists(Protocol):
    """The lists, as far as they know the journal."""

    def open_first(self, plate: str) -> int | None:
        """Return the number of a plate's open First."""

    def digest_of(self, number: int) -> str | None:
        """Return the digest of an entry."""

    def number_of_key(self, key: str) -> int | None:
        """Return the number of the entry with this key."""


class Once:
    def __init__(
        self, files: Files, today: Callable[[], datetime.date], clock: Callable[[], float]
    ) -> None:
        self.files, self.today, self.clock = files, today, clock
        read = files.read(FILE)
        rows = read if isinstance(read, dict) else {}
        found = {str(key): note_in(it) for key, it in rows.items()}
        self.notes = {key: it for key, it in found.items() if it is not None}
        # when a First may have gone to the office last
        self.sent_at = dict.fromkeys(self.notes, clock())
        if len(self.notes) < len(found):
            tell(
                f"{files.path(FILE)}: {len(found) - len(self.notes)} of its rows can't be read; look for open first weighings of vehicles that were weighed once"
            )

    # ---- a First

    async def intend(self, key: str, plate: str, within: float) -> None:
        """Note a vehicle before its First goes to the office. Raises NoFile; nothing is noted then."""
        self.sent_at[key] = self.clock()
        if key in self.notes:
            return  # the same press again
        after = {**self.notes, key: Note(plate, self.today())}
        await self.files.write(FILE, {it: note.noted() for it, note in after.items()}, within)
        self.notes = after

    def stored(self, key: str, number: int, digest: str) -> None:
        """Note which entry the First is."""
        if key in self.notes:
            self._keep({**self.notes, key: replace(self.notes[key], number=number, digest=digest)})

    def forget(self, key: str) -> None:
        """Remove a note, because its First was never stored, or isn't open any more."""
        self.sent_at.pop(key, None)
        if key in self.notes:
            self._keep({it: note for it, note in self.notes.items() if it != key})

    # ---- its Void

    def of_plate(self, plate: str, but: str) -> list[str]:
        """Return the keys of a plate's notes, except one."""
        return [key for key, it in self.notes.items() if it.plate == plate and key != but]

    def due(self) -> list[str]:
        """Return the keys of the notes of earlier days."""
        today = self.today()
        return [key for key, it in self.notes.items() if it.day < today]

    def step(
        self, key: str, lists: Lists, is_certain: Callable[[float], bool]
    ) -> Withdrawal | None:
        """Return the Void that a note needs now, or None. A note that needs none any more is removed.

        `is_certain` says whether nothing is missing in the lists, and the counter asked for their export after a moment of its clock.
        """
        note = self.notes[key]
        if note.number is None:
            number = lists.number_of_key(key)
            digest = None if number is None else lists.digest_of(number)
            if number is None or digest is None:
                if is_certain(self.sent_at[key] + LATEST):
                    self.forget(key)
                return None
            self.stored(key, number, digest)
            note = self.notes[key]
        assert note.number is not None
        if (
            lists.open_first(note.plate) == note.number
            and lists.digest_of(note.number) == note.digest
        ):
            return Withdrawal(void_key(key), note.plate)
        if is_certain(self.sent_at[key]):
            self.forget(key)
        return None

    def keys(self) -> Set[str]:
        """Return the keys of the Firsts that are noted."""
        return self.notes.keys()

    def _keep(self, notes: Mapping[str, Note]) -> None:
        self.notes = dict(notes)
        self.files.keep(FILE, {key: it.noted() for key, it in notes.items()})
