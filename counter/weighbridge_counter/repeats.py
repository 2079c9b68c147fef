"""Whether the office's answer to a key was given before. It has no clock and no socket.

The office doesn't say it. The counter knows that an answer was given before if it knew the key's entry before it sent the request. It knows that an answer
is new if the entry is the next one, no earlier request with the key is unanswered, and the entry isn't older than the request. Otherwise it says nothing.
"""

import datetime
from collections.abc import Callable
from dataclasses import dataclass

from weighbridge_paper.text import NoText, read_text

MOST = 1000  # keys that are kept


@dataclass(frozen=True)
class Known:
    """The knowledge of the lists: the digest of a key's entry, and the newest number, or None if an entry may be missing."""

    digest: str | None = None
    newest: int | None = None


@dataclass(frozen=True)
class Before:
    """The knowledge at the sending of a request, and the second of the sending."""

    known: Known
    is_only: bool
    at: datetime.datetime


class Repeats:
    def __init__(self, known: Callable[[str], Known], now: Callable[[], datetime.datetime]) -> None:
        self.known, self.now = known, now
        # keys whose request has no answer, in the order of the sending
        self.unanswered: dict[str, None] = {}
        self.has_forgotten = False  # whether such a key was dropped

    def sends(self, key: str) -> Before:
        """Note that a request is sent. Its answer removes the note."""
        is_only = key not in self.unanswered and not self.has_forgotten
        self.unanswered.pop(key, None)
        self.unanswered[key] = None
        if len(self.unanswered) > MOST:
            del self.unanswered[next(iter(self.unanswered))]
            self.has_forgotten = True
        return Before(self.known(key), is_only, self.now().replace(microsecond=0))

    def refused(self, key: str, before: Before) -> bool:
        """Return that a refusal wasn't given before, because the office judges each time, and keeps none."""
        if before.is_only:
            self.unanswered.pop(key, None)
        return False

    def answered(self, key: str, before: Before, letters: str) -> bool | None:
        """Return whether a text was given before, or None if nobody knows."""
        try:
            own = read_text(letters).own
        except NoText:
            return None
        self.unanswered.pop(key, None)
        if before.known.digest == own.digest:
            return True
        follows = before.known.newest is not None and own.number == before.known.newest + 1
        return False if follows and before.is_only and own.at >= before.at else None
