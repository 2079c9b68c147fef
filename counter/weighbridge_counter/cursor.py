"""Entries and tickets after a number, for programs that fetch what is new. It has no clock and no socket.

A program remembers the number up to which it has all entries, and the journal's identifier. An answer ends before the first number that the lists lack,
so no entry is skipped.
"""

import bisect
import itertools
import re
from collections.abc import Iterable
from dataclasses import dataclass
from typing import Any, Protocol

from .lists import Lists
from .shown import moment_shown, weighing_shown
from .today import direction_of

USUAL_LIMIT, MOST = 100, 1000
NUMBER = re.compile("0|[1-9][0-9]{0,9}")
IDENTIFIER = re.compile("[0-9a-f]{32}")
NAMES = ("after", "limit", "journal")


class Query(Protocol):
    """The fields of a request's target."""

    def getall(self, name: str, default: list[str]) -> list[str]:
        ...


class BadField(Exception):
    """Raised for a field that can't be used."""

    def __init__(self, field: str, why: str) -> None:
        super().__init__(why)
        self.field, self.why = field, why


@dataclass(frozen=True)
class Asked:
    """A program's request for at most `limit` things after the number `after`. `journal` is the identifier that it knows, or None."""

    after: int
    limit: int
    journal: str | None


def field_of(query: Query, name: str, form: re.Pattern[str], wanted: str) -> str | None:
    """Return a field, or None if it isn't there. Raises BadField."""
    found = query.getall(name, [])
    if len(found) > 1:
        raise BadField(name, f"it is there {len(found)} times; send it once")
    if found and not form.fullmatch(found[0]):
        raise BadField(name, f"send {wanted}")
    return found[0] if found else None


def asked_of(query: Query) -> Asked:
    """Return what the fields of a target ask for. Raises BadField."""
    after = field_of(query, "after", NUMBER, "a number of an entry, or 0 for all entries")
    limit = field_of(query, "limit", NUMBER, f"1 to {MOST}")
    if limit is not None and not 1 <= int(limit) <= MOST:
        raise BadField("limit", f"send 1 to {MOST}")
    journal = field_of(query, "journal", IDENTIFIER, "the identifier that an answer had")
    return Asked(int(after or 0), int(limit or USUAL_LIMIT), journal)


def entries_after(lists: Lists, asked: Asked) -> dict[str, Any]:
    """Return the entries after a number, up to the first one that the lists lack."""
    begin = max(asked.after + 1, lists.lowest() or 1)
    end = min(begin + asked.limit - 1, lists.complete)
    entries = found(entry_of(lists, it) for it in range(begin, end + 1))
    until = entries[-1]["number"] if entries else asked.after
    return {"entries": entries, **place_of(lists, asked, until)}


def tickets_after(lists: Lists, asked: Asked) -> dict[str, Any]:
    """Return the tickets after a number. If no more come, `next` is the number of the newest entry, which needn't be a ticket's."""
    begin = bisect.bisect_right(lists.tickets, asked.after)
    end = bisect.bisect_right(lists.tickets, lists.complete)
    numbers = lists.tickets[begin : min(begin + asked.limit, end)]
    tickets = found(ticket_of(lists, it) for it in numbers)
    is_all = begin + len(tickets) >= end
    until = lists.complete if is_all else tickets[-1]["number"] if tickets else asked.after
    return {"tickets": tickets, **place_of(lists, asked, until)}


def found(things: Iterable[dict[str, Any] | None]) -> list[dict[str, Any]]:
    """Return what is there before the first that isn't."""
    return [it for it in itertools.takewhile(lambda it: it is not None, things) if it]


def place_of(lists: Lists, asked: Asked, until: int) -> dict[str, Any]:
    """Return how far an answer goes: `next` is what the next request sends as `after`."""
    following = max(asked.after, until)
    return {
        "first": lists.lowest(),
        "next": following,
        "more": following < lists.complete,
        "missing": lists.missing(),
    }


def entry_of(lists: Lists, number: int) -> dict[str, Any] | None:
    """Return an entry, or None if the lists have only its line."""
    entry, own = lists.entries[number], lists.own_of(number)
    if own is None:
        return None
    return {
        **weighing_shown(own),
        "key": lists.key_of(number),
        "plate": entry.plate,
        "sound": lists.is_sound(number),
        "first": lists.partner.get(number),
        "net_kg": lists.net_of(number),
        "given": dict(lists.given.of(own.digest)),
    }


def ticket_of(lists: Lists, number: int) -> dict[str, Any] | None:
    """Return a ticket as tickets.csv has it, with its weighings. Return None if the lists have only a line of one of them."""
    entry = lists.entries[number]
    first = lists.entries.get(lists.partner.get(number, 0)) if entry.kind == "second" else None
    parts = found(entry_of(lists, it.number) for it in (first, entry) if it is not None)
    if len(parts) < (1 if first is None else 2):
        return None
    other = entry.preset if first is None else first.gross
    weights = sorted(it for it in (entry.gross, other) if it is not None)
    return {
        "number": number,
        "kind": "preset" if entry.kind == "single" else "pair",
        "plate": entry.plate,
        "at": moment_shown(entry.at),
        "gross_kg": weights[-1] if len(weights) == 2 else None,
        "tare_kg": weights[0] if len(weights) == 2 else None,
        "net_kg": lists.net_of(number),
        "direction": direction_of(lists, number) or None,
        "given": dict(lists.given.of(lists.digest_of(number))),
        "sound": len(weights) == 2 and all(it["sound"] for it in parts),
        "weighings": parts,
    }
