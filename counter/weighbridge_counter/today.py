"""The entries of a local day, their sums, and their table for a spreadsheet. They are no legal record."""

import csv
import datetime
import io
from collections.abc import Iterable
from dataclasses import asdict, dataclass
from typing import Any

from .lists import Lists

MOST_LISTED = 1000  # that the pages get; `GET /today` has all
COLUMNS = (
    "number",
    "kind",
    "plate",
    "first",
    "at",
    "gross_in_kg",
    "tare_in_kg",
    "net_in_kg",
    "direction",
)


@dataclass(frozen=True)
class Sums:
    """Sums of a day in kg. A weighing with a tare has no direction, because the journal doesn't have the vehicle's way."""

    entries: int
    tickets: int
    net_in: int
    net_out: int
    net_with_tare: int


def direction_of(lists: Lists, number: int) -> str:
    """Return `in` if the vehicle came loaded, `out` if it left loaded, and nothing for what is no pair."""
    entry, first = lists.entries[number], lists.entries.get(lists.partner.get(number, 0))
    if entry.kind != "second" or first is None:
        return ""
    change = (entry.gross or 0) - (first.gross or 0)
    return "in" if change < 0 else "out" if change > 0 else ""


def midnight(day: datetime.date, zone: datetime.tzinfo) -> datetime.datetime:
    """Return the moment in UTC at which a local day begins."""
    return datetime.datetime.combine(day, datetime.time(), zone).astimezone(datetime.timezone.utc)


def numbers_of(lists: Lists, now: datetime.datetime) -> list[int]:
    """Return the numbers of the entries of the local day of a moment, the newest first. Moments in a journal never go back."""
    day, found = now.astimezone(lists.zone).date(), []
    begin, end = midnight(day, lists.zone), midnight(day + datetime.timedelta(1), lists.zone)
    for number in sorted(lists.entries, reverse=True):
        entry = lists.entries[number]
        if entry.at < begin:
            break
        if entry.at < end:
            found.append(number)
    return found


def sums_of(lists: Lists, numbers: Iterable[int]) -> Sums:
    entries = tickets = 0
    nets = {"in": 0, "out": 0, "": 0, "single": 0}
    for number in numbers:
        entries += 1
        net, kind = lists.net_of(number), lists.entries[number].kind
        if net is not None:
            tickets += 1
            nets["single" if kind == "single" else direction_of(lists, number)] += net
    return Sums(entries, tickets, nets["in"], nets["out"], nets["single"])


def day_of(lists: Lists, now: datetime.datetime) -> dict[str, Any]:
    """Return the day of this moment: its newest entries, and the sums of all of them."""
    numbers = numbers_of(lists, now)
    return {
        "today": [lists.shown(it) for it in numbers[:MOST_LISTED]],
        "sums": asdict(sums_of(lists, numbers)),
    }


def whole_day_of(lists: Lists, now: datetime.datetime) -> dict[str, Any]:
    """Return the day of this moment with all of its entries, the oldest first."""
    numbers = numbers_of(lists, now)
    return {
        "day": now.astimezone(lists.zone).date().isoformat(),
        "entries": [
            {**lists.shown(it), "direction": direction_of(lists, it)} for it in reversed(numbers)
        ],
        "sums": asdict(sums_of(lists, numbers)),
    }


def table_of(lists: Lists, now: datetime.datetime) -> str:
    """Return the day of this moment as CSV by RFC 4180, the oldest entry first, with local times."""
    made = io.StringIO()
    writer = csv.writer(made)
    writer.writerow(COLUMNS)
    for number in reversed(numbers_of(lists, now)):
        entry, it = lists.entries[number], lists.shown(number)
        at = entry.at.astimezone(lists.zone).isoformat()
        weights = (it["gross"], it["tare"], it["net"], direction_of(lists, number))
        writer.writerow((number, entry.kind, entry.plate, it["first"], at, *weights))
    return made.getvalue()
