"""How many places of the journal are free, and for how many days they last.

The service's own words say how many places there are. An entry takes one, and a vehicle on site one more for its second weighing.
"""

import datetime
from collections.abc import Mapping, Sequence
from dataclasses import dataclass
from typing import Any

RATE_DAYS = 14  # whose entries are counted
LOW_DAYS = 14
PLACES_OF_A_FIRST = 2  # its own, and one for the Second or Void


@dataclass(frozen=True)
class Room:
    """`days` is None if no entry of the last two weeks says how fast the places go."""

    places: int
    days: int | None

    @property
    def is_full(self) -> bool:
        """Return True if the office refuses to weigh in."""
        return self.places < PLACES_OF_A_FIRST

    @property
    def is_low(self) -> bool:
        return self.is_full or (self.days is not None and self.days < LOW_DAYS)

    def shown(self) -> dict[str, Any]:
        return {
            "places": self.places,
            "days": self.days,
            "is_low": self.is_low,
            "is_full": self.is_full,
        }


def capacity_of(words: Sequence[str]) -> int | None:
    """Return the places that the words of a service set, or None if they set none, because the counter doesn't know the program's own default."""
    found = [
        after if word == "--capacity" else word.removeprefix("--capacity=")
        for word, after in zip(words, (*words[1:], ""))
        if word == "--capacity" or word.startswith("--capacity=")
    ]
    return int(found[0]) if len(found) == 1 and found[0].isdecimal() else None


def room_of(
    capacity: int,
    entries: int,
    on_site: int,
    per_day: Mapping[datetime.date, int],
    today: datetime.date,
) -> Room:
    """Return the room that is left, where `per_day` has the entries of each day. A journal that is younger than two weeks is measured by its own days."""
    places = max(0, capacity - entries - on_site)
    begin = today - datetime.timedelta(days=RATE_DAYS - 1)
    counted = {day: count for day, count in per_day.items() if begin <= day <= today and count}
    if not counted:
        return Room(places, None)
    span = (today - max(begin, min(day for day in per_day if per_day[day]))).days + 1
    return Room(places, places * span // sum(counted.values()))
