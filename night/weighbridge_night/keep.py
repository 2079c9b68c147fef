"""Names of copies, and the rule which copies stay.

All of it is a function of names: the name of a copy has its moment, its verdict, its newest entry and its size. There is no clock here. A tier counts periods
in which there are copies, and doesn't count back from today. So a clock that jumps makes no copy too old.
"""

import re
from collections.abc import Callable, Iterable
from dataclasses import dataclass
from datetime import datetime, timezone

SOUND, DOUBTFUL = "sound", "doubtful"
NAME = re.compile(r"(\d{4}-\d\d-\d\dT\d{6}Z)_(sound|doubtful)_(\d{1,10})_(\d{1,15})")
MOMENT = "%Y-%m-%dT%H%M%SZ"
# Of the newest copies, how many days, weeks, months and years have one that stays.
DAYS, WEEKS, MONTHS, YEARS = 7, 5, 12, 10
# Of copies that aren't known to be sound, how many days have one that stays.
DOUBTFUL_DAYS = 7


@dataclass(frozen=True, order=True)
class Copy:
    """A copy, as its name describes it. Copies are ordered by their moments."""

    moment: datetime
    verdict: str
    newest: int  # the number of its newest entry; 0 if it has none, or if a doubtful copy doesn't show it
    size: int  # bytes

    @property
    def name(self) -> str:
        return f"{self.moment.strftime(MOMENT)}_{self.verdict}_{self.newest}_{self.size}"

    @property
    def is_sound(self) -> bool:
        return self.verdict == SOUND

    @property
    def newest_in_words(self) -> str:
        """Return the number of its newest entry, in the words of a list."""
        none = "no entry" if self.is_sound else "newest entry unknown"
        return f"newest entry {self.newest}" if self.newest else none


def copy_of(name: str) -> Copy | None:
    """Return the copy of this name. Return None if it is another's name, which the night never touches."""
    if (found := NAME.fullmatch(name)) is None:
        return None
    try:
        moment = datetime.strptime(found[1], MOMENT).replace(tzinfo=timezone.utc)
    except ValueError:
        return None
    it = Copy(moment, found[2], int(found[3]), int(found[4]))
    return it if it.name == name else None


def copies_of(names: Iterable[str]) -> list[Copy]:
    """Return the copies among names, the newest first."""
    found = [it for it in map(copy_of, names) if it is not None]
    return sorted(found, reverse=True)


def newest_sound(copies: Iterable[Copy]) -> Copy | None:
    """Return the newest sound copy. Return None if there is none."""
    return max((it for it in copies if it.is_sound), default=None)


def day(it: Copy) -> object:
    return it.moment.date()


def week(it: Copy) -> object:
    return it.moment.isocalendar()[:2]


def month(it: Copy) -> object:
    return it.moment.year, it.moment.month


def year(it: Copy) -> object:
    return it.moment.year


TIERS: list[tuple[int, Callable[[Copy], object]]] = [
    (DAYS, day),
    (WEEKS, week),
    (MONTHS, month),
    (YEARS, year),
]


def newest_of_each(copies: list[Copy], count: int, period: Callable[[Copy], object]) -> list[Copy]:
    """Return the newest copy of each of the `count` newest periods that have one. `copies` has the newest first."""
    found: dict[object, Copy] = {}
    for it in copies:
        if len(found) == count and period(it) not in found:
            break
        found.setdefault(period(it), it)
    return list(found.values())


def ranks(copies: Iterable[Copy]) -> dict[Copy, int]:
    """Return each copy that stays, with the coarsest tier that keeps it: 1 for days to 4 for years, and 0 for a doubtful copy."""
    ordered = sorted(copies, reverse=True)
    sound = [it for it in ordered if it.is_sound]
    doubtful = [it for it in ordered if not it.is_sound]
    found = {it: 0 for it in newest_of_each(doubtful, DOUBTFUL_DAYS, day)}
    for rank, (count, period) in enumerate(TIERS, 1):
        for it in newest_of_each(sound, count, period):
            found[it] = rank
    return found


def later(copies: Iterable[Copy], own: Copy) -> list[Copy]:
    """Return the copies that are dated after this night's copy, the newest first. A clock was wrong, or somebody made their names."""
    return sorted((it for it in copies if it.moment > own.moment), reverse=True)


def surplus(copies: Iterable[Copy], most_bytes: int, own: Copy | None = None) -> list[Copy]:
    """Return the copies that don't stay, in the order in which they are removed.

    First come those that no tier keeps. If the rest has more than `most_bytes`, the oldest of the finest tier goes first. The newest sound copy always stays,
    even if it is larger than that. So does `own`, the copy of this night. Copies that are dated after it stay and take no other's place.
    """
    given = sorted(it for it in copies if own is None or it.moment <= own.moment)
    rank = ranks(given)
    gone = [it for it in given if it not in rank and it != own]
    kept = sorted((it for it in given if it in rank), key=lambda it: (rank[it], it))
    staying = {newest_sound(given), own}
    size = sum(it.size for it in kept)
    for it in kept:
        if size <= most_bytes:
            break
        if it not in staying:
            gone.append(it)
            size -= it.size
    return gone
