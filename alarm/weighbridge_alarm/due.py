"""Decides what a receiver must hear now. It takes the time as a value.

A receiver hears of each fault when it begins, once a day while it lasts, and when it ends. All of that is in one message. Nothing counts as
reported before the receiver took the message, so after a kill in between the message comes twice.
"""

from dataclasses import dataclass, field
from datetime import datetime, time, timedelta

from .catalogue import words_of
from .faults import own_key
from .state import Known, State, Told

DAY = timedelta(hours=24)
# A fault that was reported shortly before the daily hour isn't repeated at it.
RECENT = timedelta(hours=4)
# After a failure a receiver is tried again after 1, 2, 4 .. minutes, and then each hour.
MOST_WAIT = timedelta(hours=1)


@dataclass(frozen=True)
class Times:
    """The hour of the daily message, the hours of silence, and how many messages a day a receiver gets at most."""

    daily: time
    most_a_day: int
    quiet: tuple[time, time] | None = None


@dataclass
class Due:
    """The content of a message: the faults that began, last and ended. `silent_until` is set if it is the last one of the day."""

    began: list[Known] = field(default_factory=list)
    lasts: list[Known] = field(default_factory=list)
    ended: list[Known] = field(default_factory=list)
    silent_until: datetime | None = None


def last_daily(local: datetime, daily: time) -> datetime:
    """Return the newest daily hour that is over."""
    at = local.replace(hour=daily.hour, minute=daily.minute, second=0, microsecond=0)
    return at if at <= local else at - timedelta(days=1)


def is_quiet(local: datetime, quiet: tuple[time, time] | None) -> bool:
    if quiet is None:
        return False
    begin, end = quiet
    now = local.time()
    return begin <= now < end if begin <= end else now >= begin or now < end


def is_waiting(mine: Told, now: datetime) -> bool:
    """Return True if the receiver failed, and isn't tried again yet."""
    if not mine.fails or mine.tried is None:
        return False
    wait = min(timedelta(minutes=2 ** min(mine.fails - 1, 6)), MOST_WAIT)
    return now < mine.tried + wait - timedelta(seconds=10)


def begin_day(mine: Told, now: datetime) -> None:
    """Begin another day of messages if the last one is over."""
    if mine.day is None or now - mine.day >= DAY:
        mine.day, mine.sent = None, 0


def is_urgent(it: Due) -> bool:
    """Return True if a fault began that stops the weighing, or that can't wait for a day. Then a receiver gets messages past its bound, up to twice as many."""
    return any(words_of(one.name).stops or words_of(one.name).loud for one in it.began)


def due(state: State, name: str, times: Times, local: datetime) -> Due | None:
    """Return what this receiver must hear now. None if it is nothing."""
    mine = state.receivers[name]
    own = own_key(name)
    begun = {key: it for key, it in state.known.items() if it.is_begun and key != own}
    it = Due(
        [one for key, one in begun.items() if key not in mine.told],
        [one for key, one in begun.items() if key in mine.told],
        [*mine.owed.values()],
    )
    hour = last_daily(local, times.daily)
    is_daily = any(key in begun and hour - at >= RECENT for key, at in mine.told.items())
    if not (it.began or it.ended or is_daily):
        return None
    if is_quiet(local, times.quiet) or is_waiting(mine, local):
        return None
    begin_day(mine, local)
    urgent_too = 2 * times.most_a_day
    if mine.sent >= (urgent_too if is_urgent(it) else times.most_a_day):
        return None
    if mine.sent + 1 in (times.most_a_day, urgent_too):
        it.silent_until = (mine.day or local) + DAY
    return it


def took(mine: Told, it: Due, now: datetime) -> None:
    """Note that the receiver took this message."""
    for one in it.began + it.lasts:
        mine.told[one.fault.key] = now
    for one in it.ended:
        mine.owed.pop(one.fault.key, None)
    mine.fails, mine.tried, mine.why = 0, None, ""
    mine.day, mine.sent, mine.last = mine.day or now, mine.sent + 1, now


def failed(mine: Told, why: str, now: datetime) -> None:
    """Note that the receiver didn't take a message."""
    mine.fails, mine.tried, mine.why = min(mine.fails + 1, 10_000), now, why
