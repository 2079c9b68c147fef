"""Decides which faults begin and which end, from one look to the next. It takes the time as a value.

A fault begins once the looks have seen it without a gap for `after` seconds, and ends once it was absent for as long. So nobody hears of a restart that
heals in a minute. These seconds come from the machine's uptime, which no change of the clock touches.

If the clock jumps, each moment in the file moves with it. So a clock that was a month ahead, or goes back by a month, delays no message and hides no reminder.
"""

from collections.abc import Iterable, Iterator
from collections.abc import Set as AbstractSet
from dataclasses import dataclass, replace
from datetime import datetime, timedelta

from .faults import Fault, own_key
from .state import MOST_FAULTS, YEARS, Known, State, Told

JUMP = timedelta(minutes=1)
# A gap between two looks counts as at most this, because nobody looked in between.
MOST_SECONDS = 120.0
# A machine counts as off for at most this. The clock of the new start may be wrong.
MOST_OFF = timedelta(days=31)


@dataclass(frozen=True)
class Tick:
    """When a look is made: the clock, the seconds since the machine's start, and the name of that start."""

    now: datetime
    uptime: float
    boot: str


def passed(state: State, tick: Tick) -> timedelta:
    """Return how much time went by since the last look."""
    assert state.looked is not None
    if tick.boot == state.boot and tick.uptime >= state.uptime:
        return timedelta(seconds=tick.uptime - state.uptime)
    return min(max(tick.now - state.looked, timedelta()), MOST_OFF)


def moved(at: datetime | None, by: timedelta) -> datetime | None:
    try:
        found = None if at is None else at + by
    except OverflowError:
        return at
    return found if found is None or found.year in YEARS else at


def every_known(state: State) -> Iterator[Known]:
    yield from state.known.values()
    for it in state.receivers.values():
        yield from it.owed.values()


def follow_clock(state: State, tick: Tick) -> float:
    """Move all moments by what the clock jumped. Return the seconds that count for this look."""
    if state.looked is None:
        return 0.0
    gone = passed(state, tick)
    jump = tick.now - state.looked - gone
    if abs(jump) >= JUMP:
        state.first = moved(state.first, jump) or tick.now
        for one in every_known(state):
            one.since, one.until = moved(one.since, jump) or tick.now, moved(one.until, jump)
        for it in state.receivers.values():
            it.told = {key: moved(at, jump) or tick.now for key, at in it.told.items()}
            it.tried, it.day, it.last = (moved(at, jump) for at in (it.tried, it.day, it.last))
    is_same = tick.boot == state.boot
    return min(gone.total_seconds(), MOST_SECONDS) if is_same else 0.0


def drop_future(state: State, now: datetime) -> None:
    """Bring back what a damaged file dates after now."""
    state.first = min(state.first, now)
    for one in every_known(state):
        one.since = min(one.since, now)
    for it in state.receivers.values():
        it.told = {key: min(at, now) for key, at in it.told.items()}
        it.tried, it.day = (at if at is None else min(at, now) for at in (it.tried, it.day))


def watch(
    state: State,
    seen: Iterable[Fault],
    tick: Tick,
    after: float,
    titles: Iterable[str],
    unknown: AbstractSet[str] = frozenset(),
) -> None:
    """Bring the state from the last look to this one, which found these faults.

    `titles` are the receivers of the setup. Of faults with a name in `unknown` the look doesn't know whether they are over, so they stay.
    """
    seconds = follow_clock(state, tick)
    drop_future(state, tick.now)
    state.receivers = {it: state.receivers.get(it, Told()) for it in titles}
    found = {it.key: it for it in seen}
    for key, it in found.items():
        see(state, key, it, tick.now, seconds, after)
    for key in [it for it in state.known if it not in found]:
        if state.known[key].is_begun and state.known[key].name in unknown:
            continue
        miss(state, key, tick.now, seconds, after)
    state.looks, state.looked = state.looks + 1, tick.now
    state.uptime, state.boot = tick.uptime, tick.boot


def see(state: State, key: str, it: Fault, now: datetime, seconds: float, after: float) -> None:
    if key not in state.known:
        if len(state.known) < MOST_FAULTS - 1:
            state.known[key] = Known(it.name, it.about, it.detail, now, is_begun=after <= 0)
        return
    known = state.known[key]
    known.detail = it.detail
    if known.is_begun:
        known.counted, known.until = 0.0, None
    else:
        known.counted += seconds
        if known.counted >= after:
            known.is_begun, known.counted = True, 0.0


def miss(state: State, key: str, now: datetime, seconds: float, after: float) -> None:
    known = state.known[key]
    if not known.is_begun:
        del state.known[key]
        return
    if known.until is None:
        known.until = now
    else:
        known.counted += seconds
    if known.counted >= after:
        del state.known[key]
        for name, it in state.receivers.items():
            it.told.pop(key, None)
            it.owed.pop(key, None)
            if key != own_key(name):
                it.owed[key] = replace(known)
            while len(it.owed) > MOST_FAULTS - 1:
                del it.owed[next(iter(it.owed))]
