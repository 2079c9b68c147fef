"""The state machine of the trail: from what a look saw to the events that it notes. It has no clock, no file and no socket.

Only the lines of the trail count as known. So a look that was killed before its line was on the disk left nothing, and the next look sees the same.
"""

from collections import Counter
from dataclasses import dataclass, field
from datetime import datetime, timezone

from .saying import Message, event_of
from .trail import Event, Line, Trail, digest_of

Value = str | int
Values = dict[str, Value]

# A look sees of one thing its values, None if it isn't there, or a text that says why it can't be seen.
Thing = Values | None | str

DAY, HOUR = 86_400, 3_600
JUMP = 60  # seconds
# A timer starts a look every five minutes.
LATE = HOUR
# Once the lines of 24 hours have more bytes, a look notes something only once an hour.
BUSY = 65_536
MOST_GROUPS = 30  # different events of the system's journal in one look
MOST_OF_THINGS = 32_000  # bytes of a line; what has no room is seen again by the next look
LAST_MOMENT = 253_402_207_200
JOURNAL, ZERO = "journal", "zero"


def shown(seconds: int) -> str:
    """Return a moment in UTC."""
    it = datetime.fromtimestamp(min(max(seconds, 0), LAST_MOMENT), timezone.utc)
    return it.strftime("%Y-%m-%dT%H:%M:%SZ")


def seconds_of(moment: str) -> int:
    """Return the seconds of a moment of the trail. One that is none of the calendar is 0."""
    try:
        it = datetime.strptime(moment, "%Y-%m-%dT%H:%M:%SZ")
    except ValueError:
        return 0
    return int(it.replace(tzinfo=timezone.utc).timestamp())


@dataclass(frozen=True)
class Clock:
    """The wall clock, the seconds since the machine's start, and which start that was."""

    wall: int
    up: int
    boot: str


@dataclass(frozen=True)
class Log:
    """The new lines of the system's journal. It is joined if the last line that was read before is still there."""

    messages: list[Message]
    cursor: str | None
    is_joined: bool = True


@dataclass(frozen=True)
class Hint:
    """A note of the last look in a second file. It counts only if no line was added since, and a lost one costs nothing but time."""

    number: int
    clock: Clock
    cursor: str | None
    newest: Values


@dataclass(frozen=True)
class Seen:
    """All that a look saw."""

    clock: Clock
    log: Log | str
    things: dict[str, Thing]


@dataclass
class Known:
    """All that the lines of the trail say."""

    number: int = 0
    clock: Clock | None = None  # of the last line
    cursor: str | None = None
    lost: str | None = (
        None  # the cursor of which a line says that the system's journal no longer has it
    )
    day: Clock | None = None
    things: dict[str, Values | None] = field(default_factory=dict)
    unseen: dict[str, str] = field(default_factory=dict)
    faults: set[str] = field(default_factory=set)
    sizes: list[tuple[int, int]] = field(default_factory=list)  # moment and bytes of the last lines

    def add(self, it: Line) -> None:
        """Learn what a line says."""
        self.clock = Clock(seconds_of(it.noted), it.up, it.boot)
        self.number, self.cursor = it.number, it.cursor
        self.sizes = [*self.sizes[-599:], (self.clock.wall, it.size)]
        for event in it.events:
            self.learn(event, self.clock)

    def learn(self, event: Event, clock: Clock) -> None:
        kind, what = event["event"], event.get("what", "")
        if kind in ("first", "changed", "gone", "back"):
            self.unseen.pop(what, None)
            self.things[what] = changed(self.things.get(what), event)
        elif kind == "unseen":
            self.unseen[what] = str(event.get("why"))
        elif kind == "seen":
            self.unseen.pop(what, None)
        elif kind == "broken":
            self.faults.add(str(event.get("fault")))
        elif kind == "log-lost":
            self.lost = event.get("cursor")
        elif kind == "day":
            self.day = clock
            if isinstance(newest := event.get(JOURNAL), dict):
                self.things[JOURNAL] = {**(self.things.get(JOURNAL) or {}), **newest}

    def is_busy(self, clock: Clock) -> bool:
        """Return True if the lines of the last 24 hours have more than BUSY bytes, and the hour after the last line isn't over."""
        last = self.clock
        if last is None or not 0 <= clock.wall - last.wall < HOUR:
            return False
        return self.bytes_of_a_day(clock) > BUSY

    def bytes_of_a_day(self, clock: Clock) -> int:
        return sum(size for at, size in self.sizes if 0 <= clock.wall - at < DAY)


def known_of(trail: Trail) -> Known:
    known = Known()
    for it in trail.lines:
        known.add(it)
    return known


def changed(before: Values | None, event: Event) -> Values | None:
    """Return the values of a thing after this event."""
    after = event.get("after")
    if not isinstance(after, dict):
        return None
    if event["event"] != "changed":
        return dict(after)
    gone = [it for it in event.get("before") or {} if it not in after]
    return {**{name: it for name, it in (before or {}).items() if name not in gone}, **after}


def usable(hint: Hint | None, known: Known) -> Hint | None:
    """Return the hint if it was left after the last line of the trail, in the same run of the machine."""
    return hint if hint is not None and hint.number == known.number else None


def must_wait(known: Known, trail: Trail, clock: Clock) -> bool:
    """Return True if this look notes nothing and reads nothing, because the last ones noted too much. A later look notes what it leaves."""
    return known.is_busy(clock) and not (trail.torn or trail.lacks_end)


def decide(known: Known, hint: Hint | None, trail: Trail, seen: Seen) -> list[Event]:
    """Return the events that this look notes. It writes no line if there are none."""
    events = events_of_trail(known, trail)
    if hint is not None and hint.number > known.number:
        lost = f"the last look left {hint.number} lines, and {known.number} are there"
        events.append({"event": "broken", "fault": lost})
    hint = usable(hint, known)
    events += events_of_clock(known, hint, seen.clock)
    if (size := known.bytes_of_a_day(seen.clock)) > BUSY:
        events.append({"event": "busy", "bytes": size})
    last = shown(hint.clock.wall) if hint is not None else None
    room = MOST_OF_THINGS
    # a setup that was removed isn't among the things any more
    things: dict[str, Thing] = {it: None for it, has in known.things.items() if has is not None}
    things.update(seen.things)
    for what, thing in things.items():
        event = event_of_thing(what, thing, known, hint)
        if event is None:
            continue
        if last is not None and event["event"] in ("changed", "gone", "back"):
            event["after_look"] = last
        room -= len(repr(event))
        if room < 0:
            break  # the next look sees it again
        events.append(event)
    events += events_of_log(known, seen.log)
    if is_day_over(known.day, seen.clock):
        events.append({"event": "day", **day_of(seen.things)})
    return events


def events_of_trail(known: Known, trail: Trail) -> list[Event]:
    events: list[Event] = []
    if trail.torn:
        # what a power cut left of a line, or what somebody added or changed; it stays there
        events.append({"event": "torn", "bytes": len(trail.torn), "sha256": digest_of(trail.torn)})
    if trail.lacks_end:
        events.append({"event": "completed"})
    if not trail.lines:
        events.append({"event": "begin"})
    new = [it for it in dict.fromkeys(trail.faults) if it not in known.faults]
    events += [{"event": "broken", "fault": it} for it in new[:5]]
    return events


def events_of_clock(known: Known, hint: Hint | None, clock: Clock) -> list[Event]:
    """Return a new start of the machine, a gap between looks, and a jump of the wall clock.

    The two clocks go at the same pace, so only a jump changes their difference. It is taken from the last line, so that many small jumps count together.
    """
    last = known.clock
    if last is None:
        return []
    looked = hint.clock if hint is not None and hint.clock.boot == last.boot else last
    if last.boot != clock.boot:
        events: list[Event] = [
            {
                "event": "boot",
                "at": shown(clock.wall - clock.up),
                "last_look": shown(looked.wall),
            }
        ]
        if clock.wall < looked.wall:
            events.append(
                {
                    "event": "clock",
                    "before": shown(looked.wall),
                    "after": shown(clock.wall),
                    "jump": "unknown, because the machine was started in between",
                }
            )
        if hint is not None and hint.clock.boot == clock.boot:
            return events + gap(hint.clock.up, clock, shown(hint.clock.wall))
        return events + gap(0, clock, "the machine's start")
    events = []
    due = last.wall + clock.up - last.up
    if abs(clock.wall - due) > JUMP:
        events.append(
            {
                "event": "clock",
                "before": shown(due),
                "after": shown(clock.wall),
                "jump": clock.wall - due,
            }
        )
    if hint is None:
        # nobody knows when the last look was that noted nothing, but a day has a line
        return events + (
            gap(last.up, clock, shown(last.wall)) if clock.up - last.up > DAY + LATE else []
        )
    return events + gap(looked.up, clock, shown(looked.wall))


def gap(up: int, clock: Clock, since: str) -> list[Event]:
    if clock.up - up <= LATE:
        return []
    return [{"event": "gap", "seconds": clock.up - up, "since": since}]


def event_of_thing(what: str, thing: Thing, known: Known, hint: Hint | None) -> Event | None:
    """Return what there is to note of a thing. Return None if nothing changed."""
    if isinstance(thing, str):
        if known.unseen.get(what) == thing:
            return None
        return {"event": "unseen", "what": what, "why": thing}
    is_known = what in known.things
    before = known.things.get(what)
    if not is_known:
        return (
            None
            if thing is None and what not in known.unseen
            else {"event": "first", "what": what, "after": thing}
        )
    if thing is None or before is None:
        if thing == before:
            return {"event": "seen", "what": what} if what in known.unseen else None
        kind = "gone" if thing is None else "back"
        return {"event": kind, "what": what, "before": before, "after": thing}
    if what == JOURNAL:
        before = known_journal(before, hint)
        is_same = not is_older(before, thing)
    else:
        is_same = before == thing
    if is_same:
        return {"event": "seen", "what": what} if what in known.unseen else None
    names = [*dict.fromkeys([*before, *thing])]
    differing = [it for it in names if before.get(it) != thing.get(it)]
    return {
        "event": "changed",
        "what": what,
        "before": {it: before[it] for it in differing if it in before},
        "after": {it: thing[it] for it in differing if it in thing},
    }


def known_journal(before: Values, hint: Hint | None) -> Values:
    """Return the journal as the last look saw it, if that is later than the trail."""
    if hint is None or as_number(hint.newest) < as_number(before):
        return before
    return {**before, **hint.newest}


def as_number(values: Values) -> int:
    it = values.get("newest", 0)
    return it if isinstance(it, int) else 0


def is_older(before: Values, now: Values) -> bool:
    """Return True if this isn't the journal of before with the same entries, or more. Entries are added all day, and are no event."""
    if before.get("file") != now.get("file") or as_number(now) < as_number(before):
        return True
    zeros = {"", "0" * 64}
    digests = {before.get("digest", ""), now.get("digest", "")}
    return as_number(now) == as_number(before) and len(digests) == 2 and not digests & zeros


def day_of(things: dict[str, Thing]) -> Event:
    """Return what is noted once a day: the newest entry, so that the trail bears witness for the journal, and the zero."""
    found: Event = {}
    journal, zero = things.get(JOURNAL), things.get(ZERO)
    if isinstance(journal, dict):
        found[JOURNAL] = {name: journal[name] for name in ("newest", "digest") if name in journal}
    if isinstance(zero, dict):
        found[ZERO] = zero.get("tenths", "unknown")
    return found


def is_day_over(day: Clock | None, clock: Clock) -> bool:
    if day is None:
        return True
    if day.boot == clock.boot:
        return clock.up - day.up >= DAY
    return not 0 <= clock.wall - day.wall < DAY


def events_of_log(known: Known, log: Log | str) -> list[Event]:
    """Return the events of the system's journal, each with its moment. Equal events are one, with their number."""
    what = "the system's journal"
    if isinstance(log, str):
        return (
            [] if known.unseen.get(what) == log else [{"event": "unseen", "what": what, "why": log}]
        )
    events: list[Event] = [{"event": "seen", "what": what}] if what in known.unseen else []
    if not log.is_joined and known.lost != known.cursor:
        events.append({"event": "log-lost", "cursor": known.cursor})
    groups: dict[str, Event] = {}
    left: Counter[str] = Counter()
    for it in log.messages:
        event = event_of(it)
        if event is None:
            continue
        # a start in a loop names the newest entry of its time
        same = {name: value for name, value in event.items() if name not in ("newest", "digest")}
        if event["event"] != "start":
            same = event
        key = repr(same)
        if key not in groups and len(groups) >= MOST_GROUPS:
            left[event["event"]] += 1
            continue
        first = groups.get(key)
        if first is None:
            groups[key] = {**event, "at": shown(it.at), "count": 1}
        else:
            groups[key] = {**first, **event, "count": first["count"] + 1, "last": shown(it.at)}
    events += groups.values()
    if left:
        kinds = ", ".join(f"{name} {count}" for name, count in sorted(left.items()))
        events.append({"event": "more", "count": left.total(), "kinds": kinds})
    return events


def cursor_of(known: Known, log: Log | str) -> str | None:
    """Return up to where the system's journal is read, once the line is written."""
    return log.cursor if isinstance(log, Log) and log.cursor is not None else known.cursor
