"""One look: reads the trail, sees the bridge, and adds at most one line. A kill at any moment does no harm."""

import fcntl
import json
import os
from collections.abc import Callable

from weighbridge_night.files import read_json, write_whole

from . import trail as file
from .deciding import (
    JOURNAL,
    Clock,
    Hint,
    Known,
    Seen,
    cursor_of,
    decide,
    known_of,
    must_wait,
    shown,
    usable,
)
from .saying import MOST_OF_A_TEXT
from .trail import Trail, text_of, trail_of
from .world import World

FOLDER = "/var/lib/weighbridge-audit"
NAME, HINT, LOCK = "trail.jsonl", "last.json", "lock"

Append = Callable[[str, bytes], None]


def hint_of(path: str) -> Hint | None:
    """Return what the last look left. A file that isn't there, or has another form, counts as none."""
    found = read_json(path)
    try:
        clock, newest, cursor = found["clock"], found["newest"], found["cursor"]
        it = Hint(
            int(found["number"]), Clock(int(clock[0]), int(clock[1]), str(clock[2])), cursor, newest
        )
    except (KeyError, TypeError, ValueError, IndexError):
        return None
    is_well = isinstance(newest, dict) and all(
        isinstance(one, (str, int)) for one in newest.values()
    )
    return it if is_well and (cursor is None or isinstance(cursor, str)) else None


def leave_hint(path: str, it: Hint) -> None:
    clock = [it.clock.wall, it.clock.up, it.clock.boot]
    found = {"number": it.number, "clock": clock, "cursor": it.cursor, "newest": it.newest}
    write_whole(path, json.dumps(found) + "\n", 0o640)


def line_due(known: Known, hint: Hint | None, trail: Trail, seen: Seen) -> bytes | None:
    """Return the bytes that this look adds. None if there is nothing to note."""
    events = decide(known, hint, trail, seen)
    if not events:
        return None
    clock = seen.clock
    line = text_of(
        trail.number + 1,
        shown(clock.wall),
        clock.up,
        clock.boot[:MOST_OF_A_TEXT],
        cursor_of(known, seen.log),
        events,
        trail.digest,
    )
    lacks_end = trail.lacks_end or (trail.torn and not trail.torn.endswith(b"\n"))
    return b"\n" + line if lacks_end else line


def look(world: World, folder: str, append: Append = file.append) -> int:
    """Look once. Return the number of the last line of the trail."""
    path, beside = os.path.join(folder, NAME), os.path.join(folder, HINT)
    trail = trail_of(file.read_trail(path))
    known = known_of(trail)
    left = hint_of(beside)
    hint = usable(left, known)
    clock = world.clock()
    if must_wait(known, trail, clock):
        before = hint or Hint(known.number, clock, known.cursor, {})
        leave_hint(beside, Hint(known.number, clock, before.cursor, before.newest))
        return known.number
    cursor = hint.cursor if hint is not None else known.cursor
    log, things = world.log(cursor), world.things()
    seen = Seen(clock, log, things)
    line, number = line_due(known, left, trail, seen), known.number
    if line is not None:
        append(path, line)
        number = trail.number + 1
    journal = things.get(JOURNAL)
    newest = (
        {name: it for name, it in journal.items() if name != "file"}
        if isinstance(journal, dict)
        else {}
    )
    leave_hint(beside, Hint(number, clock, cursor_of_hint(cursor, known, seen), newest))
    return number


def cursor_of_hint(cursor: str | None, known: Known, seen: Seen) -> str | None:
    """Return up to where the system's journal is read after this look."""
    return cursor if isinstance(seen.log, str) else cursor_of(known, seen.log)


def locked(folder: str) -> int | None:
    """Return a handle that holds the lock. Return None if another look runs."""
    flags = os.O_RDWR | os.O_CREAT | os.O_CLOEXEC | os.O_NOFOLLOW
    handle = os.open(os.path.join(folder, LOCK), flags, 0o640)
    try:
        fcntl.flock(handle, fcntl.LOCK_EX | fcntl.LOCK_NB)
    except BlockingIOError:
        os.close(handle)
        return None
    return handle
