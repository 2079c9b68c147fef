"""The faults in `last.json` of the night, which says what the last night did."""

import json
import re
from datetime import datetime, timedelta, timezone
from typing import Any

from .faults import Fault, fault

OLD = timedelta(days=2)
# A night is ended by its unit after this time.
LONGEST = timedelta(hours=8)
AHEAD = timedelta(minutes=10)
MOST_STEPS = 20
LOUD = {"check", "verify"}
COPY = re.compile(r"(\d{4}-\d\d-\d\dT\d{6}Z)_sound_\d{1,20}_\d{1,20}")


def night_in(text: str | None) -> dict[str, Any]:
    """Return what the file has. A file that isn't there, or has something else, has nothing."""
    try:
        found = json.loads(text) if text is not None else {}
    except (ValueError, RecursionError):
        return {}
    return found if isinstance(found, dict) else {}


def moment_of(text: object, form: str) -> datetime | None:
    try:
        return datetime.strptime(str(text), form).replace(tzinfo=timezone.utc)
    except ValueError:
        return None


def newest_sound(night: dict[str, Any], now: datetime) -> datetime | None:
    """Return when the newest sound copy was made. A copy that is dated after now doesn't count."""
    places = night.get("places")
    found = []
    for it in [*places.values()] if isinstance(places, dict) else []:
        name = it.get("newest_sound") if isinstance(it, dict) else None
        if isinstance(name, str) and (named := COPY.fullmatch(name)):
            found.append(moment_of(named[1], "%Y-%m-%dT%H%M%SZ"))
    return max((it for it in found if it is not None and it <= now + AHEAD), default=None)


def failing_steps(night: dict[str, Any]) -> list[Fault]:
    failing, steps = night.get("failing"), night.get("steps")
    words = {
        it.get("step"): it.get("words")
        for it in (steps if isinstance(steps, list) else [])
        if isinstance(it, dict) and isinstance(it.get("step"), str) and it.get("state") == "failed"
    }
    found = []
    for step in sorted(failing if isinstance(failing, dict) else {})[:MOST_STEPS]:
        name = "night_check" if step in LOUD else "night_step"
        found.append(fault(name, step, words.get(step, "")))
    return found


def faults_of_night(text: str | None, now: datetime, first: datetime) -> list[Fault]:
    """Return the faults of the nights. Without any copy, the two days count from `first`, the alarm's first look."""
    night = night_in(text)
    found = failing_steps(night)
    if "copy_old" in unknown_of_night(text, now):
        return found
    newest = newest_sound(night, now)
    ended = night.get("ended") or night.get("began")
    last = moment_of(ended, "%Y-%m-%dT%H:%M:%SZ")
    if now - (newest or first) > OLD:
        copied = f"the newest is of {newest:%-d %B %Y}" if newest else "there is no sound copy"
        found.append(fault("copy_old", "", copied))
    elif last is not None and now - last > OLD:
        found.append(fault("copy_old", "", f"the last night was on {last:%-d %B %Y}"))
    return found


def unknown_of_night(text: str | None, now: datetime) -> set[str]:
    """Return the names of the faults that the file can't settle now: it isn't there, or a night is writing it."""
    night = night_in(text)
    if not night:
        return {"night_check", "night_step"}
    began = moment_of(night.get("began"), "%Y-%m-%dT%H:%M:%SZ")
    if night.get("ended") is None and began is not None and abs(now - began) < LONGEST:
        return {"copy_old"}
    return set()
