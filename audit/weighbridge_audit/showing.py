"""Prints the trail for an inspector, in lines of at most 80 columns, the oldest first."""

import textwrap
from collections.abc import Iterator
from typing import Any

from .trail import Event, Line, Trail, trail_of

WIDTH, MOST_LISTED = 80, 10
INDENT = " " * 6
# The words for each event, before its values.
WORDS = {
    "back": "is there again",
    "begin": "the trail begins here",
    "boot": "the machine was started",
    "broken": "the trail was changed before this line",
    "busy": "the day has many lines, so looks note something only once an hour",
    "calibration-used": "the converter started with a calibration",
    "changed": "was changed",
    "check-failed": "the night found the journal damaged, or couldn't check it",
    "clock": "the wall clock jumped",
    "completed": "the line before this one lacked only its end, which was added",
    "day": "once a day: the newest entry of the journal, and the zero",
    "fault": "a fault",
    "first": "was seen for the first time",
    "gap": "no look was made for a time",
    "gone": "isn't there any more",
    "journal-behind": "the service refused a journal that lacks entries",
    "journal-replaced": "the service refused a journal with another entry",
    "journal-touched": "files of the journal were touched while it was served",
    "log-lost": "the system's journal lacks the last line that was read",
    "more": "more events of the system's journal, which aren't listed",
    "process-ended": "a program ended with a fault",
    "purge": "somebody asked for a purge",
    "said": "a message",
    "seen": "can be seen again",
    "start": "the service started",
    "torn": "bytes before this line are no line: a power cut, or a change",
    "unit-failed": "a unit failed",
    "unit-started": "a unit was started",
    "unit-stopped": "a unit was stopped",
    "unseen": "can't be seen",
    "zero-lost": "a start forgot the zero",
}
LEFT = {"event", "what", "before", "after", "at"}


def plain(text: object) -> str:
    """Return a value without what would command a terminal."""
    return "".join(it if it.isprintable() else "?" for it in str(text))


def moment(text: str) -> str:
    return text.replace("T", " ").removesuffix("Z")


def wrapped(text: str, indent: str = INDENT) -> list[str]:
    return textwrap.wrap(
        text, WIDTH, initial_indent=indent, subsequent_indent=f"{indent}  ", break_on_hyphens=False
    ) or [indent.rstrip()]


def values(it: Any) -> str:
    """Return the values of a table in one text."""
    if not isinstance(it, dict):
        return plain(it)
    return "; ".join(f"{plain(name)} {values(one)}".strip() for name, one in it.items())


def lines_of_event(noted: str, it: Event) -> Iterator[str]:
    """Return the lines of an event: when and what, and then its values."""
    kind = it["event"]
    about = plain(it["what"]) + " " if isinstance(it.get("what"), str) else ""
    at = it.get("at")
    when = moment(at if isinstance(at, str) else noted)
    how = "" if isinstance(at, str) else "  (noted)"
    yield f"  {plain(when)}{how}"
    yield from wrapped(f"{kind}: {about}{WORDS.get(kind, '')}", "    ")
    before, after = it.get("before"), it.get("after")
    if isinstance(before, dict) or isinstance(after, dict):
        was, now = (one if isinstance(one, dict) else {} for one in (before, after))
        for name in dict.fromkeys([*was, *now]):
            change = f"{values(was[name])} -> " if name in was and kind == "changed" else ""
            value = values(now[name]) if name in now else "not there"
            if kind == "gone":
                value = values(was[name])
            yield from wrapped(f"{plain(name)}: {change}{value}")
    elif before is not None or after is not None:
        yield from wrapped(f"before {values(before)}, after {values(after)}")
    for name, one in it.items():
        if name not in LEFT and not (name == "count" and one == 1):
            yield from wrapped(f"{plain(name)}: {values(one)}")


def noting(lines: list[Line], kind: str) -> list[int]:
    """Return the numbers of the lines that have an event of this kind."""
    return [it.number for it in lines if any(one["event"] == kind for one in it.events)]


def head(path: str, trail: Trail) -> Iterator[str]:
    """Return what an inspector needs to know first: whether the chain is whole, its time, number and digest, and which lines note that something is missing."""
    yield plain(path)
    if not trail.lines:
        yield "The trail has no whole line."
    else:
        first, last = trail.lines[0], trail.lines[-1]
        state = "is whole" if not (trail.faults or trail.torn) else "IS NOT WHOLE"
        yield f"The chain {state}: lines {first.number} to {last.number}, noted from"
        yield f"{moment(first.noted)} to {moment(last.noted)} (UTC)."
        yield f"Line {last.number} has this digest:"
        yield last.digest
        for kind in ("broken", "torn", "gap", "log-lost"):
            if numbers := noting(trail.lines, kind):
                listed = ", ".join(str(it) for it in numbers[-MOST_LISTED:])
                more = f"{len(numbers)} lines, the last ones " if len(numbers) > MOST_LISTED else ""
                yield from wrapped(f"It notes {kind} ({WORDS[kind]}): {more}{listed}", "")
    for it in trail.faults:
        yield from wrapped(f"FAULT: {it}", "")
    if trail.torn:
        yield from wrapped(
            f"FAULT: the last {len(trail.torn)} bytes are no line: a power cut, or a change. The next look says so in the trail.",
            "",
        )
    yield "Lines that were cut off at the end don't show here. Compare the number and"
    yield "the digest with a copy of the night: weighbridge-audit check --against COPY"


def body(lines: list[Line]) -> Iterator[str]:
    for it in lines:
        yield ""
        yield f"Line {it.number}, noted {moment(it.noted)}"
        for event in it.events:
            yield from lines_of_event(it.noted, event)


def since(lines: list[Line], begin: str) -> list[Line]:
    """Return the lines that were noted from this moment on, or that have an event from then."""
    return [
        it
        for it in lines
        if it.noted >= begin or any(str(one.get("at", "")) >= begin for one in it.events)
    ]


def compared(data: bytes, older: bytes) -> str | None:
    """Return why an older copy isn't the beginning of the trail. Return None if it is."""
    whole = older[: older.rfind(b"\n") + 1]
    if not trail_of(whole).lines:
        return "it has no whole line, so it shows nothing"
    if data.startswith(whole):
        return None
    same = 0
    for one, other in zip(data.splitlines(keepends=True), whole.splitlines(keepends=True)):
        if one != other:
            break
        same += 1
    if data.count(b"\n") <= same:
        return f"the trail ends after {same} lines of the copy: its end was cut off"
    return f"the trail differs from the copy after {same} lines: it was replaced or computed again"
