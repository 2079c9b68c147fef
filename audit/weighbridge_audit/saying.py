"""Recognizes the lines of the system's journal. A line that has none of these forms gives no event, so no plate and no key of a weighing gets into the trail.

The service's lines are in English always. Lines of systemd are recognized by their numbers, which no language changes.
"""

import re
from dataclasses import dataclass, field

from weighbridge_support.hiding import line_without

from .trail import Event

SERVICE, CONVERTER = "weighbridge.service", "weighbridge-converter.service"
NIGHT = "weighbridge-night.service"
RUNNING = (SERVICE, CONVERTER, "weighbridge-counter.service", "weighbridge-ports.service")
UNITS = (*RUNNING, NIGHT)
MOST_OF_A_TEXT = 200  # characters

# systemd's numbers of its messages, of `journalctl --dump-catalog`.
BY_NUMBER = {
    "39f53479d3a045ac8e11786248231fbf": "unit-started",
    "9d1aaa27d60140bd96365438aad20286": "unit-stopped",
    "d9b373ed55a64feb8242e02dbe79a49c": "unit-failed",
    "98e322203f7a4ed290d09fe03c09fe15": "process-ended",
}
START = re.compile(
    r"start: weighbridge (?P<version>\S+), sources (?P<sources>.+?), proved by (?P<kit>.+?); "
    r"(?P<setup>--interval .+?); (?P<file>.+), (?:newest (?P<newest>\d+) (?P<digest>[0-9a-f]{64})|no entry|not read)"
    r"; terminal (?P<terminal>\S+), office (?P<office>\S+), converter (?P<converter>.+)"
)
PURGE = re.compile(
    r"office \S+: POST /purge(?: key \S+)?: (?P<result>\d{3} .{1,64}|\d{3}|nothing) in \d+ ms"
)
RESULT = re.compile(r"\d{3} (?:PURGED \d{1,10}|refused \d{1,3} \w{1,32})|\d{3}|nothing")
CALIBRATION = re.compile(r"calibration (?P<number>\d{1,10}), (?P<digest>[0-9a-f]{64})")
ZERO = re.compile(
    r".+-zero: before this start zero was (?P<kg>\d+\.\d) kg (?P<side>above|below) the calibration's, .+"
)
ZERO_TORN = re.compile(r".+-zero: the note of the zero isn't whole, .+")
BEHIND = re.compile(
    r".+: its newest entry is (?P<newest>\d+), but .+ recorded that (?P<recorded>\d+) was answered\. .+"
)
REPLACED = re.compile(r".+: entry (?P<number>\d+) differs from the entry \d+ that .+ recorded\. .+")
TOUCHED = re.compile(r".+: while it was served, it or its log was removed, replaced, cut .+")
FAULTS = re.compile(
    r"store \d+ \w+(?: \d+)?|converter fault|clock fault|address fault|want of memory|file fault|input fault|no calibration"
    r"|calibration \d+ isn't as it was made|setup refused: \d+ \w+|journal: fault of the store \d+ \w+|write fault"
)
WORDS = re.compile(
    r"weighbridge isn't started: .+|warning: .+|pace: .+|refused: the newest calibration has .+"
)
CHECKS = re.compile(r"(?P<step>check|verify): failed: (?P<words>.+)")


@dataclass(frozen=True)
class Message:
    """A line of the system's journal."""

    text: str
    unit: str
    at: int  # seconds of UTC
    cursor: str
    number: str = ""  # of systemd's message; only systemd itself can write it for another unit
    fields: dict[str, str] = field(default_factory=dict)


def plain(text: str) -> str:
    """Return a text as a value of the trail: in one line, without plates, keys and secrets, and cut."""
    return line_without(text[:2000])[:MOST_OF_A_TEXT]


def short(text: str) -> str:
    """Return a text of a known form, in one line, and cut."""
    return "".join(it if it.isprintable() else "?" for it in text)[:MOST_OF_A_TEXT]


def of_service(text: str) -> Event | None:
    """Return the event of a line of the service."""
    if it := START.fullmatch(text):
        found = {name: short(value) for name, value in it.groupdict().items() if value is not None}
        return {"event": "start", **found}
    if it := PURGE.fullmatch(text):
        result = it["result"]
        return {"event": "purge", "result": result if RESULT.fullmatch(result) else result[:3]}
    if it := ZERO.fullmatch(text):
        return {"event": "zero-lost", "kg": it["kg"], "side": it["side"]}
    if ZERO_TORN.fullmatch(text):
        return {"event": "zero-lost", "kg": "unknown"}
    if it := BEHIND.fullmatch(text):
        return {"event": "journal-behind", **it.groupdict()}
    if it := REPLACED.fullmatch(text):
        return {"event": "journal-replaced", "number": it["number"]}
    if TOUCHED.fullmatch(text):
        return {"event": "journal-touched"}
    return None


def event_of(it: Message) -> Event | None:
    """Return the event that a line reports. Return None if it reports none."""
    kind = BY_NUMBER.get(it.number)
    if kind is not None:
        if it.unit not in RUNNING or (
            kind == "process-ended" and it.fields.get("EXIT_STATUS") == "0"
        ):
            return None
        found = {name.lower(): short(value) for name, value in sorted(it.fields.items())}
        return {"event": kind, "unit": it.unit, **found}
    event: Event | None = None
    if it.unit == SERVICE:
        event = of_service(it.text)
    elif it.unit == CONVERTER and (used := CALIBRATION.fullmatch(it.text)):
        event = {"event": "calibration-used", **used.groupdict()}
    elif it.unit == NIGHT:
        if failed := CHECKS.fullmatch(it.text):
            words = plain(failed["words"])
            event = {"event": "check-failed", "step": failed["step"], "words": words}
    if event is None and it.unit in (SERVICE, CONVERTER):
        if FAULTS.fullmatch(it.text):
            event = {"event": "fault", "unit": it.unit, "words": short(it.text)}
        elif WORDS.fullmatch(it.text):
            event = {"event": "said", "unit": it.unit, "words": plain(it.text)}
    return event
