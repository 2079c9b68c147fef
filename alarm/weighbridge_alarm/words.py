"""Writes the messages: the mail, the SMS, and what a webhook gets."""

import textwrap
import unicodedata
from datetime import datetime
from typing import Any

from .catalogue import UNKNOWN, words_of
from .due import Due
from .state import Known, shown

SMS, WIDTH = 160, 72
# Of the alphabet of SMS, these are also characters of ASCII, and each counts once.
GSM = frozenset(
    "@$_!\"#%&'()*+,-./:;<=>? \nABCDEFGHIJKLMNOPQRSTUVWXYZabcdefghijklmnopqrstuvwxyz0123456789"
)
DOCS = "/usr/share/doc/weighbridge"
DAYS = ("Monday", "Tuesday", "Wednesday", "Thursday", "Friday", "Saturday", "Sunday")
MONTHS = (
    "January February March April May June July August September October November December".split()
)


def day_of(at: datetime) -> str:
    it = at.astimezone()
    return f"{DAYS[it.weekday()]} {it.day} {MONTHS[it.month - 1]} {it.year}"


def hour_of(at: datetime) -> str:
    return f"{at.astimezone():%H:%M}"


def when(at: datetime, now: datetime) -> str:
    """Return the moment in local words, with the day unless it is today's."""
    is_today = at.astimezone().date() == now.astimezone().date()
    return f"{hour_of(at)} today" if is_today else f"{hour_of(at)} on {day_of(at)}"


def brief(at: datetime, now: datetime) -> str:
    it = at.astimezone()
    if it.date() == now.astimezone().date():
        return hour_of(at)
    return f"{it.day} {MONTHS[it.month - 1][:3]} {hour_of(at)}"


def urgent_first(found: list[Known]) -> list[Known]:
    return sorted(
        found, key=lambda it: (not words_of(it.name).stops, not words_of(it.name).loud, it.since)
    )


def uncovered(found: list[Known], others: list[Known]) -> list[Known]:
    """Leave out the faults that another one explains."""
    covered = {name for it in found + others for name in words_of(it.name).covers}
    return [it for it in urgent_first(found) if it.name not in covered]


def parts_of(it: Due) -> tuple[list[Known], list[Known], list[Known]]:
    """Return what began, lasts and ended, without the faults that others explain."""
    return (
        uncovered(it.began, it.lasts),
        uncovered(it.lasts, it.began),
        uncovered(it.ended, []),
    )


def in_order(began: list[Known], lasts: list[Known]) -> list[Known]:
    """Return those first that stop the weighing, and of the others those that began."""
    return sorted(began + lasts, key=lambda it: not words_of(it.name).stops)


def can_weigh(it: Due) -> bool:
    return not any(words_of(one.name).stops for one in it.began + it.lasts)


def short_of(it: Known) -> str:
    words = words_of(it.name)
    return f"{words.short} ({it.name})" if words is UNKNOWN else words.short


def subject(bridge: str, it: Due) -> str:
    """Return the message in one line."""
    began, lasts, ended = parts_of(it)
    wrong = began + lasts
    if not wrong:
        what = f"Over: {short_of(ended[0])}" if ended else "nothing is wrong"
        more = len(ended) - 1
    else:
        first = in_order(began, lasts)[0]
        what, more = short_of(first), len(wrong) - 1
        if not can_weigh(it) and first.name != "weighing":
            what = f"NO VEHICLE CAN BE WEIGHED: {what}"
        elif not began and not ended:
            what = f"Still wrong: {what}"
    return f"{bridge}: {what}" + (f" (+{more} more)" if more > 0 else "")


def lines_of(it: Known, now: datetime) -> list[str]:
    words = words_of(it.name)
    about = it.about if it.about and it.about != it.name else ""
    name = f' The counter calls it "{it.name}".' if words is UNKNOWN else ""
    said = "; ".join(one for one in (about, it.detail) if one)
    lines = [f"* {words.what}{name}", f"  Since {when(it.since, now)}."]
    if said:
        lines.append(f"  Details: {said}")
    return [*lines, f"  What to do: {words.todo}", f"  More: {DOCS}/{words.page}"]


def part(title: str, found: list[Known], now: datetime) -> list[str]:
    if not found:
        return []
    lines = [title]
    for it in found:
        lines += [*lines_of(it, now), ""]
    return lines


def over(found: list[Known], now: datetime) -> list[str]:
    if not found:
        return []
    lines = ["OVER"]
    for it in found:
        about = f" ({it.about})" if it.about and it.about != it.name else ""
        span = f"from {when(it.since, now)} until {when(it.until or now, now)}"
        lines.append(f"* {short_of(it)}{about}: {span}.")
    return [*lines, ""]


def mail(bridge: str, it: Due, now: datetime) -> str:
    """Return the whole message."""
    began, lasts, ended = parts_of(it)
    lines = [f"Weighbridge {bridge}, {day_of(now)}, {hour_of(now)}", ""]
    if not can_weigh(it):
        lines += ["NO VEHICLE CAN BE WEIGHED.", ""]
    lines += part("NEW", began, now) + part("STILL WRONG", lasts, now) + over(ended, now)
    if not began and not lasts:
        lines += ["Nothing else is wrong.", ""]
    if it.silent_until is not None:
        lines += [
            "This is the last message for a day, because there were too many."
            f" Until {when(it.silent_until, now)}, only new faults that stop the weighing or can't wait are reported.",
            "",
        ]
    lines.append("On the PC, weighbridge-alarm list shows what is wrong now.")
    return "".join(f"{wrapped(it)}\n" for it in lines)


def wrapped(line: str) -> str:
    """Return the line in lines of a mail. A path isn't broken."""
    indent = "" if not line.startswith(("*", " ")) else "  "
    return textwrap.fill(
        line, WIDTH, subsequent_indent=indent, break_long_words=False, break_on_hyphens=False
    )


def gsm(text: str) -> str:
    """Return the text in characters that each count once in an SMS."""
    spread = unicodedata.normalize("NFKD", text)
    kept = (it for it in spread if not unicodedata.combining(it))
    return "".join(it if it in GSM else "?" for it in kept)


def sms(bridge: str, it: Due, now: datetime) -> str:
    """Return the message for an SMS: as many faults as fit, and how many are left out."""
    began, lasts, ended = parts_of(it)
    head = f"{bridge}:" if can_weigh(it) else f"{bridge}: NO WEIGHING."
    wrong = in_order(began, lasts)
    pieces = [f"{short_of(one)} since {brief(one.since, now)}" for one in wrong]
    if wrong:
        pieces[0] += f": {words_of(wrong[0].name).act}"
    pieces += [f"Over: {short_of(one)}, {brief(one.until or now, now)}" for one in ended]
    tail = ""
    if it.silent_until is not None:
        tail = f" Next SMS after {brief(it.silent_until, now)}."
    text, used = head, 0
    for number, piece in enumerate(pieces):
        left = len(pieces) - number - 1
        longer = f"{text} {piece}."
        if len(gsm(longer + (f" +{left} more." if left else "") + tail)) > SMS:
            break
        text, used = longer, number + 1
    if used == 0 and pieces:
        text, used = f"{head} {pieces[0]}", 1
    left = len(pieces) - used
    return cut(gsm(text), gsm((f" +{left} more." if left else "") + tail))


def cut(text: str, tail: str) -> str:
    """Return both within an SMS. The text is cut at a word."""
    most = SMS - len(tail)
    if len(text) > most:
        text = text[: most - 2]
        text = f"{text[: text.rfind(' ')] if ' ' in text else text}.."
    return text + tail


def hook(bridge: str, it: Due, now: datetime) -> dict[str, Any]:
    """Return what a webhook gets, for its JSON. `text` is what chat programs show."""
    found = [("began", it.began), ("lasts", it.lasts), ("ended", it.ended)]
    return {
        "version": 1,
        "bridge": bridge,
        "at": shown(now),
        "can_weigh": can_weigh(it),
        "text": subject(bridge, it),
        "faults": [hooked(state, one) for state, ones in found for one in urgent_first(ones)],
        "silent_until": None if it.silent_until is None else shown(it.silent_until),
    }


def hooked(state: str, it: Known) -> dict[str, Any]:
    words = words_of(it.name)
    return {
        "name": it.name,
        "about": it.about,
        "state": state,
        "since": shown(it.since),
        "until": shown(it.until) if state == "ended" and it.until is not None else None,
        "words": words.what,
        "detail": it.detail,
        "todo": words.todo,
        "page": words.page,
    }


def tried(bridge: str, now: datetime) -> tuple[str, str]:
    """Return the subject and the text of a test message."""
    text = (
        f"{bridge}: this is a test of the weighbridge's alarm, made at {hour_of(now)}."
        " You don't have to do anything."
    )
    return f"{bridge}: test of the alarm", text
