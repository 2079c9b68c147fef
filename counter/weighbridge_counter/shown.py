"""JSON of the office's texts: the text as it is, and the values that it says. The text is read by its one parser."""

import datetime
import re
from typing import Any

from weighbridge_paper.text import Text, Weighing, read_text

INDICATION = re.compile(
    r"(?:(STABLE|MOVING) G +(-?\d+) kg N +(-?\d+) kg|(NO LOAD|OVERLOAD|UNDERLOAD))\n",
    re.ASCII,
)


class NotUnderstood(Exception):
    """Raised for an answer with status 200 that isn't one of the office."""


def moment_shown(moment: datetime.datetime) -> str:
    return moment.strftime("%Y-%m-%dT%H:%M:%SZ")


def weighing_shown(it: Weighing) -> dict[str, Any]:
    """Return the block of an entry."""
    return {
        "number": it.number,
        "kind": it.kind,
        "at": moment_shown(it.at),
        "gross_kg": it.gross,
        "preset_kg": it.preset,
        "interval_kg": it.interval,
        "max_kg": it.max,
        "serial": it.serial,
        "digest": it.digest,
    }


def text_shown(letters: str) -> dict[str, Any]:
    """Return a slip or ticket as JSON answers have it. Raises NoText."""
    text: Text = read_text(letters)
    return {
        "text": text.letters,
        "number": text.own.number,
        "kind": text.own.kind,
        "plate": text.plate,
        "net_kg": text.net,
        "weighings": [weighing_shown(it) for it in text.weighings],
    }


def indication_shown(letters: str) -> dict[str, Any]:
    """Return an indication as JSON answers have it. Raises NotUnderstood."""
    found = INDICATION.fullmatch(letters)
    if found is None:
        raise NotUnderstood
    return {
        "text": letters,
        "state": (found[1] or found[4]).lower().replace(" ", "_"),
        "gross_kg": int(found[2]) if found[2] else None,
        "net_kg": int(found[3]) if found[3] else None,
    }
