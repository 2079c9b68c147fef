"""The alarm's own file: which faults are known since when, and which receiver heard of them.

It has no address and no secret. A file that isn't there, or isn't whole, counts as empty: then the receivers hear of everything that is wrong again.
"""

import json
import math
from dataclasses import asdict, dataclass, field
from datetime import datetime, timezone
from typing import Any

from .faults import Fault, fault

VERSION = 1
FORM = "%Y-%m-%dT%H:%M:%SZ"
MOST_BYTES, MOST_FAULTS = 1 << 20, 200
# A clock that lost its battery shows 1970, and what was known before then moves before it.
YEARS = range(1900, 9000)


@dataclass
class Known:
    """A fault that was seen. `counted` is for how many seconds it was seen, until it begins, and then for how many it was absent."""

    name: str
    about: str
    detail: str
    since: datetime
    is_begun: bool = False
    counted: float = 0.0
    until: datetime | None = None  # since when it is absent

    @property
    def fault(self) -> Fault:
        return Fault(self.name, self.about, self.detail)


@dataclass
class Told:
    """The knowledge of a receiver: each fault with the moment of its last message, and the faults that ended and that it must still hear of."""

    told: dict[str, datetime] = field(default_factory=dict)
    owed: dict[str, Known] = field(default_factory=dict)
    fails: int = 0
    tried: datetime | None = None
    why: str = ""
    sent: int = 0
    day: datetime | None = None  # when the day of `sent` began
    last: datetime | None = None


@dataclass
class State:
    """All that the alarm remembers. `first` is the moment of the first look, `looked` that of the last."""

    first: datetime
    looks: int = 0
    looked: datetime | None = None
    uptime: float = 0.0
    boot: str = ""
    known: dict[str, Known] = field(default_factory=dict)
    receivers: dict[str, Told] = field(default_factory=dict)

    def text(self) -> str:
        return json.dumps({"version": VERSION, **asdict(self)}, indent=1, default=shown) + "\n"


def shown(moment: object) -> str:
    assert isinstance(moment, datetime)
    return moment.astimezone(timezone.utc).strftime(FORM)


class Foreign(ValueError):
    """The file isn't the alarm's own."""


def number(given: object) -> float:
    if isinstance(given, bool) or not isinstance(given, (int, float)):
        raise Foreign
    if not (math.isfinite(given) and 0 <= given < 1e12):
        raise Foreign
    return given


def text(given: object) -> str:
    if not isinstance(given, str):
        raise Foreign
    return given


def table(given: object) -> dict[str, Any]:
    if not isinstance(given, dict) or len(given) > MOST_FAULTS:
        raise Foreign
    return given


def moment(given: object) -> datetime:
    found = datetime.strptime(text(given), FORM).replace(tzinfo=timezone.utc)
    if found.year not in YEARS:
        raise Foreign
    return found


def maybe(given: object) -> datetime | None:
    return None if given is None else moment(given)


def known_of(given: object) -> Known:
    it = table(given)
    found = fault(text(it["name"]), text(it["about"]), text(it["detail"]))
    return Known(
        found.name,
        found.about,
        found.detail,
        moment(it["since"]),
        it["is_begun"] is True,
        number(it["counted"]),
        maybe(it["until"]),
    )


def told_of(given: object) -> Told:
    it = table(given)
    return Told(
        {key: moment(one) for key, one in table(it["told"]).items()},
        {key: known_of(one) for key, one in table(it["owed"]).items()},
        int(number(it["fails"])),
        maybe(it["tried"]),
        text(it["why"]),
        int(number(it["sent"])),
        maybe(it["day"]),
        maybe(it["last"]),
    )


def state_of(written: str) -> State | None:
    """Return the state in this text. None if it isn't the alarm's own, or not whole."""
    try:
        it = table(json.loads(written))
        if it["version"] != VERSION:
            return None
        return State(
            moment(it["first"]),
            int(number(it["looks"])),
            maybe(it["looked"]),
            number(it["uptime"]),
            text(it["boot"]),
            {key: known_of(one) for key, one in table(it["known"]).items()},
            {key: told_of(one) for key, one in table(it["receivers"]).items()},
        )
    except (ValueError, KeyError, RecursionError):
        return None
