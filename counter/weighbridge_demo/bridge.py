"""The played bridge: which load is on it at a moment, and which vehicle.

This state machine has no clock and no socket. The load is a function of the moment and of what was pushed: each call gets its moment, in seconds of the
caller's clock. A vehicle that stands has the same load at each moment.
"""

import math
import random
from collections.abc import Mapping, Sequence
from dataclasses import dataclass
from typing import Any

from .cell import INTERVAL, MAX
from .day import FIRST, SECOND, Visit, some_visit

SLIDES = 0.4  # seconds that a load pushed by hand takes
SWAYS_BY = 0.03  # of the load
SWINGS = 1.3  # a second

EMPTY, DRIVES_ON, SWAYS, STANDS, DRIVES_OFF, CHANGES = (
    "empty",
    "drives_on",
    "sways",
    "stands",
    "drives_off",
    "changes",
)
# The results of a visit of the day.
WEIGHED, MISTYPED, UNWEIGHED, LEFT_OUT = "weighed", "mistyped", "unweighed", "left_out"


@dataclass(frozen=True)
class Times:
    """How long each thing takes, in seconds."""

    on: float = 3.0
    sway: float = 2.0
    off: float = 2.5
    leaves: float = 3.0  # from the weighing until the vehicle drives off
    gap: float = 3.0  # from one vehicle to the next


CALM = Times()
QUICK = Times(on=1.5, sway=1.0, off=1.0, leaves=0.5, gap=0.5)


@dataclass(frozen=True)
class Move:
    """A change of the load that begins at `since`."""

    is_what: str  # on, off, slide
    since: float
    before: float  # kg
    after: float
    takes: float  # seconds
    sways: float = 0.0  # seconds for which it sways then

    def load(self, at: float) -> float:
        passed = at - self.since
        if passed <= 0:
            return self.before
        if passed < self.takes:
            return self.before + (self.after - self.before) * smooth(passed / self.takes)
        rest = passed - self.takes
        if rest >= self.sways:
            return self.after
        fades = (1 - rest / self.sways) ** 2
        return self.after * (1 + SWAYS_BY * fades * math.sin(2 * math.pi * SWINGS * rest))

    def ends(self) -> float:
        return self.since + self.takes + self.sways


def smooth(part: float) -> float:
    return part * part * (3 - 2 * part)


@dataclass
class Stay:
    """A vehicle on the bridge."""

    visit: Visit
    number: int | None  # of the visit in the day; None if it isn't of the day
    weighed_at: float | None = None
    weighed: Mapping[str, Any] | None = None  # the weighing, as the counter reported it


class Bridge:
    def __init__(
        self, visits: Sequence[Visit], choose: random.Random, times: Times = CALM, at: float = 0.0
    ) -> None:
        self.visits, self.choose, self.times = visits, choose, times
        self.move = Move("off", at - times.off, 0, 0, times.off)
        self.stay: Stay | None = None
        self.last: Stay | None = None  # the vehicle that was here before
        self.is_playing = False
        self.next = 0  # the number of the day's next visit
        self.marks: list[str] = [""] * len(visits)
        self.on_site: dict[str, int] = {}  # kg by plate, as the counter reports it

    # ---- what is on the bridge

    def load(self, at: float) -> float:
        """Return the load in kg."""
        return self.move.load(at)

    def phase(self, at: float) -> tuple[str, float]:
        """Return what happens, and since when."""
        move = self.move
        if at < move.since + move.takes:
            return {"on": DRIVES_ON, "off": DRIVES_OFF}.get(move.is_what, CHANGES), move.since
        if at < move.ends():
            return SWAYS, move.since + move.takes
        return STANDS if move.after else EMPTY, move.ends()

    def is_empty(self, at: float) -> bool:
        return self.phase(at)[0] == EMPTY

    # ---- what is pushed

    def drive_on(self, at: float) -> bool:
        """Let some lorry drive on. Return False if the bridge isn't empty. This stops the day."""
        if not self.is_empty(at):
            return False
        self.is_playing = False
        self._drive_on(at, some_visit(self.choose, self.on_site), None)
        return True

    def drive_off(self, at: float) -> bool:
        """Let what is on the bridge drive off. Return False if nothing is there, or it drives off already. The day continues."""
        if self.phase(at)[0] in (EMPTY, DRIVES_OFF):
            return False
        self.move = Move("off", at, self.load(at), 0, self.times.off)
        return True

    def push(self, at: float, kg: int) -> None:
        """Put a load on the bridge by hand. This stops the day. A vehicle that is there stays, with that load."""
        self.is_playing = False
        if kg <= 0:
            self.drive_off(at)
            return
        if self.move.is_what == "off":
            self._leave()
        kg = min(MAX, round(kg / INTERVAL) * INTERVAL)
        self.move = Move("slide", at, self.load(at), kg, SLIDES)

    def play(self, at: float) -> None:
        """Play the day from its next visit, or from the first one once it is over. A load by hand drives off."""
        if self.next >= len(self.visits):
            self.next, self.marks = 0, [""] * len(self.visits)
        self.is_playing = True
        if self.stay is None or self.stay.number is None:
            self.drive_off(at)

    def stop(self) -> None:
        """Let no further vehicle of the day come. The one that is there stays."""
        self.is_playing = False

    # ---- what comes

    def step(self, at: float) -> None:
        """Do what is due by the moment: a vehicle is gone, a weighed one drives off, the next one of the day comes."""
        stay = self.stay
        if self.move.is_what == "off" and at >= self.move.ends():
            self._leave()
        elif stay is not None and stay.weighed_at is not None and stay.number is not None:
            if at >= stay.weighed_at + self.times.leaves:
                self.drive_off(at)
        if self.is_playing and self.is_empty(at) and at >= self.phase(at)[1] + self.times.gap:
            self._next_of_the_day(at)

    def weighed(self, at: float, entry: Mapping[str, Any]) -> None:
        """Process a weighing that the counter reported: `plate`, `number` and `kind` of the entry."""
        stay = self.stay
        if stay is None or stay.weighed is not None or self.phase(at)[0] == DRIVES_OFF:
            return
        stay.weighed_at, stay.weighed = at, dict(entry)
        if stay.number is not None:
            is_right = entry["plate"] == stay.visit.plate
            self.marks[stay.number] = WEIGHED if is_right else MISTYPED

    def told_on_site(self, on_site: Mapping[str, int]) -> None:
        """Process the vehicles on site, as the counter reports them: kg by plate."""
        self.on_site = dict(on_site)

    # ---- within

    def _drive_on(self, at: float, visit: Visit, number: int | None) -> None:
        self.stay = Stay(visit, number)
        self.move = Move("on", at, 0, visit.kg, self.times.on, self.times.sway)

    def _leave(self) -> None:
        """Note that the vehicle is gone, if there was one."""
        if self.stay is None:
            return
        if self.stay.number is not None and self.stay.weighed is None:
            self.marks[self.stay.number] = UNWEIGHED
        self.last, self.stay = self.stay, None

    def _next_of_the_day(self, at: float) -> None:
        """Let the next vehicle come that fits what is on site: it is weighed out only if it was weighed in, and in only if it wasn't."""
        while self.next < len(self.visits):
            number, visit = self.next, self.visits[self.next]
            self.next += 1
            if (visit.kind == SECOND) == (visit.plate in self.on_site) or visit.kind not in (
                FIRST,
                SECOND,
            ):
                self._drive_on(at, visit, number)
                return
            self.marks[number] = LEFT_OUT
        self.is_playing = False

    # ---- what the page shows

    def shown(self, at: float) -> dict[str, Any]:
        phase, since = self.phase(at)
        return {
            "phase": phase,
            "seconds": round(max(0.0, at - since), 2),
            "kg": round(self.load(at)),
            "stay": shown_stay(self.stay),
            "last": shown_stay(self.last),
            "is_playing": self.is_playing,
            "is_over": self.next >= len(self.visits) and self.stay is None,
            "now": self.stay.number if self.stay is not None else None,
            "next": self.next,
            "marks": self.marks,
        }


def shown_stay(stay: Stay | None) -> dict[str, Any] | None:
    if stay is None:
        return None
    return {**shown_visit(stay.visit), "weighed": stay.weighed}


def shown_visit(it: Visit) -> dict[str, Any]:
    return {"at": it.at, "plate": it.plate, "kg": it.kg, "kind": it.kind, "tare": it.tare}
