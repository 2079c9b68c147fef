"""Tares that clerks keep for a plate: a wish, with its last day, who kept it, and the day of its last use. The ticket shows it as PT."""

import asyncio
import re
from collections.abc import Callable, Mapping
from dataclasses import dataclass, replace
from datetime import date, timedelta
from typing import Any

from .files import Files, tell

FILE = "tares.json"
WRITE_WITHIN = 5.0  # seconds
MOST = 2000
PLATE = re.compile(r"[A-Z0-9-]{1,12}")


class BadTare(Exception):
    """No plate, or no tare, that the scale could take."""


@dataclass(frozen=True)
class Kept:
    """A tare in kg as the clerk typed it. The scale rounds it to its interval when it is used."""

    kg: int
    until: date
    by: str
    used: date | None = None

    def noted(self) -> dict[str, Any]:
        used = self.used.isoformat() if self.used else None
        return {"kg": self.kg, "until": self.until.isoformat(), "by": self.by, "used": used}


def kept_in(it: Any) -> Kept | None:
    """Return the kept tare that a file's row says, or None if it says none."""
    try:
        kg, by, used = it["kg"], it["by"], it.get("used")
        if not isinstance(kg, int) or isinstance(kg, bool) or not isinstance(by, str):
            return None
        until = date.fromisoformat(it["until"])
        return Kept(kg, until, by, date.fromisoformat(used) if used else None)
    except (KeyError, TypeError, ValueError, AttributeError):
        return None


class Tares:
    """The kept tares by plate. `empty_of` returns a plate's last empty weight in kg, if the lists have it. A tare below `least` would be rounded to nothing."""

    def __init__(
        self,
        files: Files,
        today: Callable[[], date],
        days: int,
        most: int,
        empty_of: Callable[[str], int | None] = lambda plate: None,
        least: int = 1,
    ) -> None:
        self.files, self.today, self.days, self.most = files, today, days, most
        self.empty_of, self.least = empty_of, least
        read = files.read(FILE)
        rows = read if isinstance(read, dict) else {}
        found = {plate: kept_in(it) for plate, it in rows.items()}
        self.kept = {plate: it for plate, it in found.items() if it is not None}
        if len(self.kept) < len(found):
            tell(
                f"{files.path(FILE)}: {len(found) - len(self.kept)} of its rows are no tares; the counter treats them as missing"
            )
        self.one_at_a_time = asyncio.Lock()
        self.on_change: Callable[[str], None] = lambda plate: None

    async def keep(self, plate: str, kg: object, by: str) -> None:
        if not PLATE.fullmatch(plate):
            raise BadTare("plate: 1 to 12 of A-Z, 0-9 and -")
        if not isinstance(kg, int) or isinstance(kg, bool) or not self.least <= kg < self.most:
            raise BadTare(f"kg: a whole number from {self.least} to {self.most - 1}")
        until = self.today() + timedelta(days=self.days)
        async with self.one_at_a_time:
            if plate not in self.kept and len(self.kept) >= MOST:
                raise BadTare(f"there are {MOST} already: drop one")
            await self._replace({**self.kept, plate: Kept(kg, until, by)})
        self.on_change(plate)

    async def drop(self, plate: str) -> None:
        async with self.one_at_a_time:
            if plate not in self.kept:
                return
            await self._replace({it: tare for it, tare in self.kept.items() if it != plate})
        self.on_change(plate)

    async def use(self, asked: Mapping[str, str]) -> None:
        """Note the day on which a request weighed with a kept tare. This doesn't wait for the disk, because only the list of kept tares shows the day."""
        plate, tare = asked.get("plate", ""), asked.get("tare", "")
        async with self.one_at_a_time:
            kept, today = self.kept.get(plate), self.today()
            if kept is None or kept.used == today or not self._is_of(kept, tare):
                return
            self.kept = {**self.kept, plate: replace(kept, used=today)}
            self.files.keep(FILE, self._noted(self.kept))
        self.on_change(plate)

    def _is_of(self, kept: Kept, tare: str) -> bool:
        """Return whether a request's tare is the kept one as the scale rounds it, and no other one that a clerk typed."""
        return tare.isdecimal() and abs(int(tare) - kept.kg) <= self.least

    def shown(self, plate: str) -> dict[str, Any] | None:
        """Return what the pages show of a plate's kept tare, or None if none is kept."""
        kept = self.kept.get(plate)
        if kept is None:
            return None
        is_over = kept.until < self.today()
        return {**kept.noted(), "is_over": is_over, "empty": self.empty_of(plate)}

    def all_shown(self) -> dict[str, Any]:
        return {plate: self.shown(plate) for plate in self.kept}

    def _noted(self, kept: Mapping[str, Kept]) -> dict[str, Any]:
        return {plate: it.noted() for plate, it in kept.items()}

    async def _replace(self, kept: dict[str, Kept]) -> None:
        """Replace the kept tares once the disk has the new ones. Raises NoFile, and changes nothing then."""
        await self.files.write(FILE, self._noted(kept), WRITE_WITHIN)
        self.kept = kept
