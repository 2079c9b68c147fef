"""Keeps the lists true: an export at the start, what passes, and another export if something is missing, made while nobody stands on the bridge."""

import asyncio
import datetime
import math
import time
import zoneinfo
from collections import Counter
from collections.abc import Callable, Mapping, Set

from weighbridge_paper.export import NoExport
from weighbridge_paper.text import NoText, Text, read_text

from . import repeats
from .given import Given
from .journal import SHORTER, Journal, Known, changed_by, why_another
from .lists import Lists
from .office import Answer, Answers, NoAnswer
from .slips import Entry

LOOK_EVERY = 0.25  # seconds
EMPTY_FOR = 3.0  # seconds that the bridge is empty before the counter asks for an export, because an export delays the office
NOT_SOONER_THAN = 2.0  # seconds after the last try
READ_EVERY = 3600.0  # seconds
PROBE_EVERY = 20.0  # seconds
PROBED = 4  # numbers after the newest one that are asked in turn, because the next entry may be a First, which has no ticket
PROBE_WITHIN = 5.0
EXPORT_WITHIN = 60.0
REST = 4  # times as long as an export took the office does other things before the next one


class Books:
    def __init__(
        self,
        office: Answers,
        zone: zoneinfo.ZoneInfo,
        counts: Counter[str],
        journal: Journal | None = None,
        given: Given | None = None,
    ) -> None:
        self.office, self.zone, self.counts, self.given = office, zone, counts, given or Given()
        self.lists, self.journal = Lists(zone, self.given), journal or Journal()
        # the keys of the Firsts of vehicles that are weighed once
        self.once: Callable[[], Set[str]] = frozenset
        self.exported_at = -math.inf  # when the counter asked for the export of the lists
        self.places = 0  # texts that passed
        self.state = (
            "ok"  # of the office: ok, store (its journal can't be read or written), no_answer
        )
        self.wants_export = True
        self.tried_at = self.read_at = self.probed_at = 0.0
        self.probes = 0
        self.export_seconds = self.rest_until = 0.0
        self.one_export = asyncio.Lock()
        self.next_export: asyncio.Future[tuple[Answer, int]] | None = None
        self.is_empty: Callable[[], bool] = lambda: False
        self.on_lists: Callable[[], None] = lambda: None
        self.on_entry: Callable[[Entry], None] = lambda entry: None

    def is_whole(self) -> bool:
        return self.lists.is_whole and not self.wants_export

    def known_of(self, key: str) -> repeats.Known:
        """Return what the lists know of a key and of the newest entry."""
        number = self.lists.number_of_key(key)
        digest = None if number is None else self.lists.digest_of(number)
        is_all = self.lists.is_of_export and self.is_whole()
        return repeats.Known(digest, self.lists.last if is_all else None)

    # ---- what passes

    def passed(self, letters: str, asked: Mapping[str, str]) -> None:
        """Add a text that the office returned. If it isn't in the office's form, ask for an export."""
        self.places += 1
        try:
            text = read_text(letters)
        except NoText:
            self.wants_export = True
            return
        entry, is_new = self._take(text, self.places, asked.get("key", ""))
        if is_new:
            self.on_entry(entry)

    def _take(self, text: Text, place: int, key: str) -> tuple[Entry, bool]:
        """Add a text to the lists. If it is from another journal, start the lists again, because the office answers only from its own journal."""
        is_another, known = self.lists.contradicts(text), self.lists.known(place)
        if is_another:
            self.lists = self._with_once(Lists(self.zone, self.given))
        entry, is_new = self.lists.passed(text, place, key)
        if is_another:
            self._begin_again(
                SHORTER if entry.number < known.last else changed_by(known, text.own.serial),
                known,
            )
            self.on_lists()
        if is_another or (is_new and self.lists.is_of_export):
            self.journal.keep(self.lists.known(place))
        if not self.lists.is_whole:
            self.wants_export = True
        return entry, is_new

    def _begin_again(self, why: str, known: Known) -> None:
        self.counts["lists_begun_again"] += 1
        self.journal.is_another(
            why,
            known,
            self.lists.last,
            datetime.datetime.now(self.zone).isoformat(timespec="seconds"),
        )

    def answered(self, status: int, text: str) -> None:
        """Note what the office's answer says of the office and of these lists."""
        self.state = {0: "no_answer", 503: "store"}.get(status, "ok")
        if text.startswith(("refused 11 ", "refused 12 ", "refused 13 ")):
            self.wants_export = True

    # ---- reading again

    async def run(self) -> None:
        empty_since: float | None = None
        while True:
            now = time.monotonic()
            empty_since = (empty_since or now) if self.is_empty() else None
            is_quiet = empty_since is not None and now - empty_since > EMPTY_FOR
            is_due = self.wants_export or now - self.read_at > READ_EVERY
            if (
                is_due
                and (is_quiet or not self.read_at)
                and now > max(self.tried_at + NOT_SOONER_THAN, self.rest_until)
            ):
                await self.read_anew()
            elif now - self.probed_at > PROBE_EVERY:
                await self.probe()
            await asyncio.sleep(LOOK_EVERY)

    async def read_anew(self) -> None:
        self.tried_at = began = time.monotonic()
        try:
            answer, place = await self.export_of_now()
            self.state = "store" if answer.status == 503 else "ok"
            if answer.status != 200:
                return
            known = self.lists.known(place) if self.lists.is_of_export else self.journal.kept
            read, why = await asyncio.get_running_loop().run_in_executor(
                None, self._read, answer.text, known
            )
        except NoAnswer:
            self.state = "no_answer"
            return
        except NoExport:
            self.counts["exports_not_understood"] += 1
            self.read_at = time.monotonic()  # the next one waits until the bridge is empty
            return
        self._take_export(read, why, known, place, began)
        self.read_at = time.monotonic()
        self.export_seconds = self.read_at - began
        self.counts["exports"] += 1

    def _read(self, export: str, known: Known) -> tuple[Lists, str | None]:
        """Make lists of an export, and compare them with `known`. This runs in a thread of its own."""
        read = Lists.of_export(self.zone, export, self.given)
        return read, why_another(known, read.rows)

    def _with_once(self, lists: Lists) -> Lists:
        lists.once = self.once
        return lists

    def is_certain(self, since: float) -> bool:
        """Return whether nothing is missing in the lists, and the counter asked for their export after a moment."""
        return self.is_whole() and self.lists.is_of_export and self.exported_at > since

    def _take_export(
        self, read: Lists, why: str | None, known: Known, place: int, asked_at: float
    ) -> None:
        """Make the lists those of an export and of each text that passed after the counter asked for it.

        An earlier text is in the export, or in no journal.
        """
        older, self.lists = self.lists, self._with_once(read)
        self.lists.with_texts_of(older)
        self.wants_export = False
        if why is not None:
            self._begin_again(why, known)
        self.journal.keep(self.lists.known(place))
        for at, text in older.passed_since(place):
            self._take(text, at, older.keys[text.own.number])
        self.exported_at = asked_at
        self.on_lists()

    async def export_of_now(self) -> tuple[Answer, int]:
        """Return an export that begins after this call, and the number of texts that passed before it began.

        All callers that wait share one export. Exports are rare, because each delays the office. Raises NoAnswer.
        """
        if self.next_export is None:
            self.next_export = asyncio.ensure_future(self._export())
        return await asyncio.shield(self.next_export)

    async def _export(self) -> tuple[Answer, int]:
        async with self.one_export:
            await asyncio.sleep(self.rest_until - time.monotonic())
            # a caller that comes from now on gets a later export
            self.next_export, began, place = (
                None,
                time.monotonic(),
                self.places,
            )
            try:
                return await self.office.ask("GET", "/journal.csv", within=EXPORT_WITHIN), place
            finally:
                self.rest_until = time.monotonic() + REST * (time.monotonic() - began)

    async def probe(self) -> None:
        """Is the office there, is its journal open, and is there a ticket that didn't pass? It costs the office next to nothing."""
        self.probed_at = time.monotonic()
        try:
            number = self.lists.last + 1 + self.probes % PROBED
            self.probes += 1
            answer = await self.office.ask("GET", f"/tickets/{number}", within=PROBE_WITHIN)
        except NoAnswer:
            self.state = "no_answer"
            return
        self.state = "store" if answer.status == 503 else "ok"
        if answer.status in (200, 409):
            self.wants_export = True
