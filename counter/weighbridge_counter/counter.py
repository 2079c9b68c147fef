"""The counter: what it knows at a moment, and which pages learn of a change."""

import asyncio
import contextlib
import datetime
from collections.abc import Callable, Coroutine, Mapping
from dataclasses import asdict
from typing import Any

from .acts import Acts, Busy
from .books import Books
from .files import Files
from .given import Given, Lines
from .journal import Journal
from .off_zero import MIN_INTERVALS, OffZero
from .office import NoAnswer, Office
from .once import Once
from .pages import FASTEST, SLOWEST, Pages
from .papers import Printing, papers_of
from .repeats import Repeats
from .room import Room, capacity_of, room_of
from .service import Service, find_service, program_of
from .setup import Setup
from .slips import Entry
from .tares import Tares
from .terminal import Terminal
from .today import day_of, numbers_of, sums_of
from .values import Value
from .zero import Zero

STATE_EVERY = 0.25  # seconds
WITHOUT_VALUE = 1.5  # seconds between two looks whether another one has the terminal
ANSWERS_WITHIN = 1.2  # seconds
WITHDRAW_EVERY = 5.0  # seconds
NOTED_WITHIN = 0.3  # seconds that an answer waits for the disk at most
GONE_AFTER = 0.5  # seconds without a value after which pages get a sign of life


class Counter:
    def __init__(
        self, setup: Setup, find: Callable[[tuple[str, int]], Service | None] = find_service
    ) -> None:
        self.setup, self.find = setup, find
        self.terminal = Terminal(setup.terminal, setup.wait)
        self.counts = self.terminal.fanout.counts
        self.office = Office(setup.office)
        self.files = Files(setup.state)
        clock = self.terminal.clock
        self.once = Once(self.files, lambda: self.now().date(), clock) if setup.once else None
        repeats = Repeats(
            lambda key: self.books.known_of(key),
            lambda: datetime.datetime.now(datetime.timezone.utc),
        )
        self.acts = Acts(
            self.terminal, self.office, self.files, setup.interval, self.counts, self.once, repeats
        )
        self.given = Given()
        self.books = Books(self.office, setup.zone, self.counts, Journal(self.files), self.given)
        self.printing = Printing(
            papers_of(setup),
            lambda number: self.books.lists.digest_of(number),
            lambda number: self.books.lists.first_of(number),
            self.given,
        )
        self.pages = Pages()
        self.tares = Tares(
            self.files,
            lambda: self.now().date(),
            setup.tare_days,
            setup.max,
            lambda plate: self.books.lists.empty_of(plate),
            (setup.interval + 1) // 2,
        )
        self.zero = Zero(self.files, self.now)
        self.off_zero = OffZero(setup.interval)
        self.service: Service | None = None
        self.answers_at_office = False  # while it gives the counter no value
        self.has_looked = False  # for the service, in this run
        self.program: dict[str, str | bool] = {}
        self.bridge = "unknown"  # `empty` after the last weighing; `weighed` if it wasn't empty since; `restarted` if it wasn't since the service started
        self.told_state: dict[str, Any] = {}
        self.told_papers: dict[str, Any] = {}
        self.told_weight: tuple[object, ...] = ()
        self.told_weight_at = 0.0
        self.tasks: set[asyncio.Task[None]] = set()
        self.day = self.now().date()  # that the pages were informed of
        self._connect()

    def _connect(self) -> None:
        self.terminal.on_up = self._terminal_is_up
        self.terminal.on_change = self.tell_state
        self.terminal.listeners.add(self._take_value)
        self.terminal.fanout.on_zero = self._zero_answered
        self.acts.on_text += [
            self.printing.passed,
            self.books.passed,
            lambda text, asked: self._keep_going(self.tares.use(asked)),
        ]
        self.tares.on_change = self.tell_tare
        self.printing.on_change = self._tell_papers
        self.printing.on_unlinked = self._miss_entries
        self.files.on_change = self.tell_state
        self.acts.on_answer = self.books.answered
        self.books.on_lists = self._tell_lists
        self.books.on_entry = self._take_entry
        self.books.is_empty = self._is_empty
        if self.once is not None:
            once = self.once
            self.books.once = self.books.lists.once = once.keys
            self.acts.step_of = lambda key: once.step(key, self.books.lists, self.books.is_certain)

    async def run(self) -> None:
        await asyncio.gather(
            self.terminal.run(),
            self.books.run(),
            self._tell_regularly(),
            self._look_for_another(),
            self.printing.run(),
            self.files.run(),
            self._withdraw_when_due(),
        )

    def now(self) -> datetime.datetime:
        return datetime.datetime.now(self.setup.zone)

    def milliseconds(self) -> int:
        return round(self.terminal.clock() * 1000)

    # ---- what comes from the terminal

    def gross(self) -> int | None:
        value, tare = self.terminal.fanout.value, self.terminal.fanout.tare
        return None if value is None or value.kg is None or tare is None else value.kg + tare

    def _is_light(self) -> bool:
        gross = self.gross()
        return gross is not None and gross < MIN_INTERVALS * self.setup.interval

    def _is_empty(self) -> bool:
        return self.terminal.fanout.is_fresh() and self._is_light() and not self.acts.is_busy()

    def _take_value(self, value: Value) -> None:
        if self._is_light():
            self.bridge = "empty"
        before, tare = self.off_zero.shown(), self.terminal.fanout.tare
        self.off_zero.saw(value.at, value.state, self.gross())
        if self.off_zero.shown() != before or self.told_state.get("tare") != tare:
            self.tell_state()  # before the weight, so that no page has a weight without what the bridge showed before, or a tare without whose it is
        looks = (value.state, value.kg, tare)
        since = value.at - self.told_weight_at
        if (looks != self.told_weight and since >= FASTEST) or since >= SLOWEST:
            self.told_weight, self.told_weight_at = looks, value.at
            self.pages.tell_weight(
                {
                    "state": value.state,
                    "net": value.kg,
                    "tare": self.terminal.fanout.tare,
                    "at": round(value.at * 1000),
                }
            )

    def _terminal_is_up(self) -> None:
        self.answers_at_office = False
        self._keep_going(self.acts.look())
        self._keep_going(self._look_at_service())

    async def _look_at_service(self) -> None:
        loop = asyncio.get_running_loop()
        service = await loop.run_in_executor(None, self.find, self.setup.terminal)
        was_refused, self.terminal.was_refused = self.terminal.was_refused, False
        was_known = self.zero.service is not None
        if self.zero.connected(service, was_refused) and was_known:
            self.bridge = "empty" if self._is_light() else "restarted"
            self.off_zero.forget()
            self.books.wants_export = self.books.wants_export or self.has_looked
        self.has_looked = True
        program = (
            await loop.run_in_executor(None, program_of, service) if service is not None else {}
        )
        self.service, self.program = service, program
        self._keep_going(self.books.probe())
        self.tell_state()

    def _keep_going(self, work: Coroutine[Any, Any, None]) -> None:
        task = asyncio.ensure_future(work)
        self.tasks.add(task)
        task.add_done_callback(self.tasks.discard)

    def _zero_answered(self, reply: str) -> None:
        self.off_zero.answered(reply)
        if reply == "Z A":
            self.zero.was_set("")

    # ---- what comes from the office

    def _take_entry(self, entry: Entry) -> None:
        if entry.kind != "void":
            self.bridge = "weighed"
        lists = self.books.lists
        self.pages.tell(
            "entry",
            {
                "entry": lists.shown(entry.number),
                "sums": asdict(sums_of(lists, numbers_of(lists, self.now()))),
                "on_site": lists.on_site(),
                "weighed_near": lists.near.shown(),
            },
        )
        if entry.kind == "second" and entry.plate in self.tares.kept:
            self.tell_tare(entry.plate)  # its last empty weight is another one

    def _miss_entries(self) -> None:
        """Ask for an export, because a text doesn't follow the newest entry of the lists."""
        self.books.wants_export = True

    # ---- commands of pages

    async def set_zero(self, by: str) -> str:
        """Return what the terminal replied to `Z`. Raise NotSent or Unanswered."""
        try:
            said = (await asyncio.shield(asyncio.ensure_future(self.terminal.command("Z"))))[0]
            if said == "Z A":
                self.zero.was_set(by)
                # so that a counter killed after its answer still knows it
                await self.files.taken(NOTED_WITHIN)
            return said
        finally:
            self.tell_state()

    async def give(self, number: int, letters: str, fields: Mapping[str, str]) -> Lines | None:
        """Change what stands on the paper of an entry besides its text, and inform the pages. Return None if its original is printed.

        Of a vehicle on site it can still be changed then, because its ticket will have it. Raises NoText and OSError.
        """
        is_on_site = number in self.books.lists.there()
        lines = await self.printing.give(letters, fields, is_on_site)
        if lines is not None:
            self.pages.tell("given", {"number": number, "given": dict(lines)})
        return lines

    async def clear_tare(self) -> str:
        try:
            return (await asyncio.shield(asyncio.ensure_future(self.terminal.command("TAC"))))[0]
        finally:
            self.tell_state()

    # ---- what pages learn

    def link(self) -> str:
        """Return `down` if the service isn't there, `waits` if another client has its terminal, `held` if it doesn't answer, and `up` otherwise."""
        fanout = self.terminal.fanout
        if fanout.link == "up":
            return "held" if fanout.is_held() else "up"
        if self.terminal.is_refused:
            return "down"
        return "waits" if self.answers_at_office else "held"

    def state(self) -> dict[str, Any]:
        room = self.room()
        return {
            "link": self.link(),
            "tare": self.terminal.fanout.tare,
            "bridge": self.bridge,
            "zero": self.zero.shown(),
            "off_zero": self.off_zero.shown(),
            "serial": self.terminal.serial,
            "office": self.books.state,
            "lists_whole": self.books.is_whole(),
            "tare_left": self.acts.may_be_left,
            "journal_changed": self.books.journal.told,
            "files_written": not self.files.faults,
            "room": None if room is None else room.shown(),
            "busy": self.acts.is_busy(),
        }

    def room(self) -> Room | None:
        """Return the room in the journal, or None until the counter knows its places and has an export of it."""
        lists = self.books.lists
        capacity = capacity_of(self.service.words) if self.service else None
        if capacity is None or not lists.is_of_export:
            return None
        return room_of(
            capacity, len(lists.entries), len(lists.open), lists.per_day, self.now().date()
        )

    def lists(self) -> dict[str, Any]:
        lists = self.books.lists
        return {
            "on_site": lists.on_site(),
            **day_of(lists, self.now()),
            "weighed_near": lists.near.shown(),
        }

    def hello(self) -> dict[str, Any]:
        setup = self.setup
        return {
            "company": setup.company,
            "address": list(setup.address),
            "zone": setup.zone.key,
            "language": setup.language,
            "languages": setup.languages,
            "interval": setup.interval,
            "tare_days": setup.tare_days,
            "once": setup.once,
            "demo": setup.is_demo,
            "demo_page": setup.demo_page,
            "now": self.milliseconds(),
            "resumed": False,  # whatever Last-Event-ID says: the events of the beginning have all
        }

    def tell_state(self) -> None:
        state = self.state()
        if state != self.told_state:
            self.told_state = state
            self.pages.tell("state", state)

    def _tell_papers(self) -> None:
        papers = self.printing.state()
        if papers != self.told_papers:
            self.told_papers = papers
            self.pages.tell("papers", papers)

    def tell_tare(self, plate: str) -> None:
        """Inform the pages of one kept tare, because all of them together are long."""
        self.pages.tell("tare", {"plate": plate, "tare": self.tares.shown(plate)})

    def _tell_lists(self) -> None:
        """Inform the pages of the lists, and of the kept tares, which have the last empty weights of the lists."""
        self.pages.tell("lists", self.lists())
        self.pages.tell("tares", self.tares.all_shown())

    def _tell_of_a_new_day(self) -> None:
        self.day = self.now().date()
        self._tell_lists()

    async def _withdraw_when_due(self) -> None:
        """After local midnight, withdraw the Firsts of the vehicles that were weighed once."""
        while (once := self.once) is not None:
            if due := once.due():
                with contextlib.suppress(Busy):
                    await self.acts.withdraw(due)
                if any(once.notes[it].number is None for it in due if it in once.notes):
                    self.books.wants_export = True
            await asyncio.sleep(WITHDRAW_EVERY)

    async def _look_for_another(self) -> None:
        """Return whether another client has the terminal: the office answers, and no value came for some time."""
        while True:
            await asyncio.sleep(WITHOUT_VALUE)
            if self.terminal.fanout.link == "up" or self.terminal.is_refused:
                self.answers_at_office = False
                continue
            try:
                await self.office.ask("GET", "/indication", within=ANSWERS_WITHIN)
                self.answers_at_office = self.terminal.fanout.link != "up"
            except NoAnswer:
                self.answers_at_office = False

    async def _tell_regularly(self) -> None:
        while True:
            self.tell_state()
            if self.now().date() != self.day:
                self._tell_of_a_new_day()
            if not self.terminal.fanout.is_fresh(GONE_AFTER):
                # so that a page distinguishes a silent scale from a counter that is gone
                self.pages.tell("alive", self.milliseconds())
            await asyncio.sleep(STATE_EVERY)
