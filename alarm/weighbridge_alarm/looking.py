"""Collects the faults of one look. A source that fails in an unexpected way is a fault itself, and stops no other."""

from collections.abc import Callable
from dataclasses import dataclass, field

from .asking import NoAnswer
from .catalogue import UNKNOWN, words_of
from .copies import faults_of_night, unknown_of_night
from .faults import Fault, fault
from .health import OF_COUNTER, faults_of_health, faults_of_office
from .machine import faults_of_certificate, faults_of_clock, faults_of_disk, faults_of_units
from .setup import Setup
from .state import State
from .watch import Tick
from .world import SECONDS, World

# The other receivers hear of a receiver that failed as often as this in a row.
MANY_FAILS = 3


@dataclass
class Look:
    """The faults of a look, and the names of which it doesn't know whether they are still wrong."""

    faults: list[Fault] = field(default_factory=list)
    unknown: set[str] = field(default_factory=set)


@dataclass
class Looking:
    """Asks each source in turn."""

    setup: Setup
    world: World
    state: State
    tick: Tick
    found: Look = field(default_factory=Look)

    def add(self, *faults: Fault) -> None:
        self.found.faults += faults

    def hold(self, names: set[str]) -> None:
        self.found.unknown |= names

    def counter(self) -> None:
        """Ask the counter. If it doesn't answer, or if there is none, ask the office."""
        if not self.setup.counter:
            self.office()
            return
        try:
            found = faults_of_health(self.world.ask(f"http://{self.setup.counter}/health", SECONDS))
        except NoAnswer as why:
            found = [fault("counter", "", why)]
        self.add(*found)
        if any(it.name == "counter" for it in found):
            known = {it.name for it in self.state.known.values()}
            self.hold({it for it in known if it in OF_COUNTER or words_of(it) is UNKNOWN})
            self.office()

    def office(self) -> None:
        address = f"http://{self.setup.office}"
        try:
            indication = self.world.ask(f"{address}/indication", SECONDS)
            # the indication is answered without the journal, so another request shows whether that can be read
            ticket = self.world.ask(f"{address}/tickets/1", SECONDS)
        except NoAnswer as why:
            self.add(fault("terminal", "", why))
        else:
            self.add(*faults_of_office(indication, ticket))

    def night(self) -> None:
        if self.setup.night:
            text = self.world.file(self.setup.night_file)
            self.add(*faults_of_night(text, self.tick.now, self.state.first))
            self.hold(unknown_of_night(text, self.tick.now))

    def units(self) -> None:
        shown = self.world.units()
        self.add(*faults_of_units(shown, self.found.faults))
        if not shown.strip():
            self.hold({"unit"})

    def clock(self) -> None:
        is_set = self.world.is_synchronized() if self.setup.network_time else None
        self.add(*faults_of_clock(self.tick.now, self.world.made(), is_set))

    def receivers(self) -> None:
        for it in self.setup.receivers:
            mine = self.state.receivers.get(it.name)
            if mine is not None and mine.fails >= MANY_FAILS:
                self.add(fault("receiver", it.name, mine.why))

    def disks(self) -> None:
        for path in self.setup.disks:
            self.add(*faults_of_disk(path, self.world.space(path), self.setup.least_bytes))

    def certificates(self) -> None:
        for it in self.setup.certificates:
            self.add(*faults_of_certificate(it, self.world.certificate_end(it), self.tick.now))


def look(setup: Setup, world: World, state: State, tick: Tick) -> Look:
    """Return what this look finds."""
    it = Looking(setup, world, state, tick)
    sources: list[Callable[[], None]] = [
        it.counter,
        it.night,
        it.units,
        it.clock,
        it.receivers,
        it.disks,
        it.certificates,
    ]
    for source in sources:
        try:
            source()
        except Exception as error:  # the other sources don't depend on it
            it.add(fault("alarm", source.__name__, repr(error)))
            it.hold({one.name for one in state.known.values()})
    return it.found
