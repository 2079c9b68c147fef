"""Shows that no weight older than a second is shown or stored, whatever holds the service up. It takes two minutes.

It also shows that the service logs a wrong pace once.

A service runs with a converter of ten lines a second. If its load rises by one interval a line, each reply to `SI`
shows from which line it was made.

The process is stopped, for less than a second and for five, as it is for a backup. The check sends `SI` before,
meanwhile and afterwards. A command that was sent two seconds before is dropped, and the terminal connects and sends it
again. The check requests the indication while the process is stopped for four seconds, which is answered, and for six,
which is closed. A vehicle that was on the bridge drives off while the process is stopped for as long, and its weighing
is requested meanwhile. No entry may be made of it.

Then a check, both exports, and a purge of all entries hold the office up, over a journal of 97,000 entries, while `SI`
is sent again and again. For each the check prints how many replies there were of which kind, and how old the reading
behind a reply was at most. It fails if a reading was more than a second old, and a quarter, which a reply takes on a
busy machine, or if the weight didn't come back.

In another class, for two minutes, readings come at another pace than the setup states. The service logs that once,
under --verbose, if it differs by more than a fifth for a minute.
"""

import os
import re
import time
from collections.abc import Callable
from concurrent.futures import ThreadPoolExecutor
from typing import NamedTuple, TypeVar

from checks.lib import bridge
from checks.lib.case import PROGRAM, Check
from checks.lib.counter import Meanwhile, held
from checks.lib.journal import make_journal
from checks.lib.program import PROGRAM as BUILT
from checks.lib.watching import OLD, Watch, load

RATE = 10.0
ENTRIES = 97_000
DAY = 86_400
# A request that waited for the first number of seconds is answered, and one that waited for the second is closed.
IN_TIME, LATE = 4, 6
Found = TypeVar("Found")


class Pace(NamedTuple):
    """A pace of readings, and what the service says of it."""

    rate: int
    stated: int
    is_lost: bool  # a reading is lost after 40 seconds
    is_verbose: bool
    is_told: bool

    def __str__(self) -> str:
        more = ", one lost" * self.is_lost + ", no --verbose" * (not self.is_verbose)
        return f"{self.rate} lines a second, --pace {self.stated}{more}"


PACES = (
    Pace(10, 10, False, True, False),
    Pace(10, 12, False, True, False),
    Pace(10, 9, False, True, False),
    Pace(10, 14, False, True, True),
    Pace(10, 8, False, True, True),
    Pace(50, 10, False, True, True),
    Pace(10, 50, False, True, True),
    Pace(10, 14, True, True, False),
    Pace(10, 14, False, False, False),
)
# Seconds: a minute and then a second one; where a reading is lost, less than a minute after it.
LONG, SHORT = 124, 95


def stand_still(
    service: bridge.Service, seconds: float, meanwhile: Callable[[], object] = lambda: None
) -> None:
    """Stop the process for this many seconds. Do something a fifth of that time after it stopped."""
    with held(service.process):
        time.sleep(seconds / 5)
        meanwhile()
        time.sleep(seconds * 4 / 5)


def asked_meanwhile(
    service: bridge.Service, seconds: float, ask: Callable[[], bridge.Answer | None]
) -> tuple[bridge.Answer | None, float]:
    """Return the answer to a request while the process is stopped for this many seconds, and when it came; None if the connection is closed."""
    asking: list[Meanwhile] = []

    def asked() -> tuple[bridge.Answer | None, float]:
        try:
            return ask(), time.monotonic()
        except ConnectionError:
            return None, time.monotonic()

    stand_still(service, seconds, lambda: asking.append(Meanwhile(asked)))
    found: tuple[bridge.Answer | None, float] = asking[0].get(30)
    return found


def timed(ask: Callable[[], Found]) -> tuple[Found, float]:
    began = time.monotonic()
    return ask(), time.monotonic() - began


class ServeHeldUp(Check):
    """The process is stopped, or an exchange of the office takes long."""

    needs = (PROGRAM,)
    alone = True
    seconds = 90

    def start(self, converter: bridge.Converter, *options: str, entries: int = 0) -> bridge.Service:
        """Start a service over a journal that has this number of old entries."""
        file = os.path.join(self.folder(), "journal.db")
        if entries:
            make_journal(file, entries, 400 * DAY)
        return self.enterContext(bridge.Service(BUILT, file, converter, *options))

    def ends(self, service: bridge.Service) -> None:
        _, err, status = service.end()
        self.same("the service's end", (0, ""), (status, err))

    def watched(self, name: str, service: bridge.Service, held_up: Callable[[], object]) -> Watch:
        """Ask `SI` again and again while something holds the service up, and until a while after it."""
        watch = Watch(service)
        watch.start()
        time.sleep(0.5)
        held_up()
        time.sleep(1.5)
        before = len(watch.aged)
        time.sleep(0.5)
        watch.over.set()
        watch.join(30)
        oldest = max(watch.aged, default=0)
        kinds = ", ".join(f"{count} {kind}" for kind, count in sorted(watch.kinds.items()))
        said = f"{len(watch.took)} replies ({kinds}), {oldest:.2f} s old at most"
        print(f"{name}: {said}", flush=True)
        self.holds(f"{name}: no reply is made of an old reading", oldest <= OLD, oldest)
        self.holds(f"{name}: the weight comes back", len(watch.aged) > before)
        return watch

    def test_stops(self) -> None:
        service = self.start(bridge.Converter(RATE, load))
        time.sleep(2)
        watch = self.watched("0.6 s", service, lambda: stand_still(service, 0.6))
        self.holds("a gap of less than a second leaves the weight", "S I" not in watch.kinds)
        self.same("a gap of less than a second closes no terminal", 0, watch.closed)
        for seconds in (2, 5):
            name = f"{seconds} s"
            watch = self.watched(name, service, lambda: stand_still(service, seconds))
            self.same(f"{name}: the terminal that asked before is closed", 1, watch.closed)
        self.ends(service)

    def test_indication(self) -> None:
        service = self.start(bridge.Converter(RATE, load))
        time.sleep(2)
        ask = lambda: bridge.get(service, "/indication")  # noqa: E731
        answer, came = asked_meanwhile(service, IN_TIME, ask)
        status, body = answer or (0, "NO ANSWER")
        self.same("an indication that was asked meanwhile has an answer", 200, status)
        words, sent = body.split(), service.converter.sent
        # "NO LOAD", or the weight of a line
        if words[0] != "NO":
            shown = int(words[2]) // 20
            numbers = [it for it, at in enumerate(sent) if load(it) // 10 == shown and at <= came]
            age = came - sent[max(numbers)]
            self.holds("it is of no old reading", age <= OLD, age)
        answer, _ = asked_meanwhile(service, LATE, ask)
        self.same(f"an indication that was asked {LATE} s before", None, answer)
        self.ends(service)

    def test_departure(self) -> None:
        """Request a weighing of a vehicle that drives off while the process is stopped."""
        service = self.start(bridge.Played(RATE))
        for seconds, wanted in ((IN_TIME, 409), (LATE, 0)):
            service.next_vehicle(9170)

            def drive_off() -> bridge.Answer | None:
                service.converter.now = 0
                return bridge.post(service, "/weighings", "key=K1&kind=single&plate=AB-12")

            answer, _ = asked_meanwhile(service, seconds, drive_off)
            self.same(f"stopped for {seconds} s: the answer", wanted, (answer or (0, ""))[0])
            stored = bridge.get(service, "/check")
            self.same(f"stopped for {seconds} s: no entry", (200, "SOUND 0\n"), stored)
        self.ends(service)

    def test_exchanges(self) -> None:
        """Hold the office up by a check, both exports and a purge of many entries."""
        service = self.start(bridge.Converter(RATE, load), "--capacity", "100000", entries=ENTRIES)
        time.sleep(2)
        for name, ask in (
            ("GET /check", lambda: bridge.get(service, "/check")),
            ("GET /journal.csv", lambda: bridge.get(service, "/journal.csv")),
            ("GET /tickets.csv", lambda: bridge.get(service, "/tickets.csv")),
            ("POST /purge", lambda: bridge.post(service, "/purge")),
        ):
            said: list[tuple[bridge.Answer | None, float]] = []
            self.watched(name, service, lambda: said.append(timed(ask)))
            answer, took = said[0]
            status, body = answer or (0, "")
            print(f"{name}: {len(body)} bytes after {took:.2f} s", flush=True)
            self.same(f"{name}: its status", 200, status)
        self.same("the purge leaves nothing", (200, "SOUND 0\n"), bridge.get(service, "/check"))
        self.ends(service)


class ServePace(Check):
    """Readings come at another pace than is stated."""

    needs = (PROGRAM,)
    alone = True
    seconds = LONG

    def lines_about(self, pace: Pace) -> tuple[Pace, list[str], int]:
        """Return what a service logs about a pace, and its status at its end."""
        options = ["--pace", str(pace.stated), *(["--verbose"] if pace.is_verbose else [])]

        def line(number: int) -> object:
            return "lost" if pace.is_lost and number == 40 * pace.rate else 0

        converter = bridge.Converter(pace.rate, line)
        file = os.path.join(self.folder(), "journal.db")
        with bridge.Service(BUILT, file, converter, *options) as service:
            time.sleep(SHORT if pace.is_lost else LONG)
            _, err, status = service.end()
        return pace, [it for it in err.splitlines() if it.startswith("pace: ")], status

    def test_paces(self) -> None:
        with ThreadPoolExecutor(len(PACES)) as pool:
            for pace, lines, status in pool.map(self.lines_about, PACES):
                self.same(f"{pace}: the service's status at its end", 0, status)
                self.same(f"{pace}: how often the service says it", int(pace.is_told), len(lines))
                for it in lines:
                    said = re.fullmatch(
                        rf"pace: (\d+) readings came in 6[0-3] s, and --pace .*states {pace.stated} a second: .*",
                        it,
                    )
                    is_right = said and abs(int(said[1]) - pace.rate * 60) <= pace.rate * 6
                    self.holds(f"{pace}: its words", is_right, it)
