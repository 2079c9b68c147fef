"""Shows that no client stops the scale: silent, slow, a hundred at once, checks of 97,000 entries, a terminal that never
reads.

A service runs over a journal of 97,000 entries, with a converter of ten lines a second whose load rises by one
interval a line. So each reply to `SI` shows from which line it was made. The check sends `SI` again and again while
clients of each bad kind are connected. Then the converter falls silent.

For each kind it prints how long replies took, and how old the reading behind a reply was at most. It also prints how
long a good client of the office waited, and how often it asked again. It fails if a reading was more than a second old, and a quarter, which
a reply takes on a busy machine. It also fails if a reply took longer than two seconds and the longest exchange. On a
quiet machine a reply takes a turn and that exchange.
"""

import os
import socket
import threading
import time
from collections.abc import Callable
from contextlib import suppress

from checks.lib import bridge
from checks.lib.case import PROGRAM, Check, many
from checks.lib.journal import make_journal
from checks.lib.program import PROGRAM as BUILT
from checks.lib.waiting import wait_until
from checks.lib.watching import OLD, Watch, load

SECONDS = many(8)
RATE = 10.0
ENTRIES = 97_000
# A reply that takes this many seconds more than the longest exchange is late. A client that stops the scale makes it wait for longer.
LATE = 2.0
# How long the checks took that a bad client asked for meanwhile.
lasted: list[float] = []
Kind = Callable[[bridge.Service, threading.Event], None]


def asked(service: bridge.Service) -> bool:
    """Return whether a request for the indication is answered. One that waits for five seconds behind others is closed, and isn't answered late."""
    with suppress(OSError):
        return (bridge.get(service, "/indication") or (0, ""))[0] == 200
    return False


class Good(threading.Thread):
    """Asks for the indication again and again, each time until it is answered, and keeps how long each answer took."""

    def __init__(self, service: bridge.Service) -> None:
        super().__init__(daemon=True)
        self.service, self.again, self.lost = service, 0, 0
        self.took: list[float] = []
        self.over = threading.Event()

    def run(self) -> None:
        while not self.over.is_set():
            start = time.monotonic()
            if self.is_answered():
                self.took.append(time.monotonic() - start)
            else:
                self.lost += 1
            self.over.wait(0.2)

    def is_answered(self) -> bool:
        """Return whether it gets an answer to one of three requests."""
        for _ in range(3):
            if asked(self.service):
                return True
            self.again += 1
        return False


def connect(service: bridge.Service) -> socket.socket:
    return socket.create_connection((bridge.HOST, service.office), 30)


def silent(service: bridge.Service, over: threading.Event) -> None:
    while not over.is_set():
        with connect(service) as stream:
            stream.settimeout(0.2)
            while not over.is_set():
                with suppress(TimeoutError):
                    if not stream.recv(1):
                        break


def drip(service: bridge.Service, over: threading.Event) -> None:
    while not over.is_set():
        with connect(service) as stream, suppress(OSError):
            for byte in b"GET /indication HTTP/1.1\r\nX-Slow: " + b"a" * 100:
                stream.sendall(bytes([byte]))
                if over.wait(2):
                    return


def check(service: bridge.Service, over: threading.Event) -> None:
    while not over.is_set():
        start = time.monotonic()
        bridge.get(service, "/check")
        lasted.append(time.monotonic() - start)


def slow_reader(service: bridge.Service, over: threading.Event) -> None:
    while not over.is_set():
        with connect(service) as stream:
            stream.sendall(bridge.request_bytes("GET", "/journal.csv"))
            while not over.wait(0.05):
                if not stream.recv(8192):
                    break


def once(service: bridge.Service, over: threading.Event) -> None:
    asked(service)
    over.wait()


class Held(threading.Thread):
    """Asks for the export once, and takes 5 kB a second of it."""

    def __init__(self, service: bridge.Service) -> None:
        super().__init__(daemon=True)
        self.service, self.over, self.took, self.is_closed = service, threading.Event(), 0, False

    def run(self) -> None:
        with socket.socket() as stream:
            stream.setsockopt(socket.SOL_SOCKET, socket.SO_RCVBUF, 4096)
            stream.settimeout(60)
            stream.connect((bridge.HOST, self.service.office))
            stream.sendall(bridge.request_bytes("GET", "/journal.csv"))
            while not self.over.wait(0.1):
                got = stream.recv(512)
                self.took += len(got)
                if not got:
                    self.is_closed = True
                    return


def deaf_terminal(service: bridge.Service, over: threading.Event) -> None:
    """Send commands and never read. It holds the one place of a terminal until the service disconnects it."""
    with socket.create_connection((bridge.HOST, service.terminal), 30) as stream:
        stream.settimeout(0.5)
        while not over.is_set():
            try:
                stream.sendall(b"I0\n" * 80)
            except TimeoutError:
                pass
            except OSError:
                return


def until_answered(service: bridge.Service, target: str) -> float:
    """Return how long the first byte of an answer takes, which comes once all of it was made."""
    with connect(service) as stream:
        start = time.monotonic()
        stream.sendall(bridge.request_bytes("GET", target))
        stream.recv(1)
        took = time.monotonic() - start
        while stream.recv(1 << 20):
            pass
    return took


def longest(seconds: list[float]) -> str:
    return f"{max(seconds):.2f} s" if seconds else "-"


class ServeBadClients(Check):
    """Bad clients of each kind at one service."""

    needs = (PROGRAM,)
    alone = True
    seconds = 160

    def setUp(self) -> None:
        file = os.path.join(self.folder(), "journal.db")
        make_journal(file, ENTRIES)
        converter = bridge.Converter(RATE, load)
        self.service = bridge.Service(BUILT, file, converter, "--capacity", "100000")
        self.addCleanup(self.service.close)
        time.sleep(2)

    def tearDown(self) -> None:
        _, err, status = self.service.end()
        self.same("how the service ends", (0, ""), (status, err))

    def tried(
        self, name: str, clients: int, kind: Kind, exchange: float = 0.2, seconds: float = SECONDS
    ) -> None:
        """Let this many clients of a kind at the service while it is watched. The longest exchange takes `exchange` seconds, or as long as one
        that a bad client requested."""
        over = threading.Event()
        lasted.clear()
        given = (self.service, over)
        threads = [threading.Thread(target=kind, args=given, daemon=True) for _ in range(clients)]
        watch, good = Watch(self.service), Good(self.service)
        for thread in (*threads, watch, good):
            thread.start()
        start = time.monotonic()
        while time.monotonic() - start < seconds:
            time.sleep(0.1)
            self.assertIsNone(self.service.process.poll(), f"{name}: the service ended")
        for event in (watch.over, good.over, over):
            event.set()
        for thread in (watch, good, *threads):
            thread.join(60)
        print(
            f"{name}: SI {len(watch.took)} replies, at most {longest(watch.took)}; reading at most {longest(watch.aged)} old;"
            f" office {len(good.took)} answers, at most {longest(good.took)}, asked again {good.again}",
            flush=True,
        )
        most = LATE + max(exchange, *lasted, 0)
        self.holds(f"{name}: no reply is late", watch.took and max(watch.took) <= most, most)
        self.holds(f"{name}: no reading is too old", max(watch.aged, default=0) <= OLD)
        self.same(f"{name}: requests of a good client without an answer", 0, good.lost)

    def test_at_the_office(self) -> None:
        checked = until_answered(self.service, "/check")
        exported = until_answered(self.service, "/journal.csv")
        print(f"the check takes {checked:.2f} s, and the export begins after {exported:.2f} s")
        self.tried("no bad client", 0, silent)
        self.tried("a silent client", 1, silent)
        for name, clients, kind, seconds in (
            ("a client that sends a byte every two seconds", 1, drip, 12),
            ("24 that come back silent again and again", 24, silent, 20),
            ("100 at once", 100, once, 12),
        ):
            self.tried(name, clients, kind, seconds=max(SECONDS, seconds))
        self.tried("a reader of a long export, slowly", 1, slow_reader, exported)
        self.read_slowly(exported)
        self.tried("one that asks for the check again and again", 1, check, checked)

    def read_slowly(self, exported: float) -> None:
        """Let sixteen read an export slowly: four are answered, and the others are closed without a byte. Then a good client is answered at once."""
        readers = [Held(self.service) for _ in range(16)]
        for it in readers:
            it.start()

        def counts() -> tuple[int, int]:
            answered = sum(it.took > 0 and not it.is_closed for it in readers)
            return answered, sum(it.took == 0 and it.is_closed for it in readers)

        name = "sixteen that read an export slowly: those that are answered, and those that are closed without a byte"
        self.becomes(name, (4, 12), counts, 60 + 30 * exported)
        self.tried("while four read an export slowly", 0, silent)
        for it in readers:
            it.over.set()
        for it in readers:
            it.join(30)

    def test_at_the_terminal(self) -> None:
        self.tried("no bad client", 0, silent, seconds=1)
        over = threading.Event()
        deaf = threading.Thread(target=deaf_terminal, args=(self.service, over), daemon=True)
        deaf.start()
        start = time.monotonic()
        name = "a terminal that never reads is disconnected"
        self.becomes(name, False, deaf.is_alive, seconds=120)
        print(f"after {time.monotonic() - start:.1f} s")
        over.set()
        self.tried("after it, another terminal", 0, silent, seconds=2)

    def test_silent_converter(self) -> None:
        """Show that after the converter falls silent, a lost reading is shown within a second, and no old weight."""
        terminal = self.enterContext(bridge.Terminal(self.service))
        wait_until("a weight", lambda: terminal.ask("SI"), lambda it: it != "S I")
        self.service.converter.speaks.clear()
        start = time.monotonic()
        shown = []
        while time.monotonic() - start < 4:
            shown.append((time.monotonic() - start, terminal.ask("SI")))
        self.service.converter.speaks.set()
        weights = [at for at, reply in shown if reply != "S I"]
        print(f"{len(shown)} replies in 4 s, the last weight after {longest(weights)}")
        self.holds("a lost reading is shown", len(weights) < len(shown))
        self.holds("no weight is shown after a second", max(weights, default=0) <= 1.5, weights)
        time.sleep(1)
        self.holds("a weight comes back", terminal.ask("SI") != "S I")
