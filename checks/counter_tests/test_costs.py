"""The counter's costs, and how soon a weight and an answer come. The bounds are wide where time is the clock's, because the machine does other things too."""

import json
import os
import random
import selectors
import socket
import statistics
import subprocess
import threading
import time
from pathlib import Path
from typing import Any, ClassVar

from checks.lib.bridge import HOST, Closing, kg_of, sizes_of
from checks.lib.case import PROGRAM
from checks.lib.counter_case import AtTheCounter, CounterCheck

MOST_ATTACKED = 100.0  # MB
MOST_CPU, MOST_MEMORY = 5.0, 50.0  # per cent of a core, MB: 20 pages, 50 readings a second


def stream_of(port: int, stream: socket.socket) -> None:
    """Ask for the events of a page."""
    stream.sendall(f"GET /events HTTP/1.1\r\nHost: {HOST}:{port}\r\n\r\n".encode())


class Streams(Closing, threading.Thread):
    """Reads `count` event streams as they come, and keeps each weight of the first with the moment at which it came."""

    def __init__(self, port: int, count: int) -> None:
        super().__init__(daemon=True)
        self.bytes, self.ended, self.is_over = 0, 0, False
        self.weights: list[tuple[float, int]] = []
        self.heard: set[int] = set()
        self.selector = selectors.DefaultSelector()
        self.streams = [socket.create_connection((HOST, port), 10) for _ in range(count)]
        for at, stream in enumerate(self.streams):
            stream_of(port, stream)
            self.selector.register(stream, selectors.EVENT_READ, at)
        self.start()

    def run(self) -> None:
        while not self.is_over:
            for key, _ in self.selector.select(0.1):
                data = self.streams[key.data].recv(1 << 16)
                self.bytes += len(data)
                self.heard.add(key.data)
                if not data:
                    self.ended += 1
                    self.selector.unregister(key.fileobj)
                elif key.data == 0:
                    self.note(data)

    def note(self, data: bytes) -> None:
        """Keep the weights of an event stream's bytes."""
        now = time.monotonic()
        for line in data.split(b"\n"):
            is_whole = line.startswith(b'data: {"state":"') and line.endswith(b"}")
            if is_whole and b'"net"' in line:
                self.weights.append((now, json.loads(line[6:])["net"]))

    def close(self) -> None:
        self.is_over = True
        self.join()
        for it in self.streams:
            it.close()
        self.selector.close()


class Stubborn(Closing, threading.Thread):
    """A page that begins a stream, reads next to nothing of it, and begins again once it is cut."""

    def __init__(self, port: int) -> None:
        super().__init__(daemon=True)
        self.port, self.begun, self.is_over = port, 0, False
        self.start()

    def run(self) -> None:
        while not self.is_over:
            try:
                with socket.socket() as stream:
                    stream.setsockopt(socket.SOL_SOCKET, socket.SO_RCVBUF, 4096)
                    stream.settimeout(10)
                    stream.connect((HOST, self.port))
                    stream_of(self.port, stream)
                    self.begun += 1
                    while not self.is_over and stream.recv(1024):
                        time.sleep(0.2)
            except OSError:
                time.sleep(0.1)

    def close(self) -> None:
        self.is_over = True


class Attack(CounterCheck):
    """A client with a clerk's password, and pages that don't read. It measures memory and time, so nothing else runs then."""

    needs = (PROGRAM, "aiohttp", "prometheus_client")
    alone = True
    seconds = 25

    def test_under_attack(self) -> None:
        """Keep tares and ask for the lists without a pause for 15 s, while twenty pages read next to nothing."""
        bridge = self.new_bridge()
        kept = {"kg": 5000, "until": "2099-01-01", "by": "anna" * 10}
        os.makedirs(f"{bridge.folder}/state", mode=0o700, exist_ok=True)
        tares = json.dumps({f"T{at:04}": kept for at in range(2000)})
        Path(bridge.folder, "state/tares.json").write_text(tares, encoding="utf-8")
        bridge.start_counter()
        streams = self.enterContext(Streams(bridge.http, 1))
        pages = [self.enterContext(Stubborn(bridge.http)) for _ in range(20)]
        began, asked = time.monotonic(), 0
        while time.monotonic() < began + 15:
            # so that weights come at each reading
            bridge.converter.now = 900 - bridge.converter.now
            bridge.keep_tare(f"T{asked % 2000:04}", 5000 + 20 * (asked % 50))
            bridge.ask("POST", "/lists/refresh", body="")
            asked += 1
        ended = time.monotonic()
        moments = [at for at, _ in streams.weights if began <= at < ended]
        gaps = [later - at for at, later in zip([began, *moments], [*moments, ended])]
        with open(f"/proc/{bridge.process.pid}/status", encoding="ascii") as status:
            most = int(next(it for it in status if it.startswith("VmHWM")).split()[1]) / 1024
        said = f"{most:.0f} MB after {asked} changes"
        print(said, flush=True)
        what = f"2,000 kept tares, changes of them, 20 pages that read next to nothing: at most {MOST_ATTACKED:.0f} MB"
        self.holds(what, most <= MOST_ATTACKED and asked > 0, said)
        what = "and the weight continues at a page that reads"
        self.holds(what, max(gaps) < 1.5 and streams.ended == 0, f"longest gap {max(gaps):.1f} s")
        self.holds("the other pages began", all(it.begun for it in pages))


class Costs(AtTheCounter):
    """Twenty pages at ten readings a second, each another. It measures time, so nothing else runs then."""

    needs = (PROGRAM, "aiohttp", "prometheus_client")
    alone = True
    seconds = 40
    pages: ClassVar[int] = 20
    measured = 12.0  # seconds

    def ages_of(self, streams: Streams, since: float) -> list[float]:
        """Return the seconds from a line of the converter to the event, of each new weight, sorted."""
        converter, last = self.bridge.converter, None
        firsts: dict[int, float] = {}
        for at, load in list(zip(converter.sent, converter.loads)):
            if at >= since:
                firsts.setdefault(kg_of(load), at)
        ages = []
        for came, net in list(streams.weights):
            if net != last and net in firsts and came >= since:
                ages.append(came - firsts.pop(net))
            last = net
        return sorted(it for it in ages if it >= 0)

    def spent(self) -> tuple[tuple[float, float], float]:
        """Change the load at each reading. Return the counter's per cent of a core and its MB, and the service's per cent."""
        bridge = self.bridge
        processes: list[subprocess.Popen[Any]] = [bridge.process, bridge.service.process]
        before = [sizes_of(it)[1] for it in processes]
        began = time.monotonic()
        count = min(2800, int(self.measured * self.pace) + 1)
        for load in random.sample(range(200, 3000), count):
            bridge.converter.now = load * 10
            time.sleep(1 / self.pace)
            if time.monotonic() - began > self.measured:
                break
        took = time.monotonic() - began
        (memory, counter), (_, service) = (sizes_of(it) for it in processes)
        per_cent = [100 * (now - past) / took for now, past in zip((counter, service), before)]
        return (per_cent[0], memory / 1024), per_cent[1]

    def test_costs(self) -> None:
        bridge, what = self.bridge, f"{self.pages} pages at {self.pace:.0f}"
        bridge.put(0)
        streams = self.enterContext(Streams(bridge.http, self.pages))
        time.sleep(2)
        streams.bytes, since = 0, time.monotonic()
        (counter, memory), service = self.spent()
        rate = streams.bytes / (time.monotonic() - since) / self.pages / 1000
        ages = self.ages_of(streams, since)
        said = f"counter {counter:.1f} % of a core, {memory:.0f} MB, service {service:.1f} %; {rate:.2f} kB/s a page"
        print(f"{what} readings a second, each another: {said}", flush=True)
        what = f"{what}: each has a stream that stays"
        self.holds(what, len(streams.heard) == self.pages and streams.ended == 0)
        if self.pages == 20:
            self.holds(
                f"{what}: at most {MOST_CPU:.0f} % of a core and {MOST_MEMORY:.0f} MB",
                counter <= MOST_CPU and memory <= MOST_MEMORY,
                f"{counter:.1f} %, {memory:.0f} MB",
            )
        median, most = 1000 * statistics.median(ages), 1000 * ages[int(0.99 * len(ages))]
        said = f"median {median:.0f} ms, 99 % {most:.0f} ms of {len(ages)}"
        print(said, flush=True)
        self.holds(f"{what}: from the converter's line to the event", median <= 120, said)


class CostsAt50(Costs):
    """Twenty pages at 50 readings a second."""

    pace = 50


class CostsOf200(CostsAt50):
    """200 pages at 50 readings a second."""

    pages = 200


class Requests(AtTheCounter):
    """How soon a weighing is answered. It measures time, so nothing else runs then."""

    needs = (PROGRAM, "aiohttp", "prometheus_client")
    alone = True
    seconds = 35

    def test_a_weighing(self) -> None:
        """Measure the seconds from the request to the text, of Firsts and of Singles with their tare."""
        bridge = self.bridge
        times: dict[str, list[float]] = {"first": [], "single": []}
        for at in range(10):
            kind, tare = ("single", 5000) if at % 2 else ("first", None)
            bridge.next_vehicle(9170)
            time.sleep(random.random() / self.pace)
            began = time.monotonic()
            if bridge.weigh(f"cost-{at}", kind, f"C-{at}", tare)[0] == 201:
                times[kind].append(time.monotonic() - began)
        for kind, them in times.items():
            median, worst = 1000 * statistics.median(them), 1000 * max(them)
            said = f"median {median:.0f} ms, worst {worst:.0f} ms of {len(them)}"
            print(f"from the request to the text of a {kind}: {said}", flush=True)
            what = f"from the request to the text of a {kind}, at {self.pace:.0f}"
            self.holds(what, median <= 200, said)


class RequestsAt50(Requests):
    """Requests at 50 readings a second."""

    pace = 50
