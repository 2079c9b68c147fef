"""Clients and moments at random, with kills and holds: the check compares what each got with the journal and the readings."""

import itertools
import json
import random
import re
import socket
import threading
import time
from collections import Counter
from collections.abc import Callable, Iterator
from typing import Any, ClassVar

from checks.counter_tests.test_fanout import REPLIES
from checks.lib.bridge import HOST, kg_of
from checks.lib.case import PROGRAM
from checks.lib.counter import Till, held, silent
from checks.lib.counter_case import AtTheCounter

OLD = 1.45  # seconds: no value is older, with what it takes to look on a busy machine
LEAST, MOST = 2000, 2900  # tenths of e: far above what a zero may shift


class Random(AtTheCounter):
    """Two tills, two pages that weigh, one that watches, and a display, for 30 seconds at ten readings a second."""

    needs = (PROGRAM, "aiohttp", "prometheus_client")
    seconds = 60
    played: ClassVar[int] = 30  # seconds

    def setUp(self) -> None:
        super().setUp()
        self.rng, self.lock, self.is_over = random.Random(int(self.pace)), threading.Lock(), False
        self.counts: Counter[str] = Counter()
        self.wrong: list[str] = []
        self.refused: dict[int, float] = {}  # preset tares whose till was refused, with the moment
        self.told: dict[str, int] = {}  # the final status of each key
        self.texts: dict[str, str] = {}  # each 201, by its key
        self.asked: dict[str, tuple[str, str, int | None]] = {}  # kind, plate and tare of each key

    def fails(self, what: str) -> None:
        with self.lock:
            self.wrong.append(what)

    # ---- the clients

    def till(self, name: str, tares: Iterator[int], seed: int) -> None:
        """Ask at random. Each preset tare is another one, so that one that acts late is known by its number."""
        rng, client = random.Random(seed), None
        lines = ["SI", "S", "TA", "TA", "TAC", "preset", "preset", "I4", "Z", "@", "WEIGH"]
        while not self.is_over:
            try:
                client = client or Till(self.bridge.ports[name], 8)
                line, kg = rng.choice(lines), 0
                if line == "preset":
                    kg = next(tares)
                    line = f"TA {kg} kg"
                    self.refused.pop(kg, None)  # numbers come again after 1,400
                said = client.ask(line)
                self.counts["till"] += 1
                self.judge_reply(line, kg, said)
                if rng.random() < 0.02:
                    client.close()
                    client = None
            except (OSError, EOFError):
                self.counts["till_cut"] += 1
                client = None
                time.sleep(0.05)
            time.sleep(rng.random() * 0.1)

    def judge_reply(self, line: str, kg: int, said: str) -> None:
        word = line.split(" ")[0]
        pattern = rf"TA A +{kg} kg" if kg else REPLIES[line]
        if said == f"{word} I" or (word in ("I4", "@") and said == "ES"):
            self.counts["refused"] += 1
            if kg:
                self.refused[kg] = time.monotonic()
        elif not re.fullmatch(pattern, said):
            self.fails(f"{line} was answered {said}")
        if line == "TA" and (found := re.fullmatch(r"TA A +(\d+) kg", said)):
            tare = int(found[1])
            if tare % 40 == 20:
                self.fails(f"a till saw the tare {tare} of a weighing")
            if tare in self.refused and self.refused[tare] < time.monotonic() - 0.001:
                self.fails(f"the tare {tare} acted, whose sender was refused")

    def page(self, name: str, seed: int) -> None:
        """Weigh what is on the bridge, and ask again under the same key until it is answered."""
        rng = random.Random(seed)
        for at in itertools.count(1):
            kind = rng.choice(["first", "first", "second", "single", "single"])
            key, plate = f"{name}-{at}", f"P-{rng.randrange(12)}"
            tare = 20 + 40 * rng.randrange(1, 600) if kind == "single" else None
            form = {"key": key, "kind": kind, "plate": plate} | ({"tare": tare} if tare else {})
            self.asked[key] = (kind, plate, tare)
            is_unsure = False
            while not self.is_over:
                status, text, fields = self.bridge.ask("POST", "/weighings", form, within=8)
                self.counts["asked"] += 1
                if status == 201 and self.texts.setdefault(key, text) != text:
                    self.fails(f"{key} had two texts")
                is_sent = fields.get("x-counter") != "not_sent"
                if status in (201, 409, 410, 422) and is_sent:
                    self.told[key] = status
                    break
                if not is_sent and not is_unsure:
                    break
                is_unsure = is_unsure or is_sent
                time.sleep(0.1)
            if self.is_over:
                return
            time.sleep(rng.random() * 0.4)

    def watch(self) -> None:
        """Read a page's stream. Each weight with a known tare was on the bridge within the last second."""
        port = self.bridge.http
        while not self.is_over:
            try:
                with socket.create_connection((HOST, port), 3) as stream:
                    stream.sendall(f"GET /events HTTP/1.1\r\nHost: {HOST}:{port}\r\n\r\n".encode())
                    rest = b""
                    while not self.is_over and (data := stream.recv(1 << 16)):
                        *lines, rest = (rest + data).split(b"\n")
                        for it in lines:
                            if it.startswith(b'data: {"state":"') and b'"net"' in it:
                                self.judge_value(json.loads(it[6:]))
            except OSError:
                time.sleep(0.05)

    def judge_value(self, it: Any) -> None:
        self.counts["values"] += 1
        if it["net"] is None or it["tare"] is None:
            return
        recent = self.bridge.converter.sent_since(time.monotonic() - OLD)
        fresh = {kg_of(load) for load in recent}
        if it["net"] + it["tare"] not in fresh:
            self.fails(f"a page got {it}, and the last second had {sorted(fresh)[:6]}")

    def display(self) -> None:
        """Read a display under SIR: nothing but values."""
        while not self.is_over:
            try:
                with Till(self.bridge.ports["display"], 4) as client:
                    client.send(b"SIR\r\n")
                    while not self.is_over:
                        line = client.line()
                        self.counts["display"] += 1
                        if not re.fullmatch(r"S (?:[SD] +-?\d+ kg|[I+-])", line):
                            self.fails(f"a display got {line}")
            except (OSError, EOFError):
                time.sleep(0.05)

    def vehicles(self) -> None:
        """Let one vehicle after the other drive on."""
        converter = self.bridge.converter
        while not self.is_over:
            converter.now = 0
            time.sleep(self.rng.uniform(0.5, 1.0))
            converter.now = self.rng.randrange(LEAST, MOST)
            time.sleep(self.rng.uniform(0.8, 2.5))

    # ---- the test

    def disturb(self) -> None:
        """Kill, hold and silence, one after the other, at moments that nobody chose."""
        bridge, rng, until = self.bridge, random.Random(5), time.monotonic() + self.played
        kinds = ["kill_counter", "kill_service", "hold_service", "hold_service"]
        while time.monotonic() < until:
            time.sleep(rng.uniform(0.5, 4.0))
            what = rng.choice([*kinds, "hold_counter", "silence"])
            self.counts[what] += 1
            if what == "kill_counter":
                bridge.kill_counter()
                time.sleep(rng.uniform(0, 0.5))
                bridge.start_counter(is_waited_for=False)
            elif what == "kill_service":
                bridge.kill_service()
                time.sleep(rng.uniform(0, 1.0))
                bridge.start_service()
            elif what == "silence":
                with silent(bridge.converter):
                    time.sleep(rng.uniform(0.5, 2.5))
            else:
                process: Any = bridge.process if what == "hold_counter" else bridge.service.process
                with held(process):
                    time.sleep(rng.uniform(0.2, 3.5))

    def test_clients_at_random(self) -> None:
        presets = itertools.cycle(range(40, 56_040, 40))
        acts: list[tuple[Callable[..., None], tuple[object, ...]]] = [
            (self.till, ("till", presets, 1)),
            (self.till, ("other", presets, 2)),
            (self.page, ("desk", 3)),
            (self.page, ("phone", 4)),
            (self.watch, ()),
            (self.display, ()),
            (self.vehicles, ()),
        ]
        threads = [threading.Thread(target=act, args=words, daemon=True) for act, words in acts]
        try:
            for it in threads:
                it.start()
            self.disturb()
            time.sleep(3)
        finally:
            self.is_over = True
            for it in threads:
                it.join(20)
        self.bridge.converter.now = 0
        self.bridge.wait_until_up()
        what = "each reply and each value is right, and nothing acted after it was refused"
        self.same(what, [], self.wrong[:5])
        said = f"{dict(sorted(self.counts.items()))}, {len(self.texts)} stored"
        print(said, flush=True)
        is_enough = self.counts["till"] > 2 * self.played and len(self.texts) > self.played / 12
        self.holds("enough was asked", is_enough, said)

        def is_left() -> bool:
            return bool(self.bridge.state()["tare"] % 40)

        # the counter may still work on a weighing whose client has given up
        self.becomes("no tare of a weighing is left", False, is_left, 30)
        self.compare_with_the_journal()

    def compare_with_the_journal(self) -> None:
        bridge = self.bridge
        rows = bridge.entries()
        by_key = {it[1]: it for it in rows}
        twice = [key for key, count in Counter(it[1] for it in rows).items() if count > 1]
        self.same("each key has one entry at most", [], twice)
        self.same("each 201 is stored", [], [key for key in self.texts if key not in by_key])
        wrong = []
        for key, row in by_key.items():
            kind, plate, tare = self.asked[key]
            if (row[2], row[3], row[6]) != (kind, plate, str(tare or "")):
                wrong.append((row, self.asked[key]))
        what = "each entry is what a client asked for, each Single with its own tare"
        self.same(what, [], wrong[:3])
        refused = [key for key, status in self.told.items() if status != 201 and key in by_key]
        self.same("what was refused isn't stored", [], refused)
        texts = []
        for key, text in self.texts.items():
            status, again = bridge.weigh(key, *self.asked[key][:2], port=bridge.office)
            if again != text:
                texts.append((key, status))
        self.same("each text is the office's, byte for byte", [], texts[:3])
        self.holds("the journal is sound", bridge.is_sound(), f"{len(rows)} entries")
        on_site: set[str] = set()
        for row in rows:
            if row[2] == "first":
                on_site.add(row[3])
            elif row[2] in ("second", "void"):
                on_site.discard(row[3])

        def listed() -> tuple[int, int, bool]:
            counts = bridge.metric("entries"), bridge.metric("on_site")
            return *counts, bridge.state()["lists_whole"]

        what = "the lists have every entry, and each vehicle on site"
        self.becomes(what, (len(rows), len(on_site), True), listed, 30)


class RandomAt50(Random):
    """Clients and moments at 50 readings a second."""

    pace = 50


class LongRandom(Random):
    """Clients and moments for ten minutes."""

    slow = True
    seconds = 640
    played = 600


class LongRandomAt50(LongRandom):
    """Clients and moments for ten minutes, at 50 readings a second."""

    pace = 50
