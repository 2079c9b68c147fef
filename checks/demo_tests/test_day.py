"""Two demos at once: each vehicle of the day is weighed, without and with two busy loops."""

import json
import re
import signal
import socket
import time
from collections.abc import Iterator
from contextlib import contextmanager
from typing import Any

from checks.lib.case import PROGRAM
from checks.lib.program import NAMED
from checks.lib.counter import Meanwhile
from checks.lib.demo_case import PROGRAMS, DemoCheck
from checks.lib.demoing import Busy, Running, asked

WEIGHINGS = 30


def first_event(demo: Running, name: str) -> Any:
    """Return the first event of this name."""
    host, port = demo.clerk[7:-1].split(":")
    with socket.create_connection((host, int(port)), 5) as stream:
        stream.sendall(f"GET /events HTTP/1.1\r\nHost: {host}:{port}\r\n\r\n".encode())
        stream.settimeout(5)
        found = b""
        while not (it := re.search(rb"event: %s\ndata: (.*)\n\n" % name.encode(), found)):
            found += stream.recv(65536)
    return json.loads(it[1])


def text_of(demo: Running, number: int) -> str:
    """Return the legal text of an entry."""
    return str(json.loads(asked("GET", f"{demo.clerk}entries/{number}")[1])["text"])


def weighed(demo: Running, numbers: range) -> list[tuple[int, str]]:
    """Weigh vehicles of a demo's day, and return the answers."""
    return [demo.next_weighing(it) for it in numbers]


class Day(DemoCheck):
    """The day of both demos. It measures time, so nothing else runs then."""

    needs = (PROGRAM, "aiohttp", "prometheus_client", "reportlab", "qrcode")
    alone = True
    seconds = 250

    @contextmanager
    def readings_of(self, demos: list[Running], where: str) -> Iterator[None]:
        """Show that each demo's counter has ten readings a second within the block."""
        before = [it.readings() for it in demos]
        yield
        for it, (count, at) in zip(demos, before):
            more, now = it.readings()
            said = f"{more - count} in {now - at:.1f} s"
            is_so = abs(more - count - 10 * (now - at)) <= 12
            self.holds(f"ten readings a second {where}", is_so, said)

    def test_two_demos(self) -> None:
        programs = PROGRAMS if NAMED else []  # it finds what this checkout has built
        words = ("--no-browser", "--quick")
        demos = [self.started(*words, programs=programs) for _ in range(2)]
        for it in demos:
            it.wait_until_up()
        self.holds("their folders and ports differ", demos[0].folder != demos[1].folder)
        for it in demos:
            self.first_ticket(it)
        for busy, numbers, where in (
            (0, range(1, WEIGHINGS // 2), "without busy loops"),
            (2, range(WEIGHINGS // 2, WEIGHINGS), "with two busy loops"),
        ):
            with Busy(busy), self.readings_of(demos, where):
                days = [Meanwhile(weighed, it, numbers) for it in demos]
                answers = [answer for it in days for answer in it.get(600)]
            what = f"{2 * len(numbers)} weighings {where}: refused as unstable"
            self.same(what, 0, sum("7 unstable" in text for _, text in answers))
            others = [it for it in answers if it[0] != 201]
            self.same("and none for another reason", [], others)
            self.same("each vehicle was weighed", 2 * len(numbers), len(answers))
        self.says_demo(demos[0])
        dropped = [it.state()["dropped"] for it in demos]
        self.same("no line was dropped", [0, 0], dropped)
        for demo, number in zip(demos, (signal.SIGINT, signal.SIGTERM)):
            self.ends_well(demo, number)

    def first_ticket(self, demo: Running) -> None:
        """Weigh the first vehicle, and measure the time from the command."""
        status, text = demo.next_weighing(0)
        seconds = time.monotonic() - demo.begun
        what = "the first vehicle is weighed within 60 s of the command"
        self.holds(what, status == 201 and seconds < 60, f"{seconds:.1f} s: {text}")
        self.holds("the legal text has the serial DEMO", " SERIAL DEMO\n" in text, text)

    def says_demo(self, demo: Running) -> None:
        """Show that the counter's event, the browser's paper and each text say DEMO."""
        status, text = asked("POST", f"{demo.clerk}papers/1/browser")
        blocks = json.loads(text)["blocks"] if status == 200 else []
        marks = [it["text"] for it in blocks if it["is"] == "mark" and it["text"] == "DEMO"]
        self.same("the paper says DEMO at both ends", ["DEMO", "DEMO"], marks)
        around = json.dumps([it for it in blocks if it["is"] not in ("legal", "code")])
        is_said = "The weights are simulated" in around
        self.holds("and that the weights are played", is_said, text[:200])
        legal = [it["text"] for it in blocks if it["is"] == "legal"]
        self.same("its legal text is the office's", [text_of(demo, 1)], legal)
        hello = first_event(demo, "hello")
        found = (hello.get("demo"), hello.get("demo_page"))
        self.same("the event hello", (True, demo.page), found)
        texts = [text_of(demo, it) for it in range(1, WEIGHINGS + 1)]
        others = [it for it in texts if " SERIAL DEMO\n" not in it]
        self.same("each legal text has the serial DEMO", [], others)
