"""Shows that a service ignores the lines that a FIFO kept from before its start: they are neither a weight nor an empty bridge. It takes
two minutes.

A writer that outlives the service keeps a FIFO open. Vehicle A is on the bridge, the service hangs for three seconds
and is killed, and its lines stay in the FIFO. A leaves, the bridge is empty for a moment, B drives on. A new service
starts, and a till requests B's weighing at once, again and again:

- No weighing is stored, because the bridge wasn't empty since the start (`not_cleared`). The terminal never shows A's
  weight.
- Once B has left and come again, its own weight is stored.

The check tries that twenty times. A plain file is still read whole, from its first line.
"""

import contextlib
import os
import signal
import threading
import time
from collections.abc import Callable
from pathlib import Path

from checks.lib import bridge
from checks.lib.case import PROGRAM, Check, many
from checks.lib.program import PROGRAM as BUILT
from checks.lib.program import printed
from checks.lib.tried_twice import addresses
from checks.lib.waiting import wait_until

RATE = 40.0
# Tenths of an interval of 20 kg.
A, B = 9170, 4070
WEIGHT_OF_A, WEIGHT_OF_B = "G      18340 kg", "G       8140 kg"
# This number of lines is enough for a stable load.
STABLE = 6


class Writer(bridge.Closing, threading.Thread):
    """Writes the load that is on the bridge into a FIFO until it is closed, with or without a reader."""

    def __init__(self, path: str) -> None:
        super().__init__(daemon=True)
        self.source = path
        # opened for reading too, so that it waits for no reader, and gets no error after a reader has gone
        self.fifo = os.open(path, os.O_RDWR)
        self.load, self.lines = 0, 0
        self.ended = threading.Event()

    def begin(self) -> None:
        if not self.is_alive():
            self.start()

    def run(self) -> None:
        while not self.ended.wait(1 / RATE):
            os.write(self.fifo, b"%d\n" % self.load)
            self.lines += 1

    def put(self, load: int, lines: int) -> None:
        """Put a load on the bridge, and wait until that number of its lines were written."""
        self.load = load
        wanted = self.lines + lines + 1
        wait_until("the writer writes", lambda: self.lines, lambda it: it >= wanted)

    def close(self) -> None:
        if not self.ended.is_set():
            self.ended.set()
            self.join(5)
            os.close(self.fifo)


def weigh(service: bridge.Service, key: str) -> bridge.Answer:
    """Ask for a weighing of B. Return the answer, whose status is 0 if the connection was closed."""
    with contextlib.suppress(OSError):
        return bridge.post(service, "/weighings", f"key={key}&kind=first&plate=BB-22") or (0, "")
    return 0, ""


def weigh_until(
    service: bridge.Service, key: str, is_so: Callable[[bridge.Answer], bool]
) -> bridge.Answer:
    return wait_until(f"the weighing of {key}", lambda: weigh(service, key), is_so, pause=0.005)


class ServeOldLines(Check):
    """Starts over a source with lines from before."""

    needs = (PROGRAM,)
    seconds = 130

    def judge(self, service: bridge.Service, writer: Writer) -> None:
        """Judge a start while B stands on the bridge. B must be refused until it has left and come again."""
        answers, shown = [], []
        with bridge.Terminal(service) as terminal:
            over = time.monotonic() + 1.5
            while time.monotonic() < over:
                answers.append(weigh(service, "B1"))
                shown.append(terminal.ask("SI"))
        stored = [it for it in answers if it[0] == 201]
        self.same("nothing is stored, because the bridge was never empty", [], stored)
        left = [it for it in shown if "18340" in it]
        self.same("the weight of the vehicle that has left isn't shown", [], left)
        weigh_until(service, "B1", lambda it: it == (409, "refused 11 not_cleared\n"))
        writer.put(0, STABLE)
        writer.put(B, STABLE)
        _, slip = weigh_until(service, "B2", lambda it: it[0] == 201)
        self.holds("B has its own weight", WEIGHT_OF_B in slip and WEIGHT_OF_A not in slip, slip)

    def test_fifo(self) -> None:
        folder = self.folder()
        for number in range(many(20)):
            path, file = f"{folder}/fifo{number}", f"{folder}/fifo{number}.db"
            os.mkfifo(path)
            with self.subTest(fifo=number), Writer(path) as writer:
                with bridge.Service(BUILT, file, writer) as former:
                    writer.put(0, STABLE)
                    writer.put(A, STABLE)
                    # it hangs, while A stands
                    former.process.send_signal(signal.SIGSTOP)
                    writer.put(A, int(RATE * (0.5 + number % 3)))
                    former.kill()
                    writer.put(0, STABLE)
                    writer.put(B, number % 2)
                    with bridge.Service(BUILT, file, writer) as service:
                        self.judge(service, writer)

    def test_plain_file(self) -> None:
        folder = self.folder()
        Path(folder, "lines").write_text("0\n9170\n9170\n9170\n9170\n", encoding="ascii")
        own = addresses(bridge.free_port(), bridge.free_port(), f"{folder}/lines")
        words = ["--file", f"{folder}/plain.db", *own]
        self.assertEqual((0, "turns 5\n", ""), printed("serve", *words), "it is read whole")
