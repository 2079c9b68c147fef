"""Shows that ten million readings need no more memory than 100,000, except for the entries.

A service reads ten million readings from a plain file, as fast as it can. Meanwhile a client of the terminal requests
the weight, and another client weighs and requests tickets. The check prints the memory after 100,000 readings and at the end. It
fails if the second is more than the first by more than 4 kB for each entry that was stored, and 1,024 kB.
"""

import os
import threading
import time
from contextlib import suppress

from checks.lib import bridge
from checks.lib.case import PROGRAM, Check, many
from checks.lib.program import PROGRAM as BUILT

EARLY = 100_000
LOADS = [0] * 400 + [9_170] * 400 + [0] * 400 + [4_070] * 400


class PlainFile:
    """A converter that is a plain file of readings."""

    def __init__(self, folder: str, readings: int) -> None:
        self.source = os.path.join(folder, "readings")
        block = "".join(f"{load}\n" for load in LOADS).encode()
        with open(self.source, "wb") as it:
            for _ in range(readings // len(LOADS)):
                it.write(block)
        self.length = os.path.getsize(self.source)

    def begin(self) -> None:
        pass


def place_of(service: bridge.Service, path: str) -> int:
    """Return how many bytes of the converter's file were read."""
    folder = f"/proc/{service.process.pid}/fd"
    for name in os.listdir(folder):
        if os.path.realpath(os.path.join(folder, name)) == path:
            with open(f"/proc/{service.process.pid}/fdinfo/{name}") as it:
                return int(it.readline().split()[1])
    return 0


def ask_terminal(service: bridge.Service, counts: dict[str, int]) -> None:
    with suppress(OSError, EOFError):
        terminal = bridge.Terminal(service)
        while True:
            terminal.send(b"SI\r\n" * 50)
            for _ in range(50):
                terminal.line()
            counts["commands"] += 50


def weigh(service: bridge.Service, counts: dict[str, int]) -> None:
    number = 0
    with suppress(OSError):
        while True:
            kind, plate = ["first", "second"][number % 2], f"P-{number // 2 % 50}"
            body = f"key=K{number}&kind={kind}&plate={plate}"
            answer = bridge.post(service, "/weighings", body)
            if answer is None:
                return
            counts["requests"] += 1
            if answer[0] == 201:
                number += 1
                counts["entries"] += 1


class ServeLong(Check):
    """The memory of a service over many readings."""

    needs = (PROGRAM,)
    slow = True
    alone = True
    seconds = 400

    def test_memory(self) -> None:
        readings = max(many(10_000_000), 10 * EARLY)
        counts = {"commands": 0, "requests": 0, "entries": 0}
        folder = self.folder()
        converter = PlainFile(folder, readings)
        service = bridge.Service(BUILT, f"{folder}/journal.db", converter, "--capacity", "100000")
        self.addCleanup(service.kill)
        path = os.path.realpath(converter.source)
        for task in (ask_terminal, weigh):
            threading.Thread(target=task, args=(service, counts), daemon=True).start()
        early, stored_early, last = 0, 0, 0
        while service.process.poll() is None:
            try:
                if not early and place_of(service, path) > converter.length * EARLY // readings:
                    early, stored_early = bridge.sizes_of(service.process)[0], counts["entries"]
                last = bridge.sizes_of(service.process)[0] or last
            except (OSError, ValueError):
                break
            time.sleep(0.002)
        out, err = service.process.communicate()
        turns = f"turns {readings // len(LOADS) * len(LOADS)}\n"
        self.assertEqual((turns, "", 0), (out, err, service.process.returncode))
        self.assertGreater(early, 0, "the memory wasn't seen early")
        print(f"{early} kB after {EARLY} readings, {last} kB at the end; {counts}")
        most = early + 1_024 + 4 * (counts["entries"] - stored_early)
        self.assertLessEqual(last, most, "the memory grows")
