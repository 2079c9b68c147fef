"""Filters, for checks/converters: their values by their definition, what they do to a weight that doesn't settle, and stable equilibrium with them."""

import math
import os
import random
import shutil
import tempfile
import threading
import time
from collections.abc import Sequence
from fractions import Fraction

from checks import TOP
from checks.lib import bridge
from checks.lib.converting import Running, holds, ran, same, side_by_side, undisturbed
from checks.lib.devices import wait_for
from checks.lib.program import PROGRAM

FILTERS = (
    *(("median", 1), ("median", 2), ("median", 5), ("median", 32)),
    *(("mean", 1), ("mean", 3), ("mean", 8), ("mean", 32)),
)
# The filters of the table of docs/install.md.
TABLE = (("mean", 1), ("median", 3), ("median", 5), ("mean", 4), ("mean", 8))


def filtered(kind: str, number: int, readings: Sequence[int | None]) -> list[int | None]:
    """Return what a filter gives after each reading, by its definition: of the last counts since a reading failed, none until there are enough."""
    last: list[int] = []
    found: list[int | None] = []
    for counts in readings:
        last = [] if counts is None else [*last, counts][-number:]
        if len(last) < number:
            found.append(None)
            continue
        ordered = sorted(last)
        median = Fraction(ordered[(number - 1) // 2] + ordered[number // 2], 2)
        whole = Fraction(sum(last), number) if kind == "mean" else median
        found.append(math.floor(2 * whole + 1) // 2)
    return found


def filters(folder: str) -> None:
    """Show what each filter makes of counts that jump, and of lost readings. The loads of the calibration are the counts."""
    made = random.Random(1)

    def reading() -> int | None:
        if made.random() < 0.02:
            return None
        return made.choice([made.randrange(-50, 50), made.randrange(-900_000, 900_000)])

    for kind, number in FILTERS:
        readings = [reading() for _ in range(400)]
        undisturbed(f"{kind} of {number}", goes_through_a_filter, folder, kind, number, readings)


def goes_through_a_filter(
    folder: str, kind: str, number: int, readings: Sequence[int | None]
) -> None:
    status = ran("finish", "--filter", kind, str(number), folder=folder)[0]
    same(f"the filter {kind} {number}", 0, status)
    running = Running(folder)
    client = running.client()
    time.sleep(0.2)

    def lines(counts: Sequence[int | None]) -> list[str]:
        return ["lost" if it is None else str(it) for it in counts]

    for at in range(0, 400, 4):
        running.write("".join(f"{it}\n" for it in lines(readings[at : at + 4])))
        wait_for("the lines", lambda: len(client.lines) >= at + 4)
    wanted = lines(filtered(kind, number, readings))
    same(f"400 lines through the {kind} of {number}", wanted, client.texts())
    client.close()
    running.close()


def steady(
    loads: Sequence[float], kind: str, number: int, window: int = 10, band: int = 2
) -> float:
    """Return the percentage of readings that are stable, of loads in tenths of e, of which a cell gives 25 counts each."""
    counts = filtered(kind, number, [round(25 * it) for it in loads])
    shown = [(2 * it + 25) // 50 for it in counts if it is not None]
    parts = [shown[at : at + window] for at in range(len(shown) - window + 1)]
    return 100 * sum(max(it) - min(it) <= band for it in parts) / len(parts)


def what_filters_do() -> None:
    """Show the table of docs/install.md, within three of 100."""
    made, times = random.Random(1), range(4_000)

    def jump() -> int:
        return made.choice((-40, 40)) if made.random() < 0.05 else 0

    swaying = [1_000 + 5 * math.sin(0.3 * math.pi * at + at / 4_000) for at in times]
    disturbed: dict[str, Sequence[float]] = {
        "| noise of a tenth": [made.gauss(1_000, 1) for _ in times],
        "| sway of 5 tenths": swaying,
        "| one reading of 20": [1_000 + jump() for _ in times],
    }
    page = (TOP / "docs" / "install.md").read_text(encoding="utf-8").splitlines()
    for name, loads in disturbed.items():
        row = next(line for line in page if line.startswith(name))
        shown = [int(it) for it in row.split("|")[2:7]]
        found = [steady(loads, *it) for it in TABLE]
        is_near = all(abs(one - other) <= 3 for one, other in zip(shown, found))
        holds(row, is_near, [round(it) for it in found])


class Swinging(threading.Thread):
    """Ten readings a second of a load of 1,000 e that swings out; its calibration's loads are the counts."""

    def __init__(self, running: Running, frequency: float) -> None:
        super().__init__(daemon=True)
        self.running, self.frequency = running, frequency
        self.since: float | None = None  # when the load was released
        self.readings = 0  # since then
        self.over = threading.Event()
        self.start()

    def run(self) -> None:
        due = time.monotonic()
        while not self.over.is_set():
            swing, since = 0.0, self.since
            if since is not None:
                age = due - since
                swing = 60 * math.exp(-age / 1.5) * math.cos(2 * math.pi * self.frequency * age)
            self.running.write(f"{10_004 + round(swing)}\n")
            self.readings += since is not None
            due += 0.1
            time.sleep(max(0, due - time.monotonic()))

    def close(self) -> None:
        self.over.set()
        self.join()


def stable_equilibrium(folder: str) -> None:
    """Push a load and release it. Send `S` once more than half of a filter's readings have seen it, because a median shows none of it before.
    In the five seconds after its answer no more than two adjacent weights are indicated, one of them the answer's. The window has a second.
    """
    cases = [
        (*kind, frequency) for kind in (("median", 5), ("mean", 8)) for frequency in (0.4, 1.0, 1.5)
    ]
    rows = [(name_of(*case), comes_to_rest, folder, *case) for case in cases]
    side_by_side(undisturbed, rows)


def name_of(kind: str, number: int, frequency: float) -> str:
    return f"{kind} of {number}, a swing of {frequency} a second"


def comes_to_rest(folder: str, kind: str, number: int, frequency: float) -> None:
    name = name_of(kind, number, frequency)
    own = tempfile.mkdtemp(dir=folder)
    shutil.copy(os.path.join(folder, "even", "calibration"), own)
    ran("finish", "--filter", kind, str(number), folder=own)
    running = Running(own)
    swinging = Swinging(running, frequency)
    journal = os.path.join(own, "journal.db")
    service = bridge.Service(PROGRAM, journal, running, "--window", "10", "--wait", "200")
    terminal = bridge.Terminal(service)
    time.sleep(4)
    swinging.since = begin = time.monotonic()
    wait_for(f"{name}: readings", lambda: swinging.readings >= 2 + number / 2)
    time.sleep(0.05)
    answer = terminal.ask("S")
    waited = time.monotonic() - begin
    weights = {answer[4:14].strip()}
    until = time.monotonic() + 5
    while time.monotonic() < until:
        weights.add(terminal.ask("SI")[4:14].strip())
        time.sleep(0.05)
    shown = sorted(int(it) for it in weights) if answer.startswith("S S ") else []
    is_adjacent = 1 <= len(shown) <= 2 and shown[-1] - shown[0] <= 20
    holds(f"{name}: S is answered, and the weight stays", is_adjacent, (answer, sorted(weights)))
    print(f"{name}: stable after {waited:.1f} s, and then {sorted(weights)} kg\n", end="")
    terminal.close()
    swinging.close()
    service.end()
