"""Shows that the library does what the model of the station does over 100,000 random histories. It takes half an hour of
processor time.

  checks/library_against_model [COUNT [SEED]]

COUNT is 100,000 histories if it isn't given. Each has 20 to 120 events. One process for each processor runs them.
"""

import multiprocessing
import os
import random
import subprocess
from collections.abc import Callable, Sequence
from typing import Any

import station_model

from checks import TOP
from checks.lib.case import Check, many

Parts = dict[str, Any]  # the parts of a setup
Event = tuple[Any, ...]
COMMANDS = [
    *("S", "SI", "SIR", "SIR", "Z", "T", "TA", "TAC", "@", "I0", "I4", "s", "", "S ", " S", "SI\r"),
    *("TA 5000 kg", "TA 100 kg", "TA 0.010 kg", "TA 12.5 kg", "TA 9.999 kg", "TA 1 g", "TA x"),
    *("TA ", "TA 60010 kg", "TA 18340 kg", "TA 9999999.999 kg", "TA 00000001 kg", "I1", "TI"),
    *("SIR 1", "x" * 40, "x" * 41, "x" * 42, "TA 0000001." + "0" * 40 + " kg", "S\0", "\xff"),
]
PIECE = 500


def random_setup(pick: Callable[[Sequence[Any]], Any]) -> Parts:
    interval = pick([1, 2, 5, 10, 20, 20, 50])
    count = pick([500, 501, 502, 503, 504, 1000, 3000, 3001, 9999, 10000])
    return {
        "interval_kg": interval,
        "max_kg": interval * count,
        "window": pick([4, 4, 4, 5, 7, 63, 64]),
        "band": pick([1, 2, 2]),
        "pace": pick([2, 5, 6, 10, 11, 50]),
        "wait": pick([1, 2, 3, 5, 20, 600]),
        "serial": pick(["WB01", "X", "A1B2C3D4E5F6G7H8"]),
    }


def spoiled(setup: Parts, pick: Callable[[Sequence[Any]], Any]) -> Parts:
    """Return a setup with one to three parts that may be outside their limits."""
    wrong: dict[str, list[Any]] = {
        "interval_kg": [0, 3, 4, 49, 51, 100, 2**32 - 1],
        "max_kg": [0, 1, 499, 60001, 2**32 - 1],
        "window": [0, 3, 4, 64, 65, 2**32 - 1],
        "band": [0, 1, 3],
        "pace": [0, 1, 51],
        "wait": [0, 601, 2**31],
        "serial": ["", "a", "WB 1", "A" * 16, "A" * 17, "A" * 19, "A" * 20, "A" * 40, "-", "Ä"],
    }
    parts = [pick(list(wrong)) for _ in range(pick([1, 2, 3]))]
    return {**setup, **{part: pick(wrong[part]) for part in parts}}


def random_events(setup: Parts, made: random.Random) -> list[Event]:
    """Return the events of a history: a reading with its load or None, bytes, or a disconnection."""
    pick: Callable[[Sequence[Any]], Any] = made.choice
    whole, chance = made.randint, made.random
    count = setup["max_kg"] // setup["interval_kg"]
    edges = [0, 0, 0, count // 5, -(count // 5), 195, 200, -205, 10 * count, 10 * count + 95]
    edges += [9170, 4070, 2_000_000, -2_000_000]
    calm = chance() < 0.7
    level = pick(edges)
    events: list[Event] = []
    rest = b""
    for _ in range(whole(20, 120)):
        kind = chance()
        if kind < 0.03:
            events.append(("reading", pick([None, 2_000_001, -2_000_001, 2**40, -(2**40)])))
        elif kind < 0.60:
            if chance() < 0.15:
                level = pick(edges) + whole(-6, 6)
            loads = [
                level + (whole(-1, 1) if calm else whole(-4, 4))
                for _ in range(pick([1, 1, 2, 3, setup["window"]]))
            ]
            events += [("reading", load) for load in loads]
        elif kind < 0.97:
            rest += pick(COMMANDS).encode("latin-1") + pick([b"\r\n", b"\r\n", b"\n"])
            cut = pick([len(rest), len(rest), whole(0, len(rest))])
            events.append(("bytes", rest[:cut]))
            rest = rest[cut:]
        else:
            events.append(("hang up",))
            rest = b""
    return events


def model_of(setup: Parts) -> station_model.Setup:
    parts = ("interval_kg", "max_kg", "window", "band", "pace", "wait", "serial")
    return station_model.Setup(*(setup[it] for it in parts))


def text_of(indication: Any) -> str:
    if indication.gross_kg is None:
        return str(indication.state)
    return f"{indication.state} G {indication.gross_kg:>10} kg N {indication.net_kg:>10} kg"


def difference(seed: int) -> tuple[str | None, int]:
    """Return where the library and the model differ over the history of a seed, or None; and how many replies there were."""
    # it loads the library that was built, so it can't be imported before
    import weighbridge_terminal

    made = random.Random(seed)
    setup = random_setup(made.choice)
    wrong = spoiled(setup, made.choice)
    fault = model_of(wrong).first_fault()
    try:
        weighbridge_terminal.Terminal(**wrong)
        part = None
    except weighbridge_terminal.SetupError as refused:
        part = refused.part.number
    if part != (fault and fault[0]):
        return f"seed {seed}: {wrong}: the model says {fault}, the library {part}", 0
    station = station_model.Station(model_of(setup))
    terminal = weighbridge_terminal.Terminal(**setup)
    wanted: list[str]
    found: list[str]
    replies = 0
    for place, event in enumerate(random_events(setup, made)):
        if event[0] == "reading":
            wanted, found = station.hear_reading(event[1]), terminal.reading(event[1])
        elif event[0] == "bytes":
            wanted = [reply for byte in event[1] for reply in station.hear_byte(byte)]
            found = terminal.send(event[1])
        else:
            station.hear_hangup()
            terminal.hang_up()
            wanted, found = [], []
        replies += len(wanted)
        shown = station.indication(), text_of(terminal.indication())
        if list(wanted) != found or shown[0] != shown[1]:
            return (
                f"seed {seed}, event {place}, {event}: {setup}\n  the model: {list(wanted)}, {shown[0]}\n  the library: {found}, {shown[1]}",
                replies,
            )
    return None, replies


def piece(seeds: range) -> tuple[list[str], int]:
    told = [difference(seed) for seed in seeds]
    return [it for it, _ in told if it], sum(count for _, count in told)


class LibraryAgainstModel(Check):
    """Random histories, of 20 to 120 events each. One process for each processor runs them."""

    needs = ("cc", "the kit")
    slow = True
    seconds = 600

    def test_histories(self) -> None:
        built = subprocess.check_output([TOP / "library" / "build"], text=True).strip()
        library = os.path.join(built, "libweighbridge-terminal.so.2")
        os.environ["WEIGHBRIDGE_TERMINAL_LIBRARY"] = library
        count = many(100_000)
        pieces = [range(at, min(at + PIECE, 1 + count)) for at in range(1, 1 + count, PIECE)]
        differ: list[str] = []
        replies = 0
        with multiprocessing.Pool() as pool:
            for done, (found, some) in enumerate(pool.imap_unordered(piece, pieces), 1):
                differ += found
                replies += some
                if done % 20 == 0:
                    print(f"{done * PIECE} histories, {len(differ)} differ", flush=True)
        print(f"{count} histories, {replies} replies")
        self.assertEqual([], differ[:10])
        self.assertGreater(replies, count)
