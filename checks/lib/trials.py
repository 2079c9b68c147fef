"""The tests of checks/trial, in the order of its report. They are from OIML R 76-1:2006, whose sections are cited here."""

import math
import os
import random
import re
import tempfile
from collections.abc import Callable, Iterable, Iterator
from dataclasses import dataclass
from typing import Any

from checks.lib import bridge
from checks.lib.instrument import (
    E,
    MOMENT,
    Instrument,
    changeover,
    deviation_of,
    errors_in,
    errors_of,
    instruments,
    joined,
    mpe,
    nearest,
    probed,
    tenths,
    weighing,
)
from checks.lib.journal import digest_of
from checks.lib.waiting import wait_until

DAY = "2025-03-10 08:00:00"
# Whether a row is as wanted, or None if nothing is promised of it; and its cells.
Row = tuple[Any, ...]
Rows = Callable[[str], Iterator[Row]]


@dataclass(frozen=True)
class Trial:
    """A test: its requirement, what is done, and the columns of its table. Its rows come from a run of the program."""

    rows: Rows
    title: str
    requirement: str
    done: str
    columns: list[str]
    joined: tuple[int, ...]

    @property
    def name(self) -> str:
        return self.rows.__name__

    def run(self, program: str) -> "Result":
        passed = {True: "yes", False: "NO", None: "not promised"}
        found = [[*map(str, cells), passed[is_so]] for is_so, *cells in self.rows(program)]
        return Result(self, found)


@dataclass(frozen=True)
class Result:
    """A test with the rows that were found. The last cell of each says whether it is as wanted."""

    trial: Trial
    rows: list[list[str]]

    @property
    def is_passed(self) -> bool:
        return all(row[-1] != "NO" for row in self.rows)

    def shown(self) -> tuple[list[str], list[list[str]]]:
        """Return the columns and the rows. Rows that differ only in a joined column are one, which has the cells of all there. If all rows are passed, that is
        no column."""
        rows = self.rows
        for at in self.trial.joined:
            alike: dict[tuple[str, ...], list[list[str]]] = {}
            for row in rows:
                alike.setdefault((*row[:at], *row[at + 1 :]), []).append(row)
            rows = [
                [*of[0][:at], "; ".join(row[at] for row in of), *of[0][at + 1 :]]
                for of in alike.values()
            ]
        if all(row[-1] == "yes" for row in rows):
            return self.trial.columns, [row[:-1] for row in rows]
        return [*self.trial.columns, "Passed"], rows


TRIALS: dict[str, Trial] = {}


def trial(
    title: str, requirement: str, done: str, *columns: str, joined: tuple[int, ...] = ()
) -> Callable[[Rows], Rows]:
    """Add a test, whose function returns its rows."""

    def add(rows: Rows) -> Rows:
        TRIALS[rows.__name__] = Trial(rows, title, requirement, done, [*columns], joined)
        return rows

    return add


@trial(
    "Weighing performance",
    "The error is at most 0.5 e up to 500 e, 1 e up to 2,000 e and 1.5 e up to 10,000 e (mpe; 3.5.1, A.4.4). A purely digital part may use none of it (3.10.2.1, cited from memory).",
    "Ten loads are put on, rising and falling. At each, tenths of e are added until the next interval is indicated (A.4.4.3). The error at 10 e is subtracted.",
    *("Instrument", "Loads", "Greatest error up, wanted 0 e", "down", "Least mpe"),
)
def performance(program: str) -> Iterator[Row]:
    for it, loads in zip(
        instruments(program),
        (
            (200, 1003, 5000, 7507, 10000, 15001, 20000, 22509, 25004, 30000),
            (200, 1006, 5000, 10002, 20000, 40007, 60001, 80009, 90003, 100000),
            (200, 504, 1001, 1500, 2008, 2500, 3003, 3500, 4009, 5000),
        ),
    ):
        both = (*loads, *reversed(loads))
        zero, *found = errors_of(it, [it.put(0)], [100, *both])
        off = [1000 if one is None or zero is None else abs(one - zero) for one in found]
        yield (
            not any(off),
            it.named(),
            joined(map(tenths, loads)),
            tenths(max(off[:10])),
            tenths(max(off[10:])),
            tenths(min(map(mpe, both))),
        )


@trial(
    "Rounding at each changeover point",
    "A load is indicated as the nearest interval, never further from it than e/2.",
    "With a Max of 10,000 e, loads are put on at each point m + e/2 and a tenth of e below it, from -20 e to Max + 9 e.",
    *("e in kg", "Points", "Greatest difference, at most 0.5 e", "Wrong"),
    joined=(0,),
)
def rounding(program: str) -> Iterator[Row]:
    loads = [E * whole + part for whole in range(-21, 10010) for part in (4, 5)]
    for interval in (1, 2, 5, 10, 20, 50):
        it = Instrument(program, interval, 10000)
        found = it.replies(["t SIR", *(f"r {load}" for load in loads)])
        wrong = sum(one != it.weight(load) for load, one in zip(loads, found))
        wrong += abs(len(loads) - len(found))
        shown = [
            abs(int(one.split()[2]) * E // interval - load)
            for load, one in zip(loads, found)
            if one.endswith("kg")
        ]
        is_passed = not wrong and max(shown) <= 5 and len(shown) > 20000
        yield is_passed, interval, len(loads) // 2, tenths(max(shown)), wrong


@trial(
    "Discrimination",
    "A load that is greater by 1.4 e changes the indication by an interval (3.8.2.2).",
    "By A.4.8.2, at Min, Max/2 and Max, ten tenths of e are put on. They are removed one by one until the indication falls. One is put back, and then 1.4 e more is put on. "
    "Each load stays until it is stable.",
    "Instrument",
    "Stable indications",
    "Falls after removing",
    "One put back, wanted the same",
    "1.4 e more, wanted an interval more",
)
def discrimination(program: str) -> Iterator[Row]:
    for it in instruments(program):
        found = [discriminated(it, load) for load in (200, it.max // 2, it.max)]
        cells = map(joined, zip(*(cells for _, cells in found)))
        yield all(is_passed for is_passed, _ in found), it.named(), *cells


def discriminated(it: Instrument, load: int) -> tuple[bool, tuple[str, str, str, str]]:
    """Return whether the indication changes as it must; and what is indicated of a load and 1 e, what is removed until it falls, and what is indicated after."""
    falling = [it.probe(load + 10 - less) for less in range(11)]
    steps = it.replies(line for probe in falling for line in probe)
    first = it.indicated(steps[0])
    indicated = [it.indicated(reply) for reply in steps]
    if first is None or first - 1 not in indicated:
        return False, (steps[0], "never", "", "")
    less = indicated.index(first - 1)
    at = load + 10 - less + 1
    begin = [line for probe in falling[: less + 1] for line in probe]
    back, more = it.replies([*begin, *it.probe(at), *it.probe(at + 14)])[-2:]
    wanted = [f"S S {it.kg(whole)}" for whole in (first, first + 1)]
    is_passed = [back, more] == wanted and first == nearest(load + 10)
    return is_passed, (steps[0], tenths(less), back, more)


@trial(
    "Limits of indication, with and without a tare",
    "A gross above Max + 9 e is not indicated (4.2.3), whatever the tare (4.6.6). Nor is one below -20 e (own).",
    "Loads from Max to Max + 11 e and from -22 e to -19 e are put on, a tenth of e apart, without a tare and over a tare of half Max. `SI` and a request for the office's indication are sent at each.",
    "Instrument",
    "Tare",
    "Greatest load indicated, wanted Max + 9.4 e",
    "Least, wanted -20.5 e",
    "Not as wanted",
    joined=(1, 0),
)
def limits(program: str) -> Iterator[Row]:
    for it in instruments(program):
        half = it.intervals // 2
        loads = [*range(it.max, it.max + 111), *range(-220, -189)]
        asked = [("t SI", f"o {MOMENT} GET /indication")] * len(loads)
        lines = [line for load, ask in zip(loads, asked) for line in (f"r {load}", *ask)]
        begins: dict[str, list[str]] = {
            "none": [],
            "weighed": [it.put(half * E), "t T"],
            "preset": [f"t TA {half * it.interval} kg"],
        }
        for name, begin in begins.items():
            tare = half if begin else 0
            found = it.printed([*begin, *lines])[bool(begin) :]
            wrong = abs(len(found) - 3 * len(loads))
            for load, reply, office in zip(loads, found[::3], found[2::3]):
                wanted = it.weight(load, tare=tare)
                moving = f"MOVING G {it.kg(nearest(load))} N {it.kg(nearest(load) - tare)}"
                said = {"S +": "OVERLOAD", "S -": "UNDERLOAD"}.get(wanted, moving)
                wrong += reply != f"t {wanted}" or office != f"| {said}"
            shown = [load for load, reply in zip(loads, found[::3]) if reply.endswith("kg")]
            top, least = max(shown, default=0), min(shown, default=0)
            is_passed = not wrong and top == it.max + 94 and least == -205
            over = f"Max + {tenths(top - it.max)}"
            yield is_passed, it.named(), name, over, tenths(least), wrong


@trial(
    "Repeatability, with simulated noise",
    "Ten weighings of one load differ by at most the maximum permissible error (3.6.1).",
    "Ten times a load is put on the empty bridge, with noise of 0.05 e (standard deviation, from a seed), while `S` waits.",
    *("Readings a second", "Load", "Answered", "Difference", "at most", "Farthest from the load"),
    joined=(0,),
)
def repeatability(program: str) -> Iterator[Row]:
    noise = random.Random(69)
    for pace in (10, 50):
        it = Instrument(program, pace=pace, window=pace, wait=600)
        for load in (it.max // 2 + 3, it.max - 7):
            lines = []
            for _ in range(10):
                first, *more = [f"r {load + round(noise.gauss(0, 0.5))}" for _ in range(300)]
                lines += [it.put(0), first, "t S", *more]
            stable = [reply for reply in it.replies(lines) if reply.startswith("S S")]
            weights = [whole * E for one in stable if (whole := it.indicated(one)) is not None]
            spread = max(weights) - min(weights) if weights else 1000
            farthest = max((abs(one - load) for one in weights), default=1000)
            is_passed = len(weights) == 10 and spread <= mpe(load)
            sizes = [*map(tenths, (spread, mpe(load), farthest))]
            yield is_passed, pace, tenths(load), len(weights), *sizes


@trial(
    "Creep, and return to zero",
    "Under a load of half an hour the indication changes by at most 0.5 e, and so does the zero after it (3.9.4.1, 3.9.4.2). Creep is of the cell, not of software, so the program shows it as it is.",
    "Max is on for 18,000 readings at ten a second, with no creep and with 0.4 e. The changeover point is found before, after, and once the load is off, when that creep is left.",
    *("Creep that is put on", "Change found", "Zero found"),
)
def creep(program: str) -> Iterator[Row]:
    it = Instrument(program)
    for more in (0, 4):
        half_an_hour = [f"r {it.max + more * part // 4} 4500" for part in range(1, 5)]
        before = [*probed(it, 100), *probed(it, it.max)]
        after = [*probed(it, it.max + more), *probed(it, 100 + more)]
        found = it.replies([it.put(0), *before, *half_an_hour, *after])
        zero, full, full_after, zero_after = errors_in(it, found, (100, it.max, it.max, 100))
        if zero is None or full is None or full_after is None or zero_after is None:
            yield False, tenths(more), "none", "none"
            continue
        change, off = full_after - full, zero_after - zero
        yield change == off == more, tenths(more), tenths(change), tenths(off)


@trial(
    "Range of zero-setting",
    "Zero-setting moves the zero by at most 4 % of Max in all (4.5.1), here by 2 % on either side.",
    "`Z` is sent at the ends of the range, and a tenth of e further. Then the weight without the load shows how far the zero was moved.",
    "Instrument",
    "Loads",
    "Found, wanted Z A, Z +, Z A, Z -",
    "Other weights without the load",
)
def zero_range(program: str) -> Iterator[Row]:
    for interval, intervals in ((20, 3000), (50, 9999), (1, 500)):
        it = Instrument(program, interval, intervals)
        end = it.max * 2 // 100
        loads, wanted = (end, end + 1, -end, -end - 1), ["Z A", "Z +", "Z A", "Z -"]
        found = [it.replies([it.put(load), "t Z", "r 0", "t SI"]) for load in loads]
        replies = [reply for reply, _ in found]
        others = sum(
            off != it.weight(-load if answer == "Z A" else 0)
            for load, answer, (_, off) in zip(loads, wanted, found)
        )
        is_passed = replies == wanted and not others
        yield is_passed, it.named(), joined(map(tenths, loads)), ", ".join(replies), others


ACCURACY = ("Instrument", "Loads", "Greatest deviation, at most 0.25 e")


def accuracy(
    program: str, word: str, loads_of: Callable[[Instrument], Iterable[int]]
) -> Iterator[Row]:
    """Return how far the changeover point is after a command that is sent at each of these loads."""
    for it in (Instrument(program), Instrument(program, 50, 10000, band=1)):
        loads = [*loads_of(it)]
        begins = [(load, [it.put(load), f"t {word}"]) for load in loads]
        off = max(deviation_of(changeover(it, begin, load)) for load, begin in begins)
        yield off <= 2.5, it.named(), joined(map(tenths, loads)), tenths(off)


@trial(
    "Accuracy of zero-setting",
    "After zero-setting the zero's deviation is at most 0.25 e (4.5.2).",
    "`Z` is sent at a load. Then 10 e and more are added by tenths of e, until 11 e is indicated. The deviation is 10.5 e minus the load that was added.",
    *ACCURACY,
)
def zero_accuracy(program: str) -> Iterator[Row]:
    return accuracy(
        program, "Z", lambda it: (*range(10), it.max * 2 // 100, -it.max * 2 // 100, -7)
    )


@trial(
    "Pace of zero-tracking",
    "Zero-tracking corrects at most 0.5 e a second, and only at stable equilibrium and at zero (4.5.7).",
    "A load of -0.5 e is on a fresh scale for N readings. Then for three seconds it falls by tenths of e, as often as 0.5 e a second allow, never at two readings in "
    "a row. After each reading the zero is found as in Accuracy of zero-setting, in a run of its own. Another run has a load of -0.6 e, which isn't zero.",
    "Readings a second",
    "Corrected in any second, at most 0.5 e",
    "First correction at reading, not before 10",
    "Corrected in all",
    "At -0.6 e, wanted 0 e",
    joined=(0,),
)
def tracking(program: str) -> Iterator[Row]:
    for pace in (2, 3, 5, 6, 10, 25, 50):
        it = Instrument(program, pace=pace)
        each = max(2, -(-pace // 5))
        loads = [-5] * it.window + [-5 - place // each for place in range(1, 3 * pace + 1)]
        zeros = [0, *(zero_after(it, loads[: count + 1]) for count in range(len(loads)))]
        steps = [abs(after - before) for before, after in zip(zeros, zeros[1:])]
        most = max(sum(steps[place : place + pace]) for place in range(len(steps)))
        first = next((place + 1 for place, step in enumerate(steps) if step), None)
        off_zero = zero_after(it, [-6] * (it.window + 3 * pace))
        is_passed = most <= 5 and first is not None and first >= it.window and off_zero == 0
        yield is_passed, pace, tenths(most), first, tenths(zeros[-1]), tenths(off_zero)


def zero_after(it: Instrument, loads: Iterable[int]) -> int:
    at = changeover(it, [f"r {load}" for load in loads], -10)
    if at is None:
        raise AssertionError("no changeover was found")
    return at - 10 - 105


@trial(
    "Accuracy of taring",
    "A tare sets the indication to zero with a deviation of at most 0.25 e (4.6.3).",
    "`T` is sent at a load. The deviation is found as in Accuracy of zero-setting.",
    *ACCURACY,
)
def tare_accuracy(program: str) -> Iterator[Row]:
    return accuracy(
        program, "T", lambda it: (*range(9170, 9180), 5, 7, it.max // 2 + 3, it.max - 113)
    )


@trial(
    "Weighing over a tare",
    "The errors permitted for a net are those for a load of that size (3.5.3.3).",
    "The weighed tares are a third and two thirds of Max, with 0.3 e more. Over each, five net loads up to the rest of Max are put on, as in Weighing performance.",
    *("Instrument", "Tare", "Net loads", "Greatest error, wanted 0 e"),
)
def tare_weighing(program: str) -> Iterator[Row]:
    for it in instruments(program):
        for part in (1, 2):
            tare = it.intervals * part // 3 * E + 3
            rest = it.max - tare
            loads = [200 if rest > 1000 else rest // 5, rest // 4, rest // 2, rest * 3 // 4, rest]
            found = errors_of(it, [it.put(tare), "t T"], [*loads, *reversed(loads)], tare)
            off = max(1000 if one is None else abs(one) for one in found)
            yield not off, it.named(), tenths(tare), joined(map(tenths, loads)), tenths(off)


@trial(
    "Stable equilibrium at the edge of the band",
    "A weight is stable, and stored, only within e of the weight at rest (4.4.2). Here it is stable if N readings differ by at most the band of 1 or 2 tenths of e.",
    "The empty bridge gets N - 1 readings of a load, and then one that differs by the band or by a tenth more, or none. Then `SI` and a weighing are sent.",
    *("N, band", "Histories", "Wrong", "Stored", "Stored weight minus those read, at most 1 e"),
    joined=(0,),
)
def stability(program: str) -> Iterator[Row]:
    for window, band in ((4, 1), (4, 2), (8, 2), (64, 1)):
        it, farthest, wrong, count, kept = Instrument(program, window=window, band=band), 0, 0, 0, 0
        for load in (9164, 9170):
            for last in (load + band, load - band, load + band + 1, load - band - 1, None):
                read = [load] * (window - 1) + ([last] if last is not None else [])
                is_stable = last is not None and abs(last - load) <= band
                readings = [f"r {one}" for one in read]
                found = it.printed(["r 0", *readings, "t SI", weighing("K1", "first")])
                stored = [kg // it.interval * E for kg in gross_in(found)]
                wanted = [f"t {it.weight(read[-1], is_stable)}", f"o {201 if is_stable else 409}"]
                wrong += found[:2] != wanted or bool(stored) != is_stable
                count, kept = count + 1, kept + bool(stored)
                if stored:
                    far = max(abs(nearest(one) * E - stored[0]) for one in read)
                    farthest = max(farthest, far)
        is_passed = not wrong and farthest <= E
        yield is_passed, f"{window}, {band / E:g} e", count, wrong, kept, tenths(farthest)


def gross_in(printed: Iterable[str]) -> list[int]:
    """Return the gross weights in kg of what was printed of weighings."""
    return [int(line.split()[2]) for line in printed if line.startswith("| G")]


# A swing: its periods in seconds, of which the first are judged; its sizes in tenths of e; where in it the command is given.
PERIODS, SLOW = (0.15, 0.3, 0.6, 1, 1.5, 2), (3, 4, 6, 8)
SIZES, PHASES = (7, 45, 150), (0.0, 0.25, 0.6)


def swing(pace: int, rest: int, period: float, size: int, phase: float) -> list[int]:
    """Return the readings of a load that swings about its rest, ever less."""
    return [
        round(
            rest
            + size
            * math.exp(-n / pace / (2 * period))
            * math.cos(2 * math.pi * (n / pace / period + phase))
        )
        for n in range(int((14 * period + 2) * pace))
    ]


def sink(pace: int, rest: int, rate: int, seconds: int) -> list[int]:
    """Return the readings of a load that sinks by `rate` tenths of e a second."""
    return [round(rest - rate * n / pace) for n in range(seconds * pace)]


def deviation(it: Instrument, loads: list[int], rest: int | None) -> tuple[int, int] | None:
    """Return how far, in whole e, what is stored is from the weight at rest, and from any that is indicated in the five seconds after it (A.4.12). A weighing is sent at each load. Return None if nothing is stored."""
    lines = [line for load in loads for line in (f"r {load}", weighing("K1", "first"))]
    found = it.printed([it.put(0), *lines])
    answers = [line for line in found if line.startswith("o ")]
    if "o 201" not in answers:
        return None
    at, kept = answers.index("o 201"), gross_in(found)[0] // it.interval
    seen = [kept, *(nearest(load) for load in loads[at : at + 5 * it.pace + 1])]
    return abs(kept - nearest(rest)) if rest is not None else 0, max(seen) - min(seen)


def swung(it: Instrument, period: float) -> tuple[list[tuple[int, int] | None], list[int]]:
    """Return the deviation of what was stored for each swing of this period. Return also how far zero and tare are off after a command that was given meanwhile and wasn't refused."""
    apart = []
    off = []
    for size in SIZES:
        for phase in PHASES:
            loads = swing(it.pace, 9173, period, size, phase)
            apart.append(deviation(it, [*loads, *[9173] * (6 * it.pace)], 9173))
        for word, rest in (("Z", 0), ("T", 9173)):
            first, *more = [f"r {load}" for load in swing(it.pace, rest, period, size, 0.3)]
            begin = [first, f"t {word}", *more, it.put(rest)]
            if not it.replies(begin)[0].endswith(" I"):
                off.append(deviation_of(changeover(it, begin, rest)))
    return apart, off


@trial(
    "Stable equilibrium against the weight at rest",
    "The stored weight is at most 1 e from the final weight. In the five seconds after it, at most two adjacent weights are indicated, and one of them is the stored weight. Zero-setting and taring are off by at most 0.25 e (4.4.2, A.4.12).",
    "A load of 917.3 e swings, ever less, by 0.7 to 15 e at first, or a load sinks evenly. A weighing is sent at each reading, while `Z` (about the empty bridge) and `T` wait. A window of a "
    "second's readings is enough for swings of up to two seconds. It is also enough for a load that sinks by at least 1 e a second, or by at most 0.2 e a second. The rest is not promised.",
    "Readings a second, window",
    "Disturbance",
    "Histories, stored",
    "From the weight at rest, at most 1 e",
    "Indicated in 5 s, at most 1 e apart",
    "`Z` and `T` off by, at most 0.25 e",
    joined=(0,),
)
def swings(program: str) -> Iterator[Row]:
    for pace, window in ((10, 10), (50, 50), (10, 4), (50, 4)):
        it = Instrument(program, pace=pace, window=window, wait=600)
        is_owed = window >= pace
        setup = f"{pace}, {window}"
        for periods in (PERIODS, *((one,) for one in SLOW)) if is_owed else ((1,), (4,)):
            of_each = [swung(it, period) for period in periods]
            found = [one for apart, _ in of_each for one in apart]
            kept = [one for one in found if one]
            off = max((far for _, each in of_each for far in each), default=0)
            is_passed = (
                len(kept) == len(found) and all(max(one) <= 1 for one in kept) and off <= 2.5
            )
            yield (
                is_passed if is_owed and periods == PERIODS else None,
                setup,
                f"swings of {', '.join(f'{period:g}' for period in periods)} s",
                f"{len(found)}, {len(kept)}",
                f"{max((far for far, _ in kept), default=0)} e",
                f"{max((one for _, one in kept), default=0)} e",
                "over 1.5 e" if off > 15 else tenths(off),
            )
        for rates in ((30, 10, 2), (3,)) if is_owed else ((30,),):
            rests = [20000 + part for part in range(0, 10, 3)]
            found = [
                deviation(it, sink(pace, rest, rate, 8), None) for rate in rates for rest in rests
            ]
            apart = [one for _, one in filter(None, found)]
            yield (
                max(apart, default=0) <= 1 if is_owed and len(rates) > 1 else None,
                setup,
                f"sinks by {', '.join(f'{rate / 10:g}' for rate in rates)} e a second",
                f"{len(found)}, {len(apart)}",
                "none",
                f"{max(apart, default=0)} e",
                "not given",
            )


@trial(
    "Warm-up without a reading",
    "During warm-up, while the converter sends no load, no weight is indicated or transmitted (5.3.5).",
    "`SI`, `S`, `Z`, `T`, `SIR`, a request for the indication and a weighing are sent, before the first reading and while readings are lost.",
    *("Readings", "A weight printed, wanted none"),
    joined=(0,),
)
def warm_up(program: str) -> Iterator[Row]:
    asked = [f"t {word}" for word in ("SI", "S", "Z", "T", "SIR")]
    asked += [f"o {MOMENT} GET /indication", weighing("K1", "first")]
    for name, lines in (
        ("none", ()),
        ("lost, once", ("r lost",)),
        ("lost, as long as a command waits", ("r lost 20",)),
    ):
        traces = [[one, *lines, "t SI"] for one in asked]
        printed = [Instrument(program).printed(trace) for trace in traces]
        weights = [line for found in printed for line in found if re.search(r"\d+ kg", line)]
        is_passed = not weights and all("t S I" in found for found in printed)
        yield is_passed, name, len(weights) or "none"


@trial(
    "Power cut",
    "After a power cut nothing is indicated before a reading, no earlier tare or zero is in force, and everything stored is there (5.3.5, 5.5.3; the rest own).",
    "A service sets zero at 2 e, weighs a vehicle in and sets a tare. It is killed, and started again over its journal.",
    *("Asked after the start", "Wanted", "Found"),
    joined=(0,),
)
def power_cut(program: str) -> Iterator[Row]:
    def started(load: Any) -> bridge.Service:
        player = bridge.Played(50.0)
        player.now = load
        return bridge.Service(program, file, player, "--pace", "50", "--window", "10")

    def row(asked: str, wanted: str, found: str) -> Row:
        return found == wanted, asked, wanted, "the same" if found == wanted else found

    def answer(target: str) -> str:
        status, text = bridge.get(service, target) or (0, "")
        return f"{status} {text}".strip()

    with tempfile.TemporaryDirectory() as folder:
        file = os.path.join(folder, "journal.db")
        with started(20) as service, bridge.Terminal(service) as terminal:
            zero = terminal.ask("Z")
            service.converter.put(9190, 30)
            settled(terminal, "S S      18340 kg")
            weighed = bridge.post(service, "/weighings", "key=K1&kind=first&plate=AB-12")
            before = (zero, terminal.ask("T"), (weighed or (0, ""))[1].partition("\n")[0])
        with started("lost") as service, bridge.Terminal(service) as terminal:
            yield row("`SI`, before the first reading", "S I", terminal.ask("SI"))
            no_tare = "TA A          0 kg"
            yield row("`TA`, before the first reading", no_tare, terminal.ask("TA"))
            found = answer("/indication")
            yield row("the indication, before the first reading", "200 NO LOAD", found)
            service.converter.put(9190, 30)
            wanted = "S S      18380 kg"
            is_so, *cells = row("`SI` at 919 e", wanted, settled(terminal, wanted))
            yield is_so and before == ("Z A", "T S      18340 kg", "WEIGHING SLIP 1"), *cells
            yield row("`TA`", no_tare, terminal.ask("TA"))
            again = bridge.post(service, "/weighings", "key=K1&kind=first&plate=AB-12")
            is_same = again == weighed and again is not None and again[0] == 201
            shown = "the same" if is_same else again
            yield is_same, "the weighing, under its key", "201, its slip", shown
            yield row("the check", "200 SOUND 1", answer("/check"))


def settled(terminal: bridge.Terminal, wanted: str) -> str:
    """Return the weight, for up to three seconds until it is the wanted one."""
    try:
        return wait_until("the weight", lambda: terminal.ask("SI"), lambda it: it == wanted, 3)
    except TimeoutError:
        return terminal.ask("SI")


@trial(
    "Text of a ticket",
    "A printed weight has a unit and a designation: G, N and PT (4.4.5, 4.6.11, 4.7.3). The stored data are enough to find the weighing again (5.5.3).",
    "A vehicle of 917.3 e is weighed in and comes back with 407.2 e. Another is weighed over a preset tare of 5,003 kg. The check computes the digests by docs/formats.md.",
    *("Ticket", "Lines wanted", "Found"),
    joined=(0,),
)
def ticket(program: str) -> Iterator[Row]:
    it = Instrument(program)
    device = "E 20 kg MAX 60000 kg SERIAL WB01"

    def entry(kind: str, number: int, digest: str, *weights: str) -> list[str]:
        head = [f"{kind} NO {number}", f"AT {DAY}"]
        return [*head, *weights, device, f"DIGEST {digest}"]

    first = digest_of(1, "K1", "first", "AB-12", MOMENT, 18340, "-")
    second = digest_of(2, "K2", "second", "AB-12", MOMENT, 8140, "-", previous=first)
    preset = digest_of(1, "K1", "single", "AB-12", MOMENT, 18340, 5000)
    full, empty = f"G {it.kg(917)}", f"G {it.kg(407)}"
    pair = [
        *("WEIGHING TICKET 2", "PLATE AB-12", *entry("FIRST", 1, first, full)),
        *(*entry("SECOND", 2, second, empty), f"N {it.kg(917 - 407)}"),
    ]
    single = [
        *("WEIGHING TICKET 1", "PLATE AB-12"),
        *(*entry("SINGLE", 1, preset, full, f"PT {it.kg(250)}"), f"N {it.kg(917 - 250)}"),
    ]
    on = [it.put(0), it.put(9173)]
    again = [it.put(0), it.put(4072), weighing("K2", "second"), f"o {MOMENT} GET /tickets/2"]
    found = it.printed([*on, weighing("K1", "first"), *again])
    yield from compared("of a pair", pair, found)
    once = ["t TA 5003 kg", weighing("K1", "single"), f"o {MOMENT} GET /tickets/1"]
    yield from compared("over a preset tare", single, it.printed([*on, *once]))


def compared(name: str, wanted: list[str], found: list[str]) -> Iterator[Row]:
    """Compare the ticket as it was printed last, by its lines, and as it was printed when it was stored."""
    text = [line[2:] for line in found if line.startswith("| ")]
    last, at_first = text[-len(wanted) :], text[-2 * len(wanted) : -len(wanted)]
    shown, found_lines = (", ".join(f"`{it}`" for it in lines) for lines in (wanted, last))
    yield last == wanted, name, shown, "the same" if last == wanted else found_lines
    said = "the same" if last == at_first else "another"
    yield last == at_first == wanted, name, "that ticket again, on request", said
