"""The made-up day: some twenty vehicles, each with its plate and the loads with which it comes."""

import random
from collections.abc import Mapping
from dataclasses import dataclass

FIRST, SECOND, SINGLE = "first", "second", "single"


@dataclass(frozen=True)
class Visit:
    """One time that a vehicle drives onto the bridge."""

    at: str  # the time of the made-up day; empty if the visit isn't of the day
    plate: str
    kg: int
    kind: str  # what the clerk is expected to weigh
    tare: int | None = None  # kg, on the vehicle's papers


@dataclass(frozen=True)
class Vehicle:
    plate: str
    came: str
    came_kg: int
    left: str
    left_kg: int


# A vehicle is weighed in when it came and out when it left. While RA-KM-1286 is on site, RA-KM-1268 comes, so that the clerk's page asks which vehicle it
# is.
VEHICLES = (
    Vehicle("RA-KM-1236", "06:40", 18_340, "07:15", 8_140),
    Vehicle("HB-KW-77", "06:55", 11_280, "07:30", 37_460),
    Vehicle("BRA-LM-2210", "07:05", 24_080, "07:55", 10_020),
    Vehicle("VER-X-901", "07:25", 34_660, "08:20", 13_900),
    Vehicle("OL-TR-415", "07:40", 12_540, "08:10", 38_320),
    Vehicle("DEL-H-58", "07:45", 9_760, "08:45", 17_980),
    Vehicle("RA-KM-1286", "08:05", 19_120, "09:30", 8_260),
    Vehicle("WST-AB-330", "08:30", 39_480, "09:25", 14_220),
    Vehicle("CUX-G-1204", "08:40", 13_060, "09:10", 39_880),
    Vehicle("STD-PE-62", "09:05", 26_340, "09:50", 11_460),
    Vehicle("RA-KM-1268", "09:00", 19_640, "10:05", 8_300),
    Vehicle("HB-ZZ-4711", "09:40", 36_900, "10:35", 14_880),
    Vehicle("ROW-K-29", "09:55", 10_660, "10:40", 25_420),
    Vehicle("BRA-SH-17", "10:15", 12_820, "10:55", 39_040),
    Vehicle("OHZ-M-640", "10:25", 17_560, "11:20", 8_520),
    Vehicle("VEC-RD-3005", "10:45", 38_140, "11:40", 14_060),
    Vehicle("CLP-T-91", "11:05", 14_300, "11:55", 38_760),
    Vehicle("DH-UL-256", "11:30", 22_780, "12:10", 9_880),
)
# Vehicles that come once, loaded, with a tare on their papers.
SINGLES = (
    Visit("08:50", "HH-EF-1020", 25_960, SINGLE, 10_400),
    Visit("10:50", "LER-BN-74", 31_220, SINGLE, 12_760),
)
TOWNS = ("AUR", "CE", "EL", "GF", "H", "LG", "NOH", "PE", "UE", "WHV")
LETTERS = "ABCDEFGHJKLMNPRSTUVWXYZ"
HEAVY = 18_000  # kg; a lighter vehicle is taken for empty


def visits_of_the_day() -> tuple[Visit, ...]:
    """Return all visits in the order of their times."""
    visits = [*SINGLES]
    for it in VEHICLES:
        visits.append(Visit(it.came, it.plate, it.came_kg, FIRST))
        visits.append(Visit(it.left, it.plate, it.left_kg, SECOND))
    return tuple(sorted(visits, key=lambda it: it.at))


def some_visit(choose: random.Random, on_site: Mapping[str, int]) -> Visit:
    """Return a visit by chance: half of the time a vehicle that is on site, with another load, else one that is new.

    `on_site` has the weight of each vehicle on site by its plate.
    """
    if on_site and choose.random() < 0.5:
        plate = choose.choice(sorted(on_site))
        bounds = (7_000, 15_000) if on_site[plate] >= HEAVY else (20_000, 40_000)
        return Visit("", plate, even(choose, *bounds), SECOND)
    while True:
        letters = "".join(choose.choice(LETTERS) for _ in range(choose.randint(1, 2)))
        plate = f"{choose.choice(TOWNS)}-{letters}-{choose.randint(10, 9999)}"
        if plate not in on_site:
            return Visit("", plate, even(choose, 8_000, 40_000), FIRST)


def even(choose: random.Random, least: int, most: int) -> int:
    """Return a load between the two, in kg, that is a multiple of the interval."""
    return choose.randrange(least, most + 1, 20)
