"""The played load cell: the counts of a load, as a reader of a real device prints them.

Its calibration is made with `weighbridge-converter point` of the same counts, so a load goes the whole way from counts to ticket.
"""

EMPTY = 84_000  # counts of the empty bridge
COUNTS_PER_KG = 6
INTERVAL, MAX = 20, 60_000  # kg
NOISE = (
    0,
    1,
    2,
    1,
    0,
    -1,
    -2,
    -1,
    1,
    -1,
)  # counts, in turn: a quarter of a tenth of e, and 0 in the mean
LINES_OF_POINT = 50
SPREAD = 20  # counts, the most that a point may have


def counts_of(kg: float, number: int) -> int:
    """Return the counts of a load in the line `number`."""
    return EMPTY + round(kg * COUNTS_PER_KG) + NOISE[number % len(NOISE)]


def lines_of_point(kg: int) -> str:
    """Return the lines of a point of the calibration, for a test weight of `kg`."""
    return "".join(f"{counts_of(kg, number)}\n" for number in range(LINES_OF_POINT))
