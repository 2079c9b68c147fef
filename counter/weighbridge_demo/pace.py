"""Decides which lines are due, without a clock.

Line `number` is due at `begin + number * period`, so a late line delays no later one. Late lines are due at once, but never more than one second of them.
"""

RATE = 10  # lines a second
PERIOD = 1_000_000_000 // RATE  # nanoseconds
MOST_LATE = RATE  # lines that are sent at once; older ones are dropped


class Pace:
    def __init__(self, begin: int) -> None:
        """`begin` is the moment of the first line, in nanoseconds of the caller's clock."""
        self.begin = begin
        self.number = 0  # of the next line
        self.dropped = 0  # lines that were too late

    def at(self, number: int) -> int:
        """Return the moment at which the line is due, in nanoseconds."""
        return self.begin + number * PERIOD

    def due(self, now: int) -> range:
        """Return the numbers of the lines to send now, and count them as sent."""
        last = (now - self.begin) // PERIOD
        first = max(self.number, last - MOST_LATE + 1)
        self.dropped += max(0, first - self.number)
        self.number = max(self.number, last + 1)
        return range(first, self.number)

    def wait(self, now: int) -> float:
        """Return the seconds until the next line is due; 0 if it is late."""
        return max(0, self.at(self.number) - now) / 1e9
