"""Print a line for each reading of a device, and log when readings begin to be lost and when they are back. All readers share this."""

import argparse
import os
import sys
import time
from collections.abc import Callable
from typing import NoReturn

# Counts of the converter have 32 bits.
LEAST, GREATEST = -(2**31), 2**31 - 1
OUTSIDE = (
    "check --bits, the order of words and the sign; or the load is outside the converter's range"
)


class Lost(Exception):
    """A reading was lost, for this reason."""


class Told:
    """Prints a line for each reading, and logs on standard error when readings begin to be lost and when they are back."""

    def __init__(self, name: str) -> None:
        self.name, self.failed = name, 0

    def line(self, text: str) -> None:
        try:
            print(text, flush=True)
        except BrokenPipeError:
            os._exit(0)  # the program that read the lines has ended

    def counts(self, counts: int) -> None:
        if self.failed:
            print(
                f"{self.name}: readings are back, after {self.failed} lost ones",
                file=sys.stderr,
                flush=True,
            )
            self.failed = 0
        self.line(str(counts))

    def lost(self, why: object) -> None:
        if not self.failed:
            print(f"{self.name}: readings are lost: {why}", file=sys.stderr, flush=True)
        self.failed += 1
        self.line("lost")


def checked(counts: int, bits: int) -> int:
    """Return `counts` if they fit in `bits` bits with a sign, and in the 32 of the converter. Otherwise raise `Lost`."""
    if not max(LEAST, -(2 ** (bits - 1))) <= counts <= min(GREATEST, 2 ** (bits - 1) - 1):
        raise Lost(f"{counts} doesn't fit in {bits} bits: {OUTSIDE}")
    return counts


def from_middle(raw: int, bits: int) -> int:
    """Return the counts of offset binary, where 0 is the least value, and the middle of the range is no load. Raise `Lost` if `raw` doesn't fit."""
    if not 0 <= raw < 2**bits:
        raise Lost(f"{raw} doesn't fit in {bits} bits: {OUTSIDE}")
    middle: int = 2 ** (bits - 1)
    return raw - middle


def print_readings(
    name: str, given: argparse.Namespace, read: Callable[[], tuple[int, float]]
) -> NoReturn:
    """Print the counts that `read` returns, at the pace, and `lost` if it raises `Lost`. `read` also returns when it asked for them. If that is longer
    ago than the time-out, for example because this machine was suspended, the counts are old. A reading that took too long isn't made up for.
    """
    told, due = Told(name), time.monotonic()
    while True:
        try:
            counts, asked = read()
            if time.monotonic() - asked > given.timeout + 0.05:
                raise Lost("the answer is old, because this machine was held up")
            told.counts(counts)
        except Lost as fault:
            told.lost(fault)
        due = max(due + 1 / given.pace, time.monotonic())
        time.sleep(max(0, due - time.monotonic()))


def words(description: str) -> argparse.ArgumentParser:
    """Return the options that every reader has. A reader adds those of its device."""
    it = argparse.ArgumentParser(description=description)
    it.add_argument(
        "--pace",
        type=float,
        default=10,
        help="readings a second, at most as many as the device has, and the same as the service's --pace (10)",
    )
    it.add_argument(
        "--timeout",
        type=float,
        help="seconds after which a reading is lost; longer than the device takes to answer (1 / pace + 0.15)",
    )
    return it


def parsed(it: argparse.ArgumentParser) -> argparse.Namespace:
    given = it.parse_args()
    if not 0 < given.pace <= 1000:
        it.error("argument --pace: give more than 0 and at most 1000 readings a second")
    if given.timeout is None:
        given.timeout = 1 / given.pace + 0.15
    return given
