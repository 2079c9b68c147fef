"""When this machine stood still while a check ran, as a virtual machine does while it is paused. It needs python3.

Each processor has a process of this check that reads the clock every 20 ms. A gap of more than 100 ms between two readings
is a stall, because the host may pause one processor, with the program on it, while the others run. A check whose cases
depend on time judges what no stall touches: a line on its way, or an attempt that it makes again."""

import os
import subprocess
import sys
import threading
import time
from typing import Iterable

STEP, LEAST = 0.02, 0.1
# Seconds after a stall in which lines may still be old or lost, because each program catches up.
CATCHING_UP = 0.5


class Watch(threading.Thread):
    """Keeps the begin and the end of each stall of one processor."""

    def __init__(self, processor: int) -> None:
        super().__init__(daemon=True)
        self.found: list[tuple[float, float]] = []
        self.process = subprocess.Popen(
            [sys.executable, os.path.abspath(__file__), str(processor)],
            stdout=subprocess.PIPE,
            text=True,
        )
        assert self.process.stdout is not None  # it is a pipe
        self.begun = self.seen = float(self.process.stdout.readline())
        self.start()

    def run(self) -> None:
        assert self.process.stdout is not None  # it is a pipe
        for line in self.process.stdout:
            now = float(line)
            if now - self.seen > LEAST:
                self.found.append((self.seen, now))
            self.seen = now


def joined(stalls: Iterable[tuple[float, float]]) -> list[tuple[float, float]]:
    """Returns the times in which at least one of these stalls lasts, in order, each of them once."""
    whole: list[tuple[float, float]] = []
    for came, gone in sorted(stalls):
        if whole and came <= whole[-1][1]:
            whole[-1] = (whole[-1][0], max(gone, whole[-1][1]))
        else:
            whole.append((came, gone))
    return whole


class Stalls:
    """The stalls of each processor on which this check may run."""

    def __init__(self) -> None:
        self.watches = [Watch(it) for it in sorted(os.sched_getaffinity(0))]
        self.begun = max(it.begun for it in self.watches)

    def processes(self) -> list[int]:
        """Returns the numbers of the processes that read the clock."""
        return [it.process.pid for it in self.watches]

    @property
    def found(self) -> list[tuple[float, float]]:
        """Returns the begin and the end of each time in which a processor was stopped."""
        return joined(stall for it in self.watches for stall in list(it.found))

    def wait_until(self, moment: float) -> None:
        """Waits until each watch has seen this moment, which is past."""
        while any(it.seen < moment for it in self.watches):
            if any(it.process.poll() is not None for it in self.watches):
                raise SystemExit("the watch for stalls ended")
            time.sleep(STEP)

    def touch(self, begin: float, end: float) -> bool:
        """Returns true if a stall touches this time, or if it ended at most half a second before."""
        self.wait_until(end)
        return any(
            came < end and gone + CATCHING_UP > begin
            for it in self.watches
            for came, gone in list(it.found)
        )

    def seconds(self, begin: float, end: float) -> float:
        """Returns the seconds of stalls within this time."""
        self.wait_until(end)
        return sum(max(0.0, min(gone, end) - max(came, begin)) for came, gone in self.found)

    def running(self, begin: float) -> float:
        """Returns the seconds since `begin` without stalls."""
        now = time.monotonic()
        return now - begin - self.seconds(begin, now)

    def untouched(self, begin: float) -> float:
        """Returns the seconds since `begin` that no stall touches."""
        now = time.monotonic()
        self.wait_until(now)
        touched = joined(
            (max(came, begin), min(gone + CATCHING_UP, now))
            for came, gone in self.found
            if gone + CATCHING_UP > begin
        )
        return now - begin - sum(gone - came for came, gone in touched)

    def sleep(self, seconds: float, at_most: float) -> None:
        """Sleeps until no stall has touched these seconds, and at most for `at_most` of them."""
        begin = time.monotonic()
        while (left := seconds - self.untouched(begin)) > 0 and time.monotonic() < begin + at_most:
            time.sleep(min(left, 1.0))

    def longest(self) -> float:
        """Returns the seconds that the processor that stood still for longest stood still."""
        return max(sum(gone - came for came, gone in list(it.found)) for it in self.watches)

    def text(self) -> str:
        lengths = [gone - came for came, gone in self.found]
        return (
            f"the machine stood still {len(lengths)} times for {sum(lengths):.1f} of {time.monotonic() - self.begun:.0f} s,"
            f" {max(lengths, default=0):.1f} s at most, and one processor for {self.longest():.1f} s"
        )

    def close(self) -> None:
        for it in self.watches:
            it.process.kill()
            it.process.wait()


def tick(processor: int) -> None:
    os.sched_setaffinity(0, {processor})
    while True:
        print(f"{time.monotonic():.4f}", flush=True)
        time.sleep(STEP)


if __name__ == "__main__":
    try:
        tick(int(sys.argv[1]))
    except BrokenPipeError:
        os._exit(0)  # the check has ended
