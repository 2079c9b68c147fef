"""Tools that the parts of checks/converters share: its cases, its watch for stalls, the converter in a run, and a client of it."""

import atexit
import functools
import os
import socket
import subprocess
import threading
import time
from collections.abc import Callable, Iterable
from fractions import Fraction
from typing import Any

from checks import TOP
from checks.lib import bridge
from checks.lib.devices import begun, pipe, wait_for
from checks.lib.program import CONVERTER
from checks.lib.stalls import Stalls

READERS = str(TOP / "readers")
# Counts and tenths of e: not on one line, and the middle of a segment is no whole tenth.
POINTS = [(-8_388, 0), (250_000, 10_000), (700_123, 30_000)]
# How old a line may be when it comes: a second, and what it takes on a busy machine.
OLD = 1.25
# Where pymodbus lies: that of this system, and those that are given.
PYMODBUS = ["", *filter(None, os.environ.get("WEIGHBRIDGE_PYMODBUS", "").split(":"))]
ATTEMPTS = 4
# Of the time of this check, the least share in which each processor has to run.
RUNNING = 0.8
# Of the lines of the seconds that no stall touches, the least share that is judged. The others were on their way when a
# stall began.
JUDGED = 0.8
# A run ends at the latest after LONGEST times its seconds, even if stalls touched too many of them.
LONGEST = 2.5
# How old a reading may be when it comes.
NEW = 0.25
# The name of a case, whether it holds, and what was found.
Case = tuple[str, bool, object]
cases: list[Case] = []
# In each thread that makes an attempt, the cases of that attempt.
attempts = threading.local()


@functools.cache
def stalls() -> Stalls:
    """Return the watch for stalls, which begins once it is needed."""
    watch = Stalls()
    atexit.register(watch.close)
    return watch


def holds(what: str, is_so: object, found: object = "") -> None:
    """Note a case. One of an attempt counts only if the attempt does."""
    getattr(attempts, "cases", cases).append((what, bool(is_so), found))


def same(what: str, wanted: object, found: object) -> None:
    holds(what, wanted == found, f"wanted {wanted!r}, found {found!r}")


def taken() -> list[Case]:
    """Return the cases that were noted since the last call."""
    found, cases[:] = list(cases), []
    return found


def undisturbed(name: str, attempt: Callable[..., object], *given: object) -> None:
    """Make an attempt. If one fails while the machine stands still, make it again, up to four times in all."""
    for number in range(1, ATTEMPTS + 1):
        own: list[Case] = []
        attempts.cases, begin = own, time.monotonic()
        try:
            attempt(*given)
        except (TimeoutError, AssertionError) as fault:  # what it waited for didn't come
            holds(name, False, fault)
        finally:
            del attempts.cases
        failed = [it for it in own if not it[1]]
        if not failed or not stalls().touch(begin, time.monotonic()):
            cases.extend(own)
            return
        print(
            f"{name}: attempt {number} failed while the machine stood still: {failed[0]}\n", end=""
        )
    holds(f"{name}: an attempt without a stall", False, f"{ATTEMPTS} attempts, {failed}")


def side_by_side(attempt: Callable[..., object], rows: Iterable[tuple[Any, ...]]) -> None:
    """Make an attempt for each row, whose first field is its name, all at once."""
    tried = [threading.Thread(target=attempt, args=row) for row in rows]
    for it in tried:
        it.start()
    for it in tried:
        it.join()


def is_judged_enough(name: str, judged: int, wanted: float) -> None:
    what = f"{name}: lines that are judged, of those in the seconds that no stall touches"
    holds(what, judged >= JUDGED * wanted, f"{judged} of {wanted:.0f}")


def lasts_long_enough(name: str, begin: float, seconds: float) -> None:
    """Let a part continue until no stall has touched these seconds of it. Stalls that leave too few are a failure."""
    stalls().sleep(seconds, LONGEST * seconds)
    untouched = stalls().untouched(begin)
    holds(f"{name}: seconds that no stall touches", untouched >= seconds, untouched)


def tenths(counts: int, points: list[tuple[int, int]] = POINTS) -> int | None:
    """Return the load of counts by fractions: on the line of the two points between which they lie, or of those at an end, an exact half rounded up."""
    pairs = list(zip(points, points[1:]))
    lower, upper = next((pair for pair in pairs if counts < pair[1][0]), pairs[-1])
    load = lower[1] + Fraction((counts - lower[0]) * (upper[1] - lower[1]), upper[0] - lower[0])
    found = (2 * load + 1) // 2
    return int(found) if -2_000_000 <= found <= 2_000_000 else None


def line_of(counts: int) -> str:
    load = tenths(counts)
    return "lost" if load is None else str(load)


def ran(
    command: str,
    *words: str,
    given: str = "",
    folder: str,
    file: str = "calibration",
    **more: Any,
) -> tuple[int, str, str]:
    """Return the status of a run of the converter over the calibration in a folder, and what it printed and reported."""
    words = (CONVERTER, command, "--calibration", file, *words)
    it = subprocess.run(words, input=given, capture_output=True, text=True, cwd=folder, **more)
    return it.returncode, it.stdout, it.stderr


def lines(counts: int, number: int = 50) -> str:
    spread = [counts + (0, 1, 0, -1)[at % 4] for at in range(number // 4 * 4)]
    return "".join(f"{it}\r\n" for it in spread) + f"{counts}\n" * (number % 4)


def point(folder: str, load: int, given: str, *more: str, spread: int = 4) -> tuple[int, str, str]:
    words = ("--load", str(load), "--spread", str(spread), *more)
    return ran("point", *words, given=given, folder=folder)


def calibrate(folder: str, points: list[tuple[int, int]] = POINTS) -> tuple[int, str, str]:
    """Make a calibration of these points, step by step."""
    for counts, load in points:
        status, _, err = point(folder, load, lines(counts))
        same(f"a point at {load}", (0, ""), (status, err))
    return ran("finish", folder=folder)


class Running:
    """`weighbridge-converter run`, whose input this check writes, with a reader of a device before it if there is one."""

    def __init__(
        self,
        folder: str,
        reader: list[str] | None = None,
        pace: float = 10,
        environment: dict[str, str] | None = None,
    ) -> None:
        self.port = bridge.free_port()
        self.source = f"tcp:{bridge.HOST}:{self.port}"
        self.log = os.path.join(folder, "log")
        self.reader: subprocess.Popen[bytes] | None = None
        calibration = os.path.join(folder, "calibration")
        words = [CONVERTER, "run", "--calibration", calibration, "--listen", self.source[4:]]
        given: Any = subprocess.PIPE
        if reader:
            with open(self.log, "w") as log:
                command = [os.path.join(READERS, reader[0]), *reader[1:], "--pace", str(pace)]
                self.reader = begun(command, stdout=subprocess.PIPE, stderr=log, env=environment)
            given = self.reader.stdout
        self.process = begun(words, stdin=given, stdout=subprocess.PIPE, stderr=subprocess.PIPE)
        if reader:
            given.close()
        wait_for("the converter", self.listens)

    def listens(self) -> bool:
        if self.process.poll() is not None:
            raise AssertionError(f"the program ended: {pipe(self.process.stderr).read().decode()}")
        with open("/proc/net/tcp") as it:
            return any(f":{self.port:04X} 00000000:0000 0A" in line for line in it)

    def write(self, text: str) -> None:
        given = pipe(self.process.stdin)
        given.write(text.encode())
        given.flush()

    def client(self, room: int = 0) -> "Client":
        return Client(self.port, room)

    def begin(self) -> None:
        pass

    def logged(self) -> list[str]:
        with open(self.log) as it:
            return it.read().splitlines()

    def close(self) -> None:
        if self.reader:
            self.reader.terminate()
            self.reader.wait()
        else:
            pipe(self.process.stdin).close()
        self.process.wait(10)


class Client(threading.Thread):
    """A client that keeps each line that comes, and when it came."""

    def __init__(self, port: int, room: int) -> None:
        super().__init__(daemon=True)
        self.stream = socket.socket()
        if room:
            self.stream.setsockopt(socket.SOL_SOCKET, socket.SO_RCVBUF, room)
        self.stream.connect((bridge.HOST, port))
        self.reads = threading.Event()
        self.lines: list[tuple[float, str]] = []
        self.reads.set()
        self.start()

    def run(self) -> None:
        rest = b""
        try:
            while True:
                self.reads.wait()
                more = self.stream.recv(4096)
                now = time.monotonic()
                if not more:
                    return
                *whole, rest = (rest + more).split(b"\n")
                self.lines += [(now, line.decode()) for line in whole]
        except OSError:
            pass

    def texts(self) -> list[str]:
        return [text for _, text in self.lines]

    def close(self) -> None:
        self.reads.set()
        self.stream.shutdown(socket.SHUT_RDWR)
        self.join()
        self.stream.close()


def first_line(*words: str) -> str:
    """Return what a reader prints first, except for the line that was begun before."""
    command = [os.path.join(READERS, words[0]), *words[1:]]
    reader = begun(command, stdout=subprocess.PIPE, stderr=subprocess.PIPE, text=True)
    found: str = pipe(reader.stdout).readline().strip()
    reader.kill()
    reader.communicate()
    return found


def with_pymodbus(folder: str) -> dict[str, str]:
    return {**os.environ, **({"PYTHONPATH": folder} if folder else {})}
