"""Devices that checks/converters plays, with faults: a Modbus server, a text device on a pseudo terminal, and a folder
in the form of industrial IO. Each has `words`, those of its reader; `put`, which sets its counts; and `faults`, a name and how it begins and ends."""

import atexit
import contextlib
import os
import shutil
import socket
import subprocess
import threading
import time
import tty
from collections.abc import Callable
from pathlib import Path
from typing import IO, Any

from checks.lib import bridge

SERVER = os.path.join(os.path.dirname(os.path.abspath(__file__)), "modbus_server.py")
# The name of a fault, and how it begins and ends.
Fault = tuple[str, Callable[[], object], Callable[[], object]]
Spoil = Callable[[bytes], bytes]
started: list[subprocess.Popen[Any]] = []


def begun(words: list[str], **how: Any) -> subprocess.Popen[Any]:
    """Start a process that is killed at the latest when this program ends, whatever ends it."""
    started.append(subprocess.Popen(words, **how))
    return started[-1]


def end(process: subprocess.Popen[Any]) -> None:
    process.kill()
    process.wait()


def pipe(stream: IO[Any] | None) -> IO[Any]:
    """Return a stream of a process that was started with a pipe for it."""
    assert stream is not None
    return stream


@atexit.register
def end_all() -> None:
    for it in started:
        if it.poll() is None:
            it.kill()


def write(path: str, text: str) -> None:
    """Write a whole file: a reader of it finds the old text or the new."""
    new = Path(f"{path}.new")
    new.write_text(text, encoding="ascii")
    new.rename(path)


def wait_for(what: str, holds: Callable[[], object], seconds: float = 10) -> None:
    """Wait in steps that are counted, because the clock continues while the machine stands still."""
    for _ in range(int(seconds * 100)):
        if holds():
            return
        time.sleep(0.01)
    raise TimeoutError(f"{what} didn't come within {seconds} s")


def pair_of_terminals(*names: str) -> subprocess.Popen[Any]:
    """Make two pseudo terminals that are connected, and return the process that connects them."""
    words = ["socat", *(f"pty,rawer,link={name}" for name in names)]
    pair = begun(words, stderr=subprocess.DEVNULL)
    wait_for("a pair of pseudo terminals", lambda: all(map(os.path.exists, names)))
    return pair


def unspoiled(data: bytes) -> bytes:
    return data


class Modbus:
    """A Modbus server, over TCP."""

    def __init__(self, folder: str) -> None:
        self.folder, self.port = folder, bridge.free_port()
        os.makedirs(folder)
        self.put(0)
        self.say("status", "0")
        self.say("does", "")
        self.begin()

    def say(self, name: str, text: str) -> None:
        write(os.path.join(self.folder, name), text)

    def put(self, counts: int) -> None:
        self.say("value", f"{counts % 2**32:08x}")

    def begin(self) -> None:
        self.start("tcp", str(self.port))
        wait_for("the Modbus server", lambda: bridge.is_listening(self.port))

    def start(self, kind: str, place: str) -> None:
        words = ["/usr/bin/python3", SERVER, kind, place, self.folder]
        self.server = begun(words, stderr=subprocess.DEVNULL)

    def end(self) -> None:
        end(self.server)

    def close(self) -> None:
        self.end()

    def words(self) -> list[str]:
        return ["modbus", "--tcp", f"{bridge.HOST}:{self.port}", *self.registers()]

    def registers(self) -> list[str]:
        return ["--address", "0", "--bits", "24", "--status", "2", "--faulty", "0x00f0"]

    def says(self, name: str, text: str) -> Callable[[], None]:
        return lambda: self.say(name, text)

    def faults(self) -> list[Fault]:
        as_before = self.says("does", "")
        faulty, well = self.says("status", "0010"), self.says("status", "0f0f")
        return [
            ("no answer in time", self.says("does", "1"), as_before),
            ("an exception's answer", self.says("does", "exception"), as_before),
            ("a value outside its bits", lambda: self.put(0x01000000), lambda: None),
            ("a status that says faulty", faulty, well),
            ("a device that went away", self.end, self.begin),
        ]


class ModbusLine(Modbus):
    """A Modbus server by RTU, over two pairs of pseudo terminals: between them each byte is passed on, or not as it was."""

    def __init__(self, folder: str) -> None:
        self.cut = unspoiled
        os.makedirs(folder + ".lines")
        self.names = [[f"{folder}.lines/{end}{pair}" for end in "ab"] for pair in "12"]
        self.pairs = [pair_of_terminals(*it) for it in self.names]
        inner = (self.names[0][1], self.names[1][0])
        one, other = (os.open(name, os.O_RDWR | os.O_NOCTTY) for name in inner)
        for here, there, is_back in ((one, other, True), (other, one, False)):
            tty.setraw(here)
            way = (here, there, is_back)
            threading.Thread(target=self.pass_on, args=way, daemon=True).start()
        super().__init__(folder)

    def pass_on(self, here: int, there: int, is_back: bool) -> None:
        with contextlib.suppress(OSError):  # socat has ended
            while True:
                data = os.read(here, 256)
                os.write(there, self.cut(data) if is_back else data)

    def begin(self) -> None:
        self.start("rtu", self.names[0][0])
        time.sleep(1)

    def close(self) -> None:
        self.end()
        for it in self.pairs:
            end(it)

    def words(self) -> list[str]:
        line = ["--serial", self.names[1][1], "--baud", "19200", "--parity", "N"]
        return ["modbus", *line, *self.registers()]

    def cuts(self, how: Spoil) -> Callable[[], None]:
        return lambda: setattr(self, "cut", how)

    def faults(self) -> list[Fault]:
        wrong = self.cuts(lambda data: data[:-1] + bytes([data[-1] ^ 1]))
        short, whole = self.cuts(lambda data: data[:-1]), self.cuts(unspoiled)
        return [
            *super().faults(),
            ("a wrong checksum", wrong, whole),
            ("an answer that is cut", short, whole),
        ]


class Text(threading.Thread):
    """An indicator that sends a frame with a status word `rate` times a second, on a pseudo terminal that socat makes."""

    def __init__(self, folder: str, rate: float) -> None:
        super().__init__(daemon=True)
        self.rate, self.counts, self.device = rate, 0, folder + ".device"
        self.line: int | None = None
        self.spoil: Spoil = unspoiled
        self.over = threading.Event()
        self.begin()
        self.start()

    def begin(self) -> None:
        own = self.device + ".own"
        self.pair = pair_of_terminals(own, self.device)
        self.line = os.open(own, os.O_RDWR | os.O_NOCTTY | os.O_NONBLOCK)

    def put(self, counts: int) -> None:
        self.counts = counts

    def frame(self) -> bytes:
        sign = "2" if self.counts < 0 else "0"
        return f"\x02*{sign} {abs(self.counts):06}000000\r".encode()

    def run(self) -> None:
        due = time.monotonic()
        while not self.over.is_set():
            with contextlib.suppress(OSError):  # it is away, or nobody reads
                if self.line is not None:
                    os.write(self.line, self.spoil(self.frame()))
            due = max(due + 1 / self.rate, time.monotonic())
            time.sleep(max(0, due - time.monotonic()))

    def end(self) -> None:
        end(self.pair)
        if self.line is not None:
            os.close(self.line)

    def close(self) -> None:
        self.over.set()
        self.join()
        self.end()

    def words(self) -> list[str]:
        return ["text", "--serial", self.device, "--baud", "9600", "--preset", "continuous"]

    def spoils(self, how: Spoil) -> Callable[[], None]:
        return lambda: setattr(self, "spoil", how)

    def faults(self) -> list[Fault]:
        spoiled: dict[str, Spoil] = {
            "no line in time": lambda frame: b"",
            "lines that are cut": lambda frame: frame[:7] + b"\r",
            "lines that lack their beginning": lambda frame: frame[6:],
            "lines whose ends are gone": lambda frame: frame[:-1],
            "lines that are doubled": lambda frame: frame[:-1] * 2 + b"\r",
            "lines that are garbled": lambda frame: frame[:6] + b"\xff" + frame[7:],
            "a status that says out of range": lambda frame: frame[:2] + b"4" + frame[3:],
        }
        ends = self.spoils(unspoiled)
        faults: list[Fault] = [(name, self.spoils(how), ends) for name, how in spoiled.items()]
        return [*faults, ("a device that went away", self.end, self.begin)]


class TextByTcp(Text):
    """An indicator over TCP. Threads of the system, which wait for long on a busy machine, pass on what is written to a pseudo terminal."""

    def begin(self) -> None:
        self.listener = socket.create_server((bridge.HOST, 0))
        threading.Thread(target=self.accept, daemon=True).start()

    def accept(self) -> None:
        self.stream, _ = self.listener.accept()
        self.stream.setsockopt(socket.IPPROTO_TCP, socket.TCP_NODELAY, 1)
        self.line = self.stream.fileno()

    def end(self) -> None:
        self.stream.close()
        self.listener.close()

    def words(self) -> list[str]:
        at = f"{bridge.HOST}:{self.listener.getsockname()[1]}"
        return ["text", "--tcp", at, "--preset", "continuous"]


class Iio:
    """A folder in the form of industrial IO."""

    CHANNEL = "in_voltage0-voltage1_raw"

    def __init__(self, folder: str) -> None:
        self.folder, self.counts = folder, 0
        self.path = os.path.join(folder, self.CHANNEL)
        self.begin()

    def begin(self) -> None:
        os.makedirs(self.folder, exist_ok=True)
        self.put(self.counts)

    def put(self, counts: int) -> None:
        self.counts = counts
        write(self.path, f"{counts}\n")

    def hang(self) -> None:
        os.remove(self.path)
        os.mkfifo(self.path)

    def close(self) -> None:
        pass

    def words(self) -> list[str]:
        return ["iio", "--folder", self.folder, "--channel", self.CHANNEL, "--bits", "24"]

    def holds(self, text: str) -> Callable[[], None]:
        return lambda: write(self.path, text)

    def faults(self) -> list[Fault]:
        again = self.begin
        return [
            ("no answer in time", self.hang, again),
            ("something that is no number", self.holds("12x4\n"), again),
            ("an empty file", self.holds(""), again),
            ("a value outside its bits", self.holds("8388608\n"), again),
            ("a device that went away", lambda: shutil.rmtree(self.folder), again),
        ]


Device = Modbus | Text | Iio
