"""Devices with a fault every two seconds at random, whose value shows when they held it: each is a step number times seven and three, and a step lasts
20 ms. So each line that a reader passes on shows how old it is, and whether the device held that value at all."""

import contextlib
import os
import random
import socket
import struct
import threading
import time
import tty
from collections.abc import Callable
from pathlib import Path
from typing import Protocol

from checks.lib import bridge
from checks.lib.devices import end, pair_of_terminals

STEP = 0.02  # seconds for which a value is held


class Holds(Protocol):
    """The values that a device holds."""

    def now(self) -> int:
        ...


class Held:
    """The values that a device holds, one after the other."""

    def __init__(self) -> None:
        self.begun = time.monotonic()

    def now(self) -> int:
        return int((time.monotonic() - self.begun) / STEP) * 7 + 3

    def age(self, value: int, at: float) -> float | None:
        """Return how long before this moment the value was held last, or None if it never was."""
        step, rest = divmod(value - 3, 7)
        ended = self.begun + (step + 1) * STEP
        return None if rest or step < 0 or ended - STEP > at else max(0.0, at - ended)


def send_in_pieces(stream: socket.socket, text: bytes) -> None:
    for byte in text:
        stream.sendall(bytes([byte]))
        time.sleep(0.001)


class Faulty:
    """A device with a fault of its own list, for half of each two seconds at random."""

    FAULTS: tuple[str, ...] = ()

    def __init__(self, seed: int, held: Holds | None = None) -> None:
        self.held: Holds = held or Held()
        self.fault, self.random, self.over = "", random.Random(seed), threading.Event()
        self.had = 0
        self.begin()
        threading.Thread(target=self.have_faults, daemon=True).start()

    def begin(self) -> None:
        raise NotImplementedError

    def words(self) -> list[str]:
        raise NotImplementedError

    def have_faults(self) -> None:
        while not self.over.wait(self.random.uniform(0.5, 1.5)):
            self.fault = self.random.choice(self.FAULTS)
            self.had += 1
            lasts = self.random.uniform(0.1, 1.5)
            self.over.wait(lasts)
            self.fault = ""
            self.over.wait(max(0, 1 - lasts))

    def age(self, value: int, at: float) -> float | None:
        assert isinstance(self.held, Held)  # a load that stays has no age
        return self.held.age(value, at)

    def close(self) -> None:
        self.over.set()


class FaultyTcp(Faulty, bridge.Listening):
    """A device that listens at a port. It serves a reader until that leaves, or the device is away."""

    def begin(self) -> None:
        bridge.Listening.__init__(self)
        self.at = f"{bridge.HOST}:{self.port}"

    def served(self, stream: socket.socket) -> None:
        if self.fault != "away":
            super().served(stream)
        with contextlib.suppress(OSError):
            stream.close()

    def close(self) -> None:
        Faulty.close(self)
        bridge.Listening.close(self)


class FaultyModbus(FaultyTcp):
    """A Modbus device over TCP."""

    FAULTS = (
        *("away", "late", "too late", "twice", "exchanged", "in pieces", "cut", "with more"),
        *("busy", "exception", "silent", "an old one first"),
    )

    def serve(self, stream: socket.socket) -> None:
        earlier, kept = b"", b""
        while len(question := stream.recv(12, socket.MSG_WAITALL)) == 12:
            number, _, _, unit, function, _, _ = struct.unpack(">HHHBBHH", question)
            answer = struct.pack(">HHHBBBI", number, 0, 7, unit, function, 4, self.held.now())
            self.answer(stream, answer, earlier, kept)
            if self.fault == "away":
                return
            earlier, kept = answer, kept or answer

    def answer(self, stream: socket.socket, answer: bytes, earlier: bytes, kept: bytes) -> None:
        fault, number = self.fault, int.from_bytes(answer[:2], "big")
        time.sleep({"late": 0.1, "too late": 0.5}.get(fault, 0))
        if fault == "in pieces":
            send_in_pieces(stream, answer)
        elif fault == "busy":
            for _ in range(50):
                stream.sendall(earlier or answer)
                time.sleep(0.002)
        else:
            refused = struct.pack(">HBBB", 3, answer[6], answer[7] | 0x80, 4)
            sent = {
                "away": b"",
                "silent": b"",
                "twice": answer * 2,
                "with more": answer + b"more",
                "exchanged": struct.pack(">H", (number + 1) % 65_536) + answer[2:],
                "cut": answer[:9],
                "exception": answer[:4] + refused,
                "an old one first": kept + answer,
            }
            stream.sendall(sent.get(fault, answer))

    def words(self) -> list[str]:
        return ["modbus", "--tcp", self.at, "--address", "0"]


def checked_by(frame: bytes) -> bytes:
    """Return a frame of Modbus RTU with its checksum."""
    it = 0xFFFF
    for byte in frame:
        it ^= byte
        for _ in range(8):
            it = it >> 1 ^ (0xA001 if it & 1 else 0)
    return frame + struct.pack("<H", it)


class FaultyLine(Faulty):
    """A Modbus device by RTU on a pair of pseudo terminals."""

    FAULTS = (
        *("late", "too late", "twice", "garbled", "cut", "with more", "noise before"),
        *("exception", "another unit", "silent"),
    )

    def __init__(self, seed: int, folder: str) -> None:
        self.folder = folder
        super().__init__(seed)

    def begin(self) -> None:
        os.makedirs(self.folder)
        own, self.name = (os.path.join(self.folder, it) for it in ("own", "device"))
        self.pair = pair_of_terminals(own, self.name)
        self.line = os.open(own, os.O_RDWR | os.O_NOCTTY)
        tty.setraw(self.line)
        threading.Thread(target=self.serve, daemon=True).start()

    def serve(self) -> None:
        asked = b""
        try:
            while True:
                asked = (asked + os.read(self.line, 256))[-8:]
                if len(asked) == 8 and asked[:2] == b"\x01\x03" and checked_by(asked[:6]) == asked:
                    self.answer(checked_by(struct.pack(">BBBI", 1, 3, 4, self.held.now())))
                    asked = b""
        except OSError:
            pass  # socat has ended

    def answer(self, answer: bytes) -> None:
        fault = self.fault
        time.sleep({"late": 0.1, "too late": 0.33}.get(fault, 0))
        sent = {
            "twice": answer * 2,
            "garbled": answer[:5] + bytes([answer[5] ^ 4]) + answer[6:],
            "cut": answer[:-1],
            "with more": answer + b"\x00\xff",
            "noise before": b"\xff\x00" + answer,
            "exception": checked_by(b"\x01\x83\x04"),
            "another unit": checked_by(b"\x02" + answer[1:-2]),
            "silent": b"",
        }
        os.write(self.line, sent.get(fault, answer))

    def close(self) -> None:
        super().close()
        end(self.pair)

    def words(self) -> list[str]:
        return ["modbus", "--serial", self.name, "--parity", "N", "--address", "0"]


class FaultyText(FaultyTcp):
    """An indicator that sends frames with a checksum ten times a second."""

    FAULTS: tuple[str, ...] = (
        *("away", "silent", "cut", "garbled", "twice", "no ends", "held back", "a net"),
        *("out of range", "in pieces", "busy"),
    )
    PRESET = "continuous"
    RATE = 10

    def serve(self, stream: socket.socket) -> None:
        due, back = time.monotonic(), b""
        while self.fault != "away":
            text = self.frame()
            if self.fault == "held back":
                back += text
            else:
                self.send(stream, back + text)
                back = b""
            due = max(due + 1 / self.RATE, time.monotonic())
            time.sleep(max(0, due - time.monotonic()))

    def frame(self) -> bytes:
        status = {"a net": "1", "out of range": "4"}.get(self.fault, "0")
        frame = f"\x02*{status} {self.held.now():06}000000\r".encode()
        return frame + bytes([-sum(frame) % 128])

    def send(self, stream: socket.socket, text: bytes) -> None:
        if self.fault == "in pieces":
            send_in_pieces(stream, text)
            return
        sent: dict[str, Callable[[], bytes]] = {
            "silent": lambda: b"",
            "cut": lambda: text[:8] + text[-2:],
            "garbled": lambda: text[:6] + bytes([text[6] ^ 1]) + text[7:],
            "twice": lambda: text * 2,
            "no ends": lambda: text.replace(b"\r", b""),
            "busy": lambda: os.urandom(100) + text,
        }
        stream.sendall(sent.get(self.fault, lambda: text)())

    def words(self) -> list[str]:
        return ["text", "--tcp", self.at, "--preset", self.PRESET]


class FaultySir(FaultyText):
    """An indicator that sends by MT-SICS once it is asked to."""

    FAULTS = ("away", "silent", "cut", "twice", "held back", "no value", "over", "in pieces")
    PRESET = "sir"

    def serve(self, stream: socket.socket) -> None:
        while b"SIR\r\n" not in (asked := stream.recv(64)):
            if not asked:
                return  # the reader left
        super().serve(stream)

    def frame(self) -> bytes:
        none = {"no value": b"S I\r\n", "over": b"S +\r\n"}
        return none.get(self.fault, f"S S {self.held.now():10} kg\r\n".encode())

    def send(self, stream: socket.socket, text: bytes) -> None:
        if self.fault == "cut":
            stream.sendall(text[: self.random.randrange(4, 14)] + b"\r\n")
        else:
            super().send(stream, text)


class FaultyAsked(FaultyTcp):
    """A digital load cell that sends each value on request."""

    FAULTS = ("away", "late", "too late", "silent", "twice", "cut", "in pieces")

    def serve(self, stream: socket.socket) -> None:
        asked = b""
        while more := stream.recv(64):
            asked += more
            while b"MSV?;\r\n" in asked:
                asked = asked.partition(b"MSV?;\r\n")[2]
                self.answer(stream, f"+{self.held.now():07}\r\n".encode())
                if self.fault == "away":
                    return

    def answer(self, stream: socket.socket, text: bytes) -> None:
        time.sleep({"late": 0.1, "too late": 0.33}.get(self.fault, 0))
        if self.fault == "in pieces":
            send_in_pieces(stream, text)
        else:
            sent = {"silent": b"", "twice": text * 2, "cut": text[:5] + b"\r\n"}
            stream.sendall(sent.get(self.fault, text))

    def words(self) -> list[str]:
        pattern = r"(?P<sign>[+-])(?P<value>[0-9]{7})"
        return ["text", "--tcp", self.at, "--pattern", pattern, "--ask", "MSV?;"]


class FaultyIio(Faulty):
    """A folder in the form of industrial IO."""

    FAULTS = ("away", "no number", "empty", "hangs", "out of its bits")
    CHANNEL = "in_voltage0_raw"

    def __init__(self, seed: int, folder: str) -> None:
        self.folder = folder
        self.value: int | None = None
        self.until: dict[int | None, float] = {}
        super().__init__(seed)

    def begin(self) -> None:
        os.makedirs(self.folder)
        threading.Thread(target=self.serve, daemon=True).start()

    def serve(self) -> None:
        texts = {"no number": "12x4\n", "empty": "", "out of its bits": "8388608\n"}
        while not self.over.wait(0.01):
            fault, value = self.fault, self.held.now()
            self.show(fault, texts.get(fault, f"{value}\n"))
            self.until[self.value] = time.monotonic()
            self.value = None if fault else value

    def show(self, fault: str, text: str) -> None:
        path, new = Path(self.folder, self.CHANNEL), Path(self.folder, f"{self.CHANNEL}.new")
        if fault == "away":
            path.unlink(missing_ok=True)
            return
        if fault == "hangs":
            os.mkfifo(new)
        else:
            new.write_text(text, encoding="ascii")
        new.rename(path)

    def age(self, value: int, at: float) -> float | None:
        """Return 0 while the file holds the value, until the next is written, however long this machine takes for it."""
        if value == self.value:
            return 0.0
        return max(0.0, at - self.until[value]) if value in self.until else None

    def words(self) -> list[str]:
        return ["iio", "--folder", self.folder, "--channel", self.CHANNEL, "--bits", "24"]
