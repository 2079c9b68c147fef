"""A Modbus server over TCP whose answers come twice, late, with another question's number, in pieces, with bytes behind
them, or among others that nobody asked for. The value of its registers is how many milliseconds it has been there, so that a reading shows how old it is."""

import socket
import struct
import threading
import time
from collections.abc import Callable
from contextlib import suppress

from checks.lib.bridge import Listening


class OddModbus(Listening):
    """A server that answers by a function, which gets the stream, the number of the question, and the rest of the answer."""

    def __init__(self, answers: "Answers") -> None:
        self.answers, self.asked, self.begun = answers, 0, time.monotonic()
        super().__init__()

    def milliseconds(self) -> int:
        return int((time.monotonic() - self.begun) * 1000)

    def serve(self, stream: socket.socket) -> None:
        while len(question := stream.recv(12, socket.MSG_WAITALL)) == 12:
            number, _, _, unit, function, _, _ = struct.unpack(">HHHBBHH", question)
            self.asked += 1
            rest = struct.pack(">HHBBBI", 0, 7, unit, function, 4, self.milliseconds())
            self.answers(self, stream, number, rest)


Answers = Callable[[OddModbus, socket.socket, int, bytes], None]


def numbered(number: int, rest: bytes) -> bytes:
    return struct.pack(">H", number % 65_536) + rest


def twice(_server: OddModbus, stream: socket.socket, number: int, rest: bytes) -> None:
    stream.sendall(numbered(number, rest) * 2)


def once_many_times(server: OddModbus, stream: socket.socket, number: int, rest: bytes) -> None:
    stream.sendall(numbered(number, rest) * (21 if server.asked == 5 else 1))


def late_again(_server: OddModbus, stream: socket.socket, number: int, rest: bytes) -> None:
    """Answer a second time just when the next question comes, ten times a second."""
    stream.sendall(numbered(number, rest))
    threading.Timer(0.097, send_late, (stream, numbered(number, rest))).start()


def send_late(stream: socket.socket, answer: bytes) -> None:
    with suppress(OSError):  # the reader opened another
        stream.sendall(answer)


def foreign(server: OddModbus, stream: socket.socket, number: int, rest: bytes) -> None:
    """Give each fourth answer another question's number."""
    stream.sendall(numbered(number + (7 if server.asked % 4 == 0 else 0), rest))


def in_pieces(_server: OddModbus, stream: socket.socket, number: int, rest: bytes) -> None:
    for byte in numbered(number, rest):
        stream.sendall(bytes([byte]))
        time.sleep(0.002)


def with_more(_server: OddModbus, stream: socket.socket, number: int, rest: bytes) -> None:
    stream.sendall(numbered(number, rest) + b"more")


def late(_server: OddModbus, stream: socket.socket, number: int, rest: bytes) -> None:
    """Answer late, but still in time."""
    time.sleep(0.1)
    stream.sendall(numbered(number, rest))


def too_late(_server: OddModbus, stream: socket.socket, number: int, rest: bytes) -> None:
    time.sleep(0.35)
    stream.sendall(numbered(number, rest))


def exchanged(server: OddModbus, stream: socket.socket, number: int, rest: bytes) -> None:
    """Exchange the numbers of two questions."""
    stream.sendall(numbered(number + (1 if server.asked % 2 else -1), rest))


def keeping_busy(_server: OddModbus, stream: socket.socket, number: int, rest: bytes) -> None:
    """Keep the line busy with old answers until the next question comes."""
    for _ in range(21):
        stream.sendall(numbered(number, rest))
        time.sleep(0.004)


def without_end(server: OddModbus, stream: socket.socket, number: int, rest: bytes) -> None:
    """Answer the fifth question so often that there is always another answer."""
    stream.sendall(numbered(number, rest))
    until = time.monotonic() + (0.5 if server.asked == 5 else 0)
    while time.monotonic() < until:
        stream.sendall(numbered(number, rest) * 100)
