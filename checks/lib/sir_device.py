"""A device on TCP that sends values without end after `SIR`, and forgets that once it is off."""

import socket
import time

from checks.lib.bridge import Listening


class SirDevice(Listening):
    def __init__(self, period: float) -> None:
        self.period, self.is_on, self.asked = period, True, 0
        super().__init__()

    def serve(self, stream: socket.socket) -> None:
        stream.settimeout(0.002)
        sends, due = False, 0.0
        while (told := self.told_by(stream)) is not None:
            self.asked += told
            sends = self.is_on and (sends or told > 0)
            if sends and due <= time.monotonic():
                due = time.monotonic() + self.period
                stream.sendall(b"S S       1234 kg\r\n")

    def told_by(self, stream: socket.socket) -> int | None:
        """Return how many questions came now, or None if the reader is gone."""
        try:
            data = stream.recv(64)
        except TimeoutError:
            return 0
        return data.count(b"SIR\r\n") if data else None
