"""A Modbus device over TCP with these registers, which a check sets, in place of a device's manual."""

import socket
import struct
from collections.abc import Mapping

from checks.lib.bridge import Listening


class RegisterModbus(Listening):
    def __init__(self, host: str, registers: Mapping[int, int]) -> None:
        self.registers = dict(registers)
        super().__init__(host)

    def serve(self, stream: socket.socket) -> None:
        while len(question := stream.recv(12, socket.MSG_WAITALL)) == 12:
            number, _, _, unit, function, first, count = struct.unpack(">HHHBBHH", question)
            values = (self.registers[at] for at in range(first, first + count))
            held = b"".join(struct.pack(">H", it) for it in values)
            self.before(question)
            size = len(held)
            head = struct.pack(">HHHBBB", number, 0, 3 + size, unit, function, size)
            stream.sendall(head + held)

    def before(self, question: bytes) -> None:
        """Do what happens before an answer."""
