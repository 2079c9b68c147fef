"""A gateway between a client and the office that cuts connections, for checks of what a client does then. It only needs python3."""

import socket
import threading
from collections.abc import Callable, Iterable

from checks.lib.bridge import HOST, exchange_bytes


Step = Callable[["Gateway", bytes], bytes]


class Gateway(threading.Thread):
    """Does with one connection after the other what its plan says, and passes whole answers on once the plan is at its end.

    A step of the plan is a function of the request's bytes and of the gateway, which gives the bytes that the client gets.
    """

    def __init__(self, office: int, plan: Iterable[Step] = ()) -> None:
        super().__init__(daemon=True)
        self.listener = socket.create_server((HOST, 0))
        self.port = self.listener.getsockname()[1]
        self.office = office
        self.plan = list(plan)
        self.seen: list[bytes] = []  # the request of each connection

    def run(self) -> None:
        while True:
            stream, _ = self.listener.accept()
            with stream:
                request = whole_request(stream)
                self.seen.append(request)
                step = self.plan.pop(0) if self.plan else whole
                stream.sendall(step(self, request))


def whole_request(stream: socket.socket) -> bytes:
    """Return the bytes of a POST with a length."""
    data = b""
    while b"\r\n\r\n" not in data:
        data += stream.recv(4096)
    head, _, body = data.partition(b"\r\n\r\n")
    fields = (line.lower().partition(b":") for line in head.split(b"\r\n"))
    length = next(int(value) for name, _, value in fields if name == b"content-length")
    while len(body) < length:
        body += stream.recv(4096)
    return head + b"\r\n\r\n" + body


def whole(gateway: Gateway, request: bytes) -> bytes:
    return exchange_bytes(gateway.office, request)


def unheard(gateway: Gateway, request: bytes) -> bytes:
    """Keep the request from the office, and each byte from the client."""
    return b""


def cut(at: int) -> Step:
    """Send the client the first bytes of the office's answer, or all but the last if the number is negative."""
    return lambda gateway, request: whole(gateway, request)[:at]


def unavailable(status: object, text: str = "") -> Step:
    """Answer for the gateway itself, with a text that the request didn't get from the office."""
    head = f"HTTP/1.1 {status} Nothing\r\nContent-Length: {len(text)}\r\nConnection: close\r\n\r\n"
    return lambda gateway, request: (head + text).encode()


def instead(status: object, text: str) -> Step:
    """Let the office have the whole request, and answer this in place of its response."""

    def answer(gateway: Gateway, request: bytes) -> bytes:
        whole(gateway, request)
        return unavailable(status, text)(gateway, request)

    return answer
