"""A network between a browser and a program of this machine, that can be slow, or gone. It needs only python3."""

import queue
import socket
import threading
import time
from contextlib import suppress

from checks.lib.bridge import HOST, Closing

Way = queue.Queue[tuple[float, bytes]]  # when to pass the bytes, and the bytes


class Network(Closing, threading.Thread):
    """Forwards what comes to its port, `delay` seconds later in each direction, and no faster than `speed` bytes a second. While it isn't there,
    each connection stands still as on a pulled cable, and a new one gets no byte."""

    def __init__(self, to: int) -> None:
        super().__init__(daemon=True)
        self.to, self.delay, self.speed = to, 0.0, 1e9
        self.is_there = threading.Event()
        self.is_there.set()
        self.listener = socket.create_server((HOST, 0))
        self.port = self.listener.getsockname()[1]
        self.start()

    def run(self) -> None:
        while True:
            try:
                client, _ = self.listener.accept()
            except OSError:
                return  # it was closed
            threading.Thread(target=self.connect, args=(client,), daemon=True).start()

    def close(self) -> None:
        self.is_there.set()
        self.listener.shutdown(socket.SHUT_RDWR)  # wakes the thread that accepts
        self.listener.close()

    def connect(self, client: socket.socket) -> None:
        self.is_there.wait()
        try:
            server = socket.create_connection((HOST, self.to), 10)
        except OSError:
            client.close()
            return
        server.settimeout(None)
        for here, there in ((client, server), (server, client)):
            way: Way = queue.Queue()
            threading.Thread(target=self.take, args=(here, way), daemon=True).start()
            threading.Thread(target=self.give, args=(there, way, here), daemon=True).start()

    def take(self, stream: socket.socket, way: Way) -> None:
        free_at = 0.0
        with suppress(OSError):
            while data := stream.recv(2048):
                free_at = max(free_at, time.monotonic()) + len(data) / self.speed
                way.put((free_at + self.delay, data))
        way.put((time.monotonic() + self.delay, b""))

    def give(self, stream: socket.socket, way: Way, other: socket.socket) -> None:
        with suppress(OSError):
            while True:
                due, data = way.get()
                time.sleep(max(0.0, due - time.monotonic()))
                self.is_there.wait()
                if not data:
                    break
                stream.sendall(data)
        for it in (stream, other):
            with suppress(OSError):
                it.shutdown(socket.SHUT_RDWR)
