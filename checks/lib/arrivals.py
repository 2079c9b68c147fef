"""When the system had a request for a service, as /proc/net/tcp shows it. It needs Linux and python3.

A client can believe that it is connected before the service's system has the connection. So the age of a request that the service can know begins
later than the time at which its client sent it."""

import threading
import time

LOOK = 0.02  # seconds between two polls
ESTABLISHED, SYN_SENT, SYN_RECEIVED = "01", "02", "03"
FIN_WAIT, CLOSE_WAIT, LISTENS = "04", "08", "0A"


class Arrivals(threading.Thread):
    """Notes, for each connection to a port of this machine, when a poll first found a byte in its socket, or that the service had accepted it."""

    def __init__(self, port: int) -> None:
        super().__init__(daemon=True)
        self.own = f"0100007F:{port:04X}"
        self.came: dict[int, float] = {}  # by the client's port
        self.waiting = 0  # connections in the listener's queue at the last poll
        self.sockets = 0  # of both sides before their end, at the last poll
        self.polled = threading.Event()
        self.over = threading.Event()
        self.start()

    def run(self) -> None:
        while not self.over.is_set():
            self.poll()
            self.polled.set()
            time.sleep(LOOK)

    def poll(self) -> None:
        now, sockets = time.monotonic(), 0
        with open("/proc/net/tcp") as it:
            rows = [line.split()[1:10] for line in it]
        for own, other, state, queues, *_, inode in rows:
            # a connection of which only the client's system knows comes into the queue later
            sockets += other == self.own and state in (ESTABLISHED, SYN_SENT, FIN_WAIT)
            if own != self.own:
                continue
            held = int(queues.partition(":")[2], 16)
            if state == LISTENS:
                self.waiting = held
            elif state in (SYN_RECEIVED, ESTABLISHED, CLOSE_WAIT):
                sockets += 1
                if state != SYN_RECEIVED and (held or inode != "0"):
                    self.came.setdefault(int(other.partition(":")[2], 16), now)
        self.sockets = sockets

    def since(self, port: int, sent: float) -> float:
        """Returns when the system had the request that the client at this port sent. A request that the service answered between two polls had no delay."""
        return max(sent, self.came.get(port, sent))

    def next_poll(self) -> None:
        self.polled.clear()
        self.polled.wait(10)

    def close(self) -> None:
        self.over.set()
        self.join()
