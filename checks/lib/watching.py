"""A terminal that asks for the weight again and again, and sees how old the reading behind each reply is."""

import threading
import time

from checks.lib import bridge

# How old a reading may be whose reply comes in: a second, and what a reply takes on a busy machine.
OLD = 1.25

# The loads, in intervals, after which they begin from the start.
ROUND = 2_900


def load(number: int) -> int:
    """Return the tenths of line `number`. Each line has one interval more, so that a reply shows of which line it was made."""
    return 10 * (number % ROUND)


class Watch(threading.Thread):
    """Asks `SI` again and again, and keeps how long each reply took, how old its reading was, and how many there were of each kind. Where its connection
    is closed, since what it asked waited too long, it connects and asks again."""

    def __init__(self, service: bridge.Service, pause: float = 0.03) -> None:
        super().__init__(daemon=True)
        self.service, self.pause = service, pause
        self.took: list[float] = []
        self.aged: list[float] = []
        self.kinds: dict[str, int] = {}
        self.closed = 0
        self.over = threading.Event()

    def run(self) -> None:
        self.terminal = bridge.Terminal(self.service, 60)
        sent = self.service.converter.sent
        while not self.over.is_set():
            asked = time.monotonic()
            reply = self.reply()
            now = time.monotonic()
            self.took.append(now - asked)
            self.kinds[reply[:3]] = self.kinds.get(reply[:3], 0) + 1
            if reply.startswith("S D"):
                shown = int(reply[4:14]) // 20
                count = len(sent)
                # the newest line that shows this
                number = count - 1 - ((count - 1 - shown) % ROUND)
                self.aged.append(now - sent[number])
            time.sleep(self.pause)
        self.terminal.close()

    def reply(self) -> str:
        while True:
            try:
                return self.terminal.ask("SI")
            except (EOFError, ConnectionError):
                self.closed += 1
                self.terminal.close()
                self.terminal = bridge.Terminal(self.service, 60)
