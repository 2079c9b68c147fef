"""Shows that a display under `SIR` gets each of fifty values a second in order, even if it reads at half that pace.

A service runs with a converter of fifty lines a second whose load rises by one interval a line, so that each value
shows from which line it was made.

- A display that reads everything gets a value for each line, in order. No value is of a reading that is more than a
  second old, and a quarter, which a value takes on a busy machine. `TAC` and a line that isn't understood are answered among
  the values. After `SI` no more values come.
- After a disconnection repetition is off. The next terminal gets the replies to its own commands, and nothing else.
- A display that reads half of the values, for forty seconds, still gets each value, in order.
- A display that never reads is disconnected, and the next terminal is served. That one connects again until then. The
  service drops its commands with its connection after two seconds, because nothing is carried out late. All the while the
  office returns the indication, of a reading that is at most a second old. The display's socket is made small, because
  the replies that the system keeps are of use to nobody here.
"""

import os
import socket
import threading
import time
from contextlib import suppress

from checks.lib import bridge
from checks.lib.case import PROGRAM, Check
from checks.lib.program import PROGRAM as BUILT
from checks.lib.watching import OLD, ROUND, load

RATE = 50
# Within this many seconds a display that never reads is disconnected. The bytes that the system keeps for it last for 15 to 110, and then it takes 5.
# Because it sends nothing while another waits, it takes no longer than 60.
HUNG_UP = 65


def line_shown(kilograms: int, sent: int) -> int:
    """Return the newest of this many lines that shows this load."""
    return sent - 1 - ((sent - 1 - kilograms // 20) % ROUND)


class Display(bridge.Terminal):
    """A display, with what it was shown: of each line that came whether it is a value, and when it came."""

    def __init__(self, service: bridge.Service, is_small: bool = False) -> None:
        self.service = service
        self.stream = socket.socket()
        if is_small:
            self.stream.setsockopt(socket.SOL_SOCKET, socket.SO_RCVBUF, 1024)
            self.stream.setsockopt(socket.IPPROTO_TCP, socket.TCP_MAXSEG, 200)
        self.stream.settimeout(20)
        self.stream.connect((bridge.HOST, service.terminal))
        self.rest = b""
        # None where no line came for a second
        self.values: list[int | None] = []
        self.others: list[str] = []
        self.ages: list[float] = []

    def take(self) -> None:
        """Take a line."""
        text = self.line()
        if text.startswith("S D"):
            sent = self.service.converter.sent
            kilograms = int(text[4:14])
            self.ages.append(time.monotonic() - sent[line_shown(kilograms, len(sent))])
            self.values.append(kilograms // 20)
        elif text == "S I":
            self.values.append(None)
        else:
            self.others.append(text)

    def take_for(self, seconds: float, pause: float = 0.0) -> None:
        until = time.monotonic() + seconds
        while time.monotonic() < until:
            self.take()
            time.sleep(pause)

    def take_the_rest(self) -> None:
        """Take lines until none comes for a second."""
        self.stream.settimeout(1)
        with suppress(TimeoutError):
            while True:
                self.take()
        self.stream.settimeout(20)

    def gaps(self) -> int:
        """Return how often a value isn't that of the line after the one before, though no reading was lost between."""
        pairs = zip(self.values, self.values[1:])
        return sum(1 for a, b in pairs if a is not None and b is not None and b != (a + 1) % ROUND)


class Asker(threading.Thread):
    """Asks the office for the indication again and again, and keeps how old its reading was."""

    def __init__(self, service: bridge.Service) -> None:
        super().__init__(daemon=True)
        self.service, self.lost = service, 0
        self.ages: list[float] = []
        self.over = threading.Event()

    def run(self) -> None:
        sent = self.service.converter.sent
        while not self.over.is_set():
            answer = bridge.get(self.service, "/indication")
            if answer is None or answer[0] != 200 or not answer[1].startswith("MOVING G"):
                self.lost += 1
            else:
                number = line_shown(int(answer[1].split()[2]), len(sent))
                self.ages.append(time.monotonic() - sent[number])
            self.over.wait(0.1)


class ServeRepetition(Check):
    """Displays under `SIR`."""

    needs = (PROGRAM,)
    alone = True
    seconds = 130

    def setUp(self) -> None:
        file = os.path.join(self.folder(), "journal.db")
        converter = bridge.Converter(RATE, load)
        self.service = self.enterContext(
            bridge.Service(BUILT, file, converter, "--pace", str(RATE))
        )
        time.sleep(1)

    def tearDown(self) -> None:
        _, err, status = self.service.end()
        self.same("the service's end", (0, ""), (status, err))

    def display(self, is_small: bool = False) -> Display:
        return self.enterContext(Display(self.service, is_small))

    def served_within(self, seconds: float) -> Display:
        """Return a terminal that connects and asks again until it gets a reply."""
        until = time.monotonic() + seconds
        while time.monotonic() < until:
            terminal = self.display()
            try:
                terminal.send(b"I4\r\n")
                terminal.take()
                return terminal
            except (EOFError, OSError):
                terminal.close()
        self.fail(f"a display that never reads wasn't disconnected within {seconds} s")

    def test_display_that_reads_everything(self) -> None:
        display = self.display()
        display.send(b"SIR\r\n")
        display.take_for(2)
        display.send(b"TAC\r\nx\r\nSIR\r\n")
        display.take_for(2)
        display.send(b"SI\r\n")
        display.take_the_rest()
        self.holds("enough values in four seconds", len(display.values) >= 100, display.values)
        # the answer to `SI` is of the same line as the value before it
        self.holds("no gap", display.gaps() <= 1, display.values)
        self.same("no value after `SI`", display.values[-2], display.values[-1])
        self.holds("no value is too old", max(display.ages) <= OLD, max(display.ages))
        self.same("answers among the values", ["TAC A", "ES"], display.others)

    def test_after_a_disconnection(self) -> None:
        display = self.display()
        display.send(b"SIR\r\n")
        display.take_for(0.2)
        display.close()
        terminal = self.display()
        terminal.send(b"I4\r\n")
        terminal.take()
        terminal.take_the_rest()
        self.same("repetition is off", (['I4 A "WB01"'], []), (terminal.others, terminal.values))

    def test_display_that_reads_half(self) -> None:
        display = self.display(is_small=True)
        display.send(b"SIR\r\n")
        display.take_for(40, 2 / RATE)
        behind, read = max(display.ages[-20:]), len(display.values)
        display.take_for(3)
        display.send(b"@\r\n")
        display.take_the_rest()
        print(f"{read} values in 40 s, {behind:.1f} s behind then", flush=True)
        self.holds("it was behind", behind > 5, behind)
        self.same("no value is missing or out of order", 0, display.gaps())
        self.same("the others", ['I4 A "WB01"'], display.others)

    def test_display_that_never_reads(self) -> None:
        asker = Asker(self.service)
        asker.start()
        display = self.display(is_small=True)
        display.send(b"SIR\r\n")
        time.sleep(0.2)
        start = time.monotonic()
        terminal = self.served_within(HUNG_UP)
        print(f"the next terminal is served after {time.monotonic() - start:.1f} s", flush=True)
        terminal.take_the_rest()
        found = (terminal.others, terminal.values)
        self.same("the next terminal repeats nothing", (['I4 A "WB01"'], []), found)
        asker.over.set()
        asker.join(60)
        self.same("indications that were lost meanwhile", 0, asker.lost)
        self.holds("none was too old", max(asker.ages) <= OLD, max(asker.ages))
