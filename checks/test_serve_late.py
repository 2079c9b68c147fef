"""Shows that the service carries out no command late, even if it comes behind another terminal, a stopped process, a thousand
silent connections or too many requests.

- A `TA` and a `Z` of clients that waited behind another terminal and left aren't carried out when that one leaves. A
  client that waits is closed after two seconds, and sees it. A command that waited less is carried out.
- Four terminals that send nothing wait, and are served one after the other. A fifth is closed.
- If another terminal waits, a terminal that sends nothing for a minute is disconnected, even a display under `SIR`. If
  none waits, it stays.
- A process that was stopped for three seconds drops what the terminal sent meanwhile, and after six what clients
  requested of the office.
- Behind a thousand silent connections a weighing is stored within two seconds.
- Of more requests at once than five seconds of turns answer, each is answered or closed, and none later than it may be.
  A weighing at their end, whose client gave up, is never stored. One whose client was closed for its age, and sends the
  same key again, is stored once. At fifty turns a second, five seconds of turns answer more requests than the
  listener's queue holds, so there the process is stopped for 4.8 seconds first.

The kernel's queue of a listener holds 129 connections, of which the service accepts one for each that it answers. If
the queue is full, the kernel drops what would complete another connection. The client's system may count that
connection as made, and the client sends its request. The kernel drops this too, and the client's system sends it again
after growing pauses. So does the system of a silent client that has left, and its connection takes a place in the queue
seconds later. The service can't know of a request before it is in the queue. So this check counts the age of a request
from when /proc/net/tcp shows its first byte in the service's socket.
"""

import contextlib
import resource
import socket
import time
from concurrent.futures import ThreadPoolExecutor

from checks.lib import bridge
from checks.lib.arrivals import Arrivals
from checks.lib.case import PROGRAM, Check
from checks.lib.counter import Meanwhile, held
from checks.lib.program import PROGRAM as BUILT
from checks.lib.showing import becomes, same

# A turn, and what a busy machine adds.
SLACK = 1.5
LATE_COMMAND, LATE_REQUEST, IDLE = 2.0, 5.0, 60.0
# A listener's queue is full once it holds one connection more than this.
LISTENER = 128
# Requests that are sent before the weighings behind them: fewer than the queue holds.
BEFORE = 100
# Seconds for which the process stands still if five seconds of turns answer more requests than the queue holds.
STILL = 4.8
LOADED = "S S      18340 kg"


def post(service: bridge.Service, target: str, body: str) -> int | None:
    """Return the status of a request's answer."""
    answer = bridge.post(service, target, body)
    return answer and answer[0]


def show_entries(what: str, service: bridge.Service, count: int) -> None:
    same(what, (200, f"SOUND {count}\n"), bridge.get(service, "/check"))


def connected(port: int) -> socket.socket:
    return socket.create_connection((bridge.HOST, port), 20)


def left(port: int, data: bytes) -> None:
    """Connect a client that sends this, and leaves at once."""
    with connected(port) as stream:
        stream.sendall(data)


def until_closed(stream: socket.socket, seconds: float = 20.0) -> tuple[float | None, bytes]:
    """Return how long the other side needs to close the connection, and what it sent before. Return None if it doesn't within this many seconds."""
    began, got = time.monotonic(), b""
    stream.settimeout(seconds)
    try:
        while more := stream.recv(4096):
            got += more
    except ConnectionResetError:
        pass
    except TimeoutError:
        return None, got
    return time.monotonic() - began, got


def answered(
    port: int, data: bytes, sent: list[bytes], arrivals: Arrivals | None = None
) -> tuple[float, int]:
    """Return for how many seconds a request was there for the service until it was answered or closed, and the status, which is 0 if it was closed.
    Note in `sent` that it was sent."""
    with connected(port) as stream:
        client, began = stream.getsockname()[1], time.monotonic()
        stream.sendall(data)
        sent.append(data)
        _, got = until_closed(stream, 60)
        now = time.monotonic()
        since = arrivals.since(client, began) if arrivals else began
        return now - since, int(got.split()[1]) if got.startswith(b"HTTP/1.1 ") else 0


def show_waiting_commands(service: bridge.Service, name: str) -> None:
    """Commands behind another terminal."""
    service.put(200)
    first = bridge.Terminal(service)
    same(f"{name}: the first terminal", 'I4 A "WB01"', first.ask("I4"))
    left(service.terminal, b"TA 9000 kg\r\n")
    left(service.terminal, b"Z\r\n")
    waiting = connected(service.terminal)
    waiting.sendall(b"TA 9000 kg\r\n")
    took, got = until_closed(waiting)
    same(f"{name}: a command that waits is closed without a reply", b"", got)
    is_in_time = took is not None and LATE_COMMAND - 0.3 < took < LATE_COMMAND + SLACK
    same(f"{name}: after two seconds", True, is_in_time)
    first.close()
    terminal = bridge.Terminal(service)
    replies = [terminal.ask("TA"), terminal.ask("SI")]
    what = f"{name}: and isn't carried out, nor are those of clients that left"
    same(what, ["TA A          0 kg", "S S        400 kg"], replies)
    behind = bridge.Terminal(service)
    behind.send(b"TA 9000 kg\r\n")
    terminal.close()
    same(f"{name}: what waited less is carried out", "TA A       9000 kg", behind.line())
    same(f"{name}: and cleared", "TAC A", behind.ask("TAC"))
    behind.close()


def show_four(service: bridge.Service, name: str) -> None:
    """Terminals that say nothing wait."""
    first = bridge.Terminal(service)
    first.ask("I4")
    waiting = [connected(service.terminal) for _ in range(4)]
    time.sleep(0.3)
    fifth = connected(service.terminal)
    took, _ = until_closed(fifth)
    same(f"{name}: a fifth that waits is closed at once", True, took is not None and took < SLACK)
    time.sleep(LATE_COMMAND + 1)
    first.close()
    for stream in waiting:
        time.sleep(0.3)
        stream.sendall(b"I4\r\n")
        stream.settimeout(5)
        same(f"{name}: one that waited is served", b'I4 A "WB01"\r\n', stream.recv(4096))
        stream.close()


def show_idle(service: bridge.Service, name: str, command: bytes) -> bridge.Terminal:
    """Show that a terminal that holds its place and sends nothing more gives way after a minute."""
    idle = connected(service.terminal)
    idle.sendall(command)
    time.sleep(0.5)
    waiting = bridge.Terminal(service)
    took, _ = until_closed(idle, IDLE + 10)
    is_in_time = took is not None and IDLE - 1 < took < IDLE + SLACK
    what = f"{name}: after {command!r} it is disconnected after a minute for another"
    same(what, True, is_in_time)
    same(f"{name}: which is served", 'I4 A "WB01"', waiting.ask("I4"))
    return waiting


def show_alone(name: str, terminal: bridge.Terminal) -> None:
    """Show that a terminal stays if nobody waits for it."""
    time.sleep(IDLE + 3)
    what = f"{name}: without another it stays longer than a minute"
    same(what, 'I4 A "WB01"', terminal.ask("I4"))
    terminal.close()


def show_stopped(service: bridge.Service, name: str) -> None:
    """Stop the process while something comes."""
    service.next_vehicle(9170)
    weighing, void = "key=K1&kind=first&plate=AB-12", "key=K2&plate=AB-12"
    same(f"{name}: a weighing", 201, post(service, "/weighings", weighing))
    terminal = bridge.Terminal(service)
    same(f"{name}: the terminal before", LOADED, terminal.ask("SI"))
    with held(service.process):
        terminal.send(b"TA 9000 kg\r\n")
        time.sleep(3)
    what = f"{name}: stopped for three seconds, the terminal is closed without a reply"
    same(what, b"", until_closed(terminal.stream)[1])
    with bridge.Terminal(service) as terminal:
        same(f"{name}: and the tare isn't set", "TA A          0 kg", terminal.ask("TA"))
    with held(service.process):
        office = connected(service.office)
        office.sendall(bridge.request_bytes("POST", "/voids", void))
        time.sleep(6)
    what = f"{name}: stopped for six seconds, a void is closed without an answer"
    same(what, b"", until_closed(office)[1])
    show_entries(f"{name}: and isn't stored", service, 1)
    same(f"{name}: sent again it is", 201, post(service, "/voids", void))


def show_silent(service: bridge.Service, name: str) -> None:
    """Show that a weighing behind a thousand silent connections is stored."""
    service.next_vehicle(9170)
    silent = []
    for _ in range(1000):
        stream = socket.socket()
        stream.setblocking(False)
        stream.connect_ex((bridge.HOST, service.office))
        silent.append(stream)
    weighing = bridge.request_bytes("POST", "/weighings", "key=K3&kind=first&plate=CD-34")
    took, status = answered(service.office, weighing, [])
    print(f"{name}: behind a thousand silent connections it took {took:.2f} s", flush=True)
    same(f"{name}: the weighing is stored", 201, status)
    same(f"{name}: in time", True, took < LATE_COMMAND + SLACK)
    for stream in silent:
        stream.close()


def show_many(service: bridge.Service, rate: float, name: str) -> None:
    """More requests at once than turns of five seconds answer, and weighings behind them."""
    service.next_vehicle(4070)
    arrivals = Arrivals(service.office)
    becomes(f"{name}: no connection is left of those before", 0, lambda: unanswered(arrivals), 60)
    count = int(rate * LATE_REQUEST * 1.4)
    sent: list[bytes] = []
    look = bridge.request_bytes("GET", "/indication")
    late, again = (f"key={key}&kind=second&plate=CD-34" for key in ("K4", "K5"))

    def begin(number: int) -> list[Meanwhile]:
        return [Meanwhile(answered, service.office, look, sent, arrivals) for _ in range(number)]

    stands_still = count > LISTENER
    until = time.monotonic() + STILL
    with held(service.process) if stands_still else contextlib.nullcontext():
        asking = begin(min(count, BEFORE))
        are_sent(name, sent, len(asking))
        left(service.office, bridge.request_bytes("POST", "/weighings", late))
        weighing = bridge.request_bytes("POST", "/weighings", again)
        behind = Meanwhile(answered, service.office, weighing, sent)
        are_sent(name, sent, len(asking) + 1)
        asking += begin(count - len(asking))
        if stands_still:
            what = f"{name}: the listener's queue is full"
            becomes(what, True, lambda: arrivals.waiting > LISTENER, 5)
            time.sleep(max(0, until - time.monotonic()))
    _, status = behind.get()
    found = [it.get() for it in asking]
    arrivals.close()
    tell_many(name, count, found)
    same(f"{name}: a weighing behind them is closed", 0, status)
    show_entries(f"{name}: no weighing behind them is stored", service, 3)
    same(f"{name}: the same key again is", 201, post(service, "/weighings", again))
    same(f"{name}: and again, it is answered", 201, post(service, "/weighings", again))
    show_entries(f"{name}: as one entry", service, 4)


def are_sent(name: str, sent: list[bytes], count: int) -> None:
    becomes(f"{name}: {count} requests are sent", True, lambda: len(sent) >= count)


def unanswered(arrivals: Arrivals) -> int:
    """Return the number of connections in the listener's queue, and of sockets of the service and its clients."""
    arrivals.next_poll()
    return arrivals.waiting + arrivals.sockets


def tell_many(name: str, count: int, found: list[tuple[float, int]]) -> None:
    """Judge the answers to the requests at once."""
    kept = [took for took, status in found if status == 200]
    closed = [took for took, status in found if status == 0]
    oldest = max(kept, default=0.0)
    print(
        f"{name}: of {count} at once {len(kept)} are answered, at most {oldest:.1f} s old, and {len(closed)} closed",
        flush=True,
    )
    same(f"{name}: each is answered or closed", count, len(kept) + len(closed))
    same(f"{name}: some are answered", True, len(kept) > 0)
    same(f"{name}: none is answered late", True, oldest < LATE_REQUEST + SLACK)
    same(f"{name}: some are closed", True, len(closed) > 0)


def start(folder: str, rate: float) -> bridge.Service:
    """Start a service with this rate of turns and an empty bridge."""
    pace = f"{rate:.0f}"
    service = bridge.Service(BUILT, f"{folder}/{pace}.db", bridge.Played(rate), "--pace", pace)
    service.put(0)
    return service


class ServeLate(Check):
    """Commands and requests that wait, at ten turns a second."""

    needs = (PROGRAM,)
    alone = True
    seconds = 60
    rate = 10.0

    def test_commands_and_requests(self) -> None:
        most = max(4096, resource.getrlimit(resource.RLIMIT_NOFILE)[1])
        resource.setrlimit(resource.RLIMIT_NOFILE, (4096, most))
        name = f"{self.rate:.0f} a second"
        service = self.enterContext(start(self.folder(), self.rate))
        show_waiting_commands(service, name)
        show_four(service, name)
        show_stopped(service, name)
        show_silent(service, name)
        show_many(service, self.rate, name)
        _, err, status = service.end()
        self.same("the service's end", (0, ""), (status, err))


class ServeLateAtFifty(ServeLate):
    """The same at fifty turns a second."""

    rate = 50.0


class IdleTerminals(Check):
    """Terminals that hold their place for a minute. Both rates run at once, because almost all of it is waiting."""

    needs = (PROGRAM,)
    alone = True
    seconds = 190

    def show(self, rate: float) -> tuple[int, str]:
        name = f"{rate:.0f} a second"
        with start(self.folder(), rate) as service:
            show_idle(service, name, b"I4\r\n").close()
            show_alone(name, show_idle(service, name, b"SIR\r\n"))
            _, err, status = service.end()
        return status, err

    def test_idle_terminals(self) -> None:
        with ThreadPoolExecutor(2) as pool:
            for rate, end in zip((10, 50), pool.map(self.show, (10.0, 50.0))):
                self.same(f"{rate} a second: the service's end", (0, ""), end)
