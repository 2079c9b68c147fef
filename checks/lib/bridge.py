"""A bridge to try the service with: its converter, played on a port of this machine, and clients of the terminal and the office.

Many checks use it. It only needs python3.
"""

import os
import signal
import socket
import subprocess
import threading
import time
from collections.abc import Callable
from contextlib import suppress
from types import TracebackType
from typing import IO, Any, Protocol, Self

from checks.lib.ports import HOST as HOST
from checks.lib.ports import free_port as free_port
from checks.lib.waiting import wait_until

Answer = tuple[int, str]  # the status and the body


class HasOffice(Protocol):
    """A program with the port where it listens for requests of the office."""

    office: int


class HasTerminal(Protocol):
    """A program with the port where it listens for clients of the terminal."""

    terminal: int


def sizes_of(process: subprocess.Popen[Any]) -> tuple[int, float]:
    """Return the memory of the process in kB and its processor time in seconds."""
    with open(f"/proc/{process.pid}/stat") as it:
        fields = it.read().rpartition(")")[2].split()
    ticks = os.sysconf("SC_CLK_TCK")
    with open(f"/proc/{process.pid}/status") as it:
        kept = next((line for line in it if line.startswith("VmRSS:")), "VmRSS: 0 kB")
    return int(kept.split()[1]), (int(fields[11]) + int(fields[12])) / ticks


def kg_of(load: int) -> int:
    """Return what a load is indicated as. It is in tenths of the interval, which is 20 kg."""
    return (load + 5) // 10 * 20


def is_listening(port: int) -> bool:
    """Return True if a program listens at this port of this machine."""
    try:
        socket.create_connection((HOST, port), 1).close()
    except OSError:
        return False
    return True


def wait_until_listening(port: int, process: subprocess.Popen[Any], seconds: float = 20) -> None:
    """Wait until a program listens that was started just now. It is an error if it ends before."""

    def look() -> bool:
        if not is_listening(port):
            if process.poll() is None:
                return False
            said = process.stderr.read() if process.stderr is not None else ""
            raise SystemExit(f"{process.args!r} ended: {said.strip()}")
        return True

    wait_until(f"port {port} is listened at", look, seconds=seconds, pause=0.01)


class Closing:
    """A thing that is closed at the end of a `with` block, or of a test that entered it by `enterContext`."""

    def close(self) -> None:
        raise NotImplementedError

    def __enter__(self) -> Self:
        return self

    def __exit__(
        self,
        kind: type[BaseException] | None,
        error: BaseException | None,
        trace: TracebackType | None,
    ) -> None:
        self.close()


class Listening(Closing):
    """A device or program that is played at a port of this machine. It serves each client in a thread of its own."""

    def __init__(self, host: str = HOST) -> None:
        self.listener = socket.create_server((host, 0))
        self.port: int = self.listener.getsockname()[1]
        threading.Thread(target=self.accept, daemon=True).start()

    def accept(self) -> None:
        with suppress(OSError):  # it was closed
            while True:
                stream, _ = self.listener.accept()
                stream.setsockopt(socket.IPPROTO_TCP, socket.TCP_NODELAY, 1)
                threading.Thread(target=self.served, args=(stream,), daemon=True).start()

    def served(self, stream: socket.socket) -> None:
        with suppress(OSError):  # the client opened another
            self.serve(stream)

    def serve(self, stream: socket.socket) -> None:
        """Serve a client until it leaves."""
        raise NotImplementedError

    def close(self) -> None:
        self.listener.close()


class Converter(Closing, threading.Thread):
    """Sends lines at a pace until it is silenced. `load` returns the line of a number."""

    def __init__(
        self, rate: float = 10.0, load: Callable[[int], object] = lambda number: 0
    ) -> None:
        super().__init__(daemon=True)
        self.listener = socket.create_server((HOST, 0))
        self.port: int = self.listener.getsockname()[1]
        self.source = f"tcp:{HOST}:{self.port}"
        self.rate, self.load = rate, load
        self.sent: list[float] = []  # when each line was sent
        self.speaks = threading.Event()
        self.speaks.set()
        self.ended = threading.Event()

    def begin(self) -> None:
        if not self.is_alive():
            self.start()

    def run(self) -> None:
        with suppress(OSError):
            self.feed(self.listener.accept()[0])

    def feed(self, stream: socket.socket) -> None:
        """Send lines until the client leaves or the converter ends. It sends nothing later of a silence."""
        with stream:
            stream.setsockopt(socket.IPPROTO_TCP, socket.TCP_NODELAY, 1)
            due = time.monotonic()
            while not self.ended.is_set():
                if not self.speaks.is_set():
                    self.speaks.wait()
                    due = time.monotonic()
                line = f"{self.load(len(self.sent))}\r\n".encode()
                self.sent.append(time.monotonic())
                stream.sendall(line)
                due = max(due + 1 / self.rate, time.monotonic() - 1)
                time.sleep(max(0, due - time.monotonic()))

    def close(self) -> None:
        self.ended.set()
        self.speaks.set()


class Played(Converter):
    """Sends the load that is on the bridge now."""

    def __init__(self, rate: float = 10.0) -> None:
        super().__init__(rate, load=lambda number: self.now)
        self.now = 0

    def put(self, load: int, lines: int = 12) -> None:
        """Put a load on the bridge, and wait until several lines of it were sent, or nobody reads them any more."""
        self.now = load
        wanted = len(self.sent) + lines
        while len(self.sent) < wanted and self.is_alive():
            time.sleep(0.002)


class Lasting(Played):
    """Sends the load that is on the bridge now, to one client after the other, so that a service can be started again. It remembers each load that it sent."""

    def __init__(self, rate: float = 10.0) -> None:
        super().__init__(rate)
        self.load = self.swaying
        self.sway = 0  # how much more every second line has
        self.loads: list[int] = []  # what each line had

    def swaying(self, number: int) -> int:
        self.loads.append(self.now + self.sway * (number % 2))
        return self.loads[-1]

    def run(self) -> None:
        while not self.ended.is_set():
            super().run()

    def put(self, load: int, lines: int = 0) -> None:
        """Put a load on the bridge. A service that doesn't run takes no line of it, so nothing is waited for."""
        self.now = load

    def close(self) -> None:
        super().close()
        self.listener.shutdown(socket.SHUT_RDWR)  # wakes the thread that accepts
        self.listener.close()

    def sent_since(self, moment: float) -> list[int]:
        """Return the loads of the lines that were sent since then, but of no more than the last 400."""
        count = len(self.sent)
        newest = range(max(0, count - 400), count)
        return [self.loads[it] for it in newest if self.sent[it] > moment]


class Fed(Closing):
    """A converter that sends the loads that it is given, at once."""

    def __init__(self) -> None:
        self.listener = socket.create_server((HOST, 0))
        self.source = f"tcp:{HOST}:{self.listener.getsockname()[1]}"
        self.stream: socket.socket | None = None

    def begin(self) -> None:
        if self.stream is not None:
            return
        self.listener.settimeout(30)
        self.stream, _ = self.listener.accept()
        self.stream.setsockopt(socket.IPPROTO_TCP, socket.TCP_NODELAY, 1)

    def send(self, *loads: int) -> None:
        assert self.stream is not None  # begin accepted it
        self.stream.sendall(b"".join(b"%d\n" % load for load in loads))

    def close(self) -> None:
        assert self.stream is not None  # begin accepted it
        self.stream.close()
        self.listener.close()


class Service(Closing):
    """`weighbridge serve` over a file, with a converter that this program plays. At its end it is killed, and its converter closed."""

    def __init__(
        self,
        program: str,
        file: str,
        converter: Any,
        *options: str,
        turns: int = 1_000_000_000,
        limit: Callable[[], object] | None = None,
        errors: int | IO[Any] | None = subprocess.PIPE,
        log: str | None = None,
    ) -> None:
        """Start it. `converter` is any with a `source` and a `begin`, and may have more that a check uses. `limit` is called in the new process before the program begins; `errors` is its standard error. If `log` is given, all that it prints and reports is added to this file."""
        self.converter = converter
        self.terminal, self.office = free_port(), free_port()
        self.words = [program, "serve", "--file", file]
        self.words += ["--terminal", f"{HOST}:{self.terminal}", "--office", f"{HOST}:{self.office}"]
        self.words += ["--converter", converter.source, "--turns", str(turns), *options]
        self.limit, self.errors, self.log = limit, errors, log
        self.start()
        if isinstance(converter, Fed):
            # The service answers once it has polled its converter for a second, so all that is sent from now on is new.
            get(self, "/indication")

    def start(self) -> None:
        """Start it, or start it again on the same ports once it was killed."""
        with open(self.log or os.devnull, "ab") as log:
            self.process = subprocess.Popen(
                self.words,
                stdin=subprocess.DEVNULL,
                stdout=log if self.log else subprocess.PIPE,
                stderr=log if self.log else self.errors,
                text=True,
                preexec_fn=self.limit,
            )
        self.converter.begin()
        self.wait_for_office()

    def wait_for_office(self) -> None:
        wait_until_listening(self.office, self.process, 10)

    def indication(self) -> str:
        """Return what the office indicates. It is empty if there is no answer."""
        try:
            return (get(self, "/indication") or (0, ""))[1]
        except OSError:
            return ""

    def put(self, load: int, seconds: float = 20) -> None:
        """Puts a load on the bridge, and waits until it is indicated as stable. The interval is 20 kg."""
        self.converter.put(load, 1)
        wanted = f"STABLE G {kg_of(load):10} kg"

        def is_so(found: str) -> bool:
            return found.startswith(wanted)

        wait_until(wanted, self.indication, is_so, seconds)

    def next_vehicle(self, load: int) -> None:
        """Let the bridge be empty, and then put a load on it."""
        self.put(0)
        self.put(load)

    def kill(self) -> None:
        """End it at once, even while it is held."""
        self.process.send_signal(signal.SIGKILL)
        self.process.wait()

    def close(self) -> None:
        if self.process.poll() is None:
            self.kill()
        for it in (self.process.stdout, self.process.stderr):
            if it is not None:
                it.close()
        self.converter.close()

    def end(self) -> tuple[str, str, int]:
        """Lets the converter end, and gives what the service printed, reported and answered."""
        self.converter.close()
        out, err = self.process.communicate(timeout=20)
        return out, err, self.process.returncode


class Client(Closing):
    """A client of a port with the terminal's commands."""

    def __init__(self, port: int, timeout: float = 20) -> None:
        self.stream = socket.create_connection((HOST, port), timeout)
        self.stream.setsockopt(socket.IPPROTO_TCP, socket.TCP_NODELAY, 1)
        self.rest = b""

    def send(self, data: bytes) -> None:
        self.stream.sendall(data)

    def line(self) -> str:
        while b"\r\n" not in self.rest:
            more = self.stream.recv(4096)
            if not more:
                raise EOFError
            self.rest += more
        line, _, self.rest = self.rest.partition(b"\r\n")
        return line.decode()

    def ask(self, command: str) -> str:
        self.send(command.encode() + b"\r\n")
        return self.line()

    def close(self) -> None:
        self.stream.close()


class Terminal(Client):
    """A client of the service's terminal."""

    def __init__(self, service: HasTerminal, timeout: float = 20) -> None:
        super().__init__(service.terminal, timeout)


def printed(program: str, *words: str) -> tuple[int, str, str]:
    """Return the status of a run, and what it printed and reported."""
    it = subprocess.run([program, *words], stdin=subprocess.DEVNULL, capture_output=True, text=True)
    return it.returncode, it.stdout, it.stderr


def request_bytes(method: str, target: str, body: str | None = None) -> bytes:
    if body is None:
        return f"{method} {target} HTTP/1.1\r\nHost: x\r\n\r\n".encode()
    return f"{method} {target} HTTP/1.1\r\nHost: x\r\nContent-Length: {len(body)}\r\n\r\n{body}".encode()


def exchange_bytes(
    port: int, data: bytes, timeout: float = 60, meanwhile: Callable[[], object] = lambda: None
) -> bytes:
    """Return all bytes that the office at this port answers. A function may be called once the request is sent."""
    with socket.create_connection((HOST, port), timeout) as stream:
        stream.settimeout(timeout)
        stream.sendall(data)
        meanwhile()
        answer = b""
        while True:
            more = stream.recv(1 << 16)
            if not more:
                return answer
            answer += more


def exchange(
    service: HasOffice,
    data: bytes,
    timeout: float = 60,
    meanwhile: Callable[[], object] = lambda: None,
) -> Answer | None:
    """Return the status and the body of a request's response, or None if the connection gave none. A function may be called once the request is sent."""
    head, parted, body = exchange_bytes(service.office, data, timeout, meanwhile).partition(
        b"\r\n\r\n"
    )
    if not parted:
        return None
    return int(head.split()[1]), body.decode()


def get(service: HasOffice, target: str, timeout: float = 60) -> Answer | None:
    return exchange(service, request_bytes("GET", target), timeout)


def post(service: HasOffice, target: str, body: str = "", timeout: float = 60) -> Answer | None:
    return exchange(service, request_bytes("POST", target, body), timeout)


def weigh(service: HasOffice, form: str, seconds: float = 20, pause: float = 0) -> Answer:
    """Return the answer to a weighing, asked again until it is stored. A refusal changes nothing."""

    def ask() -> Answer:
        return post(service, "/weighings", form) or (0, "")

    def is_stored(answer: Answer) -> bool:
        return answer[0] == 201

    return wait_until(form, ask, is_stored, seconds, pause)
