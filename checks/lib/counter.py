"""A bridge with a counter: a service and the counter's program, which can be killed, held and started again on the same ports, and its clients."""

import json
import re
import shutil
import signal
import socket
import subprocess
import tempfile
import threading
import time
import urllib.parse
from collections.abc import Callable, Iterable, Iterator, Mapping
from contextlib import contextmanager
from typing import Any, Self

from checks.lib import bridge
from checks.lib.bridge import HOST, Closing, Lasting, Service, free_port, wait_until_listening
from checks.lib.program import PROGRAM as BUILT
from checks.lib.waiting import wait_until

from checks import TOP

COUNTER = str(TOP / "counter" / "weighbridge-counter")
NO_TARE = "TA A          0 kg"


class Bridge(Closing):
    """A service and a counter over a converter. At the end both are killed, and a folder of its own is removed."""

    def __init__(
        self,
        pace: float = 10,
        settings: str = "",
        folder: str | None = None,
        ports: Iterable[str] = ("till", "other", "display"),
        program: str = BUILT,
        capacity: int = 100_000,
    ) -> None:
        """Start the service, and write the setup of the counter, to which `settings` are added."""
        self.is_own_folder = folder is None
        self.folder = folder or tempfile.mkdtemp(prefix="counter-")
        self.pace, self.program, self.executable = pace, program, COUNTER
        self.converter = Lasting(pace)
        self.service = Service(
            program,
            f"{self.folder}/journal.db",
            self.converter,
            *("--pace", str(pace), "--capacity", str(capacity)),
            log=f"{self.folder}/service.log",
        )
        self.terminal, self.office = self.service.terminal, self.service.office
        self.http = free_port()
        self.ports = {name: free_port() for name in ports}
        self.counter: subprocess.Popen[bytes] | None = None
        self.setup = f"{self.folder}/counter.toml"
        with open(self.setup, "w", encoding="utf-8") as file:
            file.write(
                f'state = "{self.folder}/state"\nlisten = "{HOST}:{self.http}"\n'
                f'terminal = "{HOST}:{self.terminal}"\noffice = "{HOST}:{self.office}"\n'
                f'zone = "Europe/Berlin"\ncompany = "Kieswerk Wellum"\n{settings}'
            )
            for name, port in self.ports.items():
                may = "read" if name == "display" else "change"
                file.write(f'[[port]]\nname = "{name}"\nlisten = "{HOST}:{port}"\nmay = "{may}"\n')

    # ---- the service

    def start_service(self) -> None:
        self.service.start()

    def kill_service(self) -> None:
        self.service.kill()

    # ---- the counter

    @property
    def process(self) -> subprocess.Popen[bytes]:
        """Returns the counter's process, once it was started."""
        assert self.counter is not None
        return self.counter

    def start_counter(self, is_waited_for: bool = True) -> Self:
        with open(f"{self.folder}/counter.log", "ab") as log:
            self.counter = subprocess.Popen(
                [self.executable, self.setup], stdin=subprocess.DEVNULL, stdout=log, stderr=log
            )
        wait_until_listening(self.http, self.counter)
        if is_waited_for:
            self.wait_until_up()
        return self

    def wait_until_up(self) -> None:
        """Wait until the counter has the terminal, and no tare of a weighing is left."""

        def is_up(state: Any) -> bool:
            has_tare = state["tare"] is not None and not state["tare_left"]
            return bool(state["link"] == "up" and has_tare)

        wait_until("the counter is up", self.state, is_up, 15)

    def kill_counter(self) -> None:
        self.process.kill()
        self.process.wait()

    def restart_counter(self) -> None:
        self.kill_counter()
        self.start_counter()

    def close(self) -> None:
        if self.counter is not None:
            self.kill_counter()
        self.service.close()
        if self.is_own_folder:
            shutil.rmtree(self.folder, ignore_errors=True)

    # ---- asking

    def ask(
        self,
        method: str,
        target: str,
        form: Mapping[str, object] | None = None,
        port: int | None = None,
        within: float = 20,
        body: str | None = None,
        **fields: str,
    ) -> tuple[int, str, dict[str, str]]:
        """Return the status, the body and the fields of an answer. The status is 0 if there was none."""
        if body is None:
            body = urllib.parse.urlencode(form) if form is not None else None
        length = len(body.encode()) if body is not None else 0 if method == "POST" else None
        head = {"Host": f"{HOST}:{self.http}", **fields, "Connection": "close"}
        if length is not None:
            head["Content-Length"] = str(length)
        lines = [f"{name.replace('_', '-')}: {value}" for name, value in head.items()]
        request = "\r\n".join([f"{method} {target} HTTP/1.1", *lines, "", body or ""])
        try:
            data = bridge.exchange_bytes(port or self.http, request.encode(), within)
        except OSError:
            return 0, "", {}
        top, parted, text = data.decode("utf-8", "replace").partition("\r\n\r\n")
        lines = top.split("\r\n")
        found = {name.lower(): value for name, _, value in (it.partition(": ") for it in lines[1:])}
        if not parted or len(text.encode()) < int(found.get("content-length", 0)):
            return 0, "", {}
        return int(lines[0].split()[1]), text, found

    def json(self, method: str, target: str, **how: Any) -> Any:
        return json.loads(self.ask(method, target, **how)[1])

    def events(self, seconds: float) -> list[tuple[str, Any]]:
        """Return the events of a stream in `seconds`, each with its name."""
        found, until = b"", time.monotonic() + seconds
        with socket.create_connection((HOST, self.http), 5) as stream:
            stream.sendall(f"GET /events HTTP/1.1\r\nHost: {HOST}:{self.http}\r\n\r\n".encode())
            stream.settimeout(0.2)
            while time.monotonic() < until:
                try:
                    found += stream.recv(65536)
                except TimeoutError:
                    pass
        return [
            (name, json.loads(text))
            for name, text in re.findall(r"event: (\w+)\ndata: (.*)\n\n", found.decode())
        ]

    def event(self, name: str) -> Any:
        """Return the first event of this name that a new stream gets within a second."""
        return next(it for found, it in self.events(1.0) if found == name)

    def health(self) -> Any:
        return self.json("GET", "/health")

    def state(self) -> Any:
        return self.health()["state"]

    def metric(self, name: str) -> int:
        """Return a figure of /metrics that has this name and no labels."""
        found = re.search(
            rf"^weighbridge_counter_{name} (-?\d+)\.0$", self.ask("GET", "/metrics")[1], re.M
        )
        assert found is not None, name
        return int(found[1])

    def weigh(
        self,
        key: str,
        kind: str,
        plate: str,
        tare: object = None,
        port: int | None = None,
        within: float = 20,
    ) -> tuple[int, str]:
        form: dict[str, object] = {"key": key, "kind": kind, "plate": plate}
        form |= {"tare": tare} if tare else {}
        return self.ask("POST", "/weighings", form, port, within)[:2]

    def weigh_next(self, load: int, *weighing: Any, **more: Any) -> tuple[int, str]:
        """Let the next vehicle drive on, and weigh it as `weigh` does."""
        self.next_vehicle(load)
        return self.weigh(*weighing, **more)

    def keep_tare(self, plate: str, kg: int, by: str = "") -> int:
        """Keep a tare as this user, and return the status of the answer."""
        fields: Any = {"X_Remote_User": by} if by else {}
        return self.ask("PUT", f"/tares/{plate}", body=f'{{"kg": {kg}}}', **fields)[0]

    def entries(self) -> list[list[str]]:
        """Return the rows of the journal, as lists of fields."""
        text = self.ask("GET", "/journal.csv", port=self.office)[1]
        return [it.split(",") for it in text.strip().split("\n")[1:]]

    def weighings(self) -> list[tuple[str, str]]:
        """Return kind and plate of each entry."""
        return [(it[2], it[3]) for it in self.entries()]

    def has_key(self, key: str) -> bool:
        return any(it[1] == key for it in self.entries())

    def is_sound(self) -> bool:
        """Return True if the office finds the journal in order."""
        return self.ask("GET", "/check", port=self.office)[1].startswith("SOUND")

    # ---- the bridge and its tills

    def put(self, load: int, seconds: float = 10) -> None:
        """Put a load on the bridge, and wait until it is indicated as stable."""
        self.service.put(load, seconds)

    def next_vehicle(self, load: int) -> None:
        self.put(0)
        self.put(load)

    def tare(self) -> str | None:
        return self.terminal_says("till", "TA")

    def replies(self, port: str, *lines: str) -> list[str | None]:
        """Return the last line of the reply to each command of a client at one of the ports. It is None if none came."""
        with Till(self.ports[port]) as client:
            return [client.last_line(it) for it in lines]

    def terminal_says(self, port: str, line: str) -> str | None:
        return self.replies(port, line)[0]


class Till(bridge.Client):
    """A till or a display at one of the counter's ports."""

    def __init__(self, port: int, timeout: float = 6) -> None:
        super().__init__(port, timeout)

    def last_line(self, command: str) -> str | None:
        """Return the last line of the reply. It is None if the connection ended or nothing came."""
        try:
            found = self.ask(command)
            while found.startswith("I0 B"):
                found = self.line()
            return found
        except (OSError, EOFError):
            return None


@contextmanager
def held(process: subprocess.Popen[Any]) -> Iterator[None]:
    """Hold a process until the end of the block."""
    process.send_signal(signal.SIGSTOP)
    try:
        yield
    finally:
        process.send_signal(signal.SIGCONT)


@contextmanager
def silent(converter: bridge.Converter) -> Iterator[None]:
    """Let the converter send no line until the end of the block."""
    converter.speaks.clear()
    try:
        yield
    finally:
        converter.speaks.set()


class Meanwhile(threading.Thread):
    """Does something meanwhile, and keeps what it gave."""

    def __init__(self, act: Callable[..., Any], *words: Any, **more: Any) -> None:
        super().__init__(daemon=True)
        self.act, self.words, self.more = act, words, more
        self.result: Any = None
        self.start()

    def run(self) -> None:
        self.result = self.act(*self.words, **self.more)

    def get(self, seconds: float = 60) -> Any:
        self.join(seconds)
        return self.result
