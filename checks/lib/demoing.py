"""A demo that runs, its clerk who weighs by HTTP, and the processes that it leaves. Installed programs are tried by it too, so it needs no other part of the repository."""

import contextlib
import json
import os
import re
import shutil
import signal
import subprocess
import threading
import time
import urllib.error
import urllib.parse
import urllib.request

from checks.lib.bridge import Closing
from checks.lib.waiting import wait_until
from collections.abc import Callable, Iterable, Mapping
from typing import IO, Any, Self

TOP = os.path.dirname(os.path.dirname(os.path.dirname(os.path.abspath(__file__))))
STARTS_WITHIN = 60  # seconds
WEIGHS_AFTER = 1.5  # seconds for which a vehicle stands; the window is a second
NO_DESKTOP = {"DISPLAY": "", "WAYLAND_DISPLAY": ""}


def asked(
    method: str,
    address: str,
    form: Mapping[str, object] | None = None,
    body: bytes | None = None,
    **fields: str,
) -> tuple[int, str]:
    """Return the status and the body of an answer. The status is 0 if there was none."""
    data = urllib.parse.urlencode(form).encode() if form is not None else body
    if method == "POST" and data is None:
        data = b""
    request = urllib.request.Request(address, data, fields, method=method)
    try:
        with urllib.request.urlopen(request, timeout=20) as answer:
            return answer.status, answer.read().decode()
    except urllib.error.HTTPError as fault:
        return fault.code, fault.read().decode()
    except (OSError, urllib.error.URLError):
        return 0, ""


def processes_of(*folders: str) -> dict[int, str]:
    """Return the words of each other process that names one of the folders or works in it, by its number."""
    found: dict[int, str] = {}
    for name in filter(str.isdigit, os.listdir("/proc")):
        try:
            with open(f"/proc/{name}/cmdline", "rb") as file:
                words = file.read().replace(b"\0", b" ").decode(errors="replace")
            where = os.readlink(f"/proc/{name}/cwd")
        except OSError:
            continue
        if int(name) != os.getpid() and any(it in words or it in where for it in folders):
            found[int(name)] = words
    return found


class Running(Closing):
    """A demo that was started. `words` are more of its arguments.

    `hangup` is what SIGHUP does to it, even if the check itself runs under nohup. Ctrl-C ends it, even if a shell began the check with `&`, which ignores that.
    """

    def __init__(
        self,
        programs: Iterable[str],
        *words: str,
        command: str | None = None,
        environment: Mapping[str, str] | None = None,
        before: Iterable[str] = (),
        hangup: signal.Handlers = signal.SIG_DFL,
    ) -> None:
        self.begun = time.monotonic()
        self.process = subprocess.Popen(
            [*before, command or f"{TOP}/weighbridge-demo", *programs, *words],
            stdin=subprocess.DEVNULL,
            stdout=subprocess.PIPE,
            stderr=subprocess.PIPE,
            text=True,
            env={**os.environ, **NO_DESKTOP, **(environment or {})},
            start_new_session=True,
            preexec_fn=lambda: (
                signal.signal(signal.SIGHUP, hangup),
                signal.signal(signal.SIGINT, signal.SIG_DFL),
            ),
        )
        self.out: list[str] = []
        self.err: list[str] = []
        assert self.process.stdout is not None and self.process.stderr is not None  # pipes
        self.readers = [
            threading.Thread(target=self.read, args=it, daemon=True)
            for it in ((self.process.stdout, self.out), (self.process.stderr, self.err))
        ]
        for it in self.readers:
            it.start()

    def read(self, stream: IO[str], into: list[str]) -> None:
        for line in stream:
            into.append(line.rstrip("\n"))

    def wait_until_up(self) -> Self:
        def look() -> bool:
            if self.process.poll() is not None:
                raise SystemExit(f"the demo doesn't start: {self.out} {self.err}")
            return any("Ctrl-C" in it for it in self.out)

        wait_until("the demo says how to end it", look, seconds=STARTS_WITHIN)
        found = re.findall(r"http://127\.0\.0\.1:\d+/", "\n".join(self.out))
        self.clerk, self.page = found[0], found[1]
        folder = re.search(r"The folder +(\S+)", "\n".join(self.out))
        assert folder, self.out
        self.folder = folder[1]
        return self

    def printed(self) -> str:
        return "\n".join(self.out)

    # ---- its pages

    def state(self) -> Any:
        return json.loads(asked("GET", f"{self.page}state")[1])

    def push(self, route: str, what: object = None) -> tuple[int, str]:
        return asked("POST", self.page + route, body=json.dumps(what).encode() if what else None)

    def becomes(self, what: Callable[[Any], object], seconds: float = 20) -> Any:
        """Return the state once `what` holds of it, or None if it doesn't in time."""
        until = time.monotonic() + seconds
        while time.monotonic() < until:
            state = self.state()
            if what(state):
                return state
            time.sleep(0.03)
        return None

    def weigh(self, key: str, plate: str, kind: str, tare: object = None) -> tuple[int, str]:
        form: dict[str, object] = {"key": key, "plate": plate, "kind": kind}
        form |= {"tare": tare} if tare else {}
        return asked("POST", f"{self.clerk}weighings", form)

    def next_weighing(self, number: int) -> tuple[int, str]:
        """Weigh the vehicle of the day 1.5 s after it stands. Return the answer."""

        def is_due(it: Any) -> bool:
            has_stood = it["phase"] == "stands" and it["seconds"] >= WEIGHS_AFTER
            return bool(has_stood and it["stay"] and not it["stay"]["weighed"])

        state = self.becomes(is_due, 40)
        if state is None:
            return 0, f"no vehicle is on the bridge: {self.state()}"
        stay = state["stay"]
        answer = self.weigh(f"DAY-{number}", stay["plate"], stay["kind"], stay["tare"])
        self.becomes(lambda it: it["stay"] is None or it["stay"]["weighed"], 5)
        return answer

    def readings(self) -> tuple[int, float]:
        """Return the number of values that the counter has had, and the moment."""
        text = asked("GET", f"{self.clerk}metrics")[1]
        found = re.findall(r'readings_total\{state="[^"]*"\} (\d+)', text)
        return sum(map(int, found)), time.monotonic()

    # ---- its end

    def process_of(self, name: str) -> int | None:
        """Return the number of the process of a part."""
        word = {"the service": " serve ", "the converter": " run ", "the counter": "counter.toml"}
        found = [
            number
            for number, words in processes_of(self.folder).items()
            if word[name] in words and number != self.process.pid
        ]
        return found[0] if len(found) == 1 else None

    def ends(
        self, number: int | None = signal.SIGINT, within: float = 10
    ) -> tuple[int | None, float]:
        """Send a signal, and wait for the end: the status, and how long that took."""
        since = time.monotonic()
        if number is not None:
            self.process.send_signal(number)
        return self.wait(within), time.monotonic() - since

    def wait(self, within: float = 10) -> int | None:
        try:
            status = self.process.wait(within)
        except subprocess.TimeoutExpired:
            return None
        for it in self.readers:
            it.join(2)
        return status

    def left(self, seconds: float = 0.5) -> dict[int, str]:
        """Return the processes that are left of it a moment after its end."""
        until = time.monotonic() + seconds
        while (found := processes_of(self.folder)) and time.monotonic() < until:
            time.sleep(0.05)
        return found

    def close(self) -> None:
        """End all of it, whatever happened."""
        if self.process.poll() is None:
            self.process.terminate()
            try:
                self.process.wait(15)
            except subprocess.TimeoutExpired:
                self.process.kill()
        for number in processes_of(self.folder) if hasattr(self, "folder") else ():
            with contextlib.suppress(OSError):
                os.kill(number, signal.SIGKILL)
        for it in re.findall(r"/\S*/weighbridge-demo-\w+", self.printed()):
            shutil.rmtree(it, ignore_errors=True)


class Busy(Closing):
    """Loops that keep processors busy, below everything else."""

    def __init__(self, number: int) -> None:
        self.loops = [
            subprocess.Popen(["nice", "-n", "19", "sh", "-c", "while :; do :; done"])
            for _ in range(number)
        ]

    def close(self) -> None:
        for it in self.loops:
            it.kill()
            it.wait()
