"""Shows that the alarm reports each fault once at its start, daily, and once at its end, and that a kill makes a message
come again rather than never.

- The tests in alarm/tests play the clock, counter, night, disks and receivers. They kill a look at each call that changes a
  disk or hands a message over.
- The real script, in folders as the package installs them, looks at a played counter on loopback, and reports to a
  played sendmail, a webhook and an SMS gateway. The counter ends and comes back. A webhook that hangs holds the mail up for
  less than a minute.
"""

import http.server
import json
import os
import subprocess
import threading
import time
from pathlib import Path
from typing import Any

from checks.lib.case import Check
from checks.lib.installed import install

SETUP = "\n".join(
    [
        'bridge = "WB01"',
        "after_minutes = 1",
        'counter = "127.0.0.1:{counter}"',
        'office = "127.0.0.1:{office}"',
        "night = false",
        "network_time = false",
        'disks = ["{box}"]',
        "least_free_mb = 1",
        "[[to]]",
        'name = "chat"',
        'kind = "webhook"',
        'url = "http://127.0.0.1:{hook}/hook"',
        "allow_http = true",
        'headers = {{ Authorization = "Bearer S3cret" }}',
        "[[to]]",
        'name = "owner"',
        'kind = "mail"',
        'address = "owner@example.com"',
        'from = "bridge@example.com"',
        'program = "{box}/sendmail"',
        "[[to]]",
        'name = "duty"',
        'kind = "sms"',
        'url = "http://127.0.0.1:{hook}/sms?key=S3cret"',
        "allow_http = true",
        'number = "+491701234567"',
        'body = {{ to = "{{to}}", text = "{{text}}" }}',
    ]
)
SENDMAIL = """#!/bin/sh
echo "arguments: $*" >>{box}/mails
cat >>{box}/mails
"""


class Played(http.server.ThreadingHTTPServer):
    """A server that answers each request alike, and keeps what it got."""

    def __init__(self, port: int = 0, body: bytes = b"OK") -> None:
        self.body, self.got, self.seconds = body, list[tuple[str, bytes, str]](), 0.0
        super().__init__(("127.0.0.1", port), Answering)
        self.port = int(self.server_address[1])
        threading.Thread(target=self.serve_forever, daemon=True).start()

    def end(self) -> None:
        self.shutdown()
        self.server_close()


class Answering(http.server.BaseHTTPRequestHandler):
    """Answers a request of a played server."""

    server: Played

    def answer(self) -> None:
        given = self.rfile.read(int(self.headers.get("Content-Length") or 0))
        self.server.got.append((self.path, given, self.headers.get("Authorization") or ""))
        time.sleep(self.server.seconds)
        self.send_response(200)
        self.send_header("Content-Length", str(len(self.server.body)))
        self.end_headers()
        self.wfile.write(self.server.body)

    do_GET = do_POST = answer

    def log_message(self, format: str, *words: Any) -> None:
        """Log nothing."""


class Bridge:
    """The script as it is installed, with its setup and a state whose looks lie apart as far as a test wants."""

    def __init__(self, box: str, **ports: int) -> None:
        self.box = box
        self.script = install(box, "alarm", "night")
        os.mkdir(os.path.join(box, "state"))
        self.write("setup.toml", SETUP.format(box=box, **ports), 0o640)
        self.write("sendmail", SENDMAIL.format(box=box), 0o700)

    def write(self, name: str, text: str, mode: int) -> None:
        path = Path(self.box, name)
        path.write_text(text, encoding="ascii")
        path.chmod(mode)

    def run(self, *words: str) -> tuple[int, str]:
        more = ["--setup", f"{self.box}/setup.toml", "--state", f"{self.box}/state"]
        command = [self.script, *words, *more]
        ran = subprocess.run(command, capture_output=True, text=True, timeout=120)
        return ran.returncode, ran.stdout + ran.stderr

    def minute(self) -> tuple[int, str]:
        """Look as if the last look was a minute ago."""
        path = Path(self.box, "state", "state.json")
        state = json.loads(path.read_text(encoding="utf-8"))
        state["uptime"] = max(0.0, state["uptime"] - 60)
        path.write_text(json.dumps(state), encoding="utf-8")
        return self.run("run")

    def mails(self) -> str:
        path = Path(self.box, "mails")
        return path.read_text(encoding="ascii") if path.exists() else ""


def health(*faults: str) -> bytes:
    return json.dumps({"can_weigh": "weight" not in faults, "faults": faults}).encode()


class Alarm(Check):
    """The tests of the part, and the script as it is installed."""

    needs = ("openssl",)

    def setUp(self) -> None:
        self.counter, self.hook = Played(body=health()), Played()
        self.addCleanup(self.hook.end)
        self.addCleanup(self.counter.end)
        ports = {"counter": self.counter.port, "office": 9, "hook": self.hook.port}
        self.bridge = Bridge(self.folder(), **ports)

    def test_tests_of_the_part(self) -> None:
        self.passes_unittest("alarm")

    def test_setup(self) -> None:
        self.same("the setup has no mistakes", 0, self.bridge.run("--check")[0])
        status, said = self.bridge.run("test")
        self.same("a test reaches each receiver", (0, 3), (status, said.count("took the test")))
        os.chmod(os.path.join(self.bridge.box, "setup.toml"), 0o644)
        self.same("a setup that others can read is refused", 2, self.bridge.run("run")[0])

    def test_fault_that_begins_and_ends(self) -> None:
        it, hook = self.bridge, self.hook
        self.same("a look at a bridge without faults", (0, ""), it.run("run"))
        self.same("the list then", 0, it.run("list")[0])
        self.counter.body = health("weight")
        it.minute()
        self.same("a fault of one look isn't reported", ("", []), (it.mails(), hook.got))
        self.same("a fault of a minute is reported", 0, it.minute()[0])
        it.minute()
        subject = "Subject: WB01: NO VEHICLE CAN BE WEIGHED: No weight"
        self.same("by one mail", 1, it.mails().count(subject))
        self.same("whose arguments have no address", 1, it.mails().count("arguments: -t -i\n"))
        [first, second] = hook.got
        self.same("by a webhook, with its token", ("/hook", "Bearer S3cret"), (first[0], first[2]))
        self.same("whose JSON has the fault", "weight", json.loads(first[1])["faults"][0]["name"])
        self.holds("by an SMS", b"text=WB01%3A+NO+WEIGHING.+No+weight+since" in second[1], second)
        status, said = it.run("list")
        self.same("the list of the fault", (1, 3), (status, said.count("heard of it at")))
        self.counter.body = health()
        it.minute()
        it.minute()
        self.same("its end comes once", 1, it.mails().count("Subject: WB01: Over: No weight"))
        self.same("to all", 4, len(hook.got))

    def test_counter_that_ends_while_a_webhook_hangs(self) -> None:
        it = self.bridge
        it.run("run")
        self.hook.seconds = 45.0
        self.counter.end()
        it.minute()
        begin = time.monotonic()
        status, said = it.minute()
        self.holds("a webhook that hangs holds up nobody for long", time.monotonic() - begin < 60)
        self.same("the run says so", (1, 1), (status, said.count("chat: took no message")))
        self.same("and the mail came", 1, it.mails().count("Service down (+1 more)"))
        self.same("no secret is printed", 0, (said + it.run("list")[1]).count("S3cret"))
