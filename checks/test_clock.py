"""Shows that the service's start waits for a right clock, says why and what to do, and stops waiting after its time.

The script packaging/weighbridge/clock runs here with the folders, the clock and the time server that a machine would have. It believes a clock that a
time server set, and one that no time server should set. It waits while the clock is before the package's date or before the last weighing or start. It also waits while
no time server has set it yet, and if somebody put the clock since the last start. It ends as soon as the reason does. It says each reason once. A person's word ends it at once, for twelve hours. After its time it ends with
status 1. Where `timedatectl` can't be asked, or a file is missing, it asks nothing of them.

The script packaging/weighbridge/watch asks an office that is played here. It tells systemd of a start only at an answer. After that, it takes a
connection that is closed at once for a turn, as while the clock jumped. It doesn't take one for a turn that is closed later or never, or refused.
"""

import os
import socket
import subprocess
import time

from checks import TOP
from checks.lib.case import Check

SET, UNSET, NONE = (
    "NTP=yes\nNTPSynchronized=yes",
    "NTP=yes\nNTPSynchronized=no",
    "NTP=no\nNTPSynchronized=no",
)
SUMS, NEWEST = "usr/lib/weighbridge/SHA256SUMS", "var/lib/weighbridge/journal.db-newest"
WORD, LAST = "run/weighbridge/clock-is-right", "run/weighbridge/clock"
NO_SERVER = "no time server has set it yet"
BEFORE_PACKAGE = "it is before the date of the package"
BEFORE_NEWEST = "it is before the last weighing or start, of "


class Machine:
    """A machine's folders, in which the script is installed. `sleep` doesn't wait: it does what is written into the file `turns`, a line each time."""

    def __init__(self, folder: str) -> None:
        self.folder = folder
        for name in (SUMS, NEWEST, WORD, "bin/x"):
            os.makedirs(os.path.dirname(self.at(name)), exist_ok=True)
        with open(TOP / "packaging/weighbridge/clock", encoding="utf-8") as file:
            text = file.read()
        for name in ("/run/weighbridge", "/var/lib/weighbridge", "/usr/lib/weighbridge", "/proc"):
            text = text.replace(name, folder + name)
        os.mkdir(self.at("proc"))
        self.write("proc/uptime", "5000.25 100.00\n")
        self.write(LAST, "")
        self.write("clock", text)
        self.write("bin/timedatectl", f"#!/bin/sh\ncat {folder}/server\n", 0o755)
        self.write(
            "bin/sleep",
            f"#!/bin/sh\necho >> {folder}/slept\nread -r next < {folder}/turns || exit 0\n"
            f'sed -i 1d {folder}/turns\neval "$next"\n',
            0o755,
        )
        self.write("turns", "")
        self.says(SET)
        now = time.time()
        self.made(SUMS, now - 86_400)
        self.made(NEWEST, now - 60)

    def at(self, name: str) -> str:
        return os.path.join(self.folder, name)

    def write(self, name: str, text: str, mode: int = 0o644) -> None:
        with open(self.at(name), "w", encoding="utf-8") as file:
            file.write(text)
        os.chmod(self.at(name), mode)

    def says(self, text: str) -> None:
        """Let timedatectl say so."""
        self.write("server", text + "\n" if text else "")

    def made(self, name: str, at: float) -> None:
        self.write(name, "")
        os.utime(self.at(name), (at, at))

    def start(self, *words: str) -> tuple[int, int, list[str]]:
        """Run the script. Return its status, how many seconds it waited, and its lines."""
        self.write("slept", "")
        ran = subprocess.run(
            ["sh", self.at("clock"), *words],
            env={"PATH": f"{self.at('bin')}:/usr/bin:/bin"},
            capture_output=True,
            text=True,
            timeout=60,
        )
        with open(self.at("slept"), encoding="utf-8") as file:
            slept = len(file.readlines())
        return ran.returncode, slept, (ran.stdout + ran.stderr).splitlines()


ANSWER = b"HTTP/1.1 200 OK\r\nContent-Length: 3\r\nConnection: close\r\n\r\nOK\n"
# The office waits for these seconds with each client, and then sends this answer.
ANSWERS, CLOSES, LATE, FAULT = (
    (0.0, ANSWER),
    (0.0, b""),
    (5.0, b""),
    (0.0, ANSWER.replace(b"200", b"503")),
)


def heard(folder: str, *acts: tuple[float, bytes]) -> list[str]:
    """Return what the watch tells systemd at each of these acts of an office, and nothing of those after them."""
    path, told = os.path.join(folder, "notify"), []
    with socket.socket(socket.AF_UNIX, socket.SOCK_DGRAM) as notify, socket.create_server(
        ("127.0.0.1", 0)
    ) as office:
        notify.bind(path)
        notify.settimeout(0.7)
        watch = subprocess.Popen(
            [
                str(TOP / "packaging/weighbridge/watch"),
                f"127.0.0.1:{office.getsockname()[1]}",
            ],
            env={"NOTIFY_SOCKET": path, "WATCHDOG_USEC": "300000"},
        )
        try:
            for seconds, answer in acts:
                client, _ = office.accept()
                client.recv(4096)
                time.sleep(seconds)
                client.sendall(answer)
                client.close()
                try:
                    told.append(notify.recv(100).decode().replace("\n", " "))
                except TimeoutError:
                    told.append("")
        finally:
            watch.kill()
            watch.wait()
    os.remove(path)
    return told


class Watch(Check):
    """The service's watch, and what it tells systemd of an office's answers."""

    def test_turns(self) -> None:
        start, turn = "READY=1 WATCHDOG=1", "WATCHDOG=1"
        for what, wanted in (
            ("it starts, and serves", [(ANSWERS, start), (ANSWERS, turn)]),
            ("no start without an answer", [(CLOSES, ""), (FAULT, ""), (ANSWERS, start)]),
            (
                "the clock jumps, and agrees again",
                [(ANSWERS, start), (CLOSES, turn), (CLOSES, turn), (ANSWERS, turn)],
            ),
            (
                "no turn reads the request",
                [(ANSWERS, start), (LATE, ""), (FAULT, ""), (ANSWERS, turn)],
            ),
        ):
            told = heard(self.folder(), *[it for it, _ in wanted])
            self.same(f"the watch: {what}", [it for _, it in wanted], told)


class Start(Check):
    """The start under each clock."""

    def setUp(self) -> None:
        self.machine = Machine(os.path.join(self.folder(), "machine"))
        self.now = time.time()

    def starts(self, what: str, wanted: tuple[int, int, list[str]], *words: str) -> None:
        """Show that a start ends so: its status, how many seconds it waited, and for what."""
        status, slept, lines = self.machine.start(*words)
        self.same(f"{what}: status and seconds", wanted[:2], (status, slept))
        self.same(f"{what}: a line for each reason", len(wanted[2]), len(lines))
        word = self.machine.at(WORD)
        advice = f"run: touch {word}. See operating.md, If the start waits for the clock"
        for line, reason in zip(lines, wanted[2]):
            for said in (
                "the start waits for a right clock: it shows 2",
                f" UTC, and {reason}",
                advice,
            ):
                self.assertIn(said, line, what)

    def test_time_server(self) -> None:
        machine = self.machine
        self.starts("a clock that a time server set", (0, 0, []))
        machine.says(NONE)
        self.starts("no time server", (0, 0, []))
        machine.says("")
        self.starts("timedatectl says nothing", (0, 0, []))
        machine.says(UNSET)
        self.starts("never set", (1, 80, [NO_SERVER]))
        self.starts("never set, for less long", (1, 3, [NO_SERVER]), "3")
        machine.write("turns", f":\n:\necho '{SET.split()[0]}' > {machine.at('server')}\n")
        self.starts("another answer is no doubt", (0, 3, [NO_SERVER]))
        os.remove(machine.at("bin/timedatectl"))
        machine.write("bin/timedatectl", "#!/bin/sh\necho failed >&2\nexit 1\n", 0o755)
        self.starts("timedatectl fails", (0, 0, []))

    def test_word_of_a_person(self) -> None:
        machine = self.machine
        machine.says(UNSET)
        machine.write("turns", f":\n:\n: > {machine.at(WORD)}\n")
        self.starts("a person's word meanwhile", (0, 3, [NO_SERVER]))
        self.starts("a person's word before", (0, 0, []))
        for hours in (-13, -11, 11, 13):
            machine.made(WORD, self.now + hours * 3_600)
            ends = (0, 0, list[str]()) if abs(hours) < 12 else (1, 1, [NO_SERVER])
            self.starts(f"a person's word, {-hours} hours ago", ends, "1")

    def test_clock_that_was_put(self) -> None:
        machine = self.machine
        machine.says(NONE)
        rows: list[tuple[int, list[str]]] = [
            (0, []),
            (-50, []),
            (50, []),
            (3_600, ["it was put by 3"]),
            (-3_600, ["it was put by -3"]),
        ]
        for put, wanted in rows:
            machine.write(LAST, f"{time.time() - 1_000 - put:.0f} 4000\n")
            ends = (len(wanted), len(wanted), wanted)
            self.starts(f"put by {put} s since the last start", ends, "1")
        machine.says(SET)
        self.starts("put, but set by a time server", (0, 0, []))
        machine.says(NONE)
        self.starts("and the next start", (0, 0, []))
        machine.write(LAST, f"{self.now - 9_000:.0f} 4000\n")
        machine.made(WORD, self.now)
        self.starts("put, and a person's word", (0, 0, []))
        os.remove(machine.at(WORD))
        self.starts("and the start after the word", (0, 0, []))
        for text in ("", "x\n", "5 \n"):
            machine.write(LAST, text)
            self.starts(f"a last start of {text!r}", (0, 0, []))
        os.remove(machine.at(LAST))
        self.starts("no last start", (0, 0, []))

    def test_clock_that_is_before_something(self) -> None:
        machine, now = self.machine, self.now
        machine.made(SUMS, now + 3_600)
        self.starts("before the package", (1, 5, [BEFORE_PACKAGE]), "5")
        machine.write("turns", f"touch -d @{now - 9} {machine.at(SUMS)}\n")
        self.starts("until it is no longer", (0, 1, [BEFORE_PACKAGE]))
        os.remove(machine.at(SUMS))
        self.starts("without the package's file", (0, 0, []))
        machine.made(NEWEST, now + 50)
        self.starts("less than a minute before the newest weighing", (0, 0, []))
        machine.made(NEWEST, 4_102_444_800)
        newest = BEFORE_NEWEST + "2100-01-01 00:00:00 UTC"
        self.starts("before the newest weighing", (1, 2, [newest]), "2")
        machine.says(UNSET)
        machine.write("turns", f":\nrm {machine.at(NEWEST)}\n")
        self.starts("one reason after the other", (1, 9, [BEFORE_NEWEST, NO_SERVER]), "9")
        self.starts("without a journal", (1, 0, [NO_SERVER]), "0")
