"""Shows every route and status over real sockets, the terminal in lines, bytes and half lines, and the order of faults at
a start.

The converter is a FIFO, into which the load in a file is written twenty times a second.
"""

import os
import re
import resource
import socket
import subprocess
import threading
import time
from contextlib import suppress
from pathlib import Path
from typing import Any

from checks.lib import bridge, journal
from checks.lib.bridge import HOST
from checks.lib.case import PROGRAM, Check
from checks.lib.program import PROGRAM as BUILT
from checks.lib.program import printed
from checks.lib.tried_twice import limited

EMPTY, FULL = "STABLE G          0 kg N          0 kg", "STABLE G      18340 kg N      18340 kg"
FIRST = "key=K1&kind=first&plate=AB-12"
SECOND = "key=K2&kind=second&plate=AB-12"
JOURNAL_HEAD = (
    "number,key,kind,plate,moment,gross_kg,preset_kg,interval_kg,max_kg,serial,digest,previous"
)
TICKETS_HEAD = "ticket,kind,plate,first,at,gross_kg,tare_kg,net_kg"
CHUNKED = "Transfer-Encoding: chunked"


class Fifo:
    """A converter that is a FIFO. It gives the load that is on the bridge now to one service after the other."""

    def __init__(self, path: str) -> None:
        self.source, self.now, self.ended = path, "lost", threading.Event()
        os.mkfifo(path)
        threading.Thread(target=self.write, daemon=True).start()

    def begin(self) -> None:
        pass

    def write(self) -> None:
        while not self.ended.is_set():
            # opening it waits for a service, and a service that has ended breaks the pipe
            with suppress(BrokenPipeError), open(self.source, "w") as fifo:
                while not self.ended.wait(0.05):
                    print(self.now, file=fifo, flush=True)

    def put(self, load: int) -> None:
        """Put a load on the bridge, and wait until it stands still."""
        self.now = str(load)
        time.sleep(0.6)

    def close(self) -> None:
        self.ended.set()


def over_terminal(port: int, *parts: bytes) -> list[str]:
    """Return the lines that come to what is sent in parts, once the terminal has closed or two seconds are over."""
    with socket.create_connection((HOST, port), 5) as stream:
        stream.settimeout(2)
        for part in parts:
            stream.sendall(part)
            time.sleep(0.2)
        stream.shutdown(socket.SHUT_WR)
        said = b""
        with suppress(TimeoutError):
            while more := stream.recv(4096):
                said += more
    return said.decode().splitlines()


class Faults(Check):
    """Faults at a start, each with those that come after it in the order."""

    needs = (PROGRAM,)

    def test_order(self) -> None:
        folder = self.folder()
        Path(folder, "readings").write_bytes(b"9170\n9170\n9170\r\n9170\n91")
        Path(folder, "endless").write_bytes(bytes(1 << 20))
        words = {"--file": folder, "--terminal": "localhost:1", "--office": "10.0.0.1:80"}
        words["--converter"] = "tcp:nowhere"

        def ended(*more: str) -> tuple[int, str, str]:
            given = [word for pair in words.items() for word in pair]
            status, out, err = printed("serve", *more, *given)
            return status, out, err.partition("\n")[0]

        unexpected = (2, "", "error: unexpected argument '--load' found")
        self.same("arguments before all", unexpected, ended("--load", "1", "--max", "1"))
        self.same("setup", (2, "", "setup refused: 2 Max"), ended("--max", "1"))
        self.same("store", (1, "", "store 2 disk"), ended())
        for name, option, value, fault in (
            ("terminal address", "--file", f"{folder}/fresh.db", "address fault"),
            ("office address", "--terminal", f"{HOST}:{bridge.free_port()}", "address fault"),
            ("converter address", "--office", f"{HOST}:{bridge.free_port()}", "converter fault"),
            ("converter file", "--converter", f"{folder}/none", "converter fault"),
            ("converter folder", "--converter", folder, "converter fault"),
            ("a file without an end", "--converter", f"{folder}/endless", "converter fault"),
        ):
            words[option] = value
            self.same(name, (1, "", fault), ended())
        words["--converter"] = f"{folder}/readings"
        self.same("a file of readings, to its end", (0, "turns 4\n", ""), ended())
        self.same("a limit of turns", (0, "turns 3\n", ""), ended("--turns", "3"))


class ServeRoutes(Check):
    """A service that reads a FIFO, its office and its terminal."""

    needs = (PROGRAM, "curl")
    seconds = 60

    def setUp(self) -> None:
        self.box = self.folder()
        self.converter = Fifo(f"{self.box}/converter")
        self.addCleanup(self.converter.close)

    def start(self, file: str, *options: str, **more: Any) -> None:
        """Start a service over a file. It is killed after the test."""
        path = f"{self.box}/{file}"
        self.service = bridge.Service(BUILT, path, self.converter, *options, **more)
        self.addCleanup(self.service.close)

    def asked(self, target: str, *words: str) -> str:
        """Return the status and the first line of what curl asks the office for."""
        at = f"http://{HOST}:{self.service.office}/{target}"
        quiet = ["curl", "-s", "-S", "--http1.1", "-H", "Expect:", "-w", "\n%{http_code}"]
        ran = subprocess.run([*quiet, *words, at], capture_output=True, text=True)
        body, _, status = ran.stdout.rpartition("\n")
        return f"{status} {body.partition(chr(10))[0]}"

    def show(self, *rows: tuple[str, ...]) -> None:
        """Show what the office answers: each row has a name, the wanted answer, the target, and curl's arguments."""
        for name, wanted, target, *words in rows:
            self.same(name, wanted, self.asked(target, *words))

    def test_office_and_terminal(self) -> None:
        self.start("journal.db", "--capacity", "3", "--verbose")
        self.show(("no load yet", "200 NO LOAD", "indication"))
        self.converter.put(0)
        self.show(("indication", f"200 {EMPTY}", "indication"))
        self.converter.put(9170)
        other = "key={}&kind=first&plate=CD-34"
        self.show(
            ("a first weighing", "201 WEIGHING SLIP 1", "weighings", "-d", FIRST),
            ("the same again", "201 WEIGHING SLIP 1", "weighings", "-d", FIRST),
            ("its key", "409 refused 1 key_reused", "weighings", "-d", other.format("K1")),
            ("not cleared", "409 refused 11 not_cleared", "weighings", "-d", SECOND),
        )
        self.converter.put(0)
        self.converter.put(4070)
        bad_field, empty = "key=K5&kind=third&plate=AB-12", ("-X", "POST", "-H", "Content-Length:")
        self.show(
            ("journal full", "409 refused 14 journal_full", "weighings", "-d", other.format("K3")),
            ("a second weighing", "201 WEIGHING TICKET 2", "weighings", "-d", SECOND),
            ("its ticket", "200 WEIGHING TICKET 2", "tickets/2"),
            ("no ticket", "404 refused 16 no_ticket", "tickets/1"),
            ("no number", "404 refused 16 no_ticket", "tickets/two"),
            ("nothing to void", "409 refused 13 no_open", "voids", "-d", "key=K4&plate=AB-12"),
            ("check", "200 SOUND 2", "check"),
            ("journal", f"200 {JOURNAL_HEAD}", "journal.csv"),
            ("tickets", f"200 {TICKETS_HEAD}", "tickets.csv"),
            ("purge", "200 PURGED 0", "purge", "-d", ""),
            ("no route", "404 fault 404 no_route", "weighing"),
            ("wrong method", "405 fault 405 wrong_method", "purge"),
            ("no length", "411 fault 411 no_length", "purge", *empty),
            ("chunked", "400 fault 400 malformed", "purge", "-d", "ab", "-H", CHUNKED),
            ("too large", "413 fault 413 too_large", "purge", "-d", "a" * 2000),
            ("bad field", "422 fault 422 bad_field", "weighings", "-d", bad_field),
            ("head too large", "431 fault 431 head_too_large", "check", "-H", f"X: {'a' * 9000}"),
        )
        cut_off = b"POST /purge HTTP/1.1\r\nContent-Length: 5\r\n\r\nab"
        found = over_terminal(self.service.office, cut_off)
        self.same("cut off", "HTTP/1.1 400 Bad Request", found[0])
        for name, wanted, parts in (
            ("a line", ["S S       8140 kg"], [b"SI\r\n"]),
            ("two lines at once", ["S S       8140 kg", 'I4 A "WB01"'], [b"SI\nI4\r\n"]),
            ("byte by byte", ["S S       8140 kg"], [b"S", b"I", b"\r", b"\n"]),
            ("half a line", [], [b"S"]),
            ("half a line of a client that left is gone", ["ES"], [b"I\r\n"]),
        ):
            self.same(name, wanted, over_terminal(self.service.terminal, *parts))
            time.sleep(0.3)
        self.start_again()

    def start_again(self) -> None:
        """Kill the service, and start one over the same file that ends after twelve turns."""
        self.service.kill()
        out, err = self.service.process.communicate()
        self.same("nothing is printed when it is killed", "", out)
        for words in (
            rf"listens on {HOST}:{self.service.terminal}",
            r": POST /weighings key [^ ]+: 201 WEIGHING SLIP [0-9]+ in ",
            "accepted",
        ):
            self.holds(f"--verbose reports {words}", re.search(words, err), err)
        self.start("journal.db", turns=12)
        self.show(("the ticket after a start", "200 WEIGHING TICKET 2", "tickets/2"))
        said = self.service.process.communicate(timeout=20)
        self.same("what it prints and reports until its end", ("turns 12\n", ""), said)
        checked = printed("check", "--file", f"{self.box}/journal.db")
        self.same("the journal in the file", (0, "SOUND 2\n", ""), checked)

    def test_journal_of_last_year(self) -> None:
        """Show a purge, and what it leaves of a key."""
        journal.write_rows(f"{self.box}/old.db", journal.PAIR)
        self.start("old.db")
        self.show(
            ("its ticket", "200 WEIGHING TICKET 2", "tickets/2"),
            ("a purge of last year", "200 PURGED 2", "purge", "-d", ""),
            ("a purged key", "410 refused 2 gone", "weighings", "-d", FIRST),
            ("a purged ticket", "404 refused 16 no_ticket", "tickets/2"),
        )

    def test_log_that_accepts_no_more(self) -> None:
        """Show that the office is refused, and that the scale continues, if the log accepts no more than 300 kB."""
        self.start("small.db", limit=limited((resource.RLIMIT_FSIZE, 300 << 10)))
        answers: list[str] = []
        for number in range(1, 41):
            self.converter.put(0)
            self.converter.put(9170)
            weighing, void = f"key=K{number}&kind=first&plate=P-1", f"key=V{number}&plate=P-1"
            answers.append(self.asked("weighings", "-d", weighing)[:3])
            answers.append(self.asked("voids", "-d", void)[:3])
            if "503" in answers:
                break
        stored = answers.count("201")
        self.same("the first requests are stored", ["201", "201"], answers[:2])
        self.holds("and then one is refused", "503" in answers, answers)
        self.show(
            ("a closed store", "503 refused 15 store", "check"),
            ("the indication continues", f"200 {FULL}", "indication"),
        )
        found = over_terminal(self.service.terminal, b"SI\r\n")
        self.same("the terminal continues", ["S S      18340 kg"], found)
        self.service.kill()
        checked = printed("check", "--file", f"{self.box}/small.db")
        self.same("what was stored is there", (0, f"SOUND {stored}\n", ""), checked)
