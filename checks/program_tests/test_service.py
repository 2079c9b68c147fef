"""A running service: its start and its end, its addresses and defaults, and what clients get."""

import contextlib
import fcntl
import os
import pty
import re
import resource
import socket
import stat
import struct
import subprocess
import time
from pathlib import Path

from checks.lib import bridge
from checks.lib.bridge import HOST
from checks.lib.journal import make_journal, spend, write_newest
from checks.lib.tried_twice import (
    BUILT,
    FIRST,
    SECOND,
    TriedTwice,
    addresses,
    contents,
    ended,
    got,
    limited,
    posted,
    printed,
    weigh,
)
from checks.lib.waiting import wait_until
from checks.program_tests.test_arguments import DISK

DAY = 86_400
FULL = (409, "refused 14 journal_full\n")
SINGLE = "key=K{0}&kind=single&plate=P-{1}&preset_kg=5000"


def is_open(address: str, port: int) -> bool:
    try:
        socket.create_connection((address, port), 2).close()
        return True
    except OSError:
        return False


def beginning(stream: socket.socket) -> bytes:
    """Return the first bytes of a response, or what went wrong in its place."""
    with stream:
        try:
            return stream.recv(12)
        except OSError as error:
            return str(error).encode()


def connect(port: int) -> socket.socket:
    return socket.create_connection((HOST, port), 20)


def reset_and_half(office: int) -> list[bytes]:
    """Return how the responses begin: to a weighing whose client ended its half, and to 20 requests before it. Between them, a client sends a
    weighing and resets its connection."""
    before = [connect(office) for _ in range(20)]
    for it in before:
        it.sendall(bridge.request_bytes("GET", "/indication"))
    reset = connect(office)
    reset.sendall(bridge.request_bytes("POST", "/weighings", "key=RESET&kind=first&plate=AB-12"))
    reset.setsockopt(socket.SOL_SOCKET, socket.SO_LINGER, struct.pack("ii", 1, 0))
    reset.close()
    half = connect(office)
    half.sendall(bridge.request_bytes("POST", "/weighings", "key=HALF&kind=first&plate=AB-12"))
    half.shutdown(socket.SHUT_WR)
    return [beginning(it) for it in (half, *before)]


def started(path: str, lines: str) -> tuple[int, str, list[str]]:
    """Return the status, the beginning of the output and the last two lines of faults of a start over this journal. Its converter is a file of some lines, so an accepted start ends at once."""
    status, out, err = printed("serve", "--file", path, *addresses(converter=lines))
    return status, out[:6], err.splitlines()[-2:]


class Start(TriedTwice):
    """The lines that a start logs, the files that it refuses, and the memory that it needs."""

    def test_verbose(self) -> None:
        """Show what runs, and a stability window that is shorter than a second."""
        file = f"{self.folder()}/journal.db"
        make_journal(file, 3)
        setup = "--interval 50 --max 25000 --window {} --band 1 --pace 5 --wait 30 --serial AB12 --retention 8 --capacity 60"
        for window, warns in ((4, True), (5, False)):
            words = setup.format(window)
            service = self.serve(file, *words.split(), "--verbose")
            lines = service.end()[1].splitlines()
            wanted = rf"start: weighbridge [0-9.]+, sources .+, proved by .+; {words}; {file}, newest 3 [0-9a-f]{{64}}; "
            wanted += rf"terminal {HOST}:{service.terminal}, office {HOST}:{service.office}, converter {service.converter.source}"
            is_so = re.fullmatch(wanted, lines[0])
            self.holds(f"a start says what runs, with a window of {window}", is_so, lines)
            warned = lines[1].startswith(f"warning: a window of {window} readings at 5 a second")
            self.same(f"and warns of a window of {window} readings", warns, warned)

    def test_terminal(self) -> None:
        """Show that a service says what it listens on, if its standard error is a terminal."""
        ours, theirs = pty.openpty()
        service = self.serve(f"{self.folder()}/journal.db", errors=theirs)
        line = f"weighbridge: it listens on {HOST}:{service.terminal} for the terminal and on {HOST}:{service.office} for the office; to end it, press Ctrl+C"
        self.same("it says what it listens on", line, os.read(ours, 4096).decode().strip())
        service.end()
        os.close(theirs)
        os.close(ours)

    def test_closed_streams(self) -> None:
        """Show a service that is started without standard streams: what it would log there goes to no socket and into no file."""
        file, converter = f"{self.folder()}/journal.db", bridge.Converter()
        terminal, office = bridge.free_port(), bridge.free_port()
        words = [BUILT, "serve", "--verbose", "--file", file]
        words += addresses(terminal, office, converter.source)
        process = subprocess.Popen(["sh", "-c", 'exec "$@" <&- >&- 2>&-', "sh", *words])
        self.addCleanup(process.kill)
        stream, _ = converter.listener.accept()
        stream.settimeout(0.2)
        came = b""
        for _ in range(30):
            stream.sendall(b"1000\n")
            with contextlib.suppress(TimeoutError):
                came += stream.recv(65_536)
            with contextlib.suppress(OSError):
                bridge.exchange_bytes(office, bridge.request_bytes("GET", "/indication"))
        self.same("the converter gets nothing", b"", came)
        stream.close()
        self.same("the service ends as ever", 0, process.wait(timeout=20))
        self.same("its journal is sound", (0, "SOUND 0\n", ""), printed("check", "--file", file))

    def test_memory(self) -> None:
        """Show the program out of memory, wherever that happens: under each limit from which the program can read its arguments, to one that is enough."""
        words = ("check", "--file", f"{self.folder()}/large.db")
        make_journal(words[-1], 2_000)
        found = set()
        for most in range(4_000_000, 24_000_000, 250_000):
            it = printed(*words, preexec_fn=limited((resource.RLIMIT_AS, most)))
            if it[0] in (0, 1) and it[2] != "Error: Kind(OutOfMemory)\n":
                found.add(it)
        sound = (0, "SOUND 2000\n", "")
        wanted = {(1, "", "store 1 memory\n"), sound}
        self.same("out of memory is named as that", wanted, found)
        it = printed(*words, preexec_fn=limited((resource.RLIMIT_STACK, 1 << 18)))
        self.same("256 kB of stack are enough", sound, it)

    def test_turns(self) -> None:
        folder = self.folder()
        Path(folder, "lines").write_text("0\n" * 1_000_005, encoding="ascii")
        for option, turns in (("--turns 5", 5), ("", 1_000_000), ("--turns 1000003", 1_000_003)):
            words = option.split()
            process, _, _ = self.start(f"{folder}/turns.db", f"{folder}/lines", *words)
            wanted = (0, f"turns {turns}\n", "")
            self.same(f"turns: {option or 'the default'}", wanted, ended(process, 120))

    def test_refused_starts(self) -> None:
        """Show that a start looks at the journal's log before it opens it, and compares the journal with its witness."""
        folder = self.folder()
        path, log, lines = (f"{folder}/{it}" for it in ("served.db", "served.db-wal", "lines"))
        Path(lines).write_text("0\n" * 5, encoding="ascii")
        service = self.serve(path)
        for name, form, load in (("first", FIRST, 9170), ("second", SECOND, 4070)):
            service.next_vehicle(load)
            self.same(f"the {name} is stored", 201, weigh(service, form)[0])
        service.close()
        os.remove(f"{path}-newest")
        whole, frame = contents(folder, "served.db"), 24 + 4096
        damaged = bytearray(whole["served.db-wal"])
        # in the first third of the frames: those of the last weighing come after it
        damaged[32 + len(damaged) // frame // 3 * frame + 24 + 100] ^= 1
        Path(log).write_bytes(damaged)
        before = contents(folder, "served.db")
        status, out, faults = started(path, lines)
        self.same("a start over a damaged log", (1, "", [DISK]), (status, out, faults[-1:]))
        self.holds("names the log", "".join(faults[:1]).startswith(f"{log}: "), faults)
        self.same("and changes and makes nothing", before, contents(folder, "served.db"))
        Path(log).write_bytes(whole["served.db-wal"])
        self.same("over the log as it was it starts", (0, "turns ", []), started(path, lines))
        self.same("and has all entries", (0, "SOUND 2\n", ""), printed("check", "--file", path))

    def test_witnesses(self) -> None:
        folder = self.folder()
        path, lines = f"{folder}/witnessed.db", f"{folder}/lines"
        Path(lines).write_text("0\n" * 5, encoding="ascii")
        make_journal(path, 3)
        rows = printed("export", "--file", path, "--what", "journal")[1].splitlines()[1:]
        digests = [row.split(",")[10] for row in rows]
        behind = "troubleshooting.md, A journal that is behind"
        newer = f"its newest entry is 3, but {path}-newest recorded that 4 was answered"
        other = f"entry 3 differs from the entry 3 that {path}-newest recorded"
        for name, number, digest, fault in (
            ("behind its witness", 4, digests[2], newer),
            ("whose newest entry was replaced", 3, digests[1], other),
        ):
            write_newest(path, number, digest)
            before = contents(folder, "witnessed.db-newest")
            status, out, faults = started(path, lines)
            found = (status, out, faults[-1:])
            self.same(f"a start over a journal {name}", (1, "", [DISK]), found)
            said = "".join(faults[:1])
            is_so = said.startswith(f"{path}: {fault}") and said.endswith(behind)
            self.holds(f"says so: {name}", is_so, faults)
            after = contents(folder, "witnessed.db-newest")
            self.same(f"and leaves the witness: {name}", before, after)
        write_newest(path, 3, digests[2])
        self.same("with its own witness it starts", (0, "turns ", []), started(path, lines))


class Clients(TriedTwice):
    """The answers that clients of the office and of the terminal get."""

    def serve_loaded(self, *words: str, rate: float = 10.0) -> bridge.Service:
        """Start a service, and put a vehicle on its bridge."""
        file = f"{self.folder()}/journal.db"
        service = self.serve(file, *words, converter=bridge.Played(rate))
        service.next_vehicle(9170)
        return service

    def test_exchanges(self) -> None:
        """Under --verbose each exchange of the office is one line: route, key, status, and what the answer begins with."""
        service = self.serve_loaded("--verbose")
        weigh(service, FIRST)
        posted(service, "/weighings", "plate=AB-12&kind=second&key=K2")
        target = "/tickets/%07" + "x" * 100
        for it in ("/journal.csv", target):
            bridge.get(service, it)
        pattern = r"(?m)^office [0-9.:]+: (.*) in \d+ ms$"
        lines = re.findall(pattern, service.end()[1])
        wanted = [
            "POST /weighings key K1: 201 WEIGHING SLIP 1",
            "POST /weighings key K2: 409 refused 11 not_cleared",
            "GET /journal.csv: 200",
            f"GET {target[:60]}: 404 refused 16 no_ticket",
        ]
        others = ("GET /indication", "POST /weighings key K1: 409")
        self.same("exchanges are logged", wanted, [it for it in lines if not it.startswith(others)])

    def test_crowd(self) -> None:
        """Show clients that connect at once: each is answered, although its request comes some turns later. A client that resets its connection
        while it waits stores nothing, and one that only ends its half is answered."""
        service = self.serve_loaded(rate=20.0)
        clients = [connect(service.office) for _ in range(30)]
        time.sleep(0.3)
        for it in clients:
            it.sendall(bridge.request_bytes("GET", "/indication"))
        found = [beginning(it) for it in clients]
        self.same("thirty that connect at once are answered", 30 * [b"HTTP/1.1 200"], found)

        def asked() -> list[bytes]:
            return reset_and_half(service.office)

        def is_stored(answers: list[bytes]) -> bool:
            return answers[0] == b"HTTP/1.1 201"

        half, *before = wait_until("a stored weighing", asked, is_stored, pause=0.1)
        self.same("one that ended its half is answered", b"HTTP/1.1 201", half)
        self.same("those before it are answered", 20 * [b"HTTP/1.1 200"], before)
        stored = [row.split(",")[1] for row in got(service, "/journal.csv").splitlines()[1:]]
        self.same("only its request is stored", ["HALF"], stored)
        self.same("the service ends well", 0, service.end()[2])

    def test_two_terminals(self) -> None:
        """Show what is left of a terminal for the next one: no reply, no repetition, no begun line."""
        service = self.serve(f"{self.folder()}/two.db")
        service.put(9170)
        one = bridge.Terminal(service)
        values = [one.ask("SIR"), one.line(), one.line()]
        self.same("a display gets the value again and again", ["S S      18340 kg"] * 3, values)
        one.send(b"I4")
        other = self.enterContext(bridge.Terminal(service))
        one.close()
        other.stream.settimeout(1)
        try:
            came = other.stream.recv(4096)
        except TimeoutError:
            came = b""
        self.same("the next one gets nothing of it unasked", b"", came)
        other.stream.settimeout(20)
        found = [other.ask("x"), other.ask("SI")]
        self.same("and nothing of a line that it began", ["ES", "S S      18340 kg"], found)

    def test_sealed_witness(self) -> None:
        """Show that no 201 leaves before its witness is written. The witness is a file in memory, and a seal refuses every later write to it."""
        path = f"{self.folder()}/journal.db"
        memory = os.memfd_create("witness", os.MFD_ALLOW_SEALING)
        os.symlink(f"/proc/{os.getpid()}/fd/{memory}", f"{path}-newest")
        service = self.serve(path)
        service.next_vehicle(9170)
        self.same("a weighing", 201, weigh(service, FIRST)[0])
        witness = os.pread(memory, 1000, 0)
        self.holds("is in the witness", b"newest 0000000001 " in witness, witness)
        service.next_vehicle(4070)
        fcntl.fcntl(memory, fcntl.F_ADD_SEALS, fcntl.F_SEAL_WRITE)
        answers, end = set(), time.monotonic() + 30
        while service.process.poll() is None and time.monotonic() < end:
            with contextlib.suppress(OSError):
                answers.add(posted(service, "/weighings", SECOND)[0])
        self.holds("one whose witness can't be written isn't answered", 201 not in answers)
        _, err, status = service.end()
        self.same("and ends the service", (1, f"\n{DISK}\n"), (status, err[-len(DISK) - 2 :]))
        is_named = err.startswith(f"{path}-newest: it can't be written")
        self.holds("which names the file", is_named, err)
        os.close(memory)
        self.same("it was stored", (0, "SOUND 2\n", ""), printed("check", "--file", path))


class Service(TriedTwice):
    """A service's addresses, moment, modes and defaults, and its end."""

    def test_addresses_and_moment(self) -> None:
        folder = self.folder()
        mask = os.umask(0)
        self.addCleanup(os.umask, mask)
        service = self.serve(f"{folder}/journal.db")
        os.umask(mask)
        names = ("journal.db", "journal.db-wal")
        modes = {it: stat.S_IMODE(os.stat(f"{folder}/{it}").st_mode) for it in names}
        self.same("the journal's files are only the owner's", dict.fromkeys(names, 0o600), modes)
        with bridge.Terminal(service) as it:
            self.same("the terminal answers at its address", 'I4 A "WB01"', it.ask("I4"))
        self.same("the office answers at its address", "SOUND 0\n", got(service, "/check"))
        for port, whose in ((service.terminal, "terminal"), (service.office, "office")):
            is_other = is_open("127.0.0.2", port)
            self.same(f"the {whose} listens only on that address", False, is_other)
        service.next_vehicle(9170)
        before = int(time.time())
        status, slip = weigh(service, FIRST)
        moments = [
            time.strftime("AT %Y-%m-%d %H:%M:%S", time.gmtime(at))
            for at in range(before, int(time.time()) + 1)
        ]
        is_so = status == 201 and any(at in slip for at in moments)
        self.holds("a weighing has the moment of the clock", is_so, (status, slip))
        _, err, status = service.end()
        self.same("it ends as its converter does", (0, ""), (status, err))

    def test_defaults(self) -> None:
        """Show the capacity and the retention of a service over a journal of 999 entries."""
        path = f"{self.folder()}/old.db"
        make_journal(path, 999, 89 * DAY)
        rows = printed("export", "--file", path, "--what", "journal")[1].splitlines()[1:]
        today = time.strftime("%Y-%m-%d", time.gmtime(time.time() - 90 * DAY))
        service = self.serve(path)
        service.next_vehicle(9170)
        with bridge.Terminal(service) as it:
            wait_until("a tare", lambda: it.ask("TA 5000 kg").startswith("TA A"))
        single = "key=S{}&kind=single&plate=AB-12"
        stored = weigh(service, single.format(1))[0]
        self.same("999 entries leave one place of 1,000", 201, stored)
        service.next_vehicle(9170)
        another = single.format(2)
        self.becomes("and then none", FULL, lambda: posted(service, "/weighings", another))
        old = sum(row.split(",")[4][:10] < today for row in rows)
        purged = posted(service, "/purge")
        self.same("an entry is kept for 90 days after its own", (200, f"PURGED {old}\n"), purged)

    def test_quick_end(self) -> None:
        """Show that if no client has anything to come, the service ends as soon as its converter does."""
        service = self.serve(f"{self.folder()}/quick.db", converter=bridge.Converter())
        time.sleep(0.5)
        began = time.monotonic()
        status = service.end()[2]
        took = time.monotonic() - began
        self.holds("the service ends at once", status == 0 and took < 3, (status, took))

    def test_end(self) -> None:
        """Show the converter's end while a client gets a long response, and a terminal has replies to come."""
        file, converter = f"{self.folder()}/long.db", bridge.Converter()
        make_journal(file, 60_000)
        service = self.serve(file, "--capacity", "100000", converter=converter)
        # one that has room for few replies, so that most wait in the service's socket
        it = socket.socket()
        it.setsockopt(socket.SOL_SOCKET, socket.SO_RCVBUF, 4_096)
        it.connect((HOST, service.terminal))
        with socket.create_connection((HOST, service.office), 30) as stream:
            stream.setsockopt(socket.SOL_SOCKET, socket.SO_RCVBUF, 65_536)
            stream.sendall(bridge.request_bytes("GET", "/journal.csv"))
            answer = stream.recv(4096)
            it.sendall(b"I0\r\n" * 100)
            time.sleep(0.5)
            # more than some turns read: the rest is read at the end, because a stream that is closed over a byte that wasn't read is reset
            it.sendall(b"x" * 8_000)
            converter.close()
            time.sleep(0.5)
            while more := stream.recv(1 << 16):
                answer += more
        head, _, body = answer.partition(b"\r\n\r\n")
        [length] = re.findall(rb"Content-Length: (\d+)", head)
        self.same("at the end a response is still sent whole", int(length), len(body))
        it.settimeout(10)
        replies = b""
        with contextlib.suppress(ConnectionResetError):
            while more := it.recv(1 << 16):
                replies += more
        self.same("and the terminal's replies are", 1_000, replies.count(b"\r\n"))
        it.close()
        self.same("then it ends", 0, service.end()[2])

    def test_full_journal(self) -> None:
        """Show that nothing is refused for its size: 100,000 entries, half of them past retention, over 100,000 spent keys."""
        begun, path, full = time.monotonic(), f"{self.folder()}/full.db", 100_000
        # an entry is past retention at midnight: half of them were stored before that day
        make_journal(path, 2 * full, age=90 * DAY + int(time.time()) % DAY - full // 2)
        spend(path, full)
        sound = (0, f"SOUND {full}\n", "")
        self.same("a full journal is checked", sound, printed("check", "--file", path))
        for what in ("journal", "tickets"):
            status, text, _ = printed("export", "--file", path, "--what", what)
            self.same(f"its export of the {what}", (0, full + 1), (status, text.count("\n")))
        service = self.serve(path, "--capacity", str(full), "--retention", "90")
        service.next_vehicle(9170)
        newest = 2 * full
        status, slip = posted(service, "/weighings", SINGLE.format(newest, newest % 5_000))
        found = (status, slip.split("\n")[0])
        self.same("an entry is found", (201, f"WEIGHING TICKET {newest}"), found)
        spent = posted(service, "/weighings", SINGLE.format(full // 2, 0))
        self.same("a spent key is found", (410, "refused 2 gone\n"), spent)
        new = "key=NEW&kind=first&plate=AB-12"
        self.becomes("no place is left", FULL, lambda: posted(service, "/weighings", new))
        status, text = posted(service, "/purge")
        self.same("half of the entries are purged", (200, "PURGED "), (status, text[:7]))
        left = full - int(text.split()[1])
        is_so = full // 2 - 1_000 < left < full // 2 + 1_000
        self.holds("which were past retention", is_so, left)
        self.same("an entry is added", 201, weigh(service, new)[0])
        self.same("and checked", f"SOUND {left + 1}\n", got(service, "/check"))
        self.same("a full journal's service ends", 0, service.end()[2])
        print(f"a full journal took {time.monotonic() - begun:.0f} s", flush=True)
