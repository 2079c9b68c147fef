"""Shows that a million random requests over replays, and 20,000 over sockets, get an answer or a named refusal. The
journal stays sound.

The check replays random requests, heads and bytes (a fixed seed), with readings and terminal lines among them. Then it
sends others to a service over sockets, while its converter plays loads. Each gets a response of a form that the formats
allow. The numbers of the weighings that were accepted run from 1. At the end of each trace, and of the service,
`weighbridge check` finds as many sound entries as were accepted and not purged.
"""

import contextlib
import os
import random
import re
import socket
import subprocess
from collections import Counter
from concurrent.futures import ThreadPoolExecutor

from checks.lib import bridge
from checks.lib.case import PROGRAM, Check, many
from checks.lib.program import compiled, printed
from checks.lib.showing import fail

BUILT = compiled()
CLIENTS = 4
LONGEST_TRACE = 1_000_000
MORNING = 1_741_593_600
DAY = 86_400
ROUTES = [
    ("POST", "/weighings"),
    ("POST", "/voids"),
    ("POST", "/purge"),
    ("GET", "/tickets/1"),
    ("GET", "/indication"),
    ("GET", "/check"),
]
EXPORTS = [("GET", "/journal.csv"), ("GET", "/tickets.csv")]
TARGETS = "/ /tickets/ /tickets/0 /tickets/4294967296 /weighings/ /%63heck /check?x * /é /tickets/7/1".split()
FIELDS = [
    "Host: x",
    "Content-Length: 0",
    "Content-Length: 5, 5",
    "Content-Length: +5",
    "Transfer-Encoding: chunked",
    "A:b",
    "A : b",
    " folded",
    "Content-Length: 1025",
    "X" * 300 + ": y",
    "Content-Length: 99999999999999999999999999999999999999",
    ": none",
    "\u00e4: b",
]
PLATES = ["AB-12", "CD-34", "EF-56", "A", "ab-12", "", "A" * 13, "AB%2D12", "A+B"]
KINDS = ["first", "second", "single"]
LOADS = [0, 0, 9_170, 4_070, 200, 190, 30_100, -300]
COMMANDS = ["SI", "SIR", "S", "Z", "T", "TA 5000 kg", "TAC", "@", "TA", "x"]
REFUSALS = {
    "1 key_reused",
    "2 gone",
    "3 clock_back",
    "4 no_load",
    "5 overload",
    "6 underload",
    "7 unstable",
    "8 below_min",
    "9 tare_active",
    "10 no_preset",
    "11 not_cleared",
    "12 already_open",
    "13 no_open",
    "14 journal_full",
    "16 no_ticket",
    "17 damaged",
}
FAULTS = {
    "431 head_too_large",
    "400 malformed",
    "404 no_route",
    "405 wrong_method",
    "411 no_length",
    "413 too_large",
    "422 bad_field",
}
STATUS_OF_REFUSAL = {"2": "410", "16": "404"}
ANSWER = re.compile(
    r"(NO LOAD|OVERLOAD|UNDERLOAD|(STABLE|MOVING) G +-?\d+ kg N +-?\d+ kg|(PURGED|SOUND) \d+)\n"
)
TEXT = re.compile(r"WEIGHING (SLIP|TICKET) (\d+)\nPLATE .*", re.DOTALL)


class Asker:
    """Makes requests at random."""

    def __init__(self, seed: int, many_exports: bool = True) -> None:
        self.random = random.Random(seed)
        self.routes = ROUTES * 20 + (EXPORTS if many_exports else [])

    def form(self) -> str:
        pick = self.random.choice
        fields = [
            f"key=K{self.random.randint(1, 400)}",
            f"kind={pick(KINDS)}",
            f"plate={pick(PLATES[:4])}",
        ]
        chance = self.random.random()
        if chance < 0.1:
            fields.pop(self.random.randrange(3))
        elif chance < 0.2:
            fields.append(pick(fields))
        elif chance < 0.3:
            fields[2] = f"plate={pick(PLATES)}"
        elif chance < 0.35:
            fields.append("x=" + "%41" * self.random.randint(1, 400))
        self.random.shuffle(fields)
        return "&".join(fields)

    def request(self) -> bytes:
        """Return a request as it should be, or with a fault of one kind, or bytes of any kind."""
        pick, chance = self.random.choice, self.random.random()
        if chance < 0.05:
            return self.random.randbytes(self.random.randint(1, 200))
        if chance < 0.9:
            method, target = pick(self.routes)
        else:
            method, target = pick(["GET", "POST", "PUT", "get", "", "OPTIONS"]), pick(TARGETS)
        body = self.form() if target in ("/weighings", "/voids") else ""
        fields = [f"Content-Length: {len(body)}"] if method == "POST" else []
        if self.random.random() < 0.1:
            fields += [pick(FIELDS) for _ in range(pick([1, 1, 1, 2, 70]))]
        end = pick(["\r\n"] * 9 + ["\n"])
        first = f"{method} {target} HTTP/1.{pick('1111110' + '2')}"
        data = end.join([first, *fields, "", body]).encode()
        return self.damaged(data) if self.random.random() < 0.1 else data

    def damaged(self, data: bytes) -> bytes:
        place = self.random.randrange(len(data))
        kind = self.random.randrange(5)
        if kind == 0:
            return data[: place + 1]
        if kind == 1:
            flipped = bytes([data[place] ^ 1 << self.random.randrange(8)])
            return data[:place] + flipped + data[place + 1 :]
        if kind == 2:
            return data[:place] + self.random.randbytes(3) + data[place:]
        if kind == 3:
            more = b"x" * self.random.choice([10, 1_000, 8_100, 9_300])
            return data[:place] + more + data[place:]
        return data[:place] + data[place + 1 :] or b"x"


class Judge:
    """Looks at each response, and counts what was accepted and purged."""

    def __init__(self) -> None:
        self.purged = 0
        self.numbers: set[int] = set()
        self.kinds: Counter[str] = Counter()

    def take(self, asked: bytes, status: str, body: str) -> None:
        kind = self.kind_of(status, body)
        if kind is None:
            fail(f"{asked!r} was answered {status} {body[:200]!r}")
        self.kinds[kind] += 1

    def kind_of(self, status: str, body: str) -> str | None:
        text = TEXT.fullmatch(body)
        if text and status in ("200", "201"):
            if status == "201":
                self.numbers.add(int(text.group(2)))
            return f"{status} text"
        what, _, name = body.rstrip("\n").partition(" ")
        if what == "refused":
            wanted = STATUS_OF_REFUSAL.get(name.split()[0], "409")
            return f"{status} {name}" if name in REFUSALS and status == wanted else None
        if what == "fault":
            return f"{status} fault" if name in FAULTS and name.startswith(status) else None
        if status == "200" and body.startswith(("number,key,", "ticket,kind,")):
            return "200 export"
        if status == "200" and ANSWER.fullmatch(body):
            if body.startswith("PURGED "):
                self.purged += int(body.split()[1])
            return "200 " + body.split()[0]
        return None

    def entries(self) -> int:
        if self.numbers != set(range(1, len(self.numbers) + 1)):
            fail("the numbers don't run")
        return len(self.numbers) - self.purged


def trace_of(asker: Asker, most: int) -> tuple[str, list[bytes]]:
    """Return a trace with at most this many requests, and the requests."""
    lines: list[str] = []
    asked: list[bytes] = []
    length, moment = 0, MORNING
    while len(asked) < most and length < LONGEST_TRACE - 30_000:
        chance = asker.random.random()
        if chance < 0.25:
            line = f"r {asker.random.choice(LOADS)} {asker.random.choice([1, 4, 4, 5])}"
        elif chance < 0.3:
            line = f"t {asker.random.choice(COMMANDS)}"
        else:
            moment += asker.random.choice([0, 1, 1, 60, -1])
            if asker.random.random() < 0.0005:
                moment += 91 * DAY
            data = asker.request()
            asked.append(data)
            line = f"x {moment} {data.hex()}"
        lines.append(line)
        length += len(line) + 1
    lines.append(f"o {moment} GET /check")
    return "\n".join(lines) + "\n", asked


def responses_of(printed: str) -> list[list[str]]:
    """Return the status and the body of each response, in their order."""
    found: list[list[str]] = []
    for line in printed.split("\n"):
        if line.startswith("o "):
            found.append([line[2:], ""])
        elif line.startswith("| "):
            found[-1][1] += line[2:] + "\n"
    return found


def replay(seed: int, most: int, kinds: Counter[str]) -> int:
    """Replay one random trace, and return how many requests it had."""
    asker, judge = Asker(seed), Judge()
    trace, asked = trace_of(asker, most)
    words = [BUILT, "replay", "--capacity", "100000"]
    end = subprocess.run(words, input=trace.encode(), capture_output=True)
    if end.returncode != 0 or end.stderr:
        fail(f"trace {seed} ended with {end.returncode} {end.stderr!r}")
    found = responses_of(end.stdout.decode())
    if len(found) != len(asked) + 1:
        fail(f"{len(found)} responses to {len(asked) + 1} requests of trace {seed}")
    for data, (status, body) in zip(asked, found):
        judge.take(data, status, body)
    if found[-1] != ["200", f"SOUND {judge.entries()}\n"]:
        fail(f"trace {seed} ends with {found[-1]}, not with {judge.entries()} entries")
    kinds.update(judge.kinds)
    return len(asked)


def send(service: bridge.Service, data: bytes) -> tuple[str, str] | None:
    """Return the status and the body that the service answers, or None if it closes without a response."""
    with socket.create_connection((bridge.HOST, service.office), 60) as stream:
        stream.settimeout(60)
        answer = b""
        with contextlib.suppress(ConnectionError):
            stream.sendall(data)
            stream.shutdown(socket.SHUT_WR)
            while more := stream.recv(1 << 16):
                answer += more
    head, parted, body = answer.partition(b"\r\n\r\n")
    return (head.split()[1].decode(), body.decode()) if parted else None


def shown(kinds: Counter[str]) -> str:
    return ", ".join(f"{kind} {number}" for kind, number in sorted(kinds.items()))


class RandomRequests(Check):
    """Requests that a program or a service gets, of all forms."""

    needs = (PROGRAM,)
    slow = True
    seconds = 300

    def test_replayed(self) -> None:
        count, traces, wanted = 0, 0, many(1_000_000)
        kinds: Counter[str] = Counter()
        while count < wanted:
            traces += 1
            count += replay(traces, wanted - count, kinds)
        print(f"{count} requests in {traces} traces: {shown(kinds)}")

    def test_sent(self) -> None:
        """Several clients send requests to a service at once."""
        path = os.path.join(self.folder(), "journal.db")
        loads = [0] * 6 + [9_170] * 10
        converter = bridge.Converter(1_000.0, lambda number: loads[number // 4 % len(loads)])
        service = self.enterContext(bridge.Service(BUILT, path, converter, "--capacity", "100000"))

        def client(seed: int) -> list[tuple[bytes, tuple[str, str] | None]]:
            asker = Asker(seed, many_exports=False)
            requests = [asker.request() for _ in range(many(20_000) // CLIENTS)]
            return [(data, send(service, data)) for data in requests]

        with ThreadPoolExecutor(CLIENTS) as pool:
            answers = [it for each in pool.map(client, range(1_000_000, 1_000_004)) for it in each]
        _, err, status = service.end()
        self.assertEqual((0, ""), (status, err), "the service's end")
        judge, unanswered = Judge(), 0
        for data, found in answers:
            if found is not None:
                judge.take(data, *found)
            else:
                # without a byte, or longer than is read
                self.assertTrue(not data or len(data) > 9_216, f"{data!r} got no response")
                unanswered += 1
        print(f"{len(answers)} requests, {unanswered} without a response: {shown(judge.kinds)}")
        sound = (0, f"SOUND {judge.entries()}\n", "")
        self.assertEqual(sound, printed("check", "--file", path), "the file")
