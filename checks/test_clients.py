"""Shows that both clients store a weighing once, whatever is cut or killed, and that the tables of refusals agree.

First each client runs at offices, counters, gateways and proxies that are played (`checks/lib/played_clients.py`, which
also runs without the built program). It asks no proxy, takes and refuses the same addresses and seconds as the other
one, and trusts a certificate only by its authority. Only a slip or ticket of its plate counts as stored. It says each
answer of the counter in words. At the end it asks a counter about its key, and says whether the weighing is stored.
Without an answer a client gives up after its time.

Then each client runs against a service:

- It makes a first weighing and its second, gets refusals with their words for the counter, and makes a void.
- The connection of one request is cut before the office has the request. Others are cut at many places of the answer's
  head, in its text, and one byte before its end.
- A gateway without an office answers one request with 502 and 503, and in the words of another program with 401, 403, 404
  and 429. The office has one of these requests, and a fault that says nothing of an earlier attempt follows.
- A refusal 17 doesn't show whether the weighing is stored.
- The service is killed by SIGKILL after one request, and started again.

Each time the journal has one entry of the key. An lp that is played gets all of what docs/operating.md pipes to lp.
`clients/refusals.txt` and the tables of docs/operating.md and docs/integrating.md have the numbers and names of
docs/rules.md and docs/http.md.
"""

import os
import re
import subprocess
import tempfile
import time
from pathlib import Path
from typing import Any

from checks import TOP
from checks.lib import bridge, cutting, played_clients
from checks.lib.case import PROGRAM, Check, skip_without
from checks.lib.program import PROGRAM as BUILT
from checks.lib.showing import fail, same

# The status of a client, the first line of what it prints, the last of what it reports, and all that it prints.
Ran = tuple[int, str, str, str]


def read(*path: str) -> str:
    return TOP.joinpath(*path).read_text(encoding="utf-8")


def rows_of(page: str, pattern: str) -> list[Any]:
    """Return what the pattern finds in the rows of the page's tables, such as pairs of a number and a name."""
    return re.findall(pattern, read("docs", page), re.MULTILINE)


def check_refusals() -> None:
    """Show that each refusal and fault has its line, with its name, and that there is no other."""
    wanted = {("15", "store"), ("16", "no_ticket")}
    wanted |= set(rows_of("rules.md", r"^\| (\d+) \| `(\w+)` \|"))
    wanted |= set(rows_of("http.md", r"^\| \d \| (\d{3}) `(\w+)` \|"))
    others = ("#", "counter ", "json ", "retry ")
    lines = [it for it in read("clients", "refusals.txt").splitlines() if not it.startswith(others)]
    named = sorted(tuple(line.split(" ", 2)[:2]) for line in lines)
    same("numbers and names of refusals.txt", sorted(wanted), named)
    same("refusals in rules.md and http.md", 24, len(wanted))
    refusals = sorted((number, name) for number, name in wanted if len(number) < 3)
    found = rows_of("operating.md", r"^\| `(\d+) (\w+)` \|")
    same("the refusals' table of operating.md", refusals, sorted(found))
    statuses = {"2": "410", "15": "503", "16": "404"}
    found = rows_of("integrating.md", r"^\| `(\d+) (\w+)` \| (\d+) \|")
    with_statuses = [(*it, statuses.get(it[0], "409")) for it in refusals]
    same("the refusals' table of integrating.md", with_statuses, sorted(found))


class Bridge(bridge.Closing):
    """A service over a file, whose load is what was put on it last."""

    def __init__(self, file: str) -> None:
        self.file, self.load = file, 0
        self.start()

    def start(self) -> None:
        converter = bridge.Converter(rate=50.0, load=lambda number: self.load)
        self.service = bridge.Service(BUILT, self.file, converter, "--pace", "50")

    def put(self, load: int) -> None:
        """Empty the bridge, and put a load on it that stands still."""
        for self.load in (0, load):
            time.sleep(0.4)

    def close(self) -> None:
        self.service.close()

    def keys(self) -> list[str]:
        """Return the keys of the journal, and show that it is sound."""
        answer = bridge.get(self.service, "/journal.csv")
        rows = answer[1].splitlines()[1:] if answer else []
        sound = (200, f"SOUND {len(rows)}\n")
        same("the journal is sound", sound, bridge.get(self.service, "/check"))
        return [row.split(",")[1] for row in rows]


class Client:
    """One of the programs."""

    def __init__(self, name: str) -> None:
        self.name, self.path = name, str(TOP / "clients" / name)

    def start(self, port: int, *words: str) -> subprocess.Popen[str]:
        return subprocess.Popen(
            [self.path, *words],
            env={**os.environ, "WEIGHBRIDGE": f"http://{bridge.HOST}:{port}"},
            stdin=subprocess.DEVNULL,
            stdout=subprocess.PIPE,
            stderr=subprocess.PIPE,
            text=True,
        )

    def run(self, port: int, *words: str) -> Ran:
        """Return its status, the first line of what it prints, the last of what it reports, and all that it prints."""
        return ended(self.start(port, *words))


def ended(process: subprocess.Popen[str]) -> Ran:
    out, err = process.communicate(timeout=60)
    lines = err.splitlines()
    return process.returncode, (out.splitlines() or [""])[0], lines[-1] if lines else "", out


def refused(number: int) -> Ran:
    """Return what a client that is refused by this number ends with."""
    lines = read("clients", "refusals.txt").splitlines()
    return (1, "", next(it for it in lines if it.startswith(f"{number} ")), "")


def check_day(client: Client, it: Bridge) -> None:
    """Weighings, a void and refusals, with keys that the client makes and with given ones."""
    port, name = it.service.office, client.name
    it.put(0)
    same(f"{name}: an empty bridge", refused(8), client.run(port, "first", "AB-12", "K0"))
    it.put(9170)
    first = client.run(port, "first", "AB-12", "K1")
    same(f"{name}: a first weighing", (0, "WEIGHING SLIP 1", "key K1"), first[:3])
    same(f"{name}: the same again", first, client.run(port, "first", "AB-12", "K1"))
    same(f"{name}: its key for another plate", refused(1), client.run(port, "first", "CD-34", "K1"))
    same(f"{name}: the bridge was not cleared", refused(11), client.run(port, "second", "AB-12"))
    same(f"{name}: a plate that isn't one", refused(422), client.run(port, "first", "ab 12&"))
    it.put(4070)
    same(f"{name}: nothing to void", refused(13), client.run(port, "void", "CD-34"))
    second = client.run(port, "second", "AB-12")
    same(f"{name}: a second weighing with a key of its own", (0, "WEIGHING TICKET 2"), second[:2])
    is_key = re.fullmatch("key [0-9a-f]{20}", second[2]) is not None
    same(f"{name}: its key has 20 characters", True, is_key)
    it.put(6500)
    third = client.run(port, "first", "CD-34")
    same(f"{name}: a first weighing with another key", (0, "WEIGHING SLIP 3"), third[:2])
    same(f"{name}: its void", (0, "WEIGHING SLIP 4"), client.run(port, "void", "CD-34", "K4")[:2])
    same(f"{name}: the keys of the journal", ["K1", second[2][4:], third[2][4:], "K4"], it.keys())
    same(f"{name}: a kind that isn't one", 2, client.run(port, "third", "AB-12")[0])
    same(f"{name}: no plate", 2, client.run(port, "first")[0])


def gateway_of(it: Bridge, plan: list[cutting.Step]) -> cutting.Gateway:
    """Start a gateway before the office, which answers by this plan."""
    gateway = cutting.Gateway(it.service.office, plan)
    gateway.start()
    return gateway


def check_cuts(client: Client, it: Bridge) -> None:
    """Show that a request whose connection is cut again and again is stored once, and that its text is printed whole."""
    it.put(9170)
    cuts = map(cutting.cut, (0, 5, 12, 22, 60, 120, 145, -100, -1))
    plan = [cutting.unheard, *cuts, cutting.unavailable(502), cutting.unavailable(503)]
    gateway = gateway_of(it, plan)
    found = client.run(gateway.port, "first", "EF-56", "K5")
    same(f"{client.name}: cut {len(plan)} times", (0, "WEIGHING SLIP 5"), found[:2])
    whole = client.run(it.service.office, "first", "EF-56", "K5")[3]
    same(f"{client.name}: its text is whole", whole, found[3])
    same(f"{client.name}: how often it asked", len(plan) + 1, len(gateway.seen))
    same(f"{client.name}: each time the same request", 1, len(set(gateway.seen)))
    same(f"{client.name}: entries of its key", 1, it.keys().count("K5"))


def check_strangers(client: Client, it: Bridge) -> None:
    """Show that what isn't the office's judgement of this request settles nothing."""
    it.put(4070)
    plan = [
        cutting.instead(401, "<html>password</html>"),
        cutting.unavailable(403, "refused\n"),
        cutting.unavailable(404, "<html>nothing here</html>"),
        cutting.unavailable(429, "too many requests"),
        cutting.unavailable(400, "fault 400 bad_request\n"),
    ]
    gateway = gateway_of(it, plan)
    found = client.run(gateway.port, "second", "EF-56", "K6")
    same(f"{client.name}: strangers answered", (0, "WEIGHING TICKET 6"), found[:2])
    same(f"{client.name}: how often it asked them", len(plan) + 1, len(gateway.seen))
    same(f"{client.name}: entries of its key", 1, it.keys().count("K6"))


def check_damaged(client: Client, it: Bridge) -> None:
    """Show that a client doesn't call a weighing refused of which the office can't say whether it is stored."""
    gateway = gateway_of(it, [cutting.unavailable(409, "refused 17 damaged\n")])
    last = "look for the key K7 in the office's journal.csv, and call the operator"
    found = client.run(gateway.port, "second", "EF-56", "K7")
    same(f"{client.name}: a damaged entry", (3, "", last, ""), found)


def check_kill(client: Client, it: Bridge) -> None:
    """Show that the next service answers a request that a service stored before it was killed without an answer."""

    def killed(gateway: cutting.Gateway, request: bytes) -> bytes:
        cutting.whole(gateway, request)
        it.close()
        return b""

    it.put(9170)
    gateway = gateway_of(it, [killed])
    process = client.start(gateway.port, "first", "GH-78", "K8")
    it.service.process.wait(20)
    it.start()
    gateway.office = it.service.office
    what = f"{client.name}: the service was killed and started again"
    same(what, (0, "WEIGHING SLIP 7"), ended(process)[:2])
    same(f"{client.name}: entries of its key", 1, it.keys().count("K8"))


def check_paper(it: Bridge) -> None:
    """Show that all of what operating.md pipes to lp comes, and that nothing of a refusal does."""
    installed = "/usr/share/weighbridge/clients"
    pattern = rf"^WEIGHBRIDGE=\S+ ({installed}/weigh\.sh first AB-12 \| lp)$"
    line = re.search(pattern, read("docs", "operating.md"), re.M)
    if line is None:
        fail("operating.md pipes nothing to lp")
    own = line[1].replace(installed, str(TOP / "clients"))
    with tempfile.TemporaryDirectory() as folder:
        lp, paper = Path(folder, "lp"), Path(folder, "paper")
        lp.write_text(f"#!/bin/sh\ncat >{paper}\n", encoding="utf-8")
        lp.chmod(0o755)
        path, office = f"{folder}:{os.environ['PATH']}", f"{bridge.HOST}:{it.service.office}"
        environment = {**os.environ, "PATH": path, "WEIGHBRIDGE": f"http://{office}"}

        def printed(key: str) -> str:
            words = ["sh", "-c", own.replace("AB-12", f"LP-1 {key}")]
            subprocess.run(words, env=environment, capture_output=True, check=True)
            return paper.read_text(encoding="utf-8")

        for what in ("the paper", "the same again"):
            it.put(9170)
            found = printed("LP1")
            slip = Client("weigh.py").run(it.service.office, "first", "LP-1", "LP1")[3]
            same(f"lp: {what}", slip, found)
        same("lp: nothing of a refusal", "", printed("LP2"))


class Tables(Check):
    """The tables of refusals."""

    def test_refusals(self) -> None:
        check_refusals()


class Played(Check):
    """The clients at offices, counters, gateways and proxies that are played."""

    needs = ("openssl",)
    seconds = 60

    def test_weigh_py(self) -> None:
        played_clients.show(["weigh.py"])

    @skip_without("curl")
    def test_weigh_sh(self) -> None:
        played_clients.show(["weigh.sh"])


class AtAService(Check):
    """The clients at a service whose requests are cut, and which is killed."""

    needs = (PROGRAM,)
    seconds = 60

    def show(self, name: str) -> None:
        client = Client(name)
        it = self.enterContext(Bridge(os.path.join(self.folder(), "journal.db")))
        check_day(client, it)
        check_cuts(client, it)
        check_strangers(client, it)
        check_damaged(client, it)
        check_kill(client, it)
        if name == "weigh.sh":
            check_paper(it)

    def test_weigh_py(self) -> None:
        self.show("weigh.py")

    @skip_without("curl")
    def test_weigh_sh(self) -> None:
        self.show("weigh.sh")
