#!/usr/bin/env python3
"""Plays the table of answers.md against a running counter, and compares each answer with its row.

It reads the table from the page, so the page and this program can't differ. It compares the answer, whether the weighing is stored, and when to ask
again. It also compares the rows with the names and retries of refusals.txt. It stores weighings, so run it against a demo (`weighbridge-demo --empty`),
never at a bridge that is in use.

COUNTER is the address of the counter, as http://127.0.0.1:8090. A row that needs a fault, another program or a load isn't played, and its line says why.

The status is one of these:

- 0: Each row that was played is as the table says.
- 1: A row isn't, or the table and refusals.txt differ.
- 2: The arguments, the table or refusals.txt can't be used, or the counter doesn't answer.
"""

import argparse
import contextlib
import http.client
import json
import os
import re
import secrets
import socket
import sys
import time
import urllib.parse
from collections.abc import Callable, Iterator, Mapping, Sequence
from typing import Any, NamedTuple, NoReturn

FOLDER = os.path.dirname(os.path.realpath(__file__))
PAGES = (
    os.path.join(FOLDER, "..", "docs", "answers.md"),
    "/usr/share/doc/weighbridge/answers.md",
)
ROW = re.compile(r"\| ([^|]+) \| ([^|]+) \| ([^|]+) \| ([^|]+) \| ([^|]+) \|")
HEADER = ("Answer", "From", "Stored", "Same key", "Who acts")
STORED = ("yes", "no", "unknown", "purged")
AGAIN = ("done", "later", "after_restart", "with_new_key", "never")
ACTORS = ("till", "clerk", "operator", "programmer")
WITHIN = 50.0  # seconds for an answer: that about a key can take 40
LOAD_WITHIN = 20.0  # seconds until a load stands still
MOVING_FOR = 3.0  # seconds in which a load that was changed moves
FULL, OTHER, LIGHT = 18340, 8140, 100  # loads in kg
AS_JSON = {"Accept": "application/json"}
JSON_BODY = {"Content-Type": "application/json"}


class Row(NamedTuple):
    answer: str
    source: str
    stored: str
    again: str
    who: str


class Answer(NamedTuple):
    status: int
    fields: Mapping[str, str]
    text: str

    @property
    def line(self) -> str:
        return f"{self.status} {self.text.partition(chr(10))[0]}"


class NotPlayed(Exception):
    """Raised by a row that can't be played here. Its text says why."""


class Differs(Exception):
    """Raised by a row whose answer isn't as the table says. Its text says how."""


class Place:
    """An address that is asked, each time on a connection of its own."""

    def __init__(self, address: str) -> None:
        parts = urllib.parse.urlsplit(address)
        if parts.scheme != "http" or parts.hostname is None or parts.path not in ("", "/"):
            fail(
                f"{address}: the address isn't http://HOST:PORT; write the one that the demo prints"
            )
        self.address = address.rstrip("/")
        self.host, self.port = parts.hostname, parts.port or 80

    def ask(self, method: str, target: str, body: str | None = None, **fields: str) -> Answer:
        """Return the answer. Raises OSError or HTTPException if there is none. The fields have _ for -."""
        connection = http.client.HTTPConnection(self.host, self.port, timeout=WITHIN)
        with contextlib.closing(connection):
            named = {name.replace("_", "-"): value for name, value in fields.items()}
            connection.request(method, target, body, named)
            response = connection.getresponse()
            given = {name.lower(): value for name, value in response.getheaders()}
            return Answer(response.status, given, response.read().decode(errors="replace"))

    def send(self, sent: str, whole: bool) -> socket.socket:
        """Send a request that needn't be whole, and return its connection. `whole` says whether the other side may process it."""
        stream = socket.create_connection((self.host, self.port), WITHIN)
        stream.sendall(sent.encode())
        if whole:
            time.sleep(1.0)  # so that it is processed before the connection ends
        return stream


class Bridge:
    """The counter, and what is put on its bridge."""

    def __init__(self, counter: Place, load: Place | None, office: Place | None) -> None:
        self.counter, self.load, self.office = counter, load, office
        self.plates: list[str] = []  # of Firsts that are open

    def put(self, kg: int, is_waited_for: bool = True) -> None:
        if self.load is None:
            raise NotPlayed("it needs a load; name the played bridge after --load")
        answer = self.load.ask("POST", "/load", json.dumps({"kg": kg}))
        if answer.status != 200:
            raise NotPlayed(f"the played bridge refuses {kg} kg")
        until = time.monotonic() + (LOAD_WITHIN if is_waited_for else 0)
        while time.monotonic() < until:
            line = self.counter.ask("GET", "/indication").text
            found = re.match(r"STABLE G +(-?\d+) kg", line)
            if found and abs(int(found[1]) - kg) <= 20:
                return
            time.sleep(0.1)
        if is_waited_for:
            raise NotPlayed(f"the load of {kg} kg doesn't stand still")

    def next_vehicle(self, kg: int) -> None:
        self.put(0)
        time.sleep(0.5)  # so that a reading shows the empty bridge
        self.put(kg)

    def form(self, kind: str = "first", **more: str) -> dict[str, str]:
        plate = f"ANSWERS-{secrets.token_hex(2).upper()}"
        return {"key": secrets.token_hex(10), "kind": kind, "plate": plate} | more

    def weigh(self, form: Mapping[str, str], target: str = "/weighings", **how: str) -> Answer:
        answer = self.counter.ask("POST", target, urllib.parse.urlencode(form), **how)
        if answer.status == 201 and form.get("kind") == "first":
            self.plates.append(form["plate"])
        return answer

    def has(self, key: str) -> bool:
        """Return whether the journal has a key. Raises Differs if the counter doesn't know."""
        answer = self.counter.ask("GET", f"/keys/{key}")
        if answer.status != 200:
            raise Differs(f"GET /keys/{key}: {answer.line}")
        return bool(json.loads(answer.text)["found"])

    def clear(self) -> None:
        """Void the Firsts that were stored."""
        for plate in dict.fromkeys(self.plates):
            self.weigh({"key": secrets.token_hex(10), "plate": plate}, "/voids")


class Seen(NamedTuple):
    """The findings of a play: the answer, its line for the table, when to ask again by the JSON, and the request's key."""

    line: str
    again: str | None = None
    key: str | None = None


Play = Callable[[Bridge], Seen]


def asked(bridge: Bridge, form: Mapping[str, str], target: str = "/weighings", **how: str) -> Seen:
    """Return what is seen if a request is sent twice: for its text, and then for its JSON."""
    text = bridge.weigh(form, target, **how)
    shown = json.loads(bridge.weigh(form, target, **AS_JSON, **how).text)
    return Seen(text.line, shown["retry"], form.get("key"))


def stored(bridge: Bridge) -> Seen:
    bridge.next_vehicle(FULL)
    form = bridge.form()
    first, again = bridge.weigh(form), bridge.weigh(form)
    if first.status == 201 and (again.status, again.text) != (201, first.text):
        raise Differs(f"the same request again is answered {again.line}")
    if again.fields.get("idempotency-replayed", "true") != "true":
        raise Differs("the same request again isn't said to be repeated")
    return Seen(str(first.status), "done", form["key"])


def key_reused(bridge: Bridge) -> Seen:
    bridge.next_vehicle(FULL)
    form = bridge.form()
    bridge.weigh(form)
    return asked(bridge, form | {"plate": "OTHER-1"})._replace(key=None)


def below_min(bridge: Bridge) -> Seen:
    bridge.put(LIGHT)
    return asked(bridge, bridge.form())


def unstable(bridge: Bridge) -> Seen:
    bridge.next_vehicle(FULL)
    bridge.put(OTHER, is_waited_for=False)
    form, until = bridge.form(), time.monotonic() + MOVING_FOR
    while time.monotonic() < until:
        text = bridge.weigh(form)
        if text.line == "409 refused 7 unstable":
            return Seen(text.line, None, None)
        if text.status == 201:
            break
    raise NotPlayed("the load stood still too soon")


def not_cleared(bridge: Bridge) -> Seen:
    bridge.next_vehicle(FULL)
    bridge.weigh(bridge.form())
    return asked(bridge, bridge.form())


def already_open(bridge: Bridge) -> Seen:
    bridge.next_vehicle(FULL)
    form = bridge.form()
    bridge.weigh(form)
    bridge.next_vehicle(FULL)
    return asked(bridge, form | {"key": secrets.token_hex(10)})


def loaded(kind: str, **more: str) -> Play:
    def play(bridge: Bridge) -> Seen:
        bridge.next_vehicle(FULL)
        return asked(bridge, bridge.form(kind, **more))

    return play


def plain(**more: str) -> Play:
    """Play a request that is refused whatever is on the bridge."""
    return lambda bridge: asked(bridge, bridge.form(**more))


def with_fields(**fields: str) -> Play:
    return lambda bridge: asked(bridge, bridge.form(), **fields)


def of_target(method: str, target: str) -> Play:
    def play(bridge: Bridge) -> Seen:
        text = bridge.counter.ask(method, target)
        shown = json.loads(bridge.counter.ask(method, target, **AS_JSON).text)
        return Seen(text.line, shown["retry"])

    return play


def of_json(body: str) -> Play:
    def play(bridge: Bridge) -> Seen:
        text = bridge.counter.ask("POST", "/weighings", body, **JSON_BODY)
        shown = json.loads(
            bridge.counter.ask("POST", "/weighings", body, **JSON_BODY, **AS_JSON).text
        )
        return Seen(text.line, shown["retry"])

    return play


def other_journal(bridge: Bridge) -> Seen:
    answer = bridge.counter.ask("GET", f"/tickets?journal={32 * '0'}")
    shown = json.loads(answer.text)
    return Seen(f"{answer.status} {shown['name']}", shown["retry"])


def no_printer(bridge: Bridge) -> Seen:
    answer = bridge.counter.ask("POST", "/papers/1", "printer=unheard-of", **AS_JSON)
    shown = json.loads(answer.text)
    return Seen(f"{answer.status} {shown['name']}", shown["retry"])


def no_connection(bridge: Bridge) -> Seen:
    with socket.socket() as unheard:
        unheard.bind(("127.0.0.1", 0))  # nobody listens there
        try:
            socket.create_connection(unheard.getsockname(), 5).close()
        except ConnectionRefusedError:
            return Seen("no connection")
    raise Differs("a port where nobody listens accepts a connection")


def request_of(bridge: Bridge, form: Mapping[str, str]) -> str:
    body = urllib.parse.urlencode(form)
    head = f"POST /weighings HTTP/1.1\r\nHost: {bridge.counter.host}:{bridge.counter.port}\r\n"
    return f"{head}Content-Length: {len(body)}\r\n\r\n{body}"


def cut_within_the_request(bridge: Bridge) -> Seen:
    bridge.next_vehicle(FULL)
    form = bridge.form()
    bridge.counter.send(request_of(bridge, form)[:-3], whole=False).close()
    return Seen("cut within the request", None, form["key"])


def cut(bridge: Bridge, line: str, size: int) -> Seen:
    """Play a connection that ends after `size` bytes of the answer, and the same request again."""
    bridge.next_vehicle(FULL)
    form = bridge.form()
    with bridge.counter.send(request_of(bridge, form), whole=True) as stream:
        while size > 0 and (some := stream.recv(size)):
            size -= len(some)
    again, later = bridge.weigh(form), bridge.weigh(form)
    if (again.status, again.text) != (201, later.text):
        raise Differs(f"the same request again is answered {again.line}")
    if not bridge.has(form["key"]):
        raise Differs("the journal doesn't have its key")
    return Seen(line)


def at_office(sent: str) -> Play:
    def play(bridge: Bridge) -> Seen:
        if bridge.office is None:
            raise NotPlayed("only the office answers so; name its address after --office")
        with bridge.office.send(sent, whole=False) as stream:
            answer = b""
            while some := stream.recv(4096):
                answer += some
        head, _, body = answer.decode().partition("\r\n\r\n")
        return Seen(f"{head.split(' ')[1]} {body.strip()}")

    return play


NO_LENGTH = "POST /weighings HTTP/1.1\r\nHost: x\r\n\r\n"
LONG_HEAD = f"GET /indication HTTP/1.1\r\nA: {'y' * 8300}\r\n\r\n"
PLAYS: Mapping[str, Play] = {
    "201": stored,
    "409 refused 1 key_reused": key_reused,
    "409 refused 7 unstable": unstable,
    "409 refused 8 below_min": below_min,
    "409 refused 10 no_preset": loaded("single"),
    "409 refused 11 not_cleared": not_cleared,
    "409 refused 12 already_open": already_open,
    "409 refused 13 no_open": loaded("second"),
    "404 refused 16 no_ticket": of_target("GET", "/tickets/4294967295"),
    "400 fault 400 malformed": of_json("{"),
    "404 fault 404 no_route": of_target("GET", "/none"),
    "405 fault 405 wrong_method": of_target("GET", "/weighings"),
    "411 fault 411 no_length": at_office(NO_LENGTH),
    "413 fault 413 too_large": plain(goods="x" * 3000),
    "422 fault 422 bad_field": plain(plate="no plate"),
    "431 fault 431 head_too_large": at_office(LONG_HEAD),
    "422 fault 422 bad_value": of_json('{"key": 1}'),
    "422 fault 422 unknown_field": of_json('{"unknown": 1}'),
    "422 counter bad_at": plain(at="now"),
    "422 counter bad_tare": plain(kind="single", tare="0"),
    "409 counter tare_refused": loaded("single", tare="9999999"),
    "503 counter late": plain(at="1"),
    "421 counter other_host": with_fields(Host="elsewhere.example"),
    "403 counter other_site": with_fields(Origin="http://elsewhere.example"),
    "409 other_journal": other_journal,
    "422 no_printer": no_printer,
    "no connection": no_connection,
    "cut within the request": cut_within_the_request,
    "cut after the request": lambda bridge: cut(bridge, "cut after the request", 0),
    "cut within the answer": lambda bridge: cut(bridge, "cut within the answer", 20),
}
WHY_NOT = {
    "410 refused 2 gone": "an entry must be past retention, and purged",
    "409 refused 3 clock_back": "the clock of the machine must be set back",
    "409 refused 4 no_load": "the converter must be silent",
    "409 refused 5 overload": "a demo takes no load above Max",
    "409 refused 6 underload": "a demo takes no load below zero",
    "409 refused 9 tare_active": "another client must set a tare at a terminal",
    "409 refused 14 journal_full": "the journal must be full",
    "503 refused 15 store": "the disk of the journal must fail",
    "409 refused 17 damaged": "somebody must change the journal",
    "500 fault 500 internal": "the counter must have a mistake",
    "422 counter bad_once": "the setup may allow it",
    "409 counter tare_set": "another client must set a tare at a terminal",
    "503 counter busy": "another weighing must take a second",
    "503 counter no_terminal": "the service must end",
    "503 counter no_file": "the disk of the counter must fail",
    "503 counter too_many": "it takes 400 connections, and disconnects others",
    "502 counter no_answer": "the service must end",
    "503 no_export": "the counter must have started just now",
    "503 not_sent": "the service must end",
    "504 unanswered": "the service must be held up",
    "422 unprintable": "it needs a printer",
    "409 printed": "it needs a printer",
    "409 is_void": "it concerns a paper, and no weighing",
    "TLS refused": "it needs nginx",
    "no answer in 30 seconds": "it is as `cut after the request`",
}


def fail(words: str) -> NoReturn:
    print(f"answers: {words}", file=sys.stderr)
    sys.exit(2)


def read(path: str) -> str:
    try:
        with open(path, encoding="utf-8") as file:
            return file.read()
    except (OSError, ValueError) as fault:
        fail(f"{path}: it can't be read: {fault}")


def rows_of(page: str, path: str) -> list[Row]:
    """Return the rows of the table. Ends the program if a cell has a word that no column has."""
    found = [Row(*map(str.strip, it)) for it in ROW.findall(page)]
    if not found or found[0] != HEADER:
        fail(f"{path}: it has no table with the columns {', '.join(HEADER)}")
    rows = [it._replace(answer=it.answer.strip("`")) for it in found[1:] if "---" not in it.answer]
    for it in rows:
        if it.stored not in STORED or it.again not in AGAIN or it.who not in ACTORS:
            fail(
                f"{path}: {it.answer}: a column has another word: {it.stored}, {it.again}, {it.who}"
            )
    return rows


def names_of(text: str) -> dict[str, str]:
    """Return when to ask again after each name of refusals.txt."""
    lines = [it.split() for it in text.splitlines() if it.startswith("retry ")]
    return {name: when for _, when, _, *names in lines for name in names}


def gaps(rows: Sequence[Row], names: Mapping[str, str]) -> Iterator[str]:
    """Return how the table and refusals.txt differ."""
    ours = {
        it.answer.split(" ")[-1]: it
        for it in rows
        if it.source not in ("nginx", "network") and it.answer != "201"
    }
    for name, it in ours.items():
        if names.get(name) != it.again:
            yield f"{it.answer}: refusals.txt has {names.get(name)}, and the table {it.again}"
    for name in names.keys() - ours.keys():
        if "." not in name:
            yield f"{name} of refusals.txt isn't in the table"
    for name in {it.answer for it in rows} - PLAYS.keys() - WHY_NOT.keys():
        if not any(it.answer == name and it.source == "nginx" for it in rows):
            yield f"{name}: nobody knows how to play this row"
    for name in (PLAYS.keys() | WHY_NOT.keys()) - {it.answer for it in rows}:
        yield f"{name} is played, but isn't in the table"


def play(row: Row, bridge: Bridge) -> None:
    """Play a row. Raises NotPlayed, or Differs if something isn't as the table says."""
    if row.source == "nginx":
        raise NotPlayed("it needs nginx")
    if row.answer not in PLAYS:
        raise NotPlayed(WHY_NOT.get(row.answer, "nobody knows how"))
    seen = PLAYS[row.answer](bridge)
    if seen.line != row.answer:
        raise Differs(f"the answer is {seen.line}")
    if seen.again not in (None, row.again):
        raise Differs(f"the JSON has the retry {seen.again}, and the table {row.again}")
    if seen.key is not None and row.stored in ("yes", "no"):
        if bridge.has(seen.key) != (row.stored == "yes"):
            raise Differs(f"the table says of its storing: {row.stored}")


def main(given: Sequence[str] | None = None) -> int:
    words = argparse.ArgumentParser(
        "answers.py", description=__doc__, formatter_class=argparse.RawDescriptionHelpFormatter
    )
    words.add_argument("counter", metavar="COUNTER")
    words.add_argument("--load", metavar="ADDRESS", help="the played bridge of weighbridge-demo")
    words.add_argument("--office", metavar="ADDRESS", help="the office behind the counter")
    words.add_argument("--table", metavar="PAGE", help="the page with the table")
    asked_for: Any = words.parse_args(given)
    path = asked_for.table or next((it for it in PAGES if os.path.exists(it)), PAGES[0])
    rows = rows_of(read(path), path)
    names = names_of(read(os.path.join(FOLDER, "refusals.txt")))
    places = [Place(it) if it else None for it in (asked_for.load, asked_for.office)]
    bridge = Bridge(Place(asked_for.counter), *places)
    wrong = list(gaps(rows, names))
    for line in wrong:
        print(f"answers: {line}")
    played = 0
    try:
        bridge.counter.ask("GET", "/time")
        for row in rows:
            try:
                play(row, bridge)
                played += 1
                print(f"{row.answer}: ok", flush=True)
            except NotPlayed as why:
                print(f"{row.answer}: not played: {why}", flush=True)
            except Differs as how:
                wrong.append(row.answer)
                print(f"{row.answer}: DIFFERS: {how}", flush=True)
        bridge.clear()
    except (OSError, http.client.HTTPException, ValueError, KeyError) as fault:
        fail(f"{asked_for.counter}: {fault!r}; is that the address of a counter that runs?")
    print(f"answers: {played} of {len(rows)} rows were played, {len(wrong)} differ")
    return 1 if wrong else 0


if __name__ == "__main__":
    sys.exit(main())
