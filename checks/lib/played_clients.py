#!/usr/bin/env python3
"""Show how the clients of the folder clients behave at offices, counters, gateways and proxies that are played here. It needs python3, and for weigh.sh curl.

Usage: checks/lib/played_clients.py     from any folder; checks/clients runs it too
"""

import json
import os
import re
import shutil
import socket
import ssl
import subprocess
import sys
import tempfile
import threading
import time
from collections.abc import Callable, Iterable, Sequence
from concurrent.futures import ThreadPoolExecutor
from http.server import BaseHTTPRequestHandler, ThreadingHTTPServer
from typing import Any

TOP = os.path.dirname(os.path.dirname(os.path.dirname(os.path.abspath(__file__))))
sys.path.insert(0, TOP)
from checks.lib.bridge import HOST  # noqa: E402
from checks.lib.showing import same  # noqa: E402

END = "AT 2025-03-10 08:00:00\nG      18340 kg\nE 20 kg MAX 60000 kg SERIAL WB01\nDIGEST a9\n"
SLIP = f"WEIGHING SLIP 1\nPLATE AB-12\nFIRST NO 1\n{END}"
TICKET = f"WEIGHING TICKET 2\nPLATE AB-12\nSECOND NO 2\n{END}"
VOID = "WEIGHING SLIP 3\nPLATE AB-12\nVOID NO 3\n"
STORED, NO_ANSWER = (201, SLIP), (502, "counter no_answer\n")
NOT_SENT = {"X-Counter": "not_sent"}
BUSY = (503, "counter busy\n", NOT_SENT)
NO_ROUTE = (404, "fault 404 no_route\n")
SILENT, DRIPPING = "silent", "dripping"
AGAIN = " Asking again with the same key"
REFUSED = "connection refused: is the service running?"
NOTHING_SENT = "nothing was sent to the office, so the weighing is not stored"
UNKNOWN = "no answer for 3 s, so it isn't known whether the weighing is stored"
LOOKING = "no answer for 3 s; looking for the key in the journal"
BUSY_WORDS = "counter busy Another weighing is under way."
Fields = dict[str, str]
Whole = tuple[int, str] | tuple[int, str, Fields]  # the status, the text, perhaps fields
Answer = Whole | str  # SILENT or DRIPPING, if it isn't whole


class Place:
    """An office, a counter, a gateway or a proxy. It answers one POST after another by its plan, whose last answer stays, and each other request by `other`."""

    def __init__(
        self, plan: Iterable[Answer], other: Answer = NO_ROUTE, certificate: str | None = None
    ) -> None:
        self.plan, self.other = list(plan), other
        # of each request its method, target, body and moment
        self.seen: list[tuple[str, str, str, float]] = []
        place = self

        class Handler(BaseHTTPRequestHandler):
            protocol_version = "HTTP/1.1"

            def log_message(self, *_: object) -> None:
                pass

            def do(self) -> None:
                body = self.rfile.read(int(self.headers.get("Content-Length", 0))).decode()
                place.seen.append((self.command, self.path, body, time.monotonic()))
                is_post = self.command == "POST"
                answer = (
                    place.other
                    if not is_post
                    else place.plan.pop(0)
                    if len(place.plan) > 1
                    else place.plan[0]
                )
                self.close_connection = True
                if answer == SILENT:
                    return time.sleep(60)
                whole: Whole = STORED if isinstance(answer, str) else answer
                status, text, *fields = whole
                self.send_response(status, "X")
                for name, value in {**(fields[0] if fields else {})}.items():
                    self.send_header(name, value)
                self.send_header("Content-Length", str(len(text.encode())))
                self.end_headers()
                for it in text if answer == DRIPPING else [text]:
                    self.wfile.write(it.encode())
                    self.wfile.flush()
                    time.sleep(0.4 if answer == DRIPPING else 0)

            do_GET = do_POST = do_CONNECT = do

        class Server(ThreadingHTTPServer):
            daemon_threads = True

            def handle_error(self, *_: object) -> None:
                pass

        self.server = Server((HOST, 0), Handler)
        if certificate:
            context = ssl.SSLContext(ssl.PROTOCOL_TLS_SERVER)
            context.load_cert_chain(certificate)
            self.server.socket = context.wrap_socket(
                self.server.socket, server_side=True, do_handshake_on_connect=False
            )
        self.port = self.server.server_address[1]
        threading.Thread(target=self.server.serve_forever, daemon=True).start()

    def address(self, scheme: str = "http", host: str = HOST) -> str:
        return f"{scheme}://{host}:{self.port}"

    def methods(self) -> list[str]:
        return [it[0] for it in self.seen]


class Run:
    """One run of a client. Its messages have K for its key, and CLIENT for its path."""

    def __init__(self, client: str, address: str, *words: str, **environment: str) -> None:
        path = os.path.join(TOP, "clients", client)
        dropped = ("_proxy", "ssl_cert_file", "ssl_cert_dir")
        kept = {name: it for name, it in os.environ.items() if not name.lower().endswith(dropped)}
        set_here = {"WEIGHBRIDGE": address, "WEIGHBRIDGE_SECONDS": "3", **environment}
        began = time.monotonic()
        it = subprocess.run(
            [path, *(words or ("first", "AB-12"))],
            env={**kept, **set_here},
            stdin=subprocess.DEVNULL,
            capture_output=True,
            text=True,
            timeout=90,
        )
        self.took = time.monotonic() - began
        self.status, self.out = it.returncode, it.stdout
        said = it.stderr.replace(path, "CLIENT").splitlines()
        self.key = said[0].removeprefix("key ") if said and said[0].startswith("key ") else None
        self.said = [line.replace(self.key, "K") if self.key else line for line in said]

    def all(self) -> tuple[int, str, list[str]]:
        return self.status, self.out, self.said


def unknown(address: str, why: str, is_asked: bool = True) -> list[str]:
    """Return the last lines of a client that doesn't know whether the weighing is stored."""
    return [
        f"{address}: {why}",
        *([LOOKING] if is_asked else []),
        UNKNOWN,
        "if the vehicle is still on the bridge: CLIENT first AB-12 K",
        "if it has left, don't: look for the key K in the office's journal.csv",
    ]


def texts(client: str) -> None:
    for words, text in (
        (("first", "AB-12"), SLIP),
        (("second", "AB-12"), TICKET),
        (("single", "AB-12"), TICKET),
        (("void", "AB-12"), VOID),
    ):
        place = Place([(201, text)])
        it = Run(client, place.address(), *words)
        same(f"{client}: its text of {words[0]}", (0, text, ["key K"]), it.all())
        target = "/voids" if words[0] == "void" else "/weighings"
        same(f"{client}: its target of {words[0]}", target, place.seen[0][1])


def no_proxy(client: str) -> None:
    office, proxy = Place([(409, "refused 4 no_load\n")]), Place([STORED], STORED)
    names = ("http_proxy", "https_proxy", "all_proxy", "HTTPS_PROXY", "ALL_PROXY")
    it = Run(client, office.address(), **dict.fromkeys(names, proxy.address()))
    same(f"{client}: no proxy is asked", (1, "", []), (it.status, it.out, proxy.seen))


def addresses(client: str) -> None:
    for end, target in (
        ("/", "/weighings"),
        ("/a", "/a/weighings"),
        ("/a/b-c.d/", "/a/b-c.d/weighings"),
    ):
        place = Place([STORED])
        same(f"{client}: the address ends with {end}", 0, Run(client, place.address() + end).status)
        same(f"{client}: its target then", target, place.seen[0][1])
    place = Place([STORED])
    same(f"{client}: a name", 0, Run(client, place.address(host="localhost")).status)
    same(f"{client}: it uses the path for the key too", "/a/keys/K1", key_asked_below(client))
    bad = "127.0.0.1:8080 ftp://h http:// https://:80 http://h:0 http://h:65536 http://h:x http://u@h http://h/?a http://h/#a http://h//a http://[::1 http://h..i HTTP://h"
    for address in [*bad.split(), "http://h/a b", "http://h\nhttp://h", "http://é", "nonsense"]:
        it = Run(client, address)
        said = (
            f"WEIGHBRIDGE: {address} is no address of an office, because it isn't http:// or https:// with a host, "
            "and at most a port and a path; set it as in http://127.0.0.1:8080"
        )
        same(
            f"{client}: the address {address!r}", (2, "", said), (*it.all()[:2], "\n".join(it.said))
        )


def key_asked_below(client: str) -> str:
    place = Place([NO_ANSWER], (503, "{}"))
    Run(client, place.address() + "/a/", "first", "AB-12", "K1", WEIGHBRIDGE_SECONDS="1")
    return place.seen[-1][1]


def seconds(client: str) -> None:
    for it in ("0", "x", "-1", "1.5", "08", "10000", "1 2"):
        said = f"WEIGHBRIDGE_SECONDS: {it} is no time, because it isn't a whole number from 1 to 9999; set it as in 30"
        found = Run(client, "http://127.0.0.1:1", WEIGHBRIDGE_SECONDS=it).all()
        same(f"{client}: {it!r} seconds", (2, "", [said]), found)


def tls(client: str) -> None:
    if not shutil.which("openssl"):
        return print(f"{client}: https: left out, since openssl is not installed")
    with tempfile.TemporaryDirectory() as folder:
        certificate = os.path.join(folder, "it.pem")
        made = f"openssl req -x509 -newkey rsa:2048 -nodes -days 2 -subj /CN=it -addext subjectAltName=IP:{HOST} -keyout {certificate}.key -out {certificate}.crt"
        subprocess.run(made.split(), check=True, capture_output=True)
        with open(certificate, "w") as both:
            for end in (".key", ".crt"):
                with open(certificate + end) as part:
                    both.write(part.read())
        trusted = {"SSL_CERT_FILE": certificate + ".crt"}
        place = Place([STORED], certificate=certificate)
        same(
            f"{client}: https", (0, SLIP), Run(client, place.address("https"), **trusted).all()[:2]
        )
        wrong: tuple[tuple[str, str, Fields], ...] = (
            (place.address("https"), "self-signed certificate", {}),
            (place.address("https", "localhost"), "it is of another host", trusted),
        )
        for address, why, more in wrong:
            it = Run(client, address, **more)
            words = f"its certificate isn't trusted: {why}. Name its authority in SSL_CERT_FILE."
            said = ["key K", f"{address}: {words}{AGAIN}", f"{address}: {words}", NOTHING_SENT]
            same(f"{client}: not trusted: {why}", (1, "", said), (it.status, it.out, few(it.said)))
        same(f"{client}: nothing was sent to it", 1, len(place.seen))
        plain = Place([STORED])
        it = Run(client, plain.address("https"))
        words = f"{plain.address('https')}: TLS failed: does the address speak https?{AGAIN}"
        same(f"{client}: https to a port without it", (1, words), (it.status, it.said[1]))


def tares(client: str) -> None:
    """Show that a tare goes with a Single only, in the same request each time, and in the words that repeat it."""
    place = Place([NO_ANSWER, (201, TICKET)])
    it = Run(client, place.address(), "--tare", "5000", "single", "AB-12", "K1")
    same(f"{client}: a tare", (0, TICKET), it.all()[:2])
    bodies = [set(body.split("&")) for _, _, body, _ in place.seen]
    same(
        f"{client}: the request with a tare",
        [{"key=K1", "plate=AB-12", "kind=single", "tare=5000"}] * 2,
        bodies,
    )
    place = Place([NO_ANSWER])
    it = Run(client, place.address(), "--tare", "5000", "single", "AB-12")
    said = "if the vehicle is still on the bridge: CLIENT --tare 5000 single AB-12 K"
    same(f"{client}: the words that repeat it", (3, said), (it.status, it.said[-2]))
    it = Run(client, Place([STORED]).address())
    same(f"{client}: no tare", (0, SLIP), it.all()[:2])
    place = Place([STORED])
    said = "--tare: {} is no tare, because it isn't a whole number of kg from 1 to 9999999"
    for tare in ("0", "x", "-1", "1.5", "05000", "10000000", "", "1 2", "5\n"):
        it = Run(client, place.address(), "--tare", tare, "single", "AB-12")
        found = (*it.all()[:2], "\n".join(it.said))
        same(f"{client}: the tare {tare!r}", (2, "", said.format(tare)), found)
    for kind in ("first", "second", "void"):
        it = Run(client, place.address(), "--tare", "5000", kind, "AB-12")
        said = f"--tare: {kind} takes no tare; only single does"
        same(f"{client}: a tare for {kind}", (2, "", [said]), it.all())
    same(f"{client}: nothing was sent with a wrong tare", [], place.seen)


def own_address(client: str) -> None:
    """Show which address is asked if none is given: of a package's copy the counter's if that is installed, and else the office's."""
    counter, office, started = Place([STORED]), Place([STORED]), Place([STORED])
    with tempfile.TemporaryDirectory() as folder:
        packaged = os.path.join(folder, "clients")
        shutil.copytree(os.path.join(TOP, "clients"), packaged)
        path, program = os.path.join(packaged, client), os.path.join(folder, "counter")
        with open(path) as code:
            text = code.read()
        for was, now in (
            ("/usr/share/weighbridge/clients", packaged),
            ("/usr/bin/weighbridge-counter", program),
            ("http://127.0.0.1:882", counter.address()),
            ("http://127.0.0.1:880", office.address()),
        ):
            same(f"{client}: its code has {was}", True, was in text)
            text = text.replace(was + "'", now + "'").replace(was + '"', now + '"')
        text = text.replace("http://127.0.0.1:8080", started.address())
        with open(path, "w") as code:
            code.write(text)
        same(f"{client}: a package's copy", 0, Run(path, "").status)
        seen = [len(it.seen) for it in (office, counter, started)]
        same(f"{client}: it asks the office", [1, 0, 0], seen)
        with open(program, "w"):
            pass
        same(f"{client}: a package's copy, with a counter", 0, Run(path, "").status)
        seen = [len(it.seen) for it in (office, counter, started)]
        same(f"{client}: it asks the counter", [1, 1, 0], seen)
        link = os.path.join(folder, client)
        os.symlink(path, link)
        same(f"{client}: by a link to it", 0, Run(link, "").status)
        seen = [len(it.seen) for it in (office, counter, started)]
        same(f"{client}: by a link it asks the counter", [1, 2, 0], seen)
        other = shutil.copytree(packaged, os.path.join(folder, "other"))
        same(f"{client}: another copy", 0, Run(os.path.join(other, client), "").status)
        seen = [len(it.seen) for it in (office, counter, started)]
        same(f"{client}: another copy asks a service of the sources", [1, 2, 1], seen)


def few(said: list[str]) -> list[str]:
    """Return what was said, each line that was repeated once."""
    return list(dict.fromkeys(said))


def strangers(client: str) -> None:
    """Show that no answer of another program counts as the office's, even if it has the office's status."""
    plan = [
        (201, "<html>Welcome to our network</html>"),
        (201, ""),
        (201, "Your order is stored.\n" + SLIP),
        (201, SLIP.replace("AB-12", "CD-34")),
        (201, SLIP.replace("SLIP 1", "SLIP 1 of 2")),
        (201, TICKET),
        (200, SLIP),
        (401, "<html>password</html>"),
        (403, "refused 4 no_load\n"),
        (409, "refused\n"),
        (409, "<html>refused 4 no_load</html>"),
        (422, "fault 422 of another\n"),
        (302, "refused 4 no_load\n"),
    ]
    place = Place([*plan, STORED])
    it = Run(client, place.address(), WEIGHBRIDGE_SECONDS="40")
    same(f"{client}: strangers", (0, SLIP), it.all()[:2])
    same(f"{client}: how often it asked", len(plan) + 1, len(place.seen))
    same(f"{client}: the same each time", 1, len({body for _, _, body, _ in place.seen}))
    same(
        f"{client}: what it says of the first",
        f"{place.address()}: its answer with status 201 isn't one of the office.{AGAIN}",
        it.said[1],
    )


def refusals(client: str) -> None:
    for answer, words in (
        ((409, "refused 4 no_load\n"), "4 no_load There is no weight."),
        ((410, "refused 2 gone\n"), "2 gone This weighing"),
        ((422, "fault 422 bad_field\n"), "422 bad_field The plate"),
        ((409, "refused 99 of_a_later_version\n"), "refused 99 of_a_later_version"),
    ):
        place = Place([answer])
        it = Run(client, place.address())
        found = (it.status, it.out, it.said[-1][: len(words)], len(place.seen))
        same(f"{client}: {answer[1].strip()}", (1, "", words, 1), found)
    it = Run(client, Place([(409, "refused 17 damaged\n")]).address())
    same(f"{client}: 17 damaged", (3, ""), it.all()[:2])


def words_of_counter() -> set[str]:
    """Return what the counter itself may answer, from its code."""
    folder = os.path.join(TOP, "counter", "weighbridge_counter")
    names = set[str]()
    for module, pattern in (
        ("acts.py", r'(?:own|not_sent)\(\d+, "(\w+)"\)'),
        ("routes.py", r'(?:own|not_sent)\(\d+, "(\w+)"\)'),
        ("connections.py", r'"counter (\w+)\\n"'),
    ):
        with open(os.path.join(folder, module)) as code:
            names |= set(re.findall(pattern, code.read()))
    return names


def counters(client: str) -> None:
    """Show that a client says each answer of the counter's own in words, and asks again."""
    with open(os.path.join(TOP, "clients", "refusals.txt")) as lines:
        known = {
            it.split()[1]: it.rstrip("\n") for it in lines.readlines() if it.startswith("counter ")
        }
    same("each answer of the counter has its words", words_of_counter(), set(known))
    asked_again = ["busy", "late", "no_terminal", "no_file", "no_answer", "too_many"]
    asked_again.append("of_a_later_version")
    known["of_a_later_version"] = "counter of_a_later_version"
    place = Place(
        [*((503, f"counter {it}\n") for it in asked_again), (503, "refused 15 store\n"), STORED]
    )
    it = Run(client, place.address(), WEIGHBRIDGE_SECONDS="30")
    said = [f"{place.address()}: {known[name]}{AGAIN}" for name in asked_again]
    same(f"{client}: a counter", (0, SLIP, ["key K", *said]), (it.status, it.out, it.said[:-1]))
    same(f"{client}: 15 store", True, "15 store The journal" in it.said[-1])


def other_host(client: str) -> None:
    for name, status in (("other_host", 421), ("other_site", 403)):
        place = Place([(status, f"counter {name}\n"), STORED], (200, '{"found": false}'))
        it = Run(client, place.address())
        same(f"{client}: {name} ends at once", (1, "", NOTHING_SENT), (*it.all()[:2], it.said[-1]))
        same(f"{client}: {name} is asked once", ["POST"], place.methods())
        place = Place([NO_ANSWER, (status, f"counter {name}\n")])
        same(f"{client}: {name} after another", 3, Run(client, place.address()).status)
        place = Place([(status, f"counter {name}\n")])
        it = Run(client, place.address(), "first", "AB-12", "K1")
        same(f"{client}: {name} with a given key", 3, it.status)


class Remembering(Place):
    """A counter that answers each weighing with `before` until a client asks about the key, and then with `later`."""

    def __init__(self, found: bool, later: Answer, before: Answer = NO_ANSWER) -> None:
        super().__init__([before], (200, json.dumps({"found": found})))
        self.later = later
        asked = self.seen

        class Plan(list[Answer]):
            def __getitem__(self, at: object) -> Any:
                return later if any(it[0] == "GET" for it in asked) else before

        self.plan = Plan([before])


def stored_unseen(client: str) -> None:
    befores: tuple[Answer, ...] = (NO_ANSWER, SILENT)
    for before in befores:
        place = Remembering(True, STORED, before)
        it = Run(client, place.address())
        same(f"{client}: stored, after {before}", (0, SLIP, LOOKING), (*it.all()[:2], it.said[-1]))
        same(f"{client}: it looked, then asked again", ["GET", "POST"], place.methods()[-2:])
        same(f"{client}: of its key", f"/keys/{it.key}", place.seen[-2][1])
        last, looked = place.seen[-3][3], place.seen[-2][3]
        same(f"{client}: it waited for six seconds: {looked - last:.1f}", True, looked - last >= 6)
        same(f"{client}: the same request", place.seen[0][2], place.seen[-1][2])
    it = Run(client, (place := Remembering(True, NO_ANSWER)).address())
    said = ["the weighing is stored, but its text didn't come", "to print it: CLIENT first AB-12 K"]
    same(f"{client}: stored, without its text", (3, "", said), (*it.all()[:2], it.said[-2:]))
    same(f"{client}: it asked once more", ["GET", "POST"], place.methods()[-2:])
    it = Run(client, Remembering(True, (410, "refused 2 gone\n")).address())
    same(f"{client}: stored and purged", (1, "2 gone"), (it.status, it.said[-1][:6]))


def not_stored(client: str) -> None:
    said = "the weighing is not stored: the journal has no key K"
    place: Place = Remembering(False, STORED)
    it = Run(client, place.address())
    same(f"{client}: not stored", (1, "", said), (*it.all()[:2], it.said[-1]))
    same(f"{client}: nothing is sent after it looked", "GET", place.methods()[-1])
    it = Run(client, Remembering(False, STORED).address(), "first", "AB-12", "K1")
    said = "the weighing is not stored: the journal has no key K, unless a purge has removed it"
    same(f"{client}: not stored under a given key", (1, "", said), (*it.all()[:2], it.said[-1]))
    place = Place([NO_ANSWER, BUSY], (200, '{"found": false}'))
    it = Run(client, place.address())
    same(f"{client}: not sent the last time", (1, "GET"), (it.status, place.methods()[-1]))


def not_known(client: str) -> None:
    for other in (
        NO_ROUTE,
        (503, '{"found": null}'),
        (503, '{"found": false}'),
        (502, '{"found": true}'),
        (200, '{"found": null}'),
        (200, "<html>Welcome</html>"),
    ):
        place = Place([NO_ANSWER], other)
        it = Run(client, place.address())
        said = unknown(place.address(), "counter no_answer The office didn't answer the counter.")
        same(f"{client}: not known, by {other}", (3, "", said), (*it.all()[:2], it.said[-5:]))
        same(f"{client}: it sends nothing more, by {other}", "GET", place.methods()[-1])


def nothing_sent(client: str) -> None:
    place = Place([BUSY], (200, '{"found": true}'))
    it = Run(client, place.address())
    said = [
        "key K",
        f"{place.address()}: {BUSY_WORDS}{AGAIN}",
        f"{place.address()}: {BUSY_WORDS}",
        NOTHING_SENT,
    ]
    same(f"{client}: nothing was sent", (1, "", said), (it.status, it.out, few(it.said)))
    same(f"{client}: so it doesn't look", {"POST"}, set(place.methods()))


def nobody(client: str) -> None:
    with socket.socket() as held:  # bound and not listening, so that no other check gets its port
        held.bind((HOST, 0))
        address = f"http://{HOST}:{held.getsockname()[1]}"
        it = Run(client, address)
        said = ["key K", f"{address}: {REFUSED}{AGAIN}", f"{address}: {REFUSED}", NOTHING_SENT]
        same(f"{client}: nobody listens", (1, "", said), (it.status, it.out, few(it.said)))
        same(f"{client}: it gave up in time: {it.took:.1f} s", True, 2 <= it.took <= 8)
        it = Run(client, address, "first", "AB-12", "K1")
    said = ["key K", f"{address}: {REFUSED}{AGAIN}", *unknown(address, REFUSED, is_asked=False)]
    same(f"{client}: nobody listens, a given key", (3, said), (it.status, few(it.said)))
    address = "http://no-such-host.invalid"
    words = f"{address}: it can't be reached: check the address and the network.{AGAIN}"
    it = Run(client, address)
    same(f"{client}: no such host", (1, words), (it.status, it.said[1]))


def held_up(client: str) -> None:
    """Show that a client gives up in time if a place is silent, or sends a byte now and then."""
    for answer in (SILENT, DRIPPING):
        place = Place([answer])
        it = Run(client, place.address())
        same(f"{client}: {answer}", (3, ""), it.all()[:2])
        same(f"{client}: {answer}: in time: {it.took:.1f} s", True, 8 <= it.took <= 16)
        words = f"{place.address()}: no whole answer came."
        same(f"{client}: {answer}: its words", True, words in it.said)


def held_up_to_the_end(client: str) -> None:
    """Show that a client waits for 40 seconds more if the place doesn't answer about the key either."""
    it = Run(client, Place([SILENT], SILENT).address())
    same(f"{client}: silent to the end", (3, ""), it.all()[:2])
    same(f"{client}: silent to the end: in time: {it.took:.1f} s", True, 47 <= it.took <= 58)


CASES = (
    held_up_to_the_end,
    texts,
    no_proxy,
    addresses,
    own_address,
    tares,
    seconds,
    tls,
    strangers,
    refusals,
    counters,
    other_host,
    stored_unseen,
    not_stored,
    not_known,
    nothing_sent,
    nobody,
    held_up,
)


def show(clients: Sequence[str], wanted: Sequence[Callable[[str], None]] = CASES) -> None:
    """Run each case with each client, eight at once because most of their time is waiting."""
    with ThreadPoolExecutor(8) as pool:
        runs = [pool.submit(case, client) for case in wanted for client in clients]
    for it in runs:
        it.result()


if __name__ == "__main__":
    installed = ["weigh.py", *(["weigh.sh"] if shutil.which("curl") else [])]
    names = sys.argv[1:]
    show(installed, [it for it in CASES if not names or it.__name__ in names])
    print(f"played clients: {' and '.join(installed)}: ok")
