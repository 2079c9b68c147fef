#!/usr/bin/env python3
"""Weighs the vehicle that is on the bridge, or voids the open weighing of a plate, and prints the ticket or slip.

A weighing has a key of its own. If none is given, this program makes one. It sends the request again with this key until it is answered, for at most
30 seconds, or WEIGHBRIDGE_SECONDS. So the weighing is stored once, however often the connection is cut, and no other vehicle is weighed in its place.
If this program is stopped earlier, call it again with the key that it printed on standard error, as long as the vehicle is on the bridge.

With --tare, a single weighing has this tare in kg. Only the counter sets it, weighs, and clears it again in one request. The office refuses it.

WEIGHBRIDGE is the address of the office or the counter: http or https, a host, and optionally a port and a path. If it isn't set, the copy of the
package asks the counter at http://127.0.0.1:882. Without the counter's package it asks the office at http://127.0.0.1:880. Any other copy asks
http://127.0.0.1:8080. No proxy is used. With https the certificate must be trusted by the system, or by the file that SSL_CERT_FILE names.

Only the office's own judgement settles the request: a slip or ticket of this plate, a refusal, or `fault 422 bad_field`. Any other response doesn't,
because it says nothing of an earlier attempt. Examples are nginx's 401 or 429, and a `counter ..` of the counter.

If the time is over, this program waits for six seconds, because the office may still store a request that has waited for less than five. Then it asks
the counter whether the journal has the key, which stores nothing and takes up to 40 seconds. Only the counter answers this. If the journal has the
key, the program sends the request once more, and gets the stored text, whatever is on the bridge.

The status is one of these:

- 0: The weighing is stored, and its text was printed.
- 1: It was refused, nothing was sent, or the counter says that the journal has no such key. The reason is on standard error.
- 2: The arguments, WEIGHBRIDGE or WEIGHBRIDGE_SECONDS are wrong.
- 3: It isn't known whether the weighing is stored, because no answer came in time, this program was stopped, or the entry under its key is
  damaged. Or it is stored, but its text didn't come. Standard error says which.

Since version 2.1.1: --tare, https, and a path in the address. The copy of the package asks the package's own ports. Wrong addresses end with status 2. A 201 without a slip or ticket
doesn't mean that the weighing is stored. This program asks the counter about the key, and status 1 also means that nothing was sent or stored.
"""

import argparse
import contextlib
import http.client
import os
import re
import secrets
import signal
import socket
import ssl
import sys
import threading
import time
import urllib.parse
from collections.abc import Mapping
from typing import NamedTuple, NoReturn

FOLDER = os.path.dirname(os.path.realpath(__file__))
REFUSALS = os.path.join(FOLDER, "refusals.txt")
TARE = "[1-9][0-9]{0,6}"
HOST = r"([A-Za-z0-9_-]{1,63}(\.[A-Za-z0-9_-]{1,63})*\.?|\[[0-9A-Fa-f:.]+\])"
ADDRESS = re.compile(rf"(https?)://({HOST}(:[1-9][0-9]{{0,4}})?)((/[A-Za-z0-9._~%-]+)*)/?")
NOT_WITHIN_THE_OFFICE = 6.0  # seconds, after which no request waits in the office any more
LOOKING = 40.0  # seconds for the counter's answer about a key
PRINTING = 10.0  # seconds for the text of a weighing that is stored


class Answer(NamedTuple):
    """The answer to one attempt. The status is 0 if no whole answer came. `is_sent` is false if certainly nothing reached the office."""

    status: int
    text: str
    why: str
    is_sent: bool


def say(words: str) -> None:
    print(words, file=sys.stderr, flush=True)


def wrong(words: str) -> NoReturn:
    say(words)
    sys.exit(2)


def own_address() -> str:
    """Return the address that is asked if none is given."""
    if FOLDER != "/usr/share/weighbridge/clients":
        return "http://127.0.0.1:8080"
    if os.path.exists("/usr/bin/weighbridge-counter"):
        return "http://127.0.0.1:882"
    return "http://127.0.0.1:880"


def cause_of(error: ssl.SSLError) -> str:
    """Return why no TLS connection came about, in the words that weigh.sh has too."""
    if not isinstance(error, ssl.SSLCertVerificationError):
        return "TLS failed: does the address speak https?"
    is_of_another = "mismatch" in error.verify_message
    why = "it is of another host" if is_of_another else error.verify_message
    return f"its certificate isn't trusted: {why}. Name its authority in SSL_CERT_FILE."


def cut_off(stream: socket.socket) -> None:
    with contextlib.suppress(OSError):
        stream.shutdown(socket.SHUT_RDWR)


def ask(method: str, target: str, seconds: float, form: Mapping[str, str] | None = None) -> Answer:
    """Send a request once, and return what came of it within `seconds`."""
    scheme, place, prefix = OFFICE
    kind = http.client.HTTPSConnection if scheme == "https" else http.client.HTTPConnection
    connection = kind(place, timeout=seconds)
    try:
        connection.connect()
    except ssl.SSLError as error:
        return Answer(0, "", cause_of(error), False)
    except ConnectionRefusedError:
        return Answer(0, "", "connection refused: is the service running?", False)
    except OSError:
        return Answer(0, "", "it can't be reached: check the address and the network.", False)
    end_of_wait = threading.Timer(seconds, cut_off, [connection.sock])
    end_of_wait.daemon = True
    end_of_wait.start()
    try:
        connection.request(method, prefix + target, form and urllib.parse.urlencode(form))
        response = connection.getresponse()
        is_whole = response.length is not None  # a head that was cut may lack its length
        text = response.read().decode(errors="replace")
        if not is_whole:
            return Answer(0, "", "no whole answer came.", True)
        name = text.split("\n")[0]
        is_refused_before = name in ("counter other_host", "counter other_site")
        is_sent = response.headers.get("X-Counter") != "not_sent" and not is_refused_before
        return Answer(response.status, text, reason(response.status, text), is_sent)
    except (OSError, http.client.HTTPException):
        return Answer(0, "", "no whole answer came.", True)
    finally:
        end_of_wait.cancel()
        connection.close()


def is_text(answer: Answer) -> bool:
    """Return true if this is the slip or ticket of the weighing."""
    kind = "SLIP" if form["kind"] in ("first", "void") else "TICKET"
    first, second, *_ = answer.text.split("\n") + ["", ""]
    is_first = re.fullmatch(f"WEIGHING {kind} [1-9][0-9]*", first, re.ASCII) is not None
    return answer.status == 201 and is_first and second == f"PLATE {form['plate']}"


def is_refusal(answer: Answer) -> bool:
    """Return true if the office refused the request, so that each further attempt is pointless."""
    first = answer.text.split("\n")[0]
    is_refused = re.fullmatch("refused [0-9]+ [a-z_]+", first, re.ASCII) is not None
    return (answer.status in (409, 410) and is_refused) or (
        answer.status == 422 and first == "fault 422 bad_field"
    )


def reason(status: int, text: str) -> str:
    """Return the words for the operator about an answer of the office or the counter that isn't a slip or ticket."""
    found = re.match("(?:refused|fault) ([0-9]+ )|(counter [a-z_]+)$", text, re.ASCII | re.M)
    if found is None:
        return f"its answer with status {status} isn't one of the office."
    begin = found[1] or found[2] + " "
    with open(REFUSALS, encoding="utf-8") as lines:
        known = (line for line in lines if line.startswith(begin))
        return next(known, text.split("\n")[0]).rstrip("\n")


def print_text(answer: Answer) -> NoReturn:
    print(answer.text, end="")
    sys.exit(0)


def end_refused(answer: Answer) -> NoReturn:
    say(answer.why)
    if answer.text.startswith("refused 17 "):
        say("it isn't known whether the weighing is stored")
        say(f"look for the key {form['key']} in the office's journal.csv, and call the operator")
        sys.exit(3)
    sys.exit(1)


def end_unsettled(is_reached: bool, is_sent: bool) -> NoReturn:
    """End without a judgement of the office, by what is known of the key."""
    if not is_sent and not is_given:
        say("nothing was sent to the office, so the weighing is not stored")
        sys.exit(1)
    if is_reached:
        say(f"no answer for {SECONDS} s; looking for the key in the journal")
        time.sleep(NOT_WITHIN_THE_OFFICE)
        found = ask("GET", f"/keys/{form['key']}", LOOKING)
        known = (found.status, "".join(found.text.split()))
        if known == (200, '{"found":true}'):
            stored = ask("POST", target, PRINTING, form)
            if is_text(stored):
                print_text(stored)
            if is_refusal(stored):
                end_refused(stored)
            say("the weighing is stored, but its text didn't come")
            say(f"to print it: {again}")
            sys.exit(3)
        if known == (200, '{"found":false}'):
            purged = ", unless a purge has removed it" if is_given else ""
            say(f"the weighing is not stored: the journal has no key {form['key']}{purged}")
            sys.exit(1)
    say(f"no answer for {SECONDS} s, so it isn't known whether the weighing is stored")
    say(f"if the vehicle is still on the bridge: {again}")
    say(f"if it has left, don't: look for the key {form['key']} in the office's journal.csv")
    sys.exit(3)


parser = argparse.ArgumentParser(description=(__doc__ or "").splitlines()[0], allow_abbrev=False)
parser.add_argument("--tare", metavar="KG", help="weigh with this tare, only at a counter")
parser.add_argument("kind", choices=["first", "second", "single", "void"])
parser.add_argument("plate")
parser.add_argument("key", nargs="?", default="")
form = vars(parser.parse_args())
tare = form.pop("tare")
if tare is not None:
    if not re.fullmatch(TARE, tare, re.ASCII):
        wrong(f"--tare: {tare} is no tare, because it isn't a whole number of kg from 1 to 9999999")
    if form["kind"] != "single":
        wrong(f"--tare: {form['kind']} takes no tare; only single does")
    form["tare"] = tare
is_given = form["key"] != ""
form["key"] = form["key"] or secrets.token_hex(10)
target = "/voids" if form["kind"] == "void" else "/weighings"
with_tare = f"--tare {tare} " if tare else ""
again = f"{sys.argv[0]} {with_tare}{form['kind']} {form['plate']} {form['key']}"

address = os.environ.get("WEIGHBRIDGE") or own_address()
parts = ADDRESS.fullmatch(address)
if parts is None or int((parts[5] or ":80")[1:]) not in range(1, 65536):
    wrong(
        f"WEIGHBRIDGE: {address} is no address of an office, because it isn't http:// or https:// with a host,"
        " and at most a port and a path; set it as in http://127.0.0.1:8080"
    )
OFFICE = parts[1], parts[2], parts[6]
address = address.removesuffix("/")
time_given = os.environ.get("WEIGHBRIDGE_SECONDS") or "30"
if not re.fullmatch("[1-9][0-9]{0,3}", time_given):
    wrong(
        f"WEIGHBRIDGE_SECONDS: {time_given} is no time, because it isn't a whole number from 1 to 9999; set it as in 30"
    )
SECONDS = int(time_given)

END = time.monotonic() + SECONDS
for it in (signal.SIGINT, signal.SIGTERM):
    signal.signal(it, lambda *_: sys.exit(3))
say(f"key {form['key']}")
is_sent = False
while True:
    answer = ask("POST", target, max(1.0, END - time.monotonic()), form)
    is_sent = is_sent or answer.is_sent
    if is_text(answer):
        print_text(answer)
    if is_refusal(answer):
        end_refused(answer)
    if answer.text.startswith(("counter other_host", "counter other_site")):
        say(f"{address}: {answer.why}")
        end_unsettled(False, is_sent)
    if time.monotonic() >= END:
        say(f"{address}: {answer.why}")
        end_unsettled(answer.status != 0 or answer.is_sent, is_sent)
    say(f"{address}: {answer.why} Asking again with the same key")
    time.sleep(1)
