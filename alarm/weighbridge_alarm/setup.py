"""The file of the setup. Every mistake in it is found at once."""

import os
import re
import stat
import tomllib
from dataclasses import dataclass, field
from datetime import time
from typing import Any

from weighbridge_night.setup import ADDRESS, BRIDGE, Reader, Refused

from .asking import HOST, url_fault
from .due import Times

PATH = "/etc/weighbridge-alarm.toml"
STATE = "/var/lib/weighbridge-alarm"
SPARE = "/run/weighbridge-alarm"
EXAMPLE = "/usr/share/doc/weighbridge/examples/weighbridge-alarm.toml"
HOUR = re.compile(r"([01]\d|2[0-3]):([0-5]\d)")
NAME = re.compile(r"[\w][\w .+'-]{0,39}")
MAIL = re.compile(r"[A-Za-z0-9._+=-]{1,64}@[A-Za-z0-9](?:[A-Za-z0-9.-]{0,250}[A-Za-z0-9])?")
NUMBER = re.compile(r"\+?[0-9]{3,20}")
HEADER = re.compile(r"[A-Za-z0-9-]{1,60}")
VALUE = re.compile(r"[\x20-\x7e]{1,2000}")
MOST_RECEIVERS, MOST_PATHS = 10, 10
DISKS: tuple[str, ...] = ("/var/lib/weighbridge", "/var/lib/weighbridge-alarm")
OPTIONAL = {
    "after_minutes",
    "certificates",
    "counter",
    "daily",
    "disks",
    "least_free_mb",
    "network_time",
    "night",
    "night_file",
    "office",
}
COMMON = {"kind", "name", "most_a_day", "quiet"}
WEB = {"url", "headers", "allow_http", "answer_has"}
KINDS = {
    "mail": {"address", "from", "program"},
    "webhook": WEB,
    "sms": WEB | {"number", "method", "encoding", "body"},
}
ANY = re.compile(r"[^\x00-\x1f]{1,2000}")


@dataclass(frozen=True)
class Receiver:
    """A receiver of messages. Nothing of it but its name and kind is ever shown."""

    name: str
    kind: str
    times: Times
    address: str = ""
    sender: str = ""
    program: str = "/usr/sbin/sendmail"
    url: str = field(default="", repr=False)
    headers: tuple[tuple[str, str], ...] = field(default=(), repr=False)
    method: str = "POST"
    encoding: str = "form"
    body: tuple[tuple[str, str], ...] = field(default=(), repr=False)
    number: str = ""
    answer_has: str = ""


@dataclass(frozen=True)
class Setup:
    """The whole setup of the alarm. Without a counter, `counter` is empty."""

    bridge: str
    receivers: list[Receiver]
    after: float = 180.0
    counter: str = "127.0.0.1:882"
    office: str = "127.0.0.1:880"
    night: bool = True
    night_file: str = "/var/lib/weighbridge-night/last.json"
    network_time: bool = True
    disks: tuple[str, ...] = DISKS
    least_bytes: int = 10**9
    certificates: tuple[str, ...] = ()


def flag(it: Reader, key: str, default: bool) -> bool:
    found = it.table.get(key, default)
    if isinstance(found, bool):
        return found
    it.refuse(key, f"{ascii(found)}; write true or false")
    return default


def hour(it: Reader, key: str, default: str) -> time:
    found = HOUR.fullmatch(it.text(key, HOUR, 'an hour and minute, as "07:00"', default))
    return time(int(found[1]), int(found[2])) if found else time(7)


def quiet(it: Reader) -> tuple[time, time] | None:
    if "quiet" not in it.table:
        return None
    form = re.compile(f"{HOUR.pattern}-{HOUR.pattern}")
    wanted = 'the hours without a message, as "21:00-07:00"'
    found = form.fullmatch(it.text("quiet", form, wanted))
    if not found:
        return None
    begin, end = time(int(found[1]), int(found[2])), time(int(found[3]), int(found[4]))
    if begin == end:
        it.refuse("quiet", f"both hours are the same; write {wanted}")
    return begin, end


def texts(it: Reader, key: str, form: re.Pattern[str], wanted: str) -> tuple[str, ...]:
    found = it.table.get(key)
    is_right = isinstance(found, list) and len(found) <= MOST_PATHS
    if is_right and all(isinstance(one, str) and form.fullmatch(one) for one in found or []):
        return tuple(found or [])
    it.refuse(key, f"write {wanted}")
    return ()


def pairs(
    it: Reader, key: str, names: re.Pattern[str], values: re.Pattern[str], wanted: str
) -> tuple[tuple[str, str], ...]:
    """Return a table of texts. A mistake names no value, because it may be a secret."""
    found = it.table.get(key, {})
    if isinstance(found, dict) and all(
        names.fullmatch(name) and isinstance(value, str) and values.fullmatch(value)
        for name, value in found.items()
    ):
        return tuple(found.items())
    it.refuse(key, f"write {wanted}")
    return ()


def web_of(it: Reader, wanted: str) -> tuple[str, tuple[tuple[str, str], ...], str]:
    """Return URL, headers and what the answer has. The URL may be a secret, so it is never repeated."""
    url, may_http = it.table.get("url"), flag(it, "allow_http", False)
    why = "it is missing" if not isinstance(url, str) else url_fault(url, may_http)
    if why == "it isn't encrypted":
        why += "; write https, or allow_http = true with the IP address of this machine or network"
    elif why is not None:
        why += f"; write {wanted}"
    if why is not None:
        it.refuse("url", why)
    headers = pairs(
        it, "headers", HEADER, VALUE, 'a table of texts, as { Authorization = "Bearer .." }'
    )
    has = it.text("answer_has", ANY, "a text that the answer has if it took the message", "")
    return (url if isinstance(url, str) else ""), headers, has


def sms_of(it: Reader, name: str, times: Times) -> Receiver:
    url, headers, has = web_of(it, "the URL of the SMS gateway")
    body = pairs(it, "body", ANY, ANY, 'a table of texts, as { to = "{to}", text = "{text}" }')
    if not any("{text}" in value for _, value in body):
        it.refuse("body", 'no value has {text}; write it, as { to = "{to}", text = "{text}" }')
    return Receiver(
        name,
        "sms",
        times,
        url=url,
        headers=headers,
        answer_has=has,
        body=body,
        number=it.text("number", NUMBER, 'a telephone number, as "+491701234567"'),
        method=it.text("method", re.compile("POST|GET"), '"POST" or "GET"', "POST"),
        encoding=it.text("encoding", re.compile("form|json"), '"form" or "json"', "form"),
    )


def mail_of(it: Reader, name: str, times: Times) -> Receiver:
    return Receiver(
        name,
        "mail",
        times,
        address=it.text("address", MAIL, "the receiver's mail address"),
        sender=it.text("from", MAIL, "the sender's mail address, as the mail server wants it"),
        program=it.path("program", "the path of sendmail", Receiver.program),
    )


def receiver_of(place: int, given: object, daily: time, faults: list[str]) -> Receiver | None:
    where = f"[[to]] {place}: "
    if not isinstance(given, dict):
        faults.append(f"{where}it is no table; begin each receiver with [[to]]")
        return None
    it = Reader(where, given, faults)
    kind = given.get("kind")
    if not isinstance(kind, str) or kind not in KINDS:
        it.refuse("kind", 'write "mail", "webhook" or "sms"')
        return None
    it.only(COMMON | KINDS[kind])
    name = it.text("name", NAME, "a name for this receiver, as owner")
    times = Times(
        daily,
        it.whole("most_a_day", 200, "how many messages a day it gets at most, 1 to 200", 20),
        quiet(it),
    )
    if kind == "mail":
        return mail_of(it, name, times)
    if kind == "sms":
        return sms_of(it, name, times)
    url, headers, has = web_of(it, "the URL of the webhook")
    return Receiver(name, kind, times, url=url, headers=headers, answer_has=has)


def receivers_of(given: object, daily: time, faults: list[str]) -> list[Receiver]:
    if not isinstance(given, list) or not 1 <= len(given) <= MOST_RECEIVERS:
        faults.append(f"to: write 1 to {MOST_RECEIVERS} tables [[to]], one for each receiver")
        return []
    found = [receiver_of(place, one, daily, faults) for place, one in enumerate(given, 1)]
    names = [one.name for one in found if one is not None and one.name]
    for name in sorted({one for one in names if names.count(one) > 1}):
        faults.append(f"to: the name {name} is there twice; write another one")
    return [one for one in found if one is not None]


def counter_of(it: Reader) -> str:
    if it.table.get("counter") is False:
        return ""
    return it.text("counter", ADDRESS, "the counter's address, or false without one", Setup.counter)


def paths_of(it: Reader) -> tuple[tuple[str, ...], tuple[str, ...]]:
    """Return the folders of the disks, and the certificates."""
    disks, certificates = Setup.disks, Setup.certificates
    if "disks" in it.table:
        disks = texts(
            it, "disks", re.compile(r"/[^\x00-\x1f]*"), "up to 10 folders, each as a path"
        )
    if "certificates" in it.table:
        form = re.compile(rf"/[^\x00-\x1f]+|(?:{HOST.pattern}):\d{{1,5}}")
        certificates = texts(
            it, "certificates", form, 'up to 10 paths or hosts with a port, as "bridge.example:443"'
        )
    return disks, certificates


def setup_of(text: str) -> Setup:
    """Return the setup in this text.

    Raises Refused with all mistakes.
    """
    try:
        table: dict[str, Any] = tomllib.loads(text)
    except tomllib.TOMLDecodeError as error:
        raise Refused([f"it is no TOML: {error}"]) from None
    faults: list[str] = []
    it = Reader("", table, faults)
    it.only({"bridge", "to"} | OPTIONAL)
    bridge = it.text("bridge", BRIDGE, "the bridge's name, as its serial WB01")
    daily = hour(it, "daily", "07:00")
    after = it.whole("after_minutes", 60, "after how many minutes a fault is reported, 1 to 60", 3)
    least = it.whole("least_free_mb", 10**6, "how many MB must be free, 1 to 1000000", 1000)
    disks, certificates = paths_of(it)
    setup = Setup(
        bridge,
        receivers_of(table.get("to"), daily, faults),
        60.0 * after,
        counter_of(it),
        it.text("office", ADDRESS, "the office's address, as 127.0.0.1:880", Setup.office),
        flag(it, "night", True),
        it.path("night_file", "the path of the night's last.json", Setup.night_file),
        flag(it, "network_time", True),
        disks,
        10**6 * least,
        certificates,
    )
    if faults:
        raise Refused(faults)
    return setup


def read_setup(path: str) -> Setup:
    """Return the setup in this file.

    Raises Refused if it can't be read, has mistakes, or can be read by others, because it has secrets.
    """
    try:
        with open(path, encoding="utf-8") as file:
            mode = stat.S_IMODE(os.fstat(file.fileno()).st_mode)
            written = file.read(1 << 20)
    except FileNotFoundError:
        raise Refused([f"it isn't there; copy {EXAMPLE} and edit it"]) from None
    except (OSError, UnicodeDecodeError) as error:
        why = error.strerror if isinstance(error, OSError) else "it isn't UTF-8"
        raise Refused([f"{why}; run chown root:weighbridge-alarm and chmod 0640 on it"]) from None
    faults = []
    if mode & 0o007:
        faults.append(
            "every user can read its passwords; run chown root:weighbridge-alarm and chmod 0640 on it"
        )
    try:
        setup = setup_of(written)
    except Refused as refused:
        raise Refused(faults + refused.faults) from None
    if faults:
        raise Refused(faults)
    return setup
