"""Hands a message to a receiver: to sendmail, a webhook or an SMS gateway.

Each has its time, so one that hangs holds up no other for longer. The reason of a failure has no address, URL or secret.
"""

import json
from collections.abc import Callable
from dataclasses import dataclass
from datetime import datetime
from email.headerregistry import Address
from email.message import EmailMessage
from email.policy import SMTP
from email.utils import format_datetime
from typing import Any, Protocol
from urllib.parse import urlencode, urlsplit

from weighbridge_night.files import Fault as NightFault
from weighbridge_night.programs import Programs

from .asking import Answer, NoAnswer
from .faults import plain
from .setup import Receiver

MAIL_SECONDS, WEB_SECONDS = 60.0, 20.0


class NotTaken(Exception):
    """Why a receiver didn't take a message."""


class Asking(Protocol):
    """Asks a server."""

    def __call__(
        self,
        url: str,
        seconds: float,
        method: str = "GET",
        body: bytes | None = None,
        headers: dict[str, str] | None = None,
    ) -> Answer:
        """Return its answer."""


@dataclass(frozen=True)
class Message:
    """A message in each of its forms."""

    subject: str
    mail: str
    sms: str
    hook: dict[str, Any]


@dataclass
class Hands:
    """The means to pass messages on: programs, HTTP, and a source of unique names."""

    programs: Programs
    ask: Asking
    unique: Callable[[], str]

    def give(self, to: Receiver, it: Message, now: datetime) -> None:
        """Return once the receiver took the message.

        Raises NotTaken.
        """
        if to.kind == "mail":
            self.send_mail(to, it, now)
        elif to.kind == "sms":
            self.send_sms(to, it.sms)
        else:
            body = json.dumps(it.hook).encode()
            headers = {**dict(to.headers), "Content-Type": "application/json"}
            self.send_web(to, to.url, "POST", body, headers)

    def send_mail(self, to: Receiver, it: Message, now: datetime) -> None:
        words = [to.program, "-t", "-i"]
        try:
            ran = self.programs.run(words, MAIL_SECONDS, mail_of(to, it, now, self.unique()))
        except NightFault as why:
            raise NotTaken(plain(why, 200)) from None
        except OSError as error:
            raise NotTaken(f"{to.program}: {error.strerror}") from None
        if ran.status != 0:
            said = plain(ran.said().replace(to.address, "..").replace(to.sender, ".."), 160)
            raise NotTaken(f"{to.program} ended with status {ran.status}: {said}")

    def send_sms(self, to: Receiver, text: str) -> None:
        values = {
            name: value.replace("{to}", to.number).replace("{text}", text)
            for name, value in to.body
        }
        headers = dict(to.headers)
        if to.method == "GET":
            sign = "&" if urlsplit(to.url).query else "?"
            self.send_web(to, f"{to.url}{sign}{urlencode(values)}", "GET", None, headers)
            return
        is_json = to.encoding == "json"
        headers["Content-Type"] = (
            "application/json" if is_json else "application/x-www-form-urlencoded"
        )
        body = json.dumps(values) if is_json else urlencode(values)
        self.send_web(to, to.url, "POST", body.encode(), headers)

    def send_web(
        self, to: Receiver, url: str, method: str, body: bytes | None, headers: dict[str, str]
    ) -> None:
        # some gateways refuse a client without a name
        named = {"User-Agent": "weighbridge-alarm", **headers}
        try:
            answer = self.ask(url, WEB_SECONDS, method, body, named)
        except NoAnswer as why:
            raise NotTaken(f"the {to.kind} server: {plain(why, 120)}") from None
        if not 200 <= answer.status <= 299:
            raise NotTaken(f"the {to.kind} server answered with status {answer.status}")
        if to.answer_has and to.answer_has.encode() not in answer.body:
            raise NotTaken(f"the {to.kind} server's answer lacks the text of answer_has")


def mail_of(to: Receiver, it: Message, now: datetime, unique: str) -> str:
    """Return the whole mail, for sendmail's input."""
    mail = EmailMessage(policy=SMTP.clone(linesep="\n", cte_type="7bit"))
    mail["From"] = Address(addr_spec=to.sender)
    mail["To"] = Address(addr_spec=to.address)
    mail["Subject"] = plain(it.subject, 200)
    mail["Date"] = format_datetime(now.astimezone())
    mail["Message-ID"] = f"<{unique}@{to.sender.rpartition('@')[2]}>"
    mail["Auto-Submitted"] = "auto-generated"
    mail.set_content(it.mail)
    return mail.as_string()
