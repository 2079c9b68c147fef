"""Speaks HTTP with a deadline for the whole answer. It follows no redirect, and uses no proxy.

A server may be silent, slow, endless or hostile. The socket's own time-out begins again with each byte, so a timer of the process bounds all of it.
"""

import contextlib
import http.client
import ipaddress
import re
import signal
import ssl
from collections.abc import Iterator, Mapping
from dataclasses import dataclass
from types import FrameType
from urllib.parse import SplitResult, urlsplit

MOST_BYTES = 1 << 20
HOST = re.compile(r"[A-Za-z0-9](?:[A-Za-z0-9.-]{0,251}[A-Za-z0-9])?|[0-9a-fA-F:]{2,39}")


class NoAnswer(Exception):
    """Why there is no answer. It never has a part of the URL, because that may be a secret."""


@dataclass(frozen=True)
class Answer:
    """A status, and the body's first bytes."""

    status: int
    body: bytes
    is_whole: bool = True


def url_fault(text: str, may_http: bool) -> str | None:
    """Return why this URL can't be used. None if it can."""
    try:
        it = urlsplit(text)
        port = it.port
    except ValueError:
        return "it is no URL"
    if it.scheme not in ("http", "https") or not HOST.fullmatch(it.hostname or "") or port == 0:
        return "it is no URL of http or https"
    if not text.isascii() or any(one <= " " or one == "\x7f" for one in text):
        return "it has a blank, or a character that isn't ASCII"
    if it.username is not None or it.fragment:
        return "it has a user or a fragment; write a secret into headers"
    if it.scheme == "http":
        return None if may_http and is_near(it.hostname or "") else "it isn't encrypted"
    return None


def is_near(host: str) -> bool:
    """Return True if this is an address of this machine or of a private network. A name may lead anywhere."""
    try:
        it = ipaddress.ip_address(host)
    except ValueError:
        return False
    return it.is_loopback or (it.is_private and not it.is_unspecified)


@contextlib.contextmanager
def deadline(seconds: float) -> Iterator[None]:
    """Raise TimeoutError in what runs inside after these seconds. It must be the process's first thread."""

    def end(number: int, frame: FrameType | None) -> None:
        raise TimeoutError("timed out")

    former = signal.signal(signal.SIGALRM, end)
    signal.setitimer(signal.ITIMER_REAL, seconds)
    try:
        yield
    finally:
        signal.setitimer(signal.ITIMER_REAL, 0)
        signal.signal(signal.SIGALRM, former)


def connection_of(it: SplitResult, seconds: float) -> http.client.HTTPConnection:
    host = it.hostname or ""
    if it.scheme == "https":
        return http.client.HTTPSConnection(
            host, it.port or 443, timeout=seconds, context=ssl.create_default_context()
        )
    return http.client.HTTPConnection(host, it.port or 80, timeout=seconds)


def ask(
    url: str,
    seconds: float,
    method: str = "GET",
    body: bytes | None = None,
    headers: Mapping[str, str] | None = None,
) -> Answer:
    """Return the answer, cut after MOST_BYTES.

    Raises NoAnswer.
    """
    it = urlsplit(url)
    target = (it.path or "/") + (f"?{it.query}" if it.query else "")
    connection = connection_of(it, seconds)
    try:
        with deadline(seconds):
            connection.request(method, target, body=body, headers=dict(headers or {}))
            response = connection.getresponse()
            found = response.read(MOST_BYTES + 1)
    except TimeoutError:
        raise NoAnswer(f"no answer within {seconds:.0f} seconds") from None
    except OSError as error:
        raise NoAnswer(error.strerror or "it closed the connection") from None
    except (http.client.HTTPException, ValueError) as error:
        raise NoAnswer(f"its answer is no HTTP ({type(error).__name__})") from None
    finally:
        connection.close()
    return Answer(response.status, found[:MOST_BYTES], len(found) <= MOST_BYTES)
