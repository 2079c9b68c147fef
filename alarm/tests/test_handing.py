"""Shows what each receiver gets, and that one that hangs, refuses or lies holds up no other."""

import contextlib
import json
import os
import socket
import ssl
import stat
import threading
import time
import unittest
from collections.abc import Callable, Iterator
from typing import Any
from unittest import mock
from urllib.parse import parse_qs

from tests.played import BEGIN, TIMES, AlarmCase, own_certificate, receiver
from weighbridge_alarm import asking, handing
from weighbridge_alarm.asking import NoAnswer, ask, url_fault
from weighbridge_alarm.handing import Hands, Message, NotTaken
from weighbridge_alarm.setup import Receiver
from weighbridge_night.programs import RealPrograms

MESSAGE = Message("WB01: test", "text\n", "a & b = {to} ü?"[:12], {"version": 1, "faults": []})
OK = b"HTTP/1.1 200 OK\r\nContent-Length: 2\r\n\r\nOK"
SECRET = "S3cret"


class Server:
    """A server on loopback that answers each connection by a function, and keeps what it got."""

    def __init__(self, answer: Callable[[socket.socket], None]) -> None:
        self.answer, self.got = answer, list[bytes]()
        self.door = socket.create_server(("127.0.0.1", 0))
        self.url = f"http://127.0.0.1:{self.door.getsockname()[1]}/send"
        threading.Thread(target=self.serve, daemon=True).start()

    def serve(self) -> None:
        with contextlib.suppress(OSError):
            while True:
                stream, _ = self.door.accept()
                with stream, contextlib.suppress(OSError):
                    self.got.append(self.request(stream))
                    self.answer(stream)

    def request(self, stream: socket.socket) -> bytes:
        found = b""
        while b"\r\n\r\n" not in found:
            found += stream.recv(65536)
        head = found.partition(b"\r\n\r\n")[0].lower()
        length = int(head.partition(b"content-length: ")[2].split(b"\r\n")[0] or 0)
        while len(found) < len(head) + 4 + length:
            found += stream.recv(65536)
        return found


@contextlib.contextmanager
def served(answer: bytes | Callable[[socket.socket], None]) -> Iterator[Server]:
    def send(stream: socket.socket) -> None:
        assert isinstance(answer, bytes)
        stream.sendall(answer)

    it = Server(send if isinstance(answer, bytes) else answer)
    try:
        yield it
    finally:
        it.door.shutdown(socket.SHUT_RDWR)
        it.door.close()


def hangs(stream: socket.socket) -> None:
    time.sleep(3)


def drips(stream: socket.socket) -> None:
    for it in b"HTTP/1.1 200 OK\r\n" + b"X: y\r\n" * 100:
        stream.sendall(bytes([it]))
        time.sleep(0.1)


class Flood:
    """Answers with 100 MB, and counts the parts of 1 MB that the client took."""

    def __init__(self) -> None:
        self.taken = 0

    def __call__(self, stream: socket.socket) -> None:
        stream.sendall(b"HTTP/1.1 200 OK\r\nContent-Length: 104857600\r\n\r\n")
        for _ in range(100):
            stream.sendall(b"x" * (1 << 20))
            self.taken += 1


def resets(stream: socket.socket) -> None:
    stream.setsockopt(socket.SOL_SOCKET, socket.SO_LINGER, b"\1\0\0\0\0\0\0\0")


class HandingCase(AlarmCase):
    def setUp(self) -> None:
        super().setUp()
        self.real = Hands(RealPrograms(self.box), ask, lambda: "abc")

    def give(self, to: Receiver) -> str | None:
        """Return why the receiver didn't take a message. None if it did."""
        try:
            self.real.give(to, MESSAGE, BEGIN)
        except NotTaken as why:
            return str(why)
        return None


class WebTest(HandingCase):
    def hook(self, url: str, **more: Any) -> Receiver:
        headers = (("Authorization", f"Bearer {SECRET}"),)
        return Receiver("chat", "webhook", TIMES, url=url, headers=headers, **more)

    def sms(self, url: str, **more: Any) -> Receiver:
        body = (("to", "{to}"), ("text", "{text}"), ("key", SECRET))
        return Receiver("duty", "sms", TIMES, url=url, number="+491701", body=body, **more)

    def test_a_webhook_gets_json_and_its_token(self) -> None:
        with served(OK) as server:
            self.assertIsNone(self.give(self.hook(server.url)))
        head, _, body = server.got[0].partition(b"\r\n\r\n")
        self.assertTrue(head.startswith(b"POST /send HTTP/1.1\r\n"), head)
        self.assertIn(f"Authorization: Bearer {SECRET}".encode(), head)
        self.assertIn(b"User-Agent: weighbridge-alarm", head)
        self.assertEqual(json.loads(body), MESSAGE.hook)

    def test_an_sms_as_a_form_as_json_and_in_the_url(self) -> None:
        wanted = {"to": ["+491701"], "text": [MESSAGE.sms], "key": [SECRET]}
        with served(OK) as server:
            self.assertIsNone(self.give(self.sms(server.url)))
            self.assertIsNone(self.give(self.sms(server.url, encoding="json")))
            self.assertIsNone(self.give(self.sms(server.url, method="GET")))
            self.assertIsNone(self.give(self.sms(f"{server.url}?a=b", method="GET")))
        form, as_json, first, second = server.got
        self.assertEqual(parse_qs(form.partition(b"\r\n\r\n")[2].decode()), wanted)
        self.assertEqual(
            json.loads(as_json.partition(b"\r\n\r\n")[2]),
            {key: it[0] for key, it in wanted.items()},
        )
        self.assertEqual(parse_qs(first.split()[1].decode().partition("?")[2]), wanted)
        self.assertEqual(
            parse_qs(second.split()[1].decode().partition("?")[2]), {"a": ["b"], **wanted}
        )

    def test_only_a_status_from_200_to_299_counts_as_taken(self) -> None:
        for status, is_taken in (
            (200, 1),
            (202, 1),
            (204, 1),
            (301, 0),
            (302, 0),
            (400, 0),
            (500, 0),
        ):
            answer = f"HTTP/1.1 {status} X\r\nContent-Length: 0\r\nLocation: /other\r\n\r\n"
            with served(answer.encode()) as server:
                why = self.give(self.hook(server.url))
                self.assertEqual(why is None, bool(is_taken), (status, why))
                self.assertEqual(len(server.got), 1)  # no redirect is followed
                if why is not None:
                    self.assertIn(f"status {status}", why)

    def test_a_gateway_that_refuses_with_status_200(self) -> None:
        with served(OK) as server:
            self.assertIsNone(self.give(self.sms(server.url, answer_has="OK")))
            self.assertIn("answer_has", self.give(self.sms(server.url, answer_has="SENT")) or "")

    def test_servers_that_do_harm(self) -> None:
        with mock.patch.object(handing, "WEB_SECONDS", 1.0):
            cases: list[tuple[bytes | Callable[[socket.socket], None], str]] = [
                (hangs, "no answer within 1 seconds"),
                (drips, "no answer within 1 seconds"),
                (resets, "Connection reset"),
                (b"rubbish\r\n\r\n", "no HTTP"),
                (b"", "closed the connection"),
                (
                    b"HTTP/1.1 100 Continue\r\n\r\n" * 9
                    + b"HTTP/1.1 200 \xff\r\n"
                    + b"A: b\r\n" * 999,
                    "no HTTP",
                ),
            ]
            for answer, wanted in cases:
                begin = time.monotonic()
                with served(answer) as server:
                    why = self.give(self.hook(server.url)) or ""
                self.assertRegex(why, wanted)
                self.assertLess(time.monotonic() - begin, 2.5)

    def test_an_endless_answer_is_cut(self) -> None:
        flood = Flood()
        with served(flood) as server:
            self.assertIsNone(self.give(self.hook(server.url)))
            found = ask(server.url, 5)
            self.assertEqual((len(found.body), found.is_whole), (asking.MOST_BYTES, False))
            time.sleep(0.2)
            self.assertLess(flood.taken, 50)

    def test_nobody_listens(self) -> None:
        with served(OK) as server:
            pass
        why = self.give(self.hook(server.url)) or ""
        self.assertIn("Connection refused", why)

    def test_a_server_with_an_unknown_certificate(self) -> None:
        path = own_certificate(self.box, 30)
        context = ssl.SSLContext(ssl.PROTOCOL_TLS_SERVER)
        context.load_cert_chain(path)

        def shakes(stream: socket.socket) -> None:
            context.wrap_socket(stream, server_side=True)

        with served(shakes) as server:
            setattr(server, "request", lambda stream: b"")
            why = self.give(self.hook(server.url.replace("http:", "https:"))) or ""
        self.assertIn("certificate verify failed", why)

    def test_a_proxy_of_the_environment_is_not_used(self) -> None:
        with served(OK) as server, mock.patch.dict(
            os.environ, {"http_proxy": "http://127.0.0.1:9"}
        ):
            self.assertIsNone(self.give(self.hook(server.url)))

    def test_no_failure_has_a_secret(self) -> None:
        with served(b"HTTP/1.1 401 No\r\nContent-Length: 6\r\n\r\nS3cret") as server:
            for to in (
                self.hook(f"{server.url}/{SECRET}"),
                self.sms(f"{server.url}?key={SECRET}", method="GET"),
                self.sms(f"http://127.0.0.1:9/{SECRET}"),
            ):
                self.assertNotIn(SECRET, (self.give(to) or "") + repr(to))

    def test_a_deadline_leaves_no_timer(self) -> None:
        with served(OK) as server:
            ask(server.url, 0.4)
        time.sleep(0.6)
        with served(hangs) as server:
            self.assertRaises(NoAnswer, ask, server.url, 0.2)
        time.sleep(0.3)

    def test_urls(self) -> None:
        for good in ("https://a.example/x?y=z", "https://192.168.1.2:8443/", "https://[::1]/"):
            self.assertIsNone(url_fault(good, False), good)
        for near in ("http://127.0.0.1:8080/x", "http://192.168.1.2/", "http://10.0.0.7/sms"):
            self.assertIsNotNone(url_fault(near, False))
            self.assertIsNone(url_fault(near, True))
        for bad in (
            "http://a.example/",
            "http://8.8.8.8/",
            "http://0.0.0.0/",
            "ftp://127.0.0.1/",
            "https://u:p@a.example/",
            "https://a.example/\r\nX: y",
            "https://a.example/ü",
            "https://a.example:0/",
            "https://a.example:x/",
            "https:///x",
            "file:///etc/passwd",
            "https://a.example/#x",
            "https://[::1",
        ):
            self.assertIsNotNone(url_fault(bad, True), bad)


class MailTest(HandingCase):
    def sendmail(self, script: str) -> Receiver:
        path = os.path.join(self.box, "sendmail")
        with open(path, "w", encoding="ascii") as file:
            file.write(f"#!/bin/sh\n{script}\n")
        os.chmod(path, stat.S_IRWXU)
        return receiver(program=path)

    def test_sendmail_gets_the_mail_on_its_input(self) -> None:
        path = os.path.join(self.box, "mail")
        self.assertIsNone(self.give(self.sendmail(f'echo "$@" >{path}; cat >>{path}')))
        with open(path, encoding="ascii") as file:
            lines = file.read().splitlines()
        self.assertEqual(lines[0], "-t -i")  # no address in its arguments
        self.assertIn("To: owner@example.com", lines)
        self.assertIn("Subject: WB01: test", lines)
        self.assertEqual(lines[-1], "text")

    def test_a_sendmail_that_fails(self) -> None:
        why = self.give(self.sendmail("echo 'no route to owner@example.com' >&2; exit 75")) or ""
        self.assertIn("status 75: no route to ..", why)
        self.assertNotIn("owner@", why)

    def test_a_sendmail_that_hangs_prints_or_is_missing(self) -> None:
        with mock.patch.object(handing, "MAIL_SECONDS", 1.0):
            self.assertIn("didn't end within 1", self.give(self.sendmail("sleep 9")) or "")
        self.assertIsNone(self.give(self.sendmail("cat >/dev/null; seq 100000; exit 0")))
        self.assertIsNone(self.give(self.sendmail("exit 0")))
        self.assertIn("No such file", self.give(receiver(program="/nowhere/sendmail")) or "")

    def test_what_it_prints_commands_no_terminal(self) -> None:
        why = self.give(self.sendmail("cat >/dev/null; printf '\\033[2Jx\\n' >&2; exit 1")) or ""
        self.assertTrue(why.isprintable(), why)


class OthersTest(AlarmCase):
    def test_a_receiver_that_fails_gets_the_message_later_and_the_other_once(self) -> None:
        self.receivers = [receiver(), receiver("duty")]
        self.hands.refusing = {"owner"}
        self.world.faults = ["zero"]
        self.assertFalse(self.look(4))
        self.look(30)
        self.assertEqual((self.events(), self.events("duty")[:1]), ([], ["zero began"]))
        self.hands.refusing = set()
        self.look(60)
        self.assertIn("zero began", self.events())
        self.assertEqual(self.events("duty").count("zero began"), 1)

    def test_the_others_are_told_of_a_receiver_that_fails(self) -> None:
        self.receivers = [receiver(), receiver("duty")]
        self.hands.refusing = {"owner"}
        self.world.faults = ["zero"]
        self.look(60)
        self.assertIn("receiver began", self.events("duty"))
        self.hands.refusing = set()
        self.look(120)
        self.assertIn("receiver ended", self.events("duty"))

    def test_a_failing_receiver_is_tried_less_and_less_often(self) -> None:
        self.hands.refusing = {"owner"}
        self.world.faults = ["zero"]
        tries = 0
        for _ in range(24 * 60):
            before = len(self.said)
            self.look()
            tries += sum("took no message" in it for it in self.said[before:])
        self.assertTrue(24 <= tries <= 32, tries)

    def test_what_came_and_went_unheard_is_told_as_over(self) -> None:
        self.hands.refusing = {"owner"}
        self.world.faults = ["zero"]
        self.look(10)
        self.world.faults = []
        self.look(10)
        self.hands.refusing = set()
        self.look(120)
        self.assertEqual(self.events(), ["zero ended"])

    def test_a_mistake_in_one_receiver_stops_no_other(self) -> None:
        def fails(to: Receiver, it: Message, now: object) -> None:
            if to.name == "owner":
                raise KeyError(SECRET)
            self.hands.given.append((to.name, it))

        self.receivers = [receiver(), receiver("duty")]
        self.world.faults = ["zero"]
        with mock.patch.object(self.hands, "give", fails):
            self.look(4)
        self.assertEqual(self.events("duty"), ["zero began"])
        self.assertNotIn(SECRET, "".join(self.said))


if __name__ == "__main__":
    unittest.main()
