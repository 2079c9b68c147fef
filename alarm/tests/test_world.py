"""Shows what this machine answers, and what the command line prints."""

import contextlib
import io
import os
import socket
import ssl
import threading
import unittest
from datetime import datetime, timedelta, timezone
from unittest import mock

from tests.played import AlarmCase, own_certificate
from weighbridge_alarm import __main__ as command
from weighbridge_alarm.machine import Space
from weighbridge_alarm.run import locked
from weighbridge_alarm.world import RealWorld
from weighbridge_night.programs import RealPrograms

SETUP = """
bridge = "WB01"
counter = "127.0.0.1:9"

[[to]]
name = "owner"
kind = "mail"
address = "o@example.com"
from = "pc@example.com"
program = "{}"
"""


class WorldTest(AlarmCase):
    def setUp(self) -> None:
        super().setUp()
        self.real = RealWorld(RealPrograms(self.box))

    def test_the_time(self) -> None:
        first, second = self.real.tick(), self.real.tick()
        self.assertLess(abs(datetime.now(timezone.utc) - first.now), timedelta(minutes=1))
        self.assertTrue(0 < first.uptime <= second.uptime)
        self.assertEqual((first.boot, len(first.boot)), (second.boot, 36))
        self.assertIn(self.real.is_synchronized(), (True, False, None))
        self.assertLess(self.real.made(), first.now)

    def test_disks(self) -> None:
        found = self.real.space("/")
        assert isinstance(found, Space)
        self.assertGreater(found.free_bytes, 0)
        self.assertEqual(self.real.space("/nowhere"), "No such file or directory")

    def test_files(self) -> None:
        self.assertIsNone(self.real.file("/nowhere"))
        self.assertIsNone(self.real.file(self.box))
        path = os.path.join(self.box, "x")
        with open(path, "wb") as file:
            file.write(b"\xff" * (2 << 20))
        self.assertEqual(len(self.real.file(path) or ""), 1 << 20)

    def test_units(self) -> None:
        self.assertIsInstance(self.real.units(), str)

    def test_the_certificate_in_a_file(self) -> None:
        path = own_certificate(self.box, 30)
        end = self.real.certificate_end(path)
        assert isinstance(end, datetime)
        age = end - datetime.now(timezone.utc)
        self.assertLess(abs(age - timedelta(days=30)), timedelta(minutes=5))
        self.assertIsInstance(self.real.certificate_end("/nowhere.pem"), str)
        self.assertIsInstance(self.real.certificate_end("/etc/passwd"), str)

    def test_the_certificate_that_a_server_shows(self) -> None:
        context = ssl.SSLContext(ssl.PROTOCOL_TLS_SERVER)
        context.load_cert_chain(own_certificate(self.box, 30))
        door = socket.create_server(("127.0.0.1", 0))

        def serve() -> None:
            stream, _ = door.accept()
            with contextlib.suppress(OSError):
                context.wrap_socket(stream, server_side=True).close()

        threading.Thread(target=serve, daemon=True).start()
        port = door.getsockname()[1]
        self.assertIsInstance(self.real.certificate_end(f"127.0.0.1:{port}"), datetime)
        door.close()
        self.assertEqual(self.real.certificate_end(f"127.0.0.1:{port}"), "Connection refused")


class CommandTest(AlarmCase):
    def ran(self, *words: str) -> tuple[int, str]:
        """Run the command. Return its status, and what it printed."""
        out = io.StringIO()
        with (
            mock.patch("sys.argv", ["weighbridge-alarm", *words, "--state", self.folders[0]]),
            contextlib.redirect_stdout(out),
            contextlib.redirect_stderr(out),
        ):
            try:
                status = command.main()
            except SystemExit as end:
                status = int(str(end.code))
        return status, out.getvalue()

    def setup_file(self, text: str = SETUP, program: str = "/bin/true") -> str:
        path = os.path.join(self.box, "setup.toml")
        with open(path, "w", encoding="utf-8") as file:
            file.write(text.format(program))
        os.chmod(path, 0o640)
        return path

    def test_the_list(self) -> None:
        status, said = self.ran("list")
        self.assertEqual((status, "hasn't looked yet" in said), (1, True))
        self.world.now = datetime.now(timezone.utc) - timedelta(minutes=6)
        self.look(2)
        self.assertEqual(self.ran("list")[0], 0)
        self.world.faults = ["zero"]
        self.look(1)
        status, said = self.ran("list")
        self.assertEqual((status, "not reported yet: Zero isn't set" in said), (0, True))
        self.look(3)
        status, said = self.ran("list")
        self.assertEqual(status, 1)
        self.assertIn("Zero isn't set, since ", said)
        self.assertIn("owner: heard of it at ", said)
        self.assertIn("press F9", said)

    def test_the_list_of_an_alarm_that_stands_still(self) -> None:
        self.world.now = datetime.now(timezone.utc) - timedelta(hours=1)
        self.look(1)
        status, said = self.ran("list")
        self.assertEqual((status, "doesn't look any more" in said), (1, True))

    def test_a_test_message(self) -> None:
        self.assertEqual(
            self.ran("test", "--setup", self.setup_file()), (0, "owner: took the test message\n")
        )
        status, said = self.ran("test", "--setup", self.setup_file(program="/bin/false"))
        self.assertEqual((status, "owner: didn't take the test message" in said), (1, True))
        self.assertEqual(os.listdir(self.folders[0]), [])  # no fault counts as reported

    def test_a_run_beside_another(self) -> None:
        handle = locked(self.folders[0])
        assert handle is not None
        status, said = self.ran("run", "--setup", self.setup_file())
        os.close(handle)
        self.assertEqual((status, "another look runs" in said), (1, True))

    def test_a_run_as_another_user(self) -> None:
        with mock.patch("os.geteuid", lambda: 12345):
            status, said = self.ran("run", "--setup", self.setup_file())
        self.assertEqual((status, "it is another user's" in said), (1, True))
        self.assertEqual(os.listdir(self.folders[0]), [])

    def test_the_check(self) -> None:
        status, said = self.ran("--check", "--setup", self.setup_file())
        self.assertEqual((status, "weighbridge-ports.conf" in said), (1, True))
        status, said = self.ran("--check", "--setup", self.setup_file("bridge = 1\nx = 2\n"))
        self.assertEqual((status, len(said.splitlines())), (2, 3))
        self.assertEqual(self.ran("--check", "--setup", "/nowhere")[0], 2)
        self.assertEqual(self.ran()[0], 2)
        self.assertEqual(self.ran("run", "--check")[0], 2)


if __name__ == "__main__":
    unittest.main()
