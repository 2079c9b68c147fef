"""The counter's words to systemd."""

import asyncio
import contextlib
import errno
import io
import os
import signal
import socket
import tempfile
import time
import unittest
from unittest import mock

from weighbridge_counter import notifying

START, TURN = b"READY=1\nWATCHDOG=1", b"WATCHDOG=1"


class PauseTest(unittest.TestCase):
    def test_a_third_of_what_systemd_waits_for(self) -> None:
        self.assertEqual(notifying.pause_of({"WATCHDOG_USEC": "90000000"}), 30.0)
        own = {"WATCHDOG_USEC": "3000000", "WATCHDOG_PID": str(os.getpid())}
        self.assertEqual(notifying.pause_of(own), 1.0)

    def test_none_if_systemd_waits_for_nothing(self) -> None:
        environments: tuple[dict[str, str], ...] = (
            {},
            {"WATCHDOG_USEC": ""},
            {"WATCHDOG_USEC": "0"},
            {"WATCHDOG_USEC": "-3"},
            {"WATCHDOG_USEC": "soon"},
            {"WATCHDOG_USEC": "3000000", "WATCHDOG_PID": "1"},
        )
        for environment in environments:
            with self.subTest(environment):
                self.assertIsNone(notifying.pause_of(environment))


class NotifyTest(unittest.IsolatedAsyncioTestCase):
    def setUp(self) -> None:
        # a word that waits would hold the loop up for good
        signal.signal(signal.SIGALRM, signal.default_int_handler)
        signal.alarm(10)
        self.addCleanup(signal.alarm, 0)
        folder = tempfile.TemporaryDirectory()
        self.addCleanup(folder.cleanup)
        self.path = os.path.join(folder.name, "notify")

    def listener(self, address: str | None = None) -> socket.socket:
        """Return systemd's socket."""
        it = socket.socket(socket.AF_UNIX, socket.SOCK_DGRAM)
        self.addCleanup(it.close)
        it.bind(address or self.path)
        it.settimeout(0)
        return it

    async def told(
        self,
        listener: socket.socket,
        seconds: float = 0.2,
        address: str | None = None,
        usec: str | None = "30000",
    ) -> list[bytes]:
        """Return the words that reach systemd within `seconds`."""
        environment = {"NOTIFY_SOCKET": address or self.path}
        if usec:
            environment["WATCHDOG_USEC"] = usec
        task = asyncio.ensure_future(notifying.notify(environment))
        found: list[bytes] = []
        until = time.monotonic() + seconds
        while time.monotonic() < until:
            await asyncio.sleep(0.002)
            with contextlib.suppress(BlockingIOError):
                found.append(listener.recv(100))
        self.is_over = task.done()
        task.cancel()
        with contextlib.suppress(asyncio.CancelledError):
            await task
        return found

    async def test_a_start_once_and_then_each_turn(self) -> None:
        found = await self.told(self.listener())
        self.assertEqual(found[0], START)
        self.assertGreater(len(found), 4)
        self.assertEqual(set(found[1:]), {TURN})
        self.assertFalse(self.is_over)

    async def test_an_abstract_address(self) -> None:
        name = f"wellumak-{os.getpid()}"
        found = await self.told(self.listener(f"\0{name}"), address=f"@{name}")
        self.assertEqual(found[0], START)

    async def test_only_the_start_without_a_watchdog(self) -> None:
        self.assertEqual(await self.told(self.listener(), usec=None), [START])
        self.assertTrue(self.is_over)

    async def test_nothing_and_at_once_without_systemd(self) -> None:
        without: tuple[dict[str, str], ...] = (
            {},
            {"NOTIFY_SOCKET": ""},
            {"WATCHDOG_USEC": "30000"},
        )
        for environment in without:
            with self.subTest(environment):
                await asyncio.wait_for(notifying.notify(environment), 1)

    async def test_no_turn_while_the_event_loop_stands(self) -> None:
        listener = self.listener()
        environment = {"NOTIFY_SOCKET": self.path, "WATCHDOG_USEC": "30000"}
        task = asyncio.ensure_future(notifying.notify(environment))
        await asyncio.sleep(0.05)
        with contextlib.suppress(BlockingIOError):
            while True:
                listener.recv(100)
        listener.settimeout(0.2)
        with self.assertRaises(TimeoutError):
            listener.recv(100)  # which holds the loop up
        await asyncio.sleep(0.05)
        self.assertEqual(listener.recv(100), TURN)
        task.cancel()

    async def test_systemd_that_takes_nothing_holds_nobody_up(self) -> None:
        self.listener()
        said, turns = io.StringIO(), 0
        environment = {"NOTIFY_SOCKET": self.path, "WATCHDOG_USEC": "3000"}
        with contextlib.redirect_stderr(said):
            task = asyncio.ensure_future(notifying.notify(environment))
            until = time.monotonic() + 0.5
            while time.monotonic() < until:
                await asyncio.sleep(0.001)
                turns += 1
        self.assertFalse(task.done())
        task.cancel()
        self.assertGreater(turns, 50)
        self.assertEqual(said.getvalue().count("\n"), 1)

    async def test_without_a_descriptor_it_goes_on(self) -> None:
        listener, said = self.listener(), io.StringIO()
        environment = {"NOTIFY_SOCKET": self.path, "WATCHDOG_USEC": "30000"}
        fault = OSError(errno.EMFILE, "Too many open files")
        with contextlib.redirect_stderr(said):
            with mock.patch("socket.socket", side_effect=fault):
                task = asyncio.ensure_future(notifying.notify(environment))
                await asyncio.sleep(0.05)
            await asyncio.sleep(0.05)
        self.assertFalse(task.done())
        task.cancel()
        self.assertEqual(listener.recv(100), START)
        self.assertIn("Too many open files; the counter tries again", said.getvalue())

    async def test_without_a_listener_it_says_so_once_and_tries_again(self) -> None:
        said = io.StringIO()
        with contextlib.redirect_stderr(said):
            environment = {"NOTIFY_SOCKET": self.path, "WATCHDOG_USEC": "30000"}
            task = asyncio.ensure_future(notifying.notify(environment))
            await asyncio.sleep(0.1)
            listener = self.listener()
            await asyncio.sleep(0.1)
            task.cancel()
        self.assertEqual(listener.recv(100), START)
        self.assertEqual(said.getvalue().count("\n"), 1)
        self.assertIn("systemd takes no word of the counter", said.getvalue())


if __name__ == "__main__":
    unittest.main()
