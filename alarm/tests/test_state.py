"""Shows that a message comes at least once: over kills, full disks, damaged files and two runs at once."""

import errno
import json
import os
import signal
import unittest
from typing import Any
from unittest import mock

from tests.played import AlarmCase, PlayedHands, receiver
from weighbridge_alarm import run as module
from weighbridge_alarm.run import FILE, locked, read_state, read_text
from weighbridge_alarm.state import MOST_BYTES, State, state_of
from weighbridge_night.files import write_whole

CALLS = ("open", "rename", "fsync", "write", "close", "fchmod", "unlink")


class KilledTest(AlarmCase):
    def setUp(self) -> None:
        super().setUp()
        self.receivers = [receiver(), receiver("duty")]

    def killed_at(self, number: int) -> bool:
        """Look in a process of its own, and kill it before this call. Return False if the look has fewer calls."""
        child = os.fork()
        if child == 0:
            count = [0]

            def counted(real: Any) -> Any:
                def call(*words: Any, **more: Any) -> Any:
                    count[0] += 1
                    if count[0] == number:
                        os.kill(os.getpid(), signal.SIGKILL)
                    return real(*words, **more)

                return call

            for name in CALLS:
                setattr(os, name, counted(getattr(os, name)))
            setattr(PlayedHands, "give", counted(PlayedHands.give))
            try:
                self.alarm.run()
            except BaseException:
                os._exit(3)
            os._exit(0)
        _, status = os.waitpid(child, 0)
        if os.WIFSIGNALED(status):
            return True
        self.assertEqual(os.WEXITSTATUS(status), 0)
        return False

    def sent(self) -> list[str]:
        """Return what was sent since the last call, even by processes that were killed."""
        if not os.path.exists(self.hands.path):
            return []
        with open(self.hands.path, encoding="utf-8") as file:
            lines = [json.loads(it) for it in file]
        os.unlink(self.hands.path)
        return [
            f"{who} {it['name']} {it['state']}" for who, _, hook in lines for it in hook["faults"]
        ]

    def kills_at(self, number: int, faults: list[str], wanted: str) -> bool:
        """Let faults begin or end with a kill at this call of the look that reports it."""
        self.world.faults = [*faults]
        self.look(3)
        was_killed = self.killed_at(number)
        self.later(60)
        self.look(5)
        sent = self.sent()
        for who in ("owner", "duty"):
            self.assertIn(f"{who} {wanted}", sent, number)
            self.assertLessEqual(sent.count(f"{who} {wanted}"), 2, number)
        self.look(60)
        self.assertEqual(self.sent(), [], number)
        return was_killed

    def test_a_kill_at_any_call(self) -> None:
        self.look(2)
        number, kills = 0, 0
        while True:
            number += 1
            was_killed = self.kills_at(number, ["zero"], "zero began")
            was_killed = self.kills_at(number, [], "zero ended") or was_killed
            if not was_killed:
                break
            kills += 1
            self.later(86400)  # another day of messages
        self.assertGreater(kills, 15)


class FileTest(AlarmCase):
    def path(self, folder: int = 0) -> str:
        return os.path.join(self.folders[folder], FILE)

    def write(self, data: bytes) -> None:
        with open(self.path(), "wb") as file:
            file.write(data)

    def test_it_is_read_as_it_was_written(self) -> None:
        self.world.faults = ["zero"]
        self.look(5)
        self.world.faults = []
        self.hands.refusing = {"owner"}
        self.look(9)
        found = self.state()
        self.assertEqual(state_of(found.text()), found)
        self.assertEqual(os.stat(self.path()).st_mode & 0o777, 0o644)

    def test_a_damaged_foreign_or_huge_file_is_told_again(self) -> None:
        self.world.faults = ["zero"]
        self.look(5)
        with open(self.path(), "rb") as file:
            good = file.read()
        table = json.loads(good)
        bad = [b"", b"{", good[:-9], b"\xff" + good, b"[" * 10**5, b"[]", b"null", b"{}"]
        for key, value in (
            ("version", 2),
            ("known", []),
            ("known", {"zero": 1}),
            ("receivers", {"owner": {}}),
            ("looks", -1),
            ("looks", "x"),
            ("looks", True),
            ("uptime", float("nan")),
            ("uptime", float("inf")),
            ("first", "0001-01-01T00:00:00Z"),
            ("first", None),
            ("looked", 7),
        ):
            bad.append(json.dumps({**table, key: value}).encode())
        bad.append(good + b" " * MOST_BYTES)
        for data in bad:
            self.write(data)
            self.forget()
            self.look(5)
            self.assertEqual(self.events(), ["zero began"], data[:60])

    def test_a_link_a_folder_or_a_fifo_is_not_read(self) -> None:
        path = self.path()
        os.mkfifo(path)
        self.assertIsNone(read_text(path))
        os.unlink(path)
        os.symlink("/etc/passwd", path)
        self.assertIsNone(read_text(path))
        self.world.faults = ["zero"]
        self.look(5)
        self.assertEqual(self.events(), ["zero began"])
        self.assertFalse(os.path.islink(path))

    def test_a_receiver_that_is_new_hears_of_all_that_lasts(self) -> None:
        self.world.faults = ["zero"]
        self.look(5)
        self.receivers = [receiver(), receiver("new")]
        self.look(5)
        self.assertEqual((len(self.taken()), self.events("new")), (1, ["zero began"]))
        self.receivers = [receiver("new")]
        self.look(5)
        self.assertEqual({*self.state().receivers}, {"new"})

    def test_two_runs_at_once(self) -> None:
        first = locked(self.folders[0])
        assert first is not None
        self.assertIsNone(locked(self.folders[0]))
        os.close(first)
        second = locked(self.folders[0])
        assert second is not None
        os.close(second)


class FullTest(AlarmCase):
    def full(self, *folders: str) -> Any:
        real = write_whole

        def write(path: str, text: str, mode: int) -> None:
            if os.path.dirname(path) in folders:
                raise OSError(errno.ENOSPC, "No space left on device")
            real(path, text, mode)

        return mock.patch.object(module, "write_whole", write)

    def test_a_full_disk_is_told_once(self) -> None:
        self.look(3)
        with self.full(self.folders[0]):
            self.world.faults = ["files"]
            self.look(60)
            self.assertEqual(self.events(), ["files began"])
            self.assertIn("No space left on device", "".join(self.said))
        self.world.faults = []
        self.look(60)
        self.assertEqual(self.events(), ["files began", "files ended"])
        self.assertEqual(read_state(self.folders[:1]), self.state())

    def test_without_any_memory_it_is_told_again_rather_than_never(self) -> None:
        with self.full(*self.folders):
            self.world.faults = ["files"]
            self.assertFalse(self.look(6 * 60))
        self.assertTrue(6 <= len(self.taken()) <= 12, len(self.taken()))
        self.assertEqual({*self.events()}, {"files began"})

    def test_a_full_disk_after_the_message_was_taken(self) -> None:
        self.world.faults = ["files"]
        self.look(3)
        with self.full(self.folders[0]):
            self.look(1)
        self.look(30)
        self.assertEqual(self.events(), ["files began"])

    def test_an_empty_state(self) -> None:
        self.assertIsNone(read_state(self.folders))
        self.look(1)
        self.assertIsInstance(self.state(), State)


if __name__ == "__main__":
    unittest.main()
