"""Shows that a night that is killed at any call that changes a disk, or asks another program, does no harm, and that the next night makes it whole."""

import json
import os
import signal
import unittest
from datetime import timedelta
from typing import Any

from tests.played import NightCase
from weighbridge_night.files import digest_of
from weighbridge_night.keep import copies_of
from weighbridge_night.night import Night

CALLS = ("mkdir", "rename", "unlink", "rmdir", "fsync", "open")


class KilledTest(NightCase):
    def killed_at(self, number: int) -> bool:
        """Run a night in a process of its own, and kill it before this call. Return False if the night has fewer calls."""
        child = os.fork()
        if child == 0:
            count = [0]

            def counted(real: Any) -> Any:
                def call(*words: Any, **more: Any) -> Any:
                    count[0] += 1
                    if count[0] == number:
                        os.kill(os.getpid(), signal.SIGKILL)
                    return real(*words, **more)

                return call

            for name in CALLS:
                setattr(os, name, counted(getattr(os, name)))
            for asked in (self.programs, self.office):
                for name in ("run", "ask"):
                    if hasattr(asked, name):
                        setattr(asked, name, counted(getattr(asked, name)))
            try:
                is_well = Night(self.setup, self.state, self.world).run()
            except BaseException:
                os._exit(3)
            os._exit(0 if is_well else 2)
        _, status = os.waitpid(child, 0)
        if os.WIFSIGNALED(status):
            return True
        self.assertEqual(os.WEXITSTATUS(status), 0)
        return False

    def journal_bytes(self) -> list[str]:
        return [digest_of(self.journal + it) for it in ("", "-wal", "-newest")]

    def test_a_kill_at_any_call(self) -> None:
        for _ in range(9):
            self.assertTrue(self.night())
        before = self.journal_bytes()
        number, kills = 0, 0
        there = {*self.in_folder()}
        while True:
            number += 1
            self.clock.now += timedelta(days=1)
            was_killed = self.killed_at(number)
            self.assertEqual(self.journal_bytes(), before)
            # each copy that has its name is whole, and a sound one is there
            names = [it for it in self.in_folder() if not it.startswith(".")]
            self.assertTrue(copies_of(names) and copies_of(names)[0].is_sound)
            for name in {*names} - there:
                folder = os.path.join(self.copies, "WB01", name)
                with open(os.path.join(folder, "SHA256SUMS"), encoding="ascii") as file:
                    lines = [it.split() for it in file]
                self.assertEqual(len(lines), 5)
                for digest, it in lines:
                    self.assertEqual(digest, digest_of(os.path.join(folder, it)))
            with open(os.path.join(self.state, "last.json"), encoding="utf-8") as file:
                self.assertEqual(json.load(file)["version"], 1)
            if not was_killed:
                break
            kills += 1
            self.clock.now += timedelta(days=1)
            self.assertTrue(self.night(), (number, self.steps))
            for found in (self.in_folder(), self.on_host()):
                self.assertEqual([it for it in found if it.startswith(".")], [], number)
                self.assertEqual(
                    found[-1][:10], (self.clock.now - timedelta(days=1)).date().isoformat()
                )
            self.assertEqual(os.listdir(self.state), ["last.json"], number)
            there = {*self.in_folder()}
        self.assertGreater(kills, 80)
        self.assertEqual(self.in_folder()[-1], self.on_host()[-1])


if __name__ == "__main__":
    unittest.main()
