"""Whether the clock was put since the service's start, by a file of the start and a process that are played."""

import os
import tempfile
import time
import unittest
from datetime import datetime, timezone
from pathlib import Path

from weighbridge_counter.clock import has_jumped, jump_of
from weighbridge_counter.service import Service

AGO = 5000.0  # in seconds: how long ago the service was started


class JumpTest(unittest.TestCase):
    def setUp(self) -> None:
        folder = tempfile.TemporaryDirectory()
        self.addCleanup(folder.cleanup)
        self.started, self.proc = Path(folder.name) / "started", Path(folder.name) / "proc"
        (self.proc / "77").mkdir(parents=True)
        ticks = (time.clock_gettime(time.CLOCK_BOOTTIME) - AGO) * os.sysconf("SC_CLK_TCK")
        self.service = Service(77, round(ticks), "boot", ("weighbridge", "serve"))

    def put(self, ahead: float) -> None:
        """Write that the clock was `ahead` by these seconds when the service was started."""
        moment = datetime.fromtimestamp(time.time() - AGO + ahead, timezone.utc)
        self.started.write_text(moment.strftime("%Y-%m-%dT%H:%M:%SZ\n"), encoding="ascii")

    def jump(self) -> float | None:
        return jump_of(self.service, self.started, self.proc)

    def jumped(self) -> bool:
        return has_jumped(self.service, self.started, self.proc)

    def test_a_clock_that_nobody_put_agrees(self) -> None:
        self.put(0)
        self.assertAlmostEqual(self.jump() or 0.0, 0, delta=2)
        self.assertFalse(self.jumped())

    def test_more_than_a_minute_is_a_jump(self) -> None:
        for ahead, is_jump in ((-55, False), (55, False), (-65, True), (65, True), (1e8, True)):
            with self.subTest(ahead):
                self.put(ahead)
                self.assertAlmostEqual(self.jump() or 0.0, -ahead, delta=2)
                self.assertEqual(self.jumped(), is_jump)

    def test_what_cannot_be_told_is_no_jump(self) -> None:
        self.assertIsNone(self.jump(), "there is no file")
        for text in ("", "now\n", "2026-11-28\n", "2026-11-28T25:00:00Z\n", "\udcff"):
            with self.subTest(text):
                self.started.write_bytes(text.encode("ascii", "surrogateescape"))
                self.assertIsNone(self.jump())
        self.put(1e6)
        self.assertIsNone(jump_of(None, self.started, self.proc), "no process is seen")
        (self.proc / "77").rmdir()
        self.assertIsNone(self.jump(), "the process has ended")

    @unittest.skipUnless(os.getuid() == 0, "needs root")
    def test_a_service_of_another_user_was_not_started_by_the_unit(self) -> None:
        self.put(1e6)
        os.chown(self.started, 65534, 65534)
        self.assertIsNone(self.jump())
        self.assertFalse(self.jumped())


if __name__ == "__main__":
    unittest.main()
