"""The end of the demo: by a signal at a bad moment, while a part is held, and after a part was killed."""

import os
import signal
import time
from pathlib import Path

from checks.lib.case import PROGRAM
from checks.lib.demo_case import CONVERTER, ENDS_WITHIN, WEIGHBRIDGE, DemoCheck

MOMENTS = (0.02, 0.06, 0.1, 0.15, 0.2, 0.25, 0.3, 0.4, 0.5, 0.6, 0.8, 1, 1.5, 2, 3)
# A converter that can't start.
BROKEN = """#!/bin/sh
[ "$1" != run ] || { echo "no such reader" >&2; exit 3; }
exec %s "$@"
"""


class Ends(DemoCheck):
    """Demos that end by a signal."""

    needs = (PROGRAM, "aiohttp", "prometheus_client", "reportlab", "qrcode")
    seconds = 100

    def test_signals(self) -> None:
        self.ends_well(self.demo("--quick"), signal.SIGHUP, 0)
        demo = self.demo("--quick", hangup=signal.SIG_IGN)
        demo.process.send_signal(signal.SIGHUP)
        time.sleep(1)
        self.same("under nohup it isn't ended by SIGHUP", None, demo.process.poll())
        self.ends_well(demo, signal.SIGTERM, 0)

    def test_bad_moments(self) -> None:
        top = self.folder()
        for after in MOMENTS:
            demo = self.started("--no-browser", "--folder", f"{top}/{after}")
            demo.folder = f"{top}/{after}"
            time.sleep(after)
            status, seconds = demo.ends()
            is_ended = status == 0 or after < 0.1 and status is not None
            said = f"status {status}, {seconds:.1f} s"
            what = f"Ctrl-C {after} s after the start ends it"
            self.holds(what, is_ended and seconds < ENDS_WITHIN, said)
            self.leaves_nothing(demo)

    def test_held(self) -> None:
        for name in ("the service", "the counter", "the converter"):
            demo = self.demo("--empty")
            os.kill(self.process_of(demo, name), signal.SIGSTOP)
            time.sleep(0.3)
            status, seconds = demo.ends()
            is_ended = status == 0 and seconds < ENDS_WITHIN
            what = f"while {name} stands still, Ctrl-C ends all of it"
            self.holds(what, is_ended, f"status {status}, {seconds:.1f} s")
            self.leaves_nothing(demo)

    def test_a_second_signal(self) -> None:
        demo = self.demo("--empty")
        os.kill(self.process_of(demo, "the counter"), signal.SIGSTOP)
        demo.process.send_signal(signal.SIGINT)
        time.sleep(0.5)
        status, seconds = demo.ends()
        is_quick = status == 0 and seconds < 1
        self.holds("a second Ctrl-C kills at once", is_quick, f"{status}, {seconds:.1f} s")
        self.leaves_nothing(demo)

    def test_the_demo_is_killed(self) -> None:
        demo = self.demo("--empty")
        demo.process.kill()
        demo.process.wait()
        self.same("if the demo itself is killed, its parts end", {}, demo.left(8))


class Killed(DemoCheck):
    """Demos of which a part is killed, or can't start."""

    needs = (PROGRAM, "aiohttp", "prometheus_client", "reportlab", "qrcode")
    seconds = 40

    def test_a_part_is_killed(self) -> None:
        for name in ("the converter", "the service", "the counter"):
            demo = self.demo("--empty")
            os.kill(self.process_of(demo, name), signal.SIGKILL)
            status, text = demo.wait(ENDS_WITHIN), self.says(demo)
            self.same(f"{name} is killed: the status is 1", 1, status)
            is_named = f"{name} ended by SIGKILL" in text
            self.holds("it is named, with how it ended", is_named, text)
            self.holds("and nothing else is said", "Traceback" not in text, text)
            has_lines = f"{demo.folder}/" in text and ".log" in text
            self.holds("with its last lines", has_lines, text)
            self.leaves_nothing(demo, "no process is left")
            self.holds("it prints where the journal is", "The journal is" in demo.printed())

    def test_a_converter_that_cannot_start(self) -> None:
        folder = self.folder()
        path = Path(folder, "no-converter")
        path.write_text(BROKEN % CONVERTER, encoding="utf-8")
        path.chmod(0o755)
        programs = ["--weighbridge", WEIGHBRIDGE, "--converter", str(path)]
        demo = self.started("--no-browser", programs=programs)
        demo.folder = folder
        status, text = demo.wait(40), self.says(demo)
        self.same("a converter that can't start: the status is 1", 1, status)
        is_named = "the converter ended with status 3" in text and "no such reader" in text
        self.holds("it is named, with its last line", is_named and "Traceback" not in text, text)
