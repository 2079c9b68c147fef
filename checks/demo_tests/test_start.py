"""The start of the demo: without a built program, on a desktop, and the counter's setting. The unit tests are here too."""

import contextlib
import os
import re
import shutil
import subprocess
from pathlib import Path

from checks.lib.case import PROGRAM, Check
from checks.lib.demo_case import DemoCheck
from checks.lib.waiting import wait_until

from checks import TOP


class Start(Check):
    """Starts that need no built program."""

    needs = ("aiohttp", "prometheus_client", "reportlab", "qrcode")
    seconds = 20

    def test_unit(self) -> None:
        words = ["/usr/bin/python3", "-B", "-m", "unittest", "tests.test_demo"]
        it = subprocess.run(words, cwd=TOP / "counter", capture_output=True, text=True)
        failed = re.findall(r"^(?:FAIL|ERROR): (\w+)", it.stderr, re.M)
        self.same("the unit tests", (0, []), (it.returncode, failed))

    def said(self, *lines: str) -> tuple[int, str]:
        """Return what the counter's check of a setup says, and its status."""
        folder = self.folder()
        path = f"{folder}/counter.toml"
        text = "\n".join([f'state = "{folder}/state"', *lines])
        Path(path).write_text(text, encoding="utf-8")
        words = [f"{TOP}/counter/weighbridge-counter", "--check", path]
        it = subprocess.run(words, capture_output=True, text=True)
        return it.returncode, it.stderr

    def test_setting(self) -> None:
        found = self.said("demo = true", 'serial = "DEMO"')
        self.same("a demo of the serial DEMO", (0, ""), found)
        for lines in (("demo = true",), ("demo = true", 'serial = "WB01"')):
            status, text = self.said(*lines)
            is_refused = status == 2 and 'write serial = "DEMO"' in text
            self.holds(f"{' and '.join(lines)} is refused", is_refused, text)
        status, text = self.said('serial = "DEMO"')
        what = "the serial DEMO without demo = true is warned of"
        self.holds(what, status == 0 and "warning" in text and "demo = true" in text, text)
        self.same("a true bridge", (0, ""), self.said('serial = "WB01"'))

    def test_unbuilt(self) -> None:
        """Run it in a checkout in which nothing was built."""
        folder = Path(self.folder())
        shutil.copytree(TOP / "counter", folder / "counter")
        shutil.copy(TOP / "crates.txt", folder)
        command = folder / "weighbridge-demo"
        command.symlink_to("counter/weighbridge-demo")
        before = sorted(os.listdir(folder))
        it = subprocess.run([command], capture_output=True, text=True, timeout=20)
        count = len(it.stderr.splitlines())
        self.same("status and lines", (2, "", 2), (it.returncode, it.stdout, count))
        is_said = "./weighbridge --version" in it.stderr
        self.holds("the second line says what to run", is_said, it.stderr)
        self.same("nothing was built", before, sorted(os.listdir(folder)))
        words = [str(command), "--weighbridge", "/nowhere"]
        it = subprocess.run(words, capture_output=True, text=True)
        found = (it.returncode, len(it.stderr.splitlines()), "/nowhere" in it.stderr)
        what = "a program that is given and isn't there: two lines and status 2"
        self.same(what, (2, 2, True), found)


class Desktop(DemoCheck):
    """A desktop, on which it opens a browser."""

    needs = (PROGRAM, "aiohttp", "prometheus_client", "reportlab", "qrcode")
    seconds = 30

    def test_browser(self) -> None:
        top = Path(self.folder())
        opener, opened = top / "xdg-open", top / "opened"
        opener.write_text(f'#!/bin/sh\necho "$@" >> {opened}\n', encoding="utf-8")
        opener.chmod(0o755)
        rows: list[tuple[str, dict[str, str], tuple[str, ...], bool]] = [
            ("with DISPLAY", {"DISPLAY": ":0"}, (), True),
            ("with WAYLAND_DISPLAY", {"WAYLAND_DISPLAY": "wayland-0"}, (), True),
            ("with --no-browser", {"DISPLAY": ":0"}, ("--no-browser",), False),
            ("without a desktop", {}, (), False),
        ]
        for name, variables, words, is_opened in rows:
            opened.unlink(missing_ok=True)
            environment = {"PATH": f"{top}:{os.environ['PATH']}", **variables}
            demo = self.started(*words, environment=environment).wait_until_up()
            with contextlib.suppress(TimeoutError):
                wait_until("it opens a browser", opened.exists, seconds=20 if is_opened else 2)
            found = opened.read_text(encoding="utf-8") if opened.exists() else ""
            self.same(f"{name}: what is opened", f"{demo.clerk}\n" if is_opened else "", found)
            self.same(f"{name}: Ctrl-C ends it", 0, demo.ends()[0])
