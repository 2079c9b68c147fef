"""The folder of a demo: a second start continues in it, others are refused. As installed, a user without root gets one."""

import os
import pwd
import shutil
import signal
import stat
import subprocess
from pathlib import Path

from checks.lib.case import PROGRAM
from checks.lib.demo_case import PROGRAMS, DemoCheck
from checks.lib.demoing import Running
from checks.lib.small_disk import SmallDisk

from checks import TOP


class Folder(DemoCheck):
    """Folders that are named."""

    needs = (PROGRAM, "aiohttp", "prometheus_client", "reportlab", "qrcode")
    seconds = 60

    def puts(self, demo: Running, kg: int) -> None:
        """Put a load on the bridge, and wait until it has stood for two seconds."""
        demo.push("load", {"kg": kg})
        demo.becomes(lambda it: it["phase"] == "stands" and it["seconds"] > 2)

    def test_named(self) -> None:
        own = f"{self.folder()}/new/practice"
        words = ("--empty", "--quick", "--folder", own)
        demo = self.demo(*words)
        self.same("it is made, and printed", own, demo.folder)
        other = self.started("--no-browser", "--folder", own)
        status, text = other.wait(), self.says(other)
        is_refused = status == 2 and "another weighbridge-demo" in text
        self.holds("a second demo in it is refused", is_refused, text)
        self.puts(demo, 20_000)
        status = demo.weigh("F-1", "AB-12", "first")[0]
        self.same("a vehicle is weighed in", 201, status)
        self.ends_well(demo, signal.SIGINT, 1)
        demo = self.demo(*words)
        self.puts(demo, 8_000)
        text = demo.weigh("F-2", "AB-12", "second")[1]
        is_continued = "N      12000 kg" in text
        self.holds("a second start continues with its journal", is_continued, text)
        count = text.count(" SERIAL DEMO\n")
        self.same("its legal text has the serial DEMO twice", 2, count)
        self.ends_well(demo, signal.SIGINT, 2)

    def is_refused(self, what: str, place: str | Path, words: str = "") -> None:
        """Show that a demo refuses a folder with one line."""
        demo = self.started("--no-browser", "--folder", str(place))
        status, text = demo.wait(), self.says(demo)
        self.holds(what, status == 2 and len(demo.err) == 1 and words in text, text)

    def test_refused(self) -> None:
        top = Path(self.folder())
        (top / "files").mkdir()
        (top / "files" / "journal.db").touch()
        self.is_refused("a folder with other files is refused", top / "files", str(top / "files"))
        left = os.listdir(top / "files")
        self.same("and nothing is written there", ["journal.db"], left)
        (top / "file").touch()
        self.is_refused("a file in place of a folder is refused", top / "file", str(top / "file"))
        self.same("and nothing is written there", b"", (top / "file").read_bytes())
        self.is_refused("so is a folder that can't be made", "/proc/demo")

    def test_full_disk(self) -> None:
        """Start it on a disk of one page. Only root can mount one."""
        place = f"{self.folder()}/full"
        try:
            self.enterContext(SmallDisk(place, "4k"))
        except subprocess.CalledProcessError:
            self.skipTest("only root can mount a disk")
        demo = self.started("--no-browser", "--folder", f"{place}/demo")
        demo.folder = f"{place}/demo"
        status, text = demo.wait(40), self.says(demo)
        what = "a full disk: it says so, with status 1"
        self.holds(what, status == 1 and place in text and "Traceback" not in text, text[:500])
        self.leaves_nothing(demo)


def written_in(top: Path) -> list[tuple[str, int]]:
    """Return each file below the folder except the temporary ones, with the moment of its last change."""
    return sorted(
        (f"{at}/{name}", os.lstat(f"{at}/{name}").st_mtime_ns)
        for at, _, names in os.walk(top)
        for name in names
        if not at.startswith(f"{top}/tmp")
    )


class Installed(DemoCheck):
    """The demo as the package has it, for a user without root."""

    needs = (PROGRAM, "aiohttp", "prometheus_client", "reportlab", "qrcode")
    seconds = 30

    def setUp(self) -> None:
        self.top = Path(self.folder())
        self.top.chmod(0o755)
        share, programs = self.top / "usr/share/weighbridge-counter", self.top / "usr/bin"
        ignored = shutil.ignore_patterns("tests", "__pycache__")
        shutil.copytree(TOP / "counter", share, ignore=ignored)
        shutil.copy(TOP / "clients" / "refusals.txt", share)
        programs.mkdir()
        self.command = programs / "weighbridge-demo"
        self.command.symlink_to("../share/weighbridge-counter/weighbridge-demo")
        self.programs: list[str] = []
        for option, path in zip(PROGRAMS[::2], PROGRAMS[1::2]):
            copy = shutil.copy(path, programs)
            os.chmod(copy, 0o755)
            self.programs += [option, copy]

    def test_without_weighbridge(self) -> None:
        if os.path.exists("/usr/bin/weighbridge"):
            self.skipTest("the package weighbridge is installed")
        it = subprocess.run([self.command], capture_output=True, text=True, timeout=20)
        what = "without the package weighbridge: two lines and status 2"
        self.same(what, (2, "", 2), (it.returncode, it.stdout, len(it.stderr.splitlines())))

    def test_without_root(self) -> None:
        temporary = self.top / "tmp"
        temporary.mkdir()
        temporary.chmod(0o1777)
        before: list[str] = []
        if os.geteuid() == 0:
            user = pwd.getpwnam("nobody")
            before = ["setpriv", "--reuid", str(user.pw_uid), "--regid", str(user.pw_gid)]
            before += ["--clear-groups", "--no-new-privs", "--"]
        written = written_in(self.top)
        demo = self.started(
            "--quick",
            programs=self.programs,
            command=str(self.command),
            before=before,
            environment={"TMPDIR": str(temporary), "HOME": "/nonexistent"},
        ).wait_until_up()
        status = os.stat(f"/proc/{demo.process.pid}")
        self.holds("it runs without root", status.st_uid != 0, status)
        self.same("and a vehicle is weighed", 201, demo.next_weighing(0)[0])
        self.same("Ctrl-C ends it", 0, demo.ends()[0])
        self.leaves_nothing(demo)
        is_there = demo.folder.startswith(f"{temporary}/")
        self.holds("its folder is among the temporary files", is_there, demo.folder)
        mode = stat.S_IMODE(os.stat(demo.folder).st_mode)
        self.same("which nobody else can read", 0o700, mode)
        self.same("and nothing was written elsewhere", written, written_in(self.top))
