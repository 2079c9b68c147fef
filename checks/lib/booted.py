"""A machine with a systemd of its own, in namespaces of this one, so that units run there as they are shipped.

Its folder is a clean root of Debian, to which a check adds packages. A control group limits the memory of each unit, as on a machine of its own. It needs root, mmdebstrap, unshare and nsenter.
"""

import contextlib
import os
import re
import shutil
import signal
import subprocess
import time
from collections.abc import Iterator
from pathlib import Path
from typing import Self

from checks.lib.bridge import Closing
from checks.lib.showing import fail

GROUPS = Path("/sys/fs/cgroup")
PATH = "/usr/sbin:/usr/bin:/sbin:/bin"
BOOT = Path(__file__).resolve().parent / "boot.sh"


def groups_of_this_machine() -> tuple[str, list[Path]] | None:
    """Return the kind of its control groups and the folder of each that a machine here needs. Return None if none limits memory."""
    if (GROUPS / "cgroup.controllers").exists():
        with_memory = "memory" in (GROUPS / "cgroup.controllers").read_text().split()
        return ("unified", [GROUPS]) if with_memory else None
    folders = [GROUPS / name for name in ("memory", "systemd", "unified")]
    return ("separate", folders) if all(map(os.path.isdir, folders)) else None


class Machine(Closing):
    """A machine that can be started, cut off and started again. It keeps its files."""

    def __init__(self, root: Path, mounts: dict[str, str]) -> None:
        """Keep its root, and what is mounted there at each start: a device for each folder."""
        kind = groups_of_this_machine()
        if kind is None:
            raise SystemExit("no control group of this machine limits memory")
        self.root, self.mounts = root, mounts
        self.kind, self.folders = kind[0], [it / f"weighbridge-{os.getpid()}" for it in kind[1]]
        self.parent: subprocess.Popen[bytes] | None = None
        self.first = 0  # its first process, as this machine numbers it

    def __enter__(self) -> Self:
        self.start()
        return self

    def close(self) -> None:
        self.cut_off()
        for folder in self.folders:
            for below in sorted(folder.rglob("*/"), reverse=True):
                with contextlib.suppress(OSError):
                    below.rmdir()
            with contextlib.suppress(OSError):
                folder.rmdir()

    def start(self, seconds: float = 60) -> None:
        """Start systemd, and wait until it has started what is enabled."""
        for folder in self.folders:
            folder.mkdir(exist_ok=True)

        def enter_groups() -> None:
            for folder in self.folders:
                (folder / "cgroup.procs").write_text(str(os.getpid()))

        spaces = "--mount --pid --net --uts --ipc --cgroup --fork --kill-child".split()
        mounts = [word for folder, device in self.mounts.items() for word in (device, folder)]
        self.parent = subprocess.Popen(
            ["unshare", *spaces, BOOT, self.root, self.kind, *mounts],
            stdin=subprocess.DEVNULL,
            preexec_fn=enter_groups,
        )
        until, state = time.monotonic() + seconds, ""
        while state not in ("running", "degraded"):
            if time.monotonic() > until or self.parent.poll() is not None:
                fail(f"systemd doesn't run: {state or 'it says nothing'}")
            time.sleep(0.1)
            if not self.first:
                words = ["pgrep", "--parent", str(self.parent.pid)]
                found = subprocess.run(words, capture_output=True, text=True).stdout.split()
                self.first = int(found[0]) if found else 0
            if self.first:
                state = self.said("systemctl", "is-system-running")

    def cut_off(self) -> None:
        """Kill each of its processes at once, as if its power were cut. Nothing is lost that this machine's kernel has."""
        if self.parent is not None:
            if self.first:
                with contextlib.suppress(ProcessLookupError):
                    os.kill(self.first, signal.SIGKILL)
            self.parent.kill()
            self.parent.wait()
        self.parent, self.first = None, 0

    def run(self, *words: str, given: str | None = None) -> "subprocess.CompletedProcess[str]":
        """Run a command there as root."""
        spaces = "--mount --uts --ipc --net --pid --cgroup --root --wd".split()
        by = ["nsenter", "--target", str(self.first), *spaces, "env", "-i", f"PATH={PATH}"]
        return subprocess.run(
            [*by, *words], input=given, capture_output=True, text=True, timeout=600
        )

    def said(self, *words: str, given: str | None = None) -> str:
        """Return what a command prints there, without the last end of a line."""
        return self.run(*words, given=given).stdout.rstrip("\n")

    def does(self, *words: str, given: str | None = None) -> str:
        """Run a command there that must succeed. Return what it prints."""
        ran = self.run(*words, given=given)
        if ran.returncode:
            fail(f"{' '.join(words)}: status {ran.returncode}: {ran.stdout}{ran.stderr}")
        return ran.stdout.rstrip("\n")

    def shown(self, unit: str, *names: str) -> str:
        """Return properties of a unit, a blank between two."""
        asked = [word for name in names for word in ("--property", name)]
        found = self.said("systemctl", "show", *asked, unit).splitlines()
        values = dict(line.split("=", 1) for line in found)
        return " ".join(values.get(name, "") for name in names)

    def process_of(self, unit: str) -> int:
        """Return the number of a unit's main process there, or 0."""
        return int(self.shown(unit, "MainPID") or 0)

    def tries_of(self, unit: str) -> int:
        """Return how often a unit was started again automatically."""
        return int(self.shown(unit, "NRestarts") or 0)

    def seen_from_here(self, process: int) -> int:
        """Return the number that this machine gives to a process there."""
        space = os.readlink(f"/proc/{self.first}/ns/pid")
        for status in Path("/proc").glob("[0-9]*/status"):
            with contextlib.suppress(OSError):
                numbers = re.search(r"^NSpid:(.*)$", status.read_text(), re.MULTILINE)
                is_there = os.readlink(status.parent / "ns/pid") == space
                if numbers and is_there and int(numbers[1].split()[-1]) == process:
                    return int(status.parent.name)
        fail(f"there is no process {process}")

    def log_of(self, unit: str) -> str:
        """Return what the system journal keeps of a unit, without times."""
        return self.said("journalctl", "--no-pager", "--output", "cat", "--unit", unit)

    def signal(self, process: int, name: str) -> None:
        """Send a signal to a process there."""
        self.does("kill", "-s", name, str(process))

    def most_memory_of(self, unit: str) -> int:
        """Return the most bytes of memory that a unit had since it was started."""
        name = "memory.peak" if self.kind == "unified" else "memory.max_usage_in_bytes"
        return int((self.folders[0] / "system.slice" / unit / name).read_text())


def root_of(tar: Path | None, to: Path, packages: list[str], debs: list[Path]) -> None:
    """Unpack a root of Debian 12 with these packages of Debian, made if there is no tar file of it, and copy the files to be installed."""
    work = to.with_suffix(".tar") if tar is None else tar
    if not work.exists():
        include = f"--include={','.join(packages)}"
        words = ["mmdebstrap", "--quiet", "--variant=minbase", include, "bookworm", str(work)]
        made = subprocess.run(words, capture_output=True, text=True)
        if made.returncode:
            fail(f"no root: {made.stderr[-500:]}")
    to.mkdir()
    subprocess.run(["tar", "-C", to, "-xf", work], check=True)
    for deb in debs:
        shutil.copy(deb, to / deb.name)


@contextlib.contextmanager
def disk(file: Path, megabytes: int) -> Iterator[str]:
    """Make a disk of this size in a file. Its device can be mounted."""
    with open(file, "wb") as it:
        it.truncate(megabytes << 20)
    subprocess.run(["mkfs.ext4", "-q", "-F", file], check=True)
    device = subprocess.check_output(["losetup", "--find", "--show", file], text=True).strip()
    try:
        yield device
    finally:
        subprocess.run(["losetup", "--detach", device], check=False)
