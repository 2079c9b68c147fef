"""Asks this machine: files, disks, units, the clock and certificates."""

import ctypes
import os
import ssl
import time
from datetime import datetime, timezone
from typing import Protocol

from weighbridge_night.files import Fault as NightFault
from weighbridge_night.programs import Programs

from .asking import Answer, ask, deadline
from .faults import plain
from .machine import UNITS, Space, is_read_only
from .watch import Tick

MOST_FILE = 1 << 20
SECONDS = 10.0
# A clock that was set by the network is off by less than this. The kernel adds half a second for each 1,000 s.
MOST_ERROR = 16_000_000  # microseconds


class World(Protocol):
    """A machine, as a look asks it."""

    def tick(self) -> Tick:
        """Return the time."""

    def ask(self, url: str, seconds: float) -> Answer:
        """Return the answer of a server of this machine, or raise NoAnswer."""

    def file(self, path: str) -> str | None:
        """Return what a file has. None without one."""

    def units(self) -> str:
        """Return what systemd shows of the units. It is empty if it can't be asked."""

    def space(self, path: str) -> Space | str:
        """Return what is free on the disk of a folder, or why that isn't known."""

    def certificate_end(self, where: str) -> datetime | str:
        """Return the end of a certificate in a file or at a host, or why that isn't known."""

    def made(self) -> datetime:
        """Return when this program's files were made."""

    def is_synchronized(self) -> bool | None:
        """Return True if the network sets the clock. None if the kernel doesn't say."""


class Timex(ctypes.Structure):
    """The first fields of the kernel's `struct timex`, with space for the others."""

    _fields_ = [
        ("modes", ctypes.c_uint),
        ("offset", ctypes.c_long),
        ("freq", ctypes.c_long),
        ("maxerror", ctypes.c_long),
        ("rest", ctypes.c_byte * 256),
    ]


class RealWorld:
    """This machine."""

    def __init__(self, programs: Programs) -> None:
        self.programs = programs

    def tick(self) -> Tick:
        try:
            with open("/proc/sys/kernel/random/boot_id", encoding="ascii") as file:
                boot = file.read(100).strip()
        except OSError:
            boot = ""
        return Tick(datetime.now(timezone.utc), time.clock_gettime(time.CLOCK_BOOTTIME), boot)

    def ask(self, url: str, seconds: float) -> Answer:
        return ask(url, seconds)

    def file(self, path: str) -> str | None:
        try:
            with open(path, encoding="utf-8", errors="replace") as file:
                return file.read(MOST_FILE)
        except OSError:
            return None

    def units(self) -> str:
        names = [f"{it}.service" for it in UNITS]
        words = ["/usr/bin/systemctl", "show", "--property=Id,ActiveState", "--", *names]
        try:
            ran = self.programs.run(words, SECONDS)
        except (NightFault, OSError):
            return ""
        return ran.out if ran.status == 0 else ""

    def space(self, path: str) -> Space | str:
        try:
            found, about = os.statvfs(path), os.stat(path)
            device = f"{os.major(about.st_dev)}:{os.minor(about.st_dev)}"
            with open("/proc/self/mountinfo", encoding="utf-8", errors="replace") as file:
                is_fixed = is_read_only(file.read(4 * MOST_FILE), device)
        except OSError as error:
            return error.strerror or "it can't be seen"
        return Space(found.f_bavail * found.f_frsize, found.f_favail, found.f_files, is_fixed)

    def certificate_end(self, where: str) -> datetime | str:
        words = ["/usr/bin/openssl", "x509", "-noout", "-enddate"]
        given = ""
        try:
            if where.startswith("/"):
                words += ["-in", where]
            else:
                host, _, port = where.rpartition(":")
                with deadline(SECONDS):
                    given = ssl.get_server_certificate((host, int(port)), timeout=SECONDS)
            ran = self.programs.run(words, SECONDS, given)
            if ran.status != 0:
                return plain(ran.said(), 160)
            seconds = ssl.cert_time_to_seconds(ran.out.strip().removeprefix("notAfter="))
            return datetime.fromtimestamp(seconds, timezone.utc)
        except NightFault as why:
            return plain(why, 160)
        except (OSError, ValueError, OverflowError) as error:
            strerror = error.strerror if isinstance(error, OSError) else None
            return plain(strerror or error or type(error).__name__, 160)

    def made(self) -> datetime:
        return datetime.fromtimestamp(os.stat(__file__).st_mtime, timezone.utc)

    def is_synchronized(self) -> bool | None:
        asked = Timex()
        try:
            found = ctypes.CDLL(None).adjtimex(ctypes.byref(asked))
        except (OSError, AttributeError):
            return None
        return None if found < 0 else asked.maxerror < MOST_ERROR
