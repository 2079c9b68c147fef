"""Reads this machine for a look. Every read has a bound, takes no lock, and writes nothing."""

import contextlib
import glob
import hashlib
import json
import os
import select
import signal
import stat
import subprocess
import time
from collections.abc import Iterator
from typing import IO, Any, Protocol

from weighbridge_night.files import CHUNK, Fault
from weighbridge_night.programs import RealPrograms

from . import reading
from .deciding import JOURNAL, ZERO, Clock, Log, Thing
from .saying import UNITS, Message

MOST_OF_A_FILE = 1 << 20  # bytes of a setup or of the calibration file
MOST_OF_A_PROGRAM = 256 << 20
MOST_PROGRAMS, MOST_SETUPS = 500, 40
# A look has room for all of them in the memory of its unit. No form of a line is longer than a text.
MOST_MESSAGES, MOST_OF_A_MESSAGE, MOST_OF_A_TEXT = 100_000, 65_536, 2_000
SECONDS, SECONDS_OF_A_LOG, AFTER_A_LOG = 20.0, 60.0, 2.0
FIELDS = ("EXIT_CODE", "EXIT_STATUS", "UNIT_RESULT")
SETUPS = (
    "etc/weighbridge*.conf",
    "etc/weighbridge*.toml",
    "etc/systemd/system/weighbridge*.d/*.conf",
)
PROGRAMS = ("usr/bin/weighbridge*", "usr/lib/weighbridge/**", "usr/share/weighbridge-counter/**")
LIST = "usr/lib/weighbridge/SHA256SUMS"
SERVED = "var/lib/weighbridge"
CALIBRATION = "var/lib/weighbridge-converter/calibration"
MOVE = "var/lib/weighbridge-move/state.json"


class Unseen(Exception):
    """Why something can't be seen."""


class World(Protocol):
    """The sources of a look."""

    def clock(self) -> Clock:
        """Return both clocks."""

    def log(self, cursor: str | None) -> Log | str:
        """Return what came in the system's journal after this place, or why it can't be read."""

    def things(self) -> dict[str, Thing]:
        """Return the other things."""


def opened(path: str, most: int) -> tuple[int, os.stat_result]:
    """Open a plain file with at most `most` bytes. No link is followed, and no FIFO is waited for. Raises Unseen."""
    handle = os.open(path, os.O_RDONLY | os.O_NONBLOCK | os.O_NOFOLLOW | os.O_CLOEXEC)
    about = os.fstat(handle)
    why = "it is no plain file" if not stat.S_ISREG(about.st_mode) else ""
    if about.st_size > most and not why:
        why = f"it has more than {most} bytes"
    if why:
        os.close(handle)
        raise Unseen(why)
    return handle, about


def read_file(path: str, most: int = MOST_OF_A_FILE) -> tuple[bytes, os.stat_result] | None:
    """Return what a file has. Return None if it isn't there. Raises Unseen."""
    try:
        handle, about = opened(path, most)
    except FileNotFoundError:
        return None
    except OSError as error:
        raise Unseen(error.strerror or "it can't be read") from None
    with open(handle, "rb") as file:
        return file.read(most), about


def digest_of_program(path: str) -> str | None:
    """Return the digest of a program file. Return None if it is none."""
    try:
        handle, _ = opened(path, MOST_OF_A_PROGRAM)
    except (OSError, Unseen):
        return None
    with open(handle, "rb") as file:
        it = hashlib.sha256()
        while chunk := file.read(CHUNK):
            it.update(chunk)
        return it.hexdigest()


def message_of(line: bytes) -> Message | None:
    """Return a line that journalctl printed as JSON. Return None if it has another form."""
    try:
        found = json.loads(line)
    except (ValueError, RecursionError):
        return None
    if not isinstance(found, dict):
        return None

    def text(name: str) -> str:
        it: Any = found.get(name)
        if isinstance(it, list) and all(isinstance(one, int) and 0 <= one < 256 for one in it):
            return bytes(it).decode(
                "utf-8", "replace"
            )  # as journalctl prints bytes that are no text
        return it if isinstance(it, str) else ""

    at, cursor = text("__REALTIME_TIMESTAMP"), text("__CURSOR")
    if not cursor or not at.isdigit():
        return None
    number = text("MESSAGE_ID")
    unit = text("UNIT") if number and text("UNIT") else text("_SYSTEMD_UNIT")
    fields = {name: text(name) for name in FIELDS if text(name)}
    return Message(
        text("MESSAGE")[:MOST_OF_A_TEXT], unit, int(at[:16]) // 1_000_000, cursor, number, fields
    )


def lines_of(source: IO[bytes], until: float) -> Iterator[bytes]:
    """Return the lines that a program prints until this moment. A line that is too long is cut, and the rest of it isn't read as a line."""
    rest, is_cut = b"", False
    while select.select([source], [], [], max(0.0, until - time.monotonic()))[0]:
        chunk = os.read(source.fileno(), CHUNK)
        if not chunk:
            return
        *whole, rest = (rest + chunk).split(b"\n")
        for it in whole:
            if not is_cut:
                yield it
            is_cut = False
        if len(rest) > MOST_OF_A_MESSAGE:
            rest, is_cut = b"", True


class RealWorld:
    """This machine, or the one whose files are below `top`."""

    def __init__(self, top: str = "/", scratch: str = "/tmp") -> None:
        self.top, self.programs = top, RealPrograms(scratch)

    def path(self, it: str) -> str:
        return os.path.join(self.top, it)

    def clock(self) -> Clock:
        with open("/proc/sys/kernel/random/boot_id", encoding="ascii") as file:
            boot = file.read().strip().replace("-", "")
        return Clock(int(time.time()), int(time.clock_gettime(time.CLOCK_BOOTTIME)), boot)

    def log(self, cursor: str | None) -> Log | str:
        words = ["journalctl", "--no-pager", "--quiet", "--output=json"]
        words.append(
            "--output-fields="
            + ",".join(("MESSAGE", "MESSAGE_ID", "_SYSTEMD_UNIT", "UNIT", *FIELDS))
        )
        words += [f"--unit={it}" for it in UNITS]
        if cursor is not None:
            words.append(
                f"--cursor={cursor}"
            )  # with the line itself, which shows whether it is still there
        try:
            it = subprocess.Popen(
                [*self.programs.before, *words],
                stdin=subprocess.DEVNULL,
                stdout=subprocess.PIPE,
                stderr=subprocess.PIPE,
                env={"PATH": "/usr/bin:/bin", "LC_ALL": "C.UTF-8"},
                start_new_session=True,
            )
        except OSError as error:
            return f"journalctl: {error.strerror}"
        assert it.stdout is not None and it.stderr is not None
        messages: list[Message] = []
        is_all = True
        for line in lines_of(it.stdout, time.monotonic() + SECONDS_OF_A_LOG):
            message = message_of(line)
            if message is not None:
                messages.append(message)
            if len(messages) >= MOST_MESSAGES:
                is_all = False  # the next look reads the rest
                break
        if is_all:
            try:
                it.wait(timeout=AFTER_A_LOG)
            except subprocess.TimeoutExpired:
                is_all = False
        if not is_all:
            with contextlib.suppress(ProcessLookupError):
                os.killpg(it.pid, signal.SIGKILL)
            it.wait()
        said = it.stderr.read(2000).decode("utf-8", "replace").strip().splitlines()
        it.stdout.close()
        it.stderr.close()
        if not is_all and not messages:
            return f"journalctl said nothing within {SECONDS_OF_A_LOG:.0f} seconds"
        if is_all and it.returncode != 0:
            return f"journalctl ended with status {it.returncode}: {said[-1][:100] if said else 'no word'}"
        return joined(cursor, messages)

    def things(self) -> dict[str, Thing]:
        found: dict[str, Thing] = {
            "programs": self.seen(self.program_files),
            "packages": self.seen(self.packages),
        }
        for path in self.setups():
            found[f"setup /{os.path.relpath(path, self.top)}"] = self.seen(
                lambda path=path: self.setup(path)
            )
        found["calibration"] = self.seen(self.calibration)
        found[ZERO] = self.seen(self.zero)
        found[JOURNAL] = self.seen(self.journal)
        found["move"] = self.seen(self.move)
        return found

    def seen(self, look: Any) -> Thing:
        try:
            it: Thing = look()
        except Unseen as why:
            return str(why)
        except OSError as error:
            return error.strerror or "it can't be read"
        return it

    def setups(self) -> list[str]:
        found = sorted(path for it in SETUPS for path in glob.glob(self.path(it)))
        return found[:MOST_SETUPS]

    def setup(self, path: str) -> Thing:
        it = read_file(path)
        return None if it is None else reading.setup_of(path, it[0], int(it[1].st_mtime))

    def program_files(self) -> Thing:
        paths = sorted({one for it in PROGRAMS for one in glob.glob(self.path(it), recursive=True)})
        paths = [it for it in paths if "__pycache__" not in it and it != self.path(LIST)]
        if len(paths) > MOST_PROGRAMS:
            raise Unseen(f"there are more than {MOST_PROGRAMS} files")
        digests = {f"/{os.path.relpath(it, self.top)}": digest_of_program(it) for it in paths}
        listed = read_file(self.path(LIST))
        text = None if listed is None else listed[0].decode("utf-8", "replace")
        return reading.programs_of(
            {path: it for path, it in digests.items() if it is not None}, text
        )

    def packages(self) -> Thing:
        words = ["dpkg-query", "-W", "-f", "${Package}\\t${Version}\\n", "weighbridge*"]
        try:
            it = self.programs.run(words, SECONDS)
        except Fault as fault:
            raise Unseen(str(fault)) from None
        return reading.packages_of(it.out)

    def calibration(self) -> Thing:
        it = read_file(self.path(CALIBRATION))
        return None if it is None else reading.calibration_of(it[0])

    def zero(self) -> Thing:
        it = read_file(self.path(f"{SERVED}/journal.db-zero"))
        return None if it is None else reading.zero_of(it[0], int(it[1].st_mtime))

    def journal(self) -> Thing:
        """Return which file the journal is, and its newest entry, without a look into it. The list of its folder has the number of the file."""
        try:
            with os.scandir(self.path(SERVED)) as files:
                number = next((it.inode() for it in files if it.name == "journal.db"), None)
        except FileNotFoundError:
            return None
        if number is None:
            return None
        witness = read_file(self.path(f"{SERVED}/journal.db-newest"))
        newest = (
            reading.newest_of(witness[0]) if witness is not None else {"newest": 0, "digest": ""}
        )
        return {"file": number, **newest}

    def move(self) -> Thing:
        it = read_file(self.path(MOVE))
        return None if it is None else reading.move_of(it[0])


def joined(cursor: str | None, messages: list[Message]) -> Log:
    """Return what came after the cursor. The first line is that of the cursor itself, if the system's journal still has it."""
    last = messages[-1].cursor if messages else None
    if cursor is None:
        return Log(messages, last)
    if messages and messages[0].cursor == cursor:
        return Log(messages[1:], last)
    return Log(messages, last, is_joined=False)
