"""The ways to a printer: a line on which bytes go out and its status comes back, a queue of CUPS, and a folder."""

import contextlib
import errno
import fcntl
import os
import re
import select
import socket
import struct
import subprocess
import termios
import time
from collections.abc import Callable, Iterator
from pathlib import Path

from . import escpos
from .forms import FORMS
from .printers import Printer

TROUBLES = {
    "gone": "it can't be reached: look at its power, its cable and its address",
    "no_answer": "it doesn't answer: look whether it is on, and whether it reports its status at all",
    "paper_out": "there is no paper in it",
    "cover_open": "its cover is open",
    "offline": "it is offline",
    "knife": "its knife is stuck",
    "fault": "it has a fault: switch it off and on",
    "stuck": "it takes no more data",
    "cut": "the connection ended in the middle of the printing",
    "queue_stopped": "its queue at CUPS is stopped",
    "no_program": "there is no program lp: install cups-client",
    "no_module": "there is no python3-serial: install it",
    "file": "its folder can't be written",
    "crashed": "the program ended in the middle of the printing",
    "handed_over": "CUPS has it, and prints it when it can",
}
CONNECT_WITHIN = 3.0  # seconds
ANSWER_WITHIN = 2.0  # seconds for an answer to DLE EOT
STUCK_AFTER = 15.0  # seconds in which it takes nothing
BEHIND_EVERY = 3.0  # seconds between two looks at a printer that hasn't printed everything yet
UNKNOWN_AFTER = 3  # looks at a printer that is well and doesn't answer GS r: it doesn't know that
BEHIND_WITHIN = 120.0  # seconds without any answer
QUEUE_EVERY = 0.3
LP_WITHIN = 20.0

Tell = Callable[[str], None]  # a name of TROUBLES, or an empty one once it is over
GiveUp = Callable[[], bool]


class Trouble(Exception):
    """Why a paper isn't printed: a name of TROUBLES. `has_begun` is False if it is certain that nothing came out."""

    def __init__(self, name: str, has_begun: bool) -> None:
        super().__init__(name)
        self.name, self.has_begun = name, has_begun


class Wire:
    """A device or connection that accepts bytes, and reports its status if it has one."""

    def __init__(self, handle: int, has_status: bool) -> None:
        self.handle, self.has_status, self.has_begun = handle, has_status, False
        self.is_behind = (
            False  # whether GS r was answered, even while something else was waited for
        )
        os.set_blocking(handle, False)

    def trouble(self, name: str) -> Trouble:
        return Trouble(name, self.has_begun)

    def write(self, data: bytes) -> None:
        rest = memoryview(data)
        while rest:
            if not select.select([], [self.handle], [], STUCK_AFTER)[1]:
                raise self.trouble("stuck")
            try:
                rest = rest[os.write(self.handle, rest[:4096]) :]
            except BlockingIOError:
                continue
            except OSError:
                raise self.trouble("cut") from None

    def read(self, within: float, is_wanted: Callable[[int], bool]) -> int | None:
        """Return the next byte of a form. Return None if none comes in time."""
        until = time.monotonic() + within
        while (left := until - time.monotonic()) > 0:
            if not select.select([self.handle], [], [], left)[0]:
                break
            try:
                byte = os.read(self.handle, 1)
            except BlockingIOError:
                continue
            except OSError as fault:
                raise self.trouble(
                    "cut" if fault.errno != errno.EIO or self.has_begun else "gone"
                ) from None
            if not byte:
                raise self.trouble("cut" if self.has_begun else "gone")
            self.is_behind = self.is_behind or escpos.is_behind(byte[0])
            if is_wanted(byte[0]):
                return byte[0]
        return None

    def answers(self) -> dict[int, int] | None:
        """Return what it answers to each DLE EOT. Return None if it doesn't answer."""
        found: dict[int, int] = {}
        for number in (1, 2, 3, 4):
            self.write(escpos.ask(number))
            byte = self.read(ANSWER_WITHIN, escpos.is_status)
            if byte is None:
                return None
            found[number] = byte
        return found

    def look(self) -> None:
        """Raises Trouble if it can't print now."""
        if not self.has_status:
            return
        answers = self.answers()
        name = "no_answer" if answers is None else escpos.trouble_of(answers)
        if name is not None:
            raise self.trouble(name)

    def print(self, data: bytes, tell: Tell, give_up: GiveUp) -> None:
        """Sends a paper, and waits until it is printed as far as that can be known."""
        self.has_begun, self.is_behind = True, False
        self.write(data + (escpos.ASK_BEHIND if self.has_status else b""))
        if self.has_status:
            self._wait_until_behind(tell, give_up)
        else:
            self._wait_until_taken()

    def _wait_until_behind(self, tell: Tell, give_up: GiveUp) -> None:
        """Wait while the printer is without paper. It keeps what it got and continues once it has some, so nothing is sent again."""
        well, heard_at, name = 0, time.monotonic(), None
        while not self.is_behind and self.read(BEHIND_EVERY, escpos.is_behind) is None:
            answers = self.answers()
            if answers is not None:
                heard_at, name = time.monotonic(), escpos.trouble_of(answers)
                well = well + 1 if name is None else 0
                tell(name or "")
            if well >= UNKNOWN_AFTER:
                return
            if (name is not None and give_up()) or time.monotonic() - heard_at > BEHIND_WITHIN:
                raise self.trouble(name or "stuck")

    def _wait_until_taken(self) -> None:
        """Without a status: until the other side has all bytes, which says nothing of paper."""
        try:
            waiting = time.monotonic() + STUCK_AFTER
            while struct.unpack("i", fcntl.ioctl(self.handle, termios.TIOCOUTQ, b"\0\0\0\0"))[0]:
                if time.monotonic() > waiting:
                    raise self.trouble("stuck")
                time.sleep(0.02)
        except OSError:
            pass  # a device that has no queue


@contextlib.contextmanager
def wire_to(printer: Printer) -> Iterator[Wire]:
    """Opens the line to a printer. Raises Trouble."""
    if printer.way == "tcp":
        try:
            line = socket.create_connection((printer.place, int(printer.detail)), CONNECT_WITHIN)
        except OSError:
            raise Trouble("gone", False) from None
        with line:
            line.setsockopt(socket.IPPROTO_TCP, socket.TCP_NODELAY, 1)
            yield Wire(line.fileno(), printer.has_status)
    elif printer.way == "serial":
        try:
            import serial
        except ImportError:
            raise Trouble("no_module", False) from None
        try:
            with serial.Serial(
                printer.place, int(printer.detail), xonxoff=True, exclusive=True
            ) as port:
                yield Wire(port.fileno(), printer.has_status)
        except serial.SerialException:
            raise Trouble("gone", False) from None
    else:
        try:
            handle = os.open(
                printer.place,
                (os.O_RDWR if printer.has_status else os.O_WRONLY) | os.O_NOCTTY | os.O_NONBLOCK,
            )
        except OSError:
            raise Trouble("gone", False) from None
        try:
            yield Wire(handle, printer.has_status)
        finally:
            os.close(handle)


# ---- CUPS


class Queue:
    """A queue of CUPS, by the commands of cups-client."""

    def __init__(self, printer: Printer) -> None:
        self.name, self.form = printer.place, printer.form
        self.server = ["-h", printer.detail] if printer.detail else []

    def _run(self, program: str, *words: str, data: bytes = b"") -> str:
        try:
            it = subprocess.run(
                [program, *self.server, *words],
                input=data,
                capture_output=True,
                timeout=LP_WITHIN,
                env={**os.environ, "LC_ALL": "C"},
            )
        except FileNotFoundError:
            raise Trouble("no_program", False) from None
        except subprocess.TimeoutExpired:
            raise Trouble("no_answer", program == "lp") from None
        if it.returncode:
            raise Trouble("gone", program == "lp")  # lp may fail behind the last byte
        return it.stdout.decode("utf-8", "replace")

    def look(self) -> None:
        """Raises Trouble if the queue isn't there, is stopped or takes nothing."""
        if " disabled " in self._run("lpstat", "-p", self.name) or "not accepting" in self._run(
            "lpstat", "-a", self.name
        ):
            raise Trouble("queue_stopped", False)

    def print(self, data: bytes, title: str, tell: Tell, give_up: GiveUp) -> bool:
        """Hands a PDF over, and waits until it left the queue. False: CUPS has it still, and prints it when it can."""
        said = self._run(
            "lp",
            "-d",
            self.name,
            "-t",
            title,
            "-o",
            f"media={self.media(data)}",
            "-o",
            "print-scaling=none",
            data=data,
        )
        found = re.search(r"request id is (\S+)", said)
        if found is None:
            raise Trouble("gone", True)
        while self._has(found[1]):
            try:
                self.look()
                tell("")
            except Trouble as trouble:
                tell(trouble.name)
            if give_up():
                return False
            time.sleep(QUEUE_EVERY)
        return True

    def _has(self, request: str) -> bool:
        try:
            return any(
                line.split(" ")[0] == request
                for line in self._run("lpstat", "-o", self.name).split("\n")
            )
        except Trouble:
            return True

    def media(self, data: bytes) -> str:
        """Return the size as lp names it. A roll is as long as its text."""
        size = re.search(rb"/MediaBox \[ 0 0 ([\d.]+) ([\d.]+) \]", data)
        if size is None or FORMS[self.form].height is not None:
            return self.form.upper()
        return f"Custom.{float(size[1]):.0f}x{float(size[2]):.0f}"


# ---- a folder


def sync_folder(folder: Path) -> None:
    """Sync a folder to the disk. Only then is a rename or removal in it safe from a power cut."""
    it = os.open(folder, os.O_RDONLY | os.O_DIRECTORY)
    try:
        os.fsync(it)
    finally:
        os.close(it)


def put_in_folder(folder: Path, name: str, data: bytes) -> None:
    """Write a file that is whole or isn't there. It follows no link of other users in its folder."""
    new = folder / f".{name}.new"
    try:
        new.unlink(missing_ok=True)
        with open(new, "xb") as file:
            file.write(data)
            file.flush()
            os.fsync(file.fileno())
        os.replace(new, folder / name)
        sync_folder(folder)
    except OSError:
        with contextlib.suppress(OSError):
            new.unlink()
        raise Trouble("file", False) from None
