"""Reads this machine, as a part of the file needs it. Every read has a bound."""

import os
import stat
from collections.abc import Sequence
from datetime import datetime, timezone
from typing import Protocol

from weighbridge_alarm.asking import NoAnswer, ask
from weighbridge_night.files import Fault
from weighbridge_night.programs import Programs

MOST_OF_A_FILE = 200_000  # bytes
SECONDS = 20.0
# The check reads all entries.
SECONDS_OF_A_CHECK = 120.0


class Missing(Exception):
    """Why something can't be had."""


class World(Protocol):
    """The sources of the file."""

    def now(self) -> datetime:
        """Return the wall clock, in UTC."""

    def run(self, words: Sequence[str]) -> str:
        """Return what a program prints. Raises Missing."""

    def read(self, path: str) -> str:
        """Return a file's text, or its end if it is long. Raises Missing."""

    def get(self, url: str, seconds: float) -> str:
        """Return the status and the body of an answer. Raises Missing."""

    def sizes(self, folder: str) -> list[tuple[str, int, datetime]]:
        """Return name, size in bytes and time of the last change of each file in the folder. Raises Missing."""


class RealWorld:
    """This machine."""

    def __init__(self, programs: Programs) -> None:
        self.programs = programs

    def now(self) -> datetime:
        return datetime.now(timezone.utc)

    def run(self, words: Sequence[str]) -> str:
        try:
            it = self.programs.run(words, SECONDS)
        except Fault as fault:
            raise Missing(str(fault)) from None
        if it.status != 0 and not it.out:
            raise Missing(f"{words[0]}: {it.said()}")
        return it.out

    def read(self, path: str) -> str:
        try:
            # A FIFO without a writer would be waited for.
            with open(os.open(path, os.O_RDONLY | os.O_NONBLOCK | os.O_CLOEXEC), "rb") as file:
                found = os.fstat(file.fileno())
                if not stat.S_ISREG(found.st_mode):
                    raise Missing("it is no plain file")
                file.seek(max(0, found.st_size - MOST_OF_A_FILE))
                return file.read(MOST_OF_A_FILE).decode("utf-8", "replace")
        except OSError as error:
            raise Missing(error.strerror or "it can't be read") from None

    def get(self, url: str, seconds: float) -> str:
        try:
            it = ask(url, seconds)
        except NoAnswer as why:
            raise Missing(str(why)) from None
        return f"status {it.status}\n{it.body.decode('utf-8', 'replace')}"

    def sizes(self, folder: str) -> list[tuple[str, int, datetime]]:
        try:
            with os.scandir(folder) as files:
                found = [(it.name, it.stat(follow_symlinks=False)) for it in files]
        except OSError as error:
            raise Missing(error.strerror or "it can't be read") from None
        return sorted(
            (name, it.st_size, datetime.fromtimestamp(it.st_mtime, timezone.utc))
            for name, it in found
        )
