"""Runs other programs. Each has its time, and no right that the night has."""

import contextlib
import os
import signal
import subprocess
from collections.abc import Sequence
from dataclasses import dataclass
from typing import Protocol

from .files import Fault

AFTER_A_KILL = 10.0  # seconds


@dataclass(frozen=True)
class Ran:
    """A program's status and output."""

    status: int
    out: str
    err: str

    def said(self) -> str:
        """Return the last line that it reported, or its status."""
        lines = [it.strip() for it in (self.err or self.out).splitlines() if it.strip()]
        # what a host says must not command a terminal
        return printable(lines[-1]) if lines else f"it ended with status {self.status}"


def printable(text: str) -> str:
    return "".join(it if it.isprintable() else "?" for it in text)


class Programs(Protocol):
    """Runs programs."""

    def run(
        self, words: Sequence[str], seconds: float, given: str = "", to: str | None = None
    ) -> Ran:
        """Run it with `given` as its input. If `to` names a file, its output goes there."""


def holds_rights() -> bool:
    """Return True if programs that this one starts would get its right to read every file."""
    try:
        with open("/proc/self/status", encoding="ascii") as lines:
            return any(it.startswith("CapAmb:") and int(it[7:], 16) for it in lines)
    except (OSError, ValueError):
        return True


class RealPrograms:
    """Runs programs of this machine."""

    def __init__(self, scratch: str) -> None:
        self.scratch = scratch
        self.before = ["/usr/bin/setpriv", "--ambient-caps=-all", "--"] if holds_rights() else []

    def run(
        self, words: Sequence[str], seconds: float, given: str = "", to: str | None = None
    ) -> Ran:
        target = open(to, "wb") if to is not None else None
        try:
            it = subprocess.Popen(
                [*self.before, *words],
                stdin=subprocess.PIPE,
                stdout=subprocess.PIPE if target is None else target,
                stderr=subprocess.PIPE,
                env={"PATH": "/usr/bin:/bin", "LC_ALL": "C.UTF-8", "TMPDIR": self.scratch},
                start_new_session=True,
            )
        except OSError as error:
            raise Fault(f"{words[0]}: {error.strerror}; install it, and see --check") from None
        finally:
            if target is not None:
                target.close()
        try:
            out, err = it.communicate(given.encode(), timeout=seconds)
        except subprocess.TimeoutExpired:
            os.killpg(it.pid, signal.SIGKILL)
            with contextlib.suppress(subprocess.TimeoutExpired):
                it.communicate(timeout=AFTER_A_KILL)  # a program of another session may hold them
            raise Fault(
                f"{words[0]}: it didn't end within {seconds:.0f} seconds and was killed; try it by hand"
            ) from None
        return Ran(
            it.returncode, (out or b"").decode("utf-8", "replace"), err.decode("utf-8", "replace")
        )
