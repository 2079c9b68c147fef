"""Ends what a check has left running. Each process of a check inherits a mark in its environment, and keeps it if it leaves the check's group.

A check that another check runs adds its own mark to the other's, and ends only what has its own.
"""

import atexit
import contextlib
import os
import signal
import time
import uuid
from types import FrameType

MARKS = "CHECKS_MARKS"
# Servers and folders that the classes of a process share. They end with the process, even if a signal stops it.
until_the_end = contextlib.ExitStack()
atexit.register(until_the_end.close)


def new_mark() -> str:
    """Mark all processes that this one starts from now on, and return the mark."""
    mark = uuid.uuid4().hex
    os.environ[MARKS] = " ".join([*os.environ.get(MARKS, "").split(), mark])
    return mark


def has_mark(environment: bytes, mark: str) -> bool:
    named = MARKS.encode() + b"="
    return any(
        it.startswith(named) and mark.encode() in it.removeprefix(named).split()
        for it in environment.split(b"\0")
    )


def marked(mark: str) -> list[int]:
    """Return the numbers of the other processes with this mark."""
    found = []
    for name in os.listdir("/proc"):
        if name.isdigit() and int(name) != os.getpid():
            try:
                with open(f"/proc/{name}/environ", "rb") as file:
                    if has_mark(file.read(), mark):
                        found.append(int(name))
            except OSError:
                continue  # it has ended, or it is another user's
    return found


def end_marked(mark: str) -> int:
    """Kill each process with this mark until none is left, and return how many there were."""
    killed: set[int] = set()
    until = time.monotonic() + 10
    while (found := marked(mark)) and time.monotonic() < until:
        for it in found:
            try:
                os.kill(it, signal.SIGKILL)
            except ProcessLookupError:
                pass
        killed.update(found)
        time.sleep(0.01)
    return len(killed)


class Stopped(KeyboardInterrupt):
    """A signal ends this process. unittest passes it on, as it does with Ctrl-C, and each test cleans up."""

    def __init__(self, number: int) -> None:
        super().__init__(f"signal {number}")
        self.status = 128 + number


def stop_on_signals() -> None:
    """Raise Stopped in the main thread at SIGTERM, SIGHUP and SIGINT."""

    def stop(number: int, _: FrameType | None) -> None:
        raise Stopped(number)

    for it in (signal.SIGTERM, signal.SIGHUP, signal.SIGINT):
        signal.signal(it, stop)
