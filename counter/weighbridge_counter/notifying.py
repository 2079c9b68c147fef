"""Tells systemd that the counter serves, and then again and again that its event loop turns.

If systemd hears nothing for the unit's `WatchdogSec`, it ends the counter and starts it again. A counter that stands still answers nobody, and its process
would stay for good.
"""

import asyncio
import os
import socket
from collections.abc import Mapping

from .files import tell

STARTED, TURNS = b"READY=1\nWATCHDOG=1", b"WATCHDOG=1"
TRY_EVERY = 1.0  # seconds, if systemd waits for no turns
MICROSECONDS = 1_000_000


def pause_of(environment: Mapping[str, str]) -> float | None:
    """Return the seconds between two turns, a third of what systemd waits for. Return None if it waits for none of this process."""
    said = environment.get("WATCHDOG_USEC", "")
    if not said.isascii() or not said.isdigit() or int(said) == 0:
        return None
    if environment.get("WATCHDOG_PID", str(os.getpid())) != str(os.getpid()):
        return None
    return int(said) / MICROSECONDS / 3


def why_not_sent(address: str, word: bytes) -> str | None:
    """Send a word to systemd's socket without waiting. Return why it wasn't sent, or None."""
    try:
        with socket.socket(socket.AF_UNIX, socket.SOCK_DGRAM) as it:
            it.setblocking(False)
            it.connect("\0" + address[1:] if address.startswith("@") else address)
            it.send(word)
    except OSError as fault:  # such as no descriptor that is left
        return fault.strerror or str(fault)
    return None


async def notify(environment: Mapping[str, str] = os.environ) -> None:
    """Tell systemd of the start, and of turns for as long as this runs. Return at once if systemd waits for nothing."""
    address, pause = environment.get("NOTIFY_SOCKET", ""), pause_of(environment)
    word, is_told = STARTED, False
    while address and (word == STARTED or pause is not None):
        why = why_not_sent(address, word)
        if why is None:
            word = TURNS
        elif not is_told:
            is_told = True
            tell(f"systemd takes no word of the counter: {address}: {why}; the counter tries again")
        if word == STARTED or pause is not None:
            await asyncio.sleep(TRY_EVERY if pause is None else pause)
