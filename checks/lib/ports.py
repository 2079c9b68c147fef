"""Ports of this machine for the programs that a check starts.

A check chooses a port before its program listens there. In between, another check that runs at the same time could choose the same one. So each check
locks the ports that it chose, as bytes of one file, until its process ends.
"""

import fcntl
import os
import random
import socket

HOST = "127.0.0.1"
# Below the ports that Linux gives to a client, or to a listener that names none.
PORTS = range(20_000, 32_000)
LOCKS = f"/tmp/weighbridge-check-ports-{os.getuid()}"
chosen: set[int] = set()  # by this process, whose own locks never refuse it
locks: list[int] = []  # the file's handle, once it is open


def is_locked(port: int) -> bool:
    """Lock the port for this process. Return False if another check has it."""
    if not locks:
        locks.append(os.open(LOCKS, os.O_RDWR | os.O_CREAT | os.O_CLOEXEC, 0o600))
    try:
        fcntl.lockf(locks[0], fcntl.LOCK_EX | fcntl.LOCK_NB, 1, port)
    except OSError:
        return False
    return True


def is_free(port: int) -> bool:
    """Return True if no program listens at the port."""
    with socket.socket() as it:
        try:
            it.bind((HOST, port))
        except OSError:
            return False
    return True


def free_port() -> int:
    """Return a port at which nobody listens. No other check gets it while this process runs."""
    for port in random.sample(PORTS, len(PORTS)):
        if port not in chosen and is_locked(port):
            chosen.add(port)
            if is_free(port):
                return port
    raise RuntimeError(f"{LOCKS}: no port of {PORTS[0]} to {PORTS[-1]} is left; end other checks")
