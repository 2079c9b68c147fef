"""Assertions for functions outside a class. Each shows one thing by a line, or fails with both values."""

import os
import shutil
import sys
from collections.abc import Callable
from typing import NoReturn

from checks.lib.waiting import wait_until

NAME = os.path.basename(sys.argv[0])
# How many were shown in this process.
shown = 0


def skip(why: str) -> NoReturn:
    """End a check that is a program of its own, because this machine lacks something."""
    print(f"{NAME}: skipped, since {why}")
    raise SystemExit(0)


def skip_without(*tools: str) -> None:
    """End a check that is a program of its own where a tool is not installed."""
    for tool in tools:
        if shutil.which(tool) is None:
            skip(f"{tool} is not installed")


def fail(words: str) -> NoReturn:
    raise AssertionError(words)


def ok(what: str) -> None:
    """Print the line of a thing that was shown."""
    global shown
    shown += 1
    print(f"ok      {what}", flush=True)


def same(what: str, wanted: object, found: object) -> None:
    """Fail where the two differ."""
    if wanted != found:
        fail(f"{what}\nwanted: {wanted}\nfound:  {found}")
    ok(what)


def becomes(what: str, wanted: object, look: Callable[[], object], seconds: float = 20) -> None:
    """Look until the wanted value is found."""
    wait_until(what, look, lambda found: found == wanted, seconds, 0.05)
    ok(what)
