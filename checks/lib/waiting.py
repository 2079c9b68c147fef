"""The one way in which checks wait: until a condition holds, for a bounded time, and with what was seen last."""

import time
from collections.abc import Callable
from typing import TypeVar

Found = TypeVar("Found")


def wait_until(
    what: str,
    look: Callable[[], Found],
    is_so: Callable[[Found], object] = bool,
    seconds: float = 20,
    pause: float = 0.02,
) -> Found:
    """Look until `is_so` holds for what was seen, and return that. Raise TimeoutError with what was seen last if it doesn't in time."""
    until = time.monotonic() + seconds
    while not is_so(found := look()):
        if time.monotonic() >= until:
            raise TimeoutError(f"{what}: not within {seconds} s; seen last: {found!r}")
        time.sleep(pause)
    return found
