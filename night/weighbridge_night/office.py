"""Asks the service's office for an indication and for a purge."""

import http.client
import re
from typing import Protocol

from .files import Fault, LeftOut

INDICATED = re.compile(r"STABLE G +(-?\d+) kg N +-?\d+ kg")
PURGED = re.compile(r"PURGED (\d+)")
LOOKING, PURGING = 20.0, 300.0  # seconds
# In intervals; below it the bridge counts as cleared.
MIN = 20


class Office(Protocol):
    """The office of a service."""

    def ask(self, method: str, target: str, seconds: float) -> str:
        """Return the first line of its answer."""


class RealOffice:
    """The office at an address of this machine."""

    def __init__(self, address: str) -> None:
        self.address = address

    def ask(self, method: str, target: str, seconds: float) -> str:
        connection = http.client.HTTPConnection(self.address, timeout=seconds)
        try:
            connection.request(method, target, body=b"" if method == "POST" else None)
            found = connection.getresponse().read(4096).decode("utf-8", "replace").splitlines()
        except (OSError, http.client.HTTPException) as error:
            raise Fault(
                f"office {self.address}: {method} {target}: {error or type(error).__name__}; see whether"
                " the service runs, and whether weighbridge-night is in WEIGHBRIDGE_CLERKS"
            ) from None
        finally:
            connection.close()
        return found[0] if found else ""


def is_empty(indication: str, interval: int) -> bool:
    """Return True if the load is stable, and below Min on either side of zero."""
    found = INDICATED.fullmatch(indication.strip())
    return found is not None and abs(int(found[1])) < MIN * interval


def purge(office: Office, interval: int) -> str:
    """Ask for a purge if the bridge is empty. Return what was done, in words.

    Raises LeftOut if the bridge isn't empty.
    """
    shown = office.ask("GET", "/indication", LOOKING)
    if not is_empty(shown, interval):
        raise LeftOut(
            f"not asked for, because the bridge isn't empty ({shown.strip() or 'no answer'})"
        )
    answer = office.ask("POST", "/purge", PURGING)
    if (found := PURGED.fullmatch(answer.strip())) is None:
        raise Fault(
            f"the office refused the purge: {answer.strip() or 'no answer'}; see operating.md, Purge old entries"
        )
    return f"{found[1]} entries were purged"
