"""Whether this machine's clock was put since the service was started: the service answers no request at its office then.

The unit of the service writes the moment of its start by the clock. /proc has the same start by the machine's uptime, which no change of the clock
touches. The two differ by what the clock was put.
"""

from datetime import datetime, timezone
from pathlib import Path

from .service import PROC, Service

STARTED = Path("/run/weighbridge/started")
FORM = "%Y-%m-%dT%H:%M:%SZ"
MOST_SECONDS = 60.0


def jump_of(service: Service | None, started: Path = STARTED, proc: Path = PROC) -> float | None:
    """Return by how many seconds the clock was put since the service's start. Return None if nothing says so, for example if no unit started the service."""
    if service is None:
        return None
    try:
        if started.stat().st_uid != (proc / str(service.process)).stat().st_uid:
            return None
        text = started.read_text(encoding="ascii").strip()
        moment = datetime.strptime(text, FORM).replace(tzinfo=timezone.utc)
    except (OSError, ValueError):
        return None
    return service.started_at() - moment.timestamp()


def has_jumped(service: Service | None, started: Path = STARTED, proc: Path = PROC) -> bool:
    jump = jump_of(service, started, proc)
    return jump is not None and abs(jump) > MOST_SECONDS
