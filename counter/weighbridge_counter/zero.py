"""Whether the zero of the scale was set since the service was started: a start forgets it."""

from collections.abc import Callable
from datetime import datetime

from .files import Files
from .service import Service

FILE = "zero.json"


class Zero:
    def __init__(self, files: Files, now: Callable[[], datetime]) -> None:
        self.files, self.now = files, now
        kept = files.read(FILE)
        kept = kept if isinstance(kept, dict) else {}
        self.service: str | None = kept.get("service")
        self.is_set: bool = kept.get("is_set") is True
        self.at: str | None = kept.get("at")
        self.by: str = str(kept.get("by", ""))
        self.reason = "set" if self.is_set else "counter"

    def connected(self, service: Service | None, was_refused: bool) -> bool:
        """Note that the terminal answers again, and whether the service was started meanwhile. If its process can't be seen, it was if nobody had listened."""
        if service is not None and service.identity == self.service:
            return False
        if service is None and not was_refused:
            return False
        self.service, self.is_set, self.by = service.identity if service else None, False, ""
        self.at, self.reason = self.started(service), "started"
        self._keep()
        return True

    def started(self, service: Service | None) -> str:
        """Return when the service was started, or when that was noticed."""
        if service is None:
            return self._moment()
        return datetime.fromtimestamp(service.started_at(), self.now().tzinfo).isoformat(
            timespec="seconds"
        )

    def was_set(self, by: str) -> None:
        self.is_set, self.at, self.by, self.reason = True, self._moment(), by, "set"
        self._keep()

    def shown(self) -> dict[str, object]:
        return {"known": self.is_set, "at": self.at, "by": self.by, "reason": self.reason}

    def _moment(self) -> str:
        return self.now().isoformat(timespec="seconds")

    def _keep(self) -> None:
        self.files.keep(
            FILE, {"service": self.service, "is_set": self.is_set, "at": self.at, "by": self.by}
        )
