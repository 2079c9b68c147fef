"""The answer to `/health`, for people and load balancers."""

from typing import Any

from .clock import has_jumped
from .counter import Counter


def service_of(counter: Counter) -> dict[str, Any] | None:
    """Return the program, the arguments and the start of the service. Return None if its process can't be seen."""
    service = counter.service
    if service is None:
        return None
    started = counter.zero.started(service)
    return {
        "process": service.process,
        "started": started,
        "words": list(service.words),
        "program": counter.program,
    }


def newest_of(counter: Counter) -> dict[str, Any] | None:
    """Return the number and the digest of the newest entry on the lists."""
    number = counter.books.lists.last
    digest = counter.books.lists.digest_of(number)
    return None if digest is None else {"number": number, "digest": digest}


def faults_of(counter: Counter) -> list[str]:
    state, fanout, room = counter.state(), counter.terminal.fanout, counter.room()
    has_weight = fanout.is_fresh() and fanout.value is not None and fanout.value.state != "I"
    found = {
        "terminal": state["link"] != "up",
        "weight": not has_weight,
        "office": state["office"] != "ok",
        "clock_jumped": has_jumped(counter.service),
        "zero": not state["zero"]["known"],
        "tare_left": state["tare_left"],
        "lists": not state["lists_whole"],
        "journal_changed": state["journal_changed"] is not None,
        "papers": counter.printing.faults(),
        "files": not state["files_written"],
        "program_changed": counter.program.get("changed_since") is True,
        "room": room is not None and room.is_low,
        "full": room is not None and room.is_full,
    }
    return [name for name, is_so in found.items() if is_so]


STOPS_WEIGHING = {"terminal", "weight", "office", "clock_jumped", "full"}


def health_of(counter: Counter) -> dict[str, Any]:
    faults, age = faults_of(counter), counter.terminal.fanout.age()
    return {
        "can_weigh": not STOPS_WEIGHING & set(faults),
        "faults": faults,
        "value_age_seconds": None if age is None else round(age, 3),
        "state": counter.state(),
        "service": service_of(counter),
        "newest": newest_of(counter),
        "files": {
            str(counter.files.path(name)): why for name, why in sorted(counter.files.faults.items())
        },
    }
