"""The faults in what the counter's `/health` and the office answer."""

import json
from typing import Any

from .asking import Answer
from .catalogue import words_of
from .faults import Fault, fault

MOST_NAMES = 40
# Without the counter nobody knows whether these are still wrong. The office knows the others.
OF_COUNTER = {
    "clock_jumped",
    "zero",
    "tare_left",
    "lists",
    "journal_changed",
    "papers",
    "files",
    "program_changed",
    "room",
    "full",
}
LINKS = {
    "down": "the service doesn't run",
    "waits": "another program holds the terminal",
    "held": "the service doesn't answer",
}


def health_in(answer: Answer) -> dict[str, Any] | None:
    """Return the counter's health. None if the answer is none of a counter."""
    if answer.status not in (200, 503) or not answer.is_whole:
        return None
    try:
        found = json.loads(answer.body)
    except (ValueError, RecursionError):
        return None
    if not isinstance(found, dict) or not isinstance(found.get("faults"), list):
        return None
    return found


def faults_of_health(answer: Answer) -> list[Fault]:
    """Return the faults that the counter names. An answer that isn't its health is a fault of the counter."""
    health = health_in(answer)
    if health is None:
        size = "" if answer.is_whole else " of more than 1 MB"
        return [fault("counter", "", f"its answer{size} with status {answer.status} is no health")]
    names = [it for it in health["faults"] if isinstance(it, str)]
    found = [one_of_health(it, health) for it in dict.fromkeys(names[:MOST_NAMES])]
    if health.get("can_weigh") is not True and not any(words_of(it.name).stops for it in found):
        found.append(fault("weighing"))
    return found


def one_of_health(name: str, health: dict[str, Any]) -> Fault:
    state = health.get("state")
    state = state if isinstance(state, dict) else {}
    if name == "office" and state.get("office") == "store":
        return fault("store")
    if name == "terminal":
        return fault(name, "", LINKS.get(str(state.get("link")), ""))
    files = health.get("files")
    if name == "files" and isinstance(files, dict):
        return fault(name, "", "; ".join(f"{path}: {why}" for path, why in [*files.items()][:3]))
    return fault(name, "" if words_of(name) is not words_of("") else name)


def faults_of_office(indication: Answer, ticket: Answer | None) -> list[Fault]:
    """Return the faults that the office's own answers show, under the counter's names. `ticket` answers a request that reads the journal."""
    if indication.status == 503 or (ticket is not None and ticket.status == 503):
        return [fault("store")]
    if indication.status != 200:
        return [fault("terminal", "", f"the office answers with status {indication.status}")]
    if indication.body.strip() == b"NO LOAD":
        return [fault("weight")]
    return []
